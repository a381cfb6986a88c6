# Part of the commands that start rddr: `serve WORDS` runs $program with WORDS, which begin with `run`, and ends with
# its status. The program takes no signals; it reads lines of its input. So the first TERM, INT or HUP becomes the line
# `stop`, a second one ends the program at once, USR1 becomes the line `drain`, and the whole lines that come on this
# command's own input are passed on.

serve() {
    lines=$(mktemp -d) || exit 70
    mkfifo -m 600 "$lines/lines" || exit 70
    # Both ends are open here, so that the program never sees an end of its input.
    exec 3<>"$lines/lines"
    rm -rf "$lines"
    { command exec 4<&0; } 2>/dev/null || exec 4</dev/null
    stops=0
    served=
    trap stop HUP INT TERM
    trap 'say_line drain' USR1
    # A background job that reads a terminal gets TTIN, which would stop all of them.
    trap '' TTIN
    (
        trap '' HUP INT TERM USR1
        exec "$program" "$@" <&3 3<&- 4<&-
    ) &
    served=$!
    while IFS= read -r line; do printf '%s\n' "$line"; done <&4 >&3 2>/dev/null 3<&- 4<&- &
    passing=$!
    exec 4<&-
    # A signal ends a `wait` before the program has ended.
    status=70
    heard=yes
    while [ "$heard" ]; do
        heard=
        wait "$served"
        waited=$?
        [ "$waited" -eq 127 ] || status=$waited
    done
    # It may have ended long ago, and its number may be another's.
    if grep -qs "^PPid:[[:blank:]]*$$\$" "/proc/$passing/status"; then kill -s KILL "$passing"; fi
    explain "$status"
    exit "$status"
}

say_line() {
    heard=yes
    printf '%s\n' "$1" >&3
}

stop() {
    stops=$((stops + 1))
    say_line stop
    if [ "$stops" -gt 1 ] && [ "$served" ]; then kill -s KILL "$served" 2>/dev/null; fi
}

explain() {
    case $1 in
        4)
            echo "rddr: status 4: the settings couldn't be read, or the file of notes (ports.records) couldn't be opened" \
                "or written: see that both may be" >&2
            ;;
        5) echo "rddr: status 5: standard output couldn't be written: see where it goes, and whether that is full" >&2 ;;
        6) echo "rddr: status 6: memory ran out: give it more, or lower unit_max" >&2 ;;
        7)
            echo "rddr: status 7: a port of the settings couldn't be listened at, or a name not be resolved: see" \
                "'ss -ltnp', and ports.listen, ports.instances, ports.callers, ports.backend, ports.operator" >&2
            ;;
    esac
}
