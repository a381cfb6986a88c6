#!/bin/sh
# A shop as three instances, one of which leaks on one page, and rddr before them: what a client sees of it. It uses
# ports of 127.0.0.1 that are free, and ends what it started.
set -u
here=$(cd -P -- "$(dirname -- "$0")" && pwd) || exit 70
clone=${here%/*}/rddr
rddr=$clone
[ -x "$rddr" ] || rddr=$(command -v rddr) || { echo "demo: there is no rddr here" >&2; exit 70; }
command -v python3 >/dev/null || { echo "demo: it needs python3" >&2; exit 70; }
work=$(mktemp -d) || exit 70
started=

end_all() {
    for id in $started; do kill -s TERM "$id" 2>/dev/null; done
    for id in $started; do wait "$id" 2>/dev/null; done
    rm -rf "$work"
}
trap end_all EXIT
trap 'exit 129' HUP
trap 'exit 130' INT
trap 'exit 143' TERM

answers() {
    python3 -c 'import socket, sys; socket.create_connection(("127.0.0.1", int(sys.argv[1])), 1)' "$1" 2>/dev/null
}

set -- $(python3 -c '
import socket
made = [socket.create_server(("127.0.0.1", 0)) for _ in range(4)]
print(*(one.getsockname()[1] for one in made))')
[ $# -eq 4 ] || { echo "demo: python3 gave no ports" >&2; exit 70; }

for number in 0 1 2; do
    eval "port=\$$((number + 1))"
    python3 "$here/demo/instance.py" "$port" "$number" </dev/null &
    started="$started $!"
done
cat >"$work/shop.toml" <<SETTINGS
version = 2
copies = 3
incoming = "http"

[ports]
listen = "127.0.0.1:$4"
instances = ["127.0.0.1:$1", "127.0.0.1:$2", "127.0.0.1:$3"]
SETTINGS

echo "Three instances of a shop listen at ports $1, $2 and $3 of 127.0.0.1, and rddr at $4, by these settings:"
echo
sed '/./s/^/    /' "$work/shop.toml"
if [ "$rddr" != "$clone" ] || "$rddr" --built; then
    "$rddr" run "$work/shop.toml" </dev/null &
else
    "$rddr" --unproved run "$work/shop.toml" </dev/null &
fi
proxy=$!
started="$proxy $started"
tries=0
until answers "$4"; do
    kill -s 0 "$proxy" 2>/dev/null || { echo "demo: rddr ended before it served" >&2; exit 70; }
    tries=$((tries + 1))
    [ "$tries" -lt 600 ] || { echo "demo: rddr didn't serve within ten minutes" >&2; exit 70; }
    sleep 1
done
echo
python3 "$here/demo/client.py" "$4" "$3"
