#!/usr/bin/env python3
"""Measures what crates cost in the gate: processor minutes of the check, the tests and the edits, and the most memory.

Run it at the top of the repository: tools/measure_gate.py CRATE..
Each crate is proved from nothing in a copy, over what is built of the crates below it; what was proved of these before
is taken. It prints a row of the table of docs/GATE.md for each crate: processor time, so that other work on the machine
changes it little, and the most memory of a process.
"""
import os
import re
import shutil
import subprocess
import sys
import tempfile


def run(folder, *words):
    """Runs rt in a folder. Returns its processor minutes, and the most memory of a process of it in gigabytes."""
    with tempfile.TemporaryFile("w+", errors="replace") as said:
        started = subprocess.Popen(["rt", *words], cwd=folder, stdin=subprocess.DEVNULL, stdout=said, stderr=said)
        _, status, used = os.wait4(started.pid, 0)
        if status:
            said.seek(0)
            sys.stderr.write(said.read())
            sys.exit(f"rt {' '.join(words)} in {folder} failed")
    return (used.ru_utime + used.ru_stime) / 60, used.ru_maxrss / 1_000_000


def has_tests(folder):
    for at, _, names in os.walk(f"{folder}/src"):
        for name in names:
            with open(f"{at}/{name}", encoding="utf-8") as source:
                if "#[test]" in source.read():
                    return True
    return False


def lines_of(top):
    """What each crate of crates.txt stands on."""
    with open(f"{top}/crates.txt", encoding="utf-8") as file:
        return dict(re.match(r"(\w+)[^:]*:(.*)", it).groups() for it in file if ":" in it and not it.startswith("#"))


def renamed(crate, top):
    """Copies the repository's crates, and gives this one another name: rt finds what it kept by the name, here and in
    other checkouts, so nothing that was proved before is taken. Returns the new name."""
    name = f"anew_{crate}"
    for kept in ("crates.txt", "HANDLES"):
        if os.path.exists(kept):
            shutil.copy(kept, top)
    shutil.copytree("crates", f"{top}/crates", ignore=shutil.ignore_patterns("out"))
    os.rename(f"{top}/crates/{crate}", f"{top}/crates/{name}")
    word = re.compile(rf"\b{crate}\b")
    texts = [f"{at}/{it}" for at, _, names in os.walk(f"{top}/crates/{name}") for it in names if it.endswith((".rt", ".antt"))]
    for path in texts:
        with open(path, encoding="utf-8") as file:
            text = file.read()
        with open(path, "w", encoding="utf-8") as file:
            file.write(word.sub(name, text))
    lines = lines_of(top)
    below, more = set(), lines[crate].split()
    while more:
        at = more.pop()
        if at in lines and at not in below:
            below.add(at)
            more += lines[at].split()
    with open(f"{top}/crates.txt", "w", encoding="utf-8") as file:
        file.writelines(f"{it}:{lines[it]}\n" for it in sorted(below))
        file.write(f"{name}:{lines[crate]}\n")
    return name


def build_below(crate, top):
    """Proves and builds what a crate stands on, so that it isn't measured with it."""
    for name in lines_of(top)[crate].split():
        if os.path.isdir(f"{top}/crates/{name}"):
            run(f"{top}/crates/{name}", "lib")


def measure(crate):
    with tempfile.TemporaryDirectory(prefix="measure_gate.") as top:
        name = renamed(crate, top)
        folder = f"{top}/crates/{name}"
        build_below(name, top)
        parts = [run(folder, "check")]
        parts.append(run(folder, "test") if has_tests(folder) else (0, 0))
        parts.append(run(top, "must-fail", name) if os.path.isdir(f"{folder}/must-fail") else (0, 0))
    minutes = [it for it, _ in parts]
    cells = [f"{it:.1f}" for it in (*minutes, sum(minutes), max(it for _, it in parts))]
    print(f"| {crate} | {' | '.join(cells)} |", flush=True)


if len(sys.argv) == 1 or not os.path.isfile("crates.txt"):
    sys.exit(__doc__)
for name in sys.argv[1:]:
    measure(name)
