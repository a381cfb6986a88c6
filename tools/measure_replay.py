#!/usr/bin/env python3
"""Measures the program on two long sessions: time and peak memory.

Runs the program as `./rddr` builds it: `gen` of 9,999 exchanges under the default settings, and the replay of a script
of 65,536 exchanges whose lines have four bytes each, under `exchanges_max = 65536`. It checks how each ends, and prints
for each the seconds of the run and the most memory that it held. Its files stand in a folder of their own, which is
removed at the end.
"""

import os
import shutil
import subprocess
import sys
import tempfile
import time

ROOT = os.path.dirname(os.path.dirname(os.path.abspath(__file__)))
EXCHANGES = 65_536


def write(path, text):
    with open(path, "w", encoding="ascii") as file:
        file.write(text)


def long_script():
    """The client asks `get`, and each of three instances says `yes`."""
    request = f"0 piece 3 {b'get'.hex()}0a\n"
    replies = "".join(f"0 piece {copy} {b'yes'.hex()}0a\n" for copy in range(3))
    return "side incoming\n" + (request + replies) * EXCHANGES


def run(name, program, words, last):
    start = time.monotonic()
    process = subprocess.Popen([program, *words], stdout=subprocess.PIPE, text=True)
    end = ""
    for line in process.stdout:
        end = line
    _, status, usage = os.wait4(process.pid, 0)
    seconds = time.monotonic() - start
    if status != 0 or end != last:
        sys.exit(f"{name}: status {status}, last line {end!r}")
    print(f"{name}: {seconds:.1f} s, of which {usage.ru_utime + usage.ru_stime:.1f} s of a processor; at most {usage.ru_maxrss / 1024:.0f} MiB")


def main():
    subprocess.run([os.path.join(ROOT, "rddr"), "replay", os.path.join(ROOT, "examples", "three-equal-replies.script")], check=True, stdout=subprocess.DEVNULL)
    program = os.path.join(ROOT, "crates", "rddr", "out", "rddr")
    folder = tempfile.mkdtemp(prefix="measure_replay.")
    try:
        defaults = os.path.join(folder, "defaults.toml")
        many = os.path.join(folder, "many.toml")
        script = os.path.join(folder, "long.script")
        write(defaults, "version = 1\n")
        write(many, f"version = 1\nexchanges_max = {EXCHANGES}\n")
        write(script, long_script())
        run("gen of 9,999 exchanges", program, ["gen", defaults, "9999"], "end Done\n")
        run("replay of 65,536 exchanges", program, ["replay", many, script], "end Retired\n")
    finally:
        shutil.rmtree(folder)


if __name__ == "__main__":
    main()
