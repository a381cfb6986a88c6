#!/usr/bin/env python3
"""Runs 10,000 sessions over wires, with readers that are late by chance, and has the log of each replayed.

    tools/stress_sessions.py            all of it: half a minute on 4 processors, behind the build
    tools/stress_sessions.py sessions   10,000 sessions of 3 and 8 copies, of both sides, in which something goes wrong by chance
    tools/stress_sessions.py long       one session, whose client says a million pieces of a byte each
    tools/stress_sessions.py races      twenty sessions under `valgrind --tool=drd`, of either plan, and what it reports

It runs the program of crates/rd_stress, which `rt run` proves and builds first. The program replays each log by the call
that replays scripts, and compares the sends with what the sinks hold, and the ending. `--seed N` runs other sessions. The
first thing that isn't as it should be ends the run with status 1.

DRD knows no synchronization but that of the C library's threads, and these programs use atomics and futexes. So it reports
what one thread writes for another, and `races` prints by whom it is touched and whose memory it is. What was seen:

- `take`, `hear`, `drain`, `send` and `reader_loop` on memory of `make_ready`: the gate's cells, whose turn is an atomic.
- `reader_loop`, `tell` and `lock` on memory of `run_one`: a wire's lock, its two words and its condition.
- `memmove` on memory of `reader_loop`: the bytes of a piece, which came through such a cell.

A report of other functions or other memory is one to look into.
"""

import argparse
import collections
import os
import re
import shutil
import subprocess
import sys
import time

ROOT = os.path.dirname(os.path.dirname(os.path.abspath(__file__)))
CRATE = os.path.join(ROOT, "crates", "rd_stress")
PROGRAM = os.path.join(CRATE, "out", "rd_stress")
KINDS = [(side, copies) for side in ("incoming", "outgoing") for copies in (3, 8)]
WORKERS = 4
SESSIONS = 10_000
RACED = 20
QUIET = ["quiet", "incoming", "3", "1", "1", "1"]
# Endings that chance has to bring about among so many sessions of a side.
ENDINGS = {
    "incoming": ("Done", "Closed", "Disagree", "Unsolicited", "LinkFault", "Late", "Stopped"),
    "outgoing": ("Done", "Closed", "Unsolicited", "LinkFault", "Late", "Stopped"),
}
LINE = re.compile(r"(\d+) entries, (\d+) rows told, replayed: end (\w+)")


def check(is_so, what):
    print(("ok: " if is_so else "NOT SO: ") + what, flush=True)
    if not is_so:
        sys.exit(1)


def run(*words, before=()):
    """The sessions that the program tells of: their entries, their told rows, their endings. And what it said besides."""
    ran = subprocess.run([*before, PROGRAM, *map(str, words)], capture_output=True, text=True)
    told = [LINE.match(line) for line in ran.stdout.splitlines()]
    if ran.returncode != 0 or not all(told):
        sys.exit(f"{words}: status {ran.returncode}\n{ran.stdout[-20_000:]}{ran.stderr[-2_000:]}")
    return [(int(it[1]), int(it[2]), it[3]) for it in told], ran.stderr


def try_sessions(seed):
    for side, copies in KINDS:
        began = time.monotonic()
        count = SESSIONS // len(KINDS) // WORKERS
        told, _ = run("trouble", side, copies, WORKERS, count, seed)
        endings = collections.Counter(ending for _, _, ending in told)
        check(len(told) == count * WORKERS,
              f"{len(told)} sessions, {side}, {copies} copies, each replayed to the same sends and ending; "
              f"{sum(it[0] for it in told)} entries, {sum(it[1] for it in told)} rows told, {time.monotonic() - began:.0f} s")
        check(all(endings[it] for it in ENDINGS[side]), f"their endings: {dict(endings.most_common())}")


def try_long(seed):
    began = time.monotonic()
    told, _ = run("long", "incoming", 3, 1, 1, seed)
    check(told[0][0] >= 1_000_000 and told[0][2] == "Done",
          f"one session of {told[0][0]} entries, {time.monotonic() - began:.0f} s")


def reports(said):
    """DRD's reports, by the function that made the access and the one that the memory was taken in, with their numbers."""
    kinds = collections.Counter()
    for report in re.split(r"==\d+== \n", said):
        lines = [re.sub(r"^==\d+== +", "", line) for line in report.splitlines()]
        at = next((n for n, line in enumerate(lines) if line.startswith("Conflicting ")), None)
        if at is None:
            continue
        taken = next((n for n, line in enumerate(lines) if "Allocation context" in line), len(lines))
        places = [name(line) for line in lines[taken + 1:] if re.match(r"(at|by) 0x", line)]
        owner = next((it for it in places if it not in ("malloc", "realloc", "rattle_alloc", "rattle_realloc")), "no heap")
        kinds[f"{name(lines[at + 1])}, memory of {owner if taken < len(lines) else 'no heap'}"] += 1
    return kinds


def name(frame):
    """The function of a frame, without its type parameters."""
    return re.sub(r"::<.*", "", frame.split(": ", 1)[-1].split(" (")[0])


def try_races(seed):
    if not shutil.which("valgrind"):
        sys.exit("there is no valgrind")
    kinds = collections.Counter()
    for side, copies in KINDS:
        began = time.monotonic()
        told, said = run("trouble", side, copies, 1, RACED // len(KINDS), seed, before=("valgrind", "--tool=drd"))
        kinds += reports(said)
        print(f"{len(told)} sessions, {side}, {copies} copies, each replayed; {said.splitlines()[-1]}; "
              f"{time.monotonic() - began:.0f} s", flush=True)
    for kind, count in kinds.most_common():
        print(f"{count:6} {kind}")


def main():
    parser = argparse.ArgumentParser(description=__doc__, formatter_class=argparse.RawDescriptionHelpFormatter)
    parser.add_argument("parts", nargs="*", default=[], metavar="PART", help="of sessions, long, races")
    parser.add_argument("--seed", type=int, default=1)
    given = parser.parse_args()
    built = subprocess.run(["rt", "run", "--", *QUIET], cwd=CRATE, capture_output=True, text=True)
    if built.returncode != 0:
        sys.exit(built.stdout + built.stderr)
    parts = {"sessions": try_sessions, "long": try_long, "races": try_races}
    for part in given.parts or parts:
        parts[part](given.seed)


if __name__ == "__main__":
    main()
