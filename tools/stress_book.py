#!/usr/bin/env python3
"""Lets 32 seats of a shared book learn and find at once, and checks what they found.

    tools/stress_book.py [SECONDS]    60 by default: learns and finds of 32 threads, and what the book then has left
    tools/stress_book.py measure      a learn and a find, alone and beside 31 others, what they wait for, and the memory of
                                      a full book

It runs the program of crates/rd_book_stress, which `rt run` proves and builds first. The first thing that isn't as it
should be ends the run with status 1.

Each seat learns rows that no other learns, and finds after each its last one, a word that no row shows, and a row of
another seat. What it finds has to be a row that was learnt, with its own text. Behind the end one seat heeds all others:
then the book has the last 4,096 rows, of each seat its last ones without a gap.

`measure` takes the time that went by, the time that the thread had a processor, which other work on the machine hardly
changes but which the system counts coarsely, and how often the thread gave its processor up to wait. The 31 others pause for 20 milliseconds behind each 64 finds. That
no find waits, beside whomever, is checked. A learn may wait for the lock of the writers, and for those that are in the midst
of a find as it publishes. Then one seat learns and 31 find without a pause for some seconds, and the system is asked of each
of their threads: that none of the 31 waits meanwhile is checked.
"""

import argparse
import collections
import os
import statistics
import subprocess
import sys
import time

ROOT = os.path.dirname(os.path.dirname(os.path.abspath(__file__)))
CRATE = os.path.join(ROOT, "crates", "rd_book_stress")
PROGRAM = os.path.join(CRATE, "out", "rd_book_stress")
SEATS = 32
ROWS = 4096
MEASURED = 4000
STAYED = 12
NAMES = {"alone": "alone", "finders": "beside 31 that find", "learners": "beside 31 that learn and find"}


def check(is_so, what):
    print(("ok: " if is_so else "NOT SO: ") + what, flush=True)
    if not is_so:
        sys.exit(1)


def run(*words):
    """What the program prints, as lists of words."""
    ran = subprocess.run([PROGRAM, *map(str, words)], capture_output=True, text=True)
    if ran.returncode != 0:
        sys.exit(f"{words}: status {ran.returncode}\n{ran.stdout}{ran.stderr}")
    return [line.split() for line in ran.stdout.splitlines()]


def stress(seconds):
    told = run("seconds", seconds)
    learns, finds = int(told[0][0]), int(told[0][3])
    check(learns > 0, f"{SEATS} seats made {learns:,} learns and {finds:,} finds in {seconds} s")
    check(told[1][0] == "0", "each row that was found was learnt, and is as it was learnt")
    left, before = int(told[2][0]), int(told[2][6])
    check(left == min(learns, ROWS) and before == 0, f"the last {left:,} rows are left, of each seat its last ones")
    print(f"{told[3][0]} finds gave a row of another seat; {told[4][0]} times the own last row was gone behind 4,096 others")


def measure():
    told = run("measure", MEASURED)
    made, full = int(told[0][1]), int(told[0][2])
    print(f"an empty book of {SEATS + 1} seats takes {made:,} KiB, a full one {full:,} KiB")
    costs, waits = collections.defaultdict(list), collections.Counter()
    for words in told[1:]:
        if words[0] != "beside":
            name, what, busy, gone_by, waited, _ = words
            costs[name, what].append((int(busy) / MEASURED / 1000, int(gone_by) / MEASURED / 1000))
            waits[name, what] += int(waited)
    for what, text in (("learn", "a learn"), ("row", "a find of a row"), ("none", "a find of no row")):
        for name, where in NAMES.items():
            busy = statistics.mean(it[0] for it in costs[name, what])
            gone_by = statistics.median(it[1] for it in costs[name, what])
            ratio = statistics.median(it[1] / one[1] for it, one in zip(costs[name, what], costs["alone", what]))
            print(f"{text} {where}: {gone_by:.2f} us, {ratio:.2f} times alone; {busy:.2f} us of a processor; "
                  f"{waits[name, what]} waits in {len(costs[name, what]) * MEASURED:,}")
    finds = sum(waits[name, what] for name in NAMES for what in ("row", "none"))
    check(finds == 0, f"the measured finds waited {finds} times, beside whomever")
    stay()


def switches(process):
    """How often each thread of a process gave its processor up since it waited, but the first: the main one."""
    told = {}
    for thread in os.listdir(f"/proc/{process}/task"):
        with open(f"/proc/{process}/task/{thread}/status", encoding="utf-8") as status:
            told[int(thread)] = next(int(line.split()[1]) for line in status if line.startswith("voluntary_ctxt_switches"))
    return [told[thread] for thread in sorted(told)[1:]]


def stay():
    started = subprocess.Popen([PROGRAM, "stay", str(STAYED)], stdout=subprocess.PIPE, text=True)
    time.sleep(2)
    first = switches(started.pid)
    time.sleep(STAYED - 4)
    last = switches(started.pid)
    said = started.stdout.read()
    check(started.wait() == 0 and len(first) == len(last) == SEATS, f"{SEATS} seats made {int(said.split()[2]):,} calls in {STAYED} s")
    waited = sum(last[1:]) - sum(first[1:])
    check(waited == 0, f"31 seats that find beside one that learns waited {waited} times")
    print(f"the one that learns waited {last[0] - first[0]} times")


def main():
    parser = argparse.ArgumentParser(description=__doc__, formatter_class=argparse.RawDescriptionHelpFormatter)
    parser.add_argument("what", nargs="?", default="60", help="the seconds of the stress, or 'measure'")
    given = parser.parse_args()
    built = subprocess.run(["rt", "run", "--", "rounds", "1"], cwd=CRATE, capture_output=True, text=True)
    if built.returncode != 0:
        sys.exit(built.stdout + built.stderr)
    if given.what == "measure":
        measure()
    else:
        stress(int(given.what))


if __name__ == "__main__":
    main()
