#!/usr/bin/env python3
"""Measures what steps cost: looks at the clock, small exchanges, requests ahead of their replies, and long replies in pieces.

Runs the program as `./rddr` builds it, on replays of scripts that it writes into a folder of its own, which is removed
at the end. What a case costs is what its script costs less what the same script costs behind a `stop` line, so that
reading the script isn't counted; of some runs the least processor time is taken. Allocations, bytes allocated and bytes
moved (by memcpy and memmove) are those that valgrind's dhat counts, and instructions those that its callgrind counts;
without valgrind these are left out.

- idle: a look at the clock, with nothing open, for 3 and 8 copies. Wanted: less than 1,024 bytes moved a step.
- one by one and ahead: 40 exchanges before 8 copies whose replies have 64 masked words, new ones in each, once each
  request after the reply before and once all in one piece. Wanted: the second at most 1.5 times the first.
- plain: exchanges of 100 equal bytes, for 3 and 8 copies.
- long: exchanges whose replies are equal lines of text, for 3 and 8 copies: 10 KB, 1 MiB in pieces of 16,384 and of 1,024
  bytes, 1 KiB in pieces of one byte. Wanted: 1 MiB in 1,024 pieces at most twice that in 64. The same with a word that is
  masked, of its own in each copy, at byte 100 and in the middle (wanted: at most twice that without), and with a word
  that differs at the end, too long to be masked, which ends the session.
"""

import os
import re
import shutil
import subprocess
import tempfile

ROOT = os.path.dirname(os.path.dirname(os.path.abspath(__file__)))
ROUNDS = 5
WORDS = 64
AHEAD = 40


def replies(exchange, copies):
    """Each copy's reply: 64 words that differ from copy to copy and from exchange to exchange."""
    for copy in range(copies):
        words = (f"{exchange:05}-{word:03}-{copy:03}-abcd" for word in range(WORDS))
        yield f"0 piece {copy} {' '.join(words).encode().hex()}0a\n"


def request(number):
    return f"get {number}\n".encode().hex()


def one_by_one(exchanges, copies):
    for number in range(exchanges):
        yield f"0 piece {copies} {request(number)}\n"
        yield from replies(number, copies)


def ahead(exchanges, copies):
    for first in range(0, exchanges, AHEAD):
        numbers = range(first, min(first + AHEAD, exchanges))
        yield f"0 piece {copies} {''.join(map(request, numbers))}\n"
        for number in numbers:
            yield from replies(number, copies)


def idle(steps, copies):
    return ("0 timer\n" for _ in range(steps))


def plain(exchanges, copies):
    reply = (b"a reply of one hundred bytes " * 4)[:99].hex() + "0a"
    for number in range(exchanges):
        yield f"0 piece {copies} {request(number)}\n"
        for copy in range(copies):
            yield f"0 piece {copy} {reply}\n"


def text(size):
    words = ["verdict", "of", "several", "token", "lists", "the", "reply", "exchange", "a", "to"]
    line = " ".join(words[number * number % 7 + number % 4] for number in range(size // 4))
    return line[: size - 1].encode() + b"\n"


def long(size, piece, place=None, length=16):
    """Equal replies of this size in pieces; where a place is given, each copy has a word of its own there."""

    def of_copy(copy):
        reply = bytearray(text(size))
        if place is not None:
            word = b" " + f"{copy + 1:x}".encode() * length + b" "
            reply[place : place + len(word)] = word
        assert len(reply) == size
        return [reply[at : at + piece].hex() for at in range(0, size, piece)]

    def lines(exchanges, copies):
        pieces = [of_copy(copy) for copy in range(copies)]
        for number in range(exchanges):
            yield f"0 piece {copies} {request(number)}\n"
            for parts in zip(*pieces):
                for copy, part in enumerate(parts):
                    yield f"0 piece {copy} {part}\n"

    return lines


TEN, MIB = 10_240, 1 << 20


def long_cases():
    for copies in (3, 8):
        share = 3 / copies
        for name, lines, count in [
            ("10 KB", long(TEN, 16_384), 2_000),
            ("10 KB, a mask at byte 100", long(TEN, 16_384, 100), 500),
            ("10 KB, a mask in the middle", long(TEN, 16_384, TEN // 2), 500),
            ("1 MiB in 64 pieces", long(MIB, 16_384), 16),
            ("1 MiB in 1,024 pieces", long(MIB, 1_024), 8),
            ("1 MiB in 64 pieces, a mask at byte 100", long(MIB, 16_384, 100), 1),
            ("1 MiB in 64 pieces, a mask in the middle", long(MIB, 16_384, MIB // 2), 1),
            ("1 MiB in 64 pieces, a difference at the end", long(MIB, 16_384, MIB - 203, 200), 1),
            ("1 KiB in one-byte pieces", long(1_024, 1), 40),
        ]:
            yield f"{name}, {copies} copies", lines, copies, max(1, int(count * share)), 0


CASES = [
    # name, lines, copies, count for the time, count for valgrind
    ("idle, 3 copies", idle, 3, 200_000, 1_000),
    ("idle, 8 copies", idle, 8, 200_000, 1_000),
    ("plain, 3 copies", plain, 3, 20_000, 100),
    ("plain, 8 copies", plain, 8, 10_000, 100),
    ("one by one", one_by_one, 8, 10 * AHEAD, AHEAD),
    ("ahead", ahead, 8, 10 * AHEAD, AHEAD),
    *long_cases(),
]


class Bench:
    def __init__(self, program, folder):
        self.program = program
        self.folder = folder

    def words(self, lines, copies, count, stopped):
        settings = os.path.join(self.folder, f"{copies}.toml")
        script = os.path.join(self.folder, "case.script")
        with open(settings, "w", encoding="ascii") as file:
            file.write(f"version = 1\ncopies = {copies}\nexchanges_max = 65536\n")
        with open(script, "w", encoding="ascii") as file:
            file.write("side incoming\n")
            if stopped:
                file.write("0 stop\n")
            file.writelines(lines(count, copies))
        return [self.program, "replay", settings, script]

    def seconds(self, *case):
        words = self.words(*case)
        return min(processor_time(words) for _ in range(ROUNDS))

    def counts(self, *case):
        """Allocations, bytes allocated, bytes moved, instructions."""
        words = self.words(*case)
        blocks, allocated = dhat(words, "heap", self.folder)
        _, moved = dhat(words, "copy", self.folder)
        return [blocks, allocated, moved, instructions(words, self.folder)]


def processor_time(words):
    process = subprocess.Popen(words, stdout=subprocess.DEVNULL)
    _, status, usage = os.wait4(process.pid, 0)
    if os.waitstatus_to_exitcode(status) > 2:
        raise SystemExit(f"{words}: status {status}")
    return usage.ru_utime + usage.ru_stime


def valgrind(options, words, folder):
    out = os.path.join(folder, "valgrind.out")
    run = subprocess.run(["valgrind", *options(out), *words], stdout=subprocess.DEVNULL, stderr=subprocess.PIPE, text=True)
    return run.stderr


def dhat(words, mode, folder):
    said = valgrind(lambda out: ["--tool=dhat", f"--mode={mode}", f"--dhat-out-file={out}"], words, folder)
    total = re.search(r"Total:\s+([\d,]+) bytes in ([\d,]+) blocks", said)
    if total is None:
        raise SystemExit(said)
    size, blocks = (int(number.replace(",", "")) for number in total.groups())
    return blocks, size


def instructions(words, folder):
    said = valgrind(lambda out: ["--tool=callgrind", f"--callgrind-out-file={out}"], words, folder)
    return int(re.search(r"Collected\s*:\s*(\d+)", said).group(1))


def measure(bench):
    counted = shutil.which("valgrind") is not None
    micros = {}
    for name, lines, copies, count, few in CASES:
        spent = bench.seconds(lines, copies, count, False) - bench.seconds(lines, copies, count, True)
        micros[name] = spent * 1_000_000 / count
        text = f"{name}: {micros[name]:.2f} us"
        if counted and few:
            pairs = zip(bench.counts(lines, copies, few, False), bench.counts(lines, copies, few, True))
            blocks, allocated, moved, ran = ((full - stopped) / few for full, stopped in pairs)
            text += f"; {blocks:.1f} allocations of {allocated:.0f} bytes, {moved:.0f} bytes moved, {ran:.0f} instructions"
        print(text, flush=True)
    print(f"ahead to one by one: {micros['ahead'] / micros['one by one']:.2f} (wanted: at most 1.5)")
    for copies in (3, 8):
        plain_mib, in_many = micros[f"1 MiB in 64 pieces, {copies} copies"], micros[f"1 MiB in 1,024 pieces, {copies} copies"]
        print(f"1,024 pieces to 64, {copies} copies: {in_many / plain_mib:.2f} (wanted: at most 2)")
        for where in ("a mask at byte 100", "a mask in the middle"):
            masked = micros[f"1 MiB in 64 pieces, {where}, {copies} copies"]
            print(f"{where} to none, {copies} copies: {masked / plain_mib:.2f} (wanted: at most 2)")


def main():
    example = os.path.join(ROOT, "examples", "three-equal-replies.script")
    subprocess.run([os.path.join(ROOT, "rddr"), "replay", example], check=True, stdout=subprocess.DEVNULL)
    folder = tempfile.mkdtemp(prefix="measure_steps.")
    try:
        measure(Bench(os.path.join(ROOT, "crates", "rddr", "out", "rddr"), folder))
    finally:
        shutil.rmtree(folder)


if __name__ == "__main__":
    main()
