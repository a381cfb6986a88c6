#!/usr/bin/env python3
"""Measures what running sessions cost beside the work that they do.

    tools/measure_sessions.py hop [--beside PROGRAM]   what it costs to hand a piece on through the gate, from a reader's
                                                       thread to the owner's
    tools/measure_sessions.py idle                     processor and memory of 32 idle sessions of 3 and of 8 copies

PROGRAM is one of your own that prints lines 'queue N pushing .. CPU X us per item' for a bare queue of 64 pieces of 16,384
bytes between N threads and one; its cost is set beside the gate's, measured in turn in the same rounds. On a machine that
does other work compare the ratios, and not the times.

`hop` writes a small program over the gate beside copies of the crates that it needs, in a folder of its own that is removed
at the end, and `rt run` proves and builds it there. `idle` runs the program of crates/rd_stress, whose sessions have
sources and sinks in memory: what a served session's sockets take isn't in it.
"""

import argparse
import os
import re
import shutil
import statistics
import subprocess
import sys
import tempfile
import time

ROOT = os.path.dirname(os.path.dirname(os.path.abspath(__file__)))
CRATES = ["rd_base", "rd_gate", "rd_start"]
STRESS = os.path.join(ROOT, "crates", "rd_stress")
ROUNDS = 5
PIECES = 200_000
SESSIONS = 32

PROGRAM = r"""//! Readers hand pieces on through a gate, or a queue by itself does: how many came.
#![tactic(auto)]

ghost use Rattle.std.specs.Prelude.{None};

use rd_base::{Bytes, Give, NoMemory, Source};
use rd_gate::{Item, OwnerPass, make_gate};
use rd_start::{ThreadSpawner, start_with};
use std::alloc::{AllocError, Global};
use std::env;
use std::process::ExitCode;
use std::sync::Wait;
use std::thread::Threads;
use std::time::Duration;

/// Gives so many copies of one piece, each in room of its own.
#[derive(Drop)]
struct Copies {
    piece: Bytes,
    left: u32,
}

impl Source for Copies {
    ghost tells = { λ _. record { mark = record { first = 0; second = 0 }; faults = 0; given = None } };

    fn give(&mut self, alloc: Global, most: usize) -> Give {
        let piece = self.piece.as_slice();
        if self.left == 0 || piece.is_empty() || piece.len() > most {
            return Give::End;
        }
        self.left -= 1;
        match Bytes::from_slice(alloc, piece) {
            Ok(bytes) => Give::Piece(bytes),
            Err(NoMemory) => Give::NoMemory,
        }
    }
}

fn make_copies(alloc: Global, left: u32, bytes: u32) -> Result<Copies, NoMemory> {
    let mut piece = Bytes::new(alloc);
    for _ in 0..bytes {
        piece.push_slice(b"x")?;
    }
    Ok(Copies { piece, left })
}

/// So many readers, at most four, each hand on so many pieces of so many bytes.
fn push<R: Wait + Threads + Copy + Send + Sync + 'static>(rt: R, alloc: Global, readers: u32, pieces: u32, bytes: u32) -> Result<u64, NoMemory> {
    let (mut owner, mut passes) = make_gate(rt, alloc, 4)?;
    let mut readings = Vec::new(alloc);
    let mut spawner = ThreadSpawner::new();
    for _ in 0..readers.min(4) {
        let source = make_copies(alloc, pieces, bytes)?;
        let Some(pass) = passes.next() else {
            break;
        };
        if let Ok(reading) = start_with(&mut spawner, rt, alloc, source, pass) {
            readings.push(reading)?;
        }
    }
    let count = drain(rt, &mut owner, readings.len());
    for reading in readings {
        let _back = reading.join();
    }
    Ok(count)
}

/// How many pieces come until so many readers have ended.
fn drain<R: Wait + Copy>(rt: R, owner: &mut OwnerPass<R>, readers: usize) -> u64 {
    let mut count: u64 = 0;
    for _ in rt.forever() {
        match owner.take() {
            Some((_, Item::Piece(_))) => count = count.saturating_add(1),
            Some(_) => (),
            None => {
                if usize::from(owner.lasts()) >= readers {
                    return count;
                }
                owner.rest(Duration::from_millis(50));
            }
        }
    }
    unreachable!()
}

/// The same source on this thread alone: what a piece costs that nobody hands on.
fn give_alone(alloc: Global, pieces: u32, bytes: u32) -> Result<u64, NoMemory> {
    let mut source = make_copies(alloc, pieces, bytes)?;
    let mut count: u64 = 0;
    for _ in 0..pieces {
        match source.give(alloc, 16_384) {
            Give::Piece(_) => count = count.saturating_add(1),
            _ => (),
        }
    }
    Ok(count)
}

fn number(words: &[String], place: usize) -> u32 {
    match words.get(place) {
        Some(word) => word.as_str().parse().unwrap_or(0),
        None => 0,
    }
}

/// The number of readers, of pieces that each hands on, and of bytes of each. Without readers no gate is made.
fn main(rt: HostRuntime) -> ExitCode {
    let words: Vec<String> = match env::args(&rt) {
        Ok(args) => match args.skip(1).collect(rt.alloc()) {
            Ok(words) => words,
            Err(AllocError) => return ExitCode::from(6),
        },
        Err(_) => return ExitCode::from(2),
    };
    let readers = number(words.as_slice(), 0);
    let pieces = number(words.as_slice(), 1);
    let bytes = number(words.as_slice(), 2);
    let done = if readers == 0 {
        give_alone(rt.alloc(), pieces, bytes)
    } else {
        push(rt, rt.alloc(), readers, pieces, bytes)
    };
    match done {
        Ok(count) if println!(&rt; "{count}").is_ok() => ExitCode::from(0),
        _ => ExitCode::from(6),
    }
}
"""


def write(path, text):
    os.makedirs(os.path.dirname(path), exist_ok=True)
    with open(path, "w", encoding="utf-8") as file:
        file.write(text)


def build(folder):
    """Writes the program beside copies of the crates that it stands on, proves and builds it."""
    for name in CRATES:
        shutil.copytree(os.path.join(ROOT, "crates", name), os.path.join(folder, "crates", name),
                        ignore=shutil.ignore_patterns("out"))
    with open(os.path.join(ROOT, "crates.txt"), encoding="utf-8") as file:
        lines = [line for line in file if line.split(":")[0] in CRATES]
    shutil.copy(os.path.join(ROOT, "HANDLES"), folder)
    write(os.path.join(folder, "crates.txt"), "".join(lines) + "hop_tool: " + " ".join(CRATES) + "\n")
    crate = os.path.join(folder, "crates", "hop_tool")
    write(os.path.join(crate, "src", "main.rt"), PROGRAM)
    write(os.path.join(crate, "args"), "1\n10\n1\n")
    write(os.path.join(crate, "stdout"), "10\n")
    for part in ("specs", "proofs"):
        write(os.path.join(crate, part, "Lib.antt"), "")
    ran = subprocess.run(["rt", "run", "--", "1", "10", "1"], cwd=crate, capture_output=True, text=True)
    if ran.returncode != 0:
        sys.exit(ran.stdout + ran.stderr)
    return os.path.join(crate, "out", "hop_tool")


def run(*words, looks=False):
    """Runs a program. The processor seconds that it took, and where it is looked at after 5 seconds, the most memory that it
    held by then, in KiB."""
    started = subprocess.Popen([*map(str, words)], stdout=subprocess.PIPE, text=True)
    most = None
    if looks:
        time.sleep(5)
        with open(f"/proc/{started.pid}/status", encoding="utf-8") as told:
            most = next(int(line.split()[1]) for line in told if line.startswith("VmHWM"))
    said = started.stdout.read()
    _, status, used = os.wait4(started.pid, 0)
    if status:
        sys.exit(f"{words} failed: {said}")
    return used.ru_utime + used.ru_stime, most


def hop(program, readers, size):
    """The processor's microseconds for a piece of this size that so many readers hand on; 0 readers make it alone."""
    return (run(program, readers, PIECES, size)[0] - run(program, readers, 0, size)[0]) / (max(readers, 1) * PIECES) * 1e6


def bare(program, readers):
    """What a bare queue costs there, in microseconds of the processor for an item."""
    said = subprocess.run([program, "1"], stdout=subprocess.PIPE, text=True, check=True).stdout
    found = re.findall(rf"^queue\s+{readers} pushing .*CPU\s+([\d.]+) us per item", said, re.MULTILINE)
    if not found:
        sys.exit(f"{program} prints no line of {readers} pushing")
    return float(found[0])


def measure_hop(beside):
    folder = tempfile.mkdtemp(prefix="measure_sessions.")
    try:
        program = build(folder)
        for readers in (1, 4):
            costs = {(of, size): [] for of in (0, readers) for size in (1, 16_384)}
            bares = []
            for _ in range(ROUNDS):
                for (of, size), cost in costs.items():
                    cost.append(hop(program, of, size))
                if beside:
                    bares.append(bare(beside, readers))
            for size in (1, 16_384):
                cost = costs[readers, size]
                line = (f"{readers} pushing pieces of {size:,} bytes: {statistics.median(cost):.2f} us each, of which "
                        f"{statistics.median(costs[0, size]):.2f} make it")
                if beside:
                    ratio = statistics.median(it / other for it, other in zip(cost, bares))
                    line += f"; {ratio:.2f} times the bare queue's {statistics.median(bares):.2f}"
                print(line, flush=True)
    finally:
        shutil.rmtree(folder, ignore_errors=True)


def measure_idle():
    ran = subprocess.run(["rt", "run", "--", "quiet", "incoming", "3", "1", "1", "1"], cwd=STRESS, capture_output=True, text=True)
    if ran.returncode != 0:
        sys.exit(ran.stdout + ran.stderr)
    program = os.path.join(STRESS, "out", "rd_stress")
    for copies in (3, 8):
        began = time.monotonic()
        busy, most = run(program, "idle", "incoming", copies, SESSIONS, 1, 1, looks=True)
        seconds = time.monotonic() - began
        _, least = run(program, "idle", "incoming", copies, 1, 1, 1, looks=True)
        print(f"{SESSIONS} idle sessions of {copies} copies: {busy / seconds:.1%} of a processor; "
              f"{(most - least) / (SESSIONS - 1):.0f} KiB a session, {most} KiB together", flush=True)


def main():
    parser = argparse.ArgumentParser(description=__doc__, formatter_class=argparse.RawDescriptionHelpFormatter)
    parser.add_argument("what", choices=("hop", "idle"))
    parser.add_argument("--beside", metavar="PROGRAM")
    given = parser.parse_args()
    if given.what == "hop":
        measure_hop(given.beside)
    else:
        measure_idle()


if __name__ == "__main__":
    main()
