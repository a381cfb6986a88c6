#!/usr/bin/env python3
"""Measures the tokens of PostgreSQL replies: many rows, a wide row, and descriptions with a very long name.

Copies the crates that it needs into a folder of its own, adds a small program beside them, builds and runs it, and
removes the folder at the end. With `--keep FOLDER` that folder is used and stays: what was proved in it is not proved
again. In one run the program goes over all tokens of each reply a few times, without names and under firm names, and
takes the least time. No reply is over 1 MiB. It prints for each the time in microseconds, the tokens, and the
nanoseconds a token, and the ratios that are wanted.

The long replies: a name of half a MiB, and as many rows as fit, of one empty value; and such a name between two that
are firm, with rows of three empty values, which is the most that names can cost.
"""

import argparse
import os
import shutil
import subprocess
import sys
import tempfile

ROOT = os.path.dirname(os.path.dirname(os.path.abspath(__file__)))
CRATES = ["rd_base", "rd_token_map", "rd_dialect", "rd_pg_frame", "rd_pg_tokens"]
REPLIES = [
    "1,000 rows of 10 columns",
    "10,000 rows of 10 columns",
    "160 rows of 10 columns",
    "1 row of 1,600 columns",
    "a long name, rows of 1 value",
    "a long name between two, rows of 3 values",
]

PROGRAM = r"""//! Times the tokens of replies.
#![tactic(auto)]

use rd_base::{Bytes, NameRules, Names, NoMemory, Note, Part, Phase, Side};
use rd_dialect::Dialect;
use rd_pg_tokens::Pg;
use std::alloc::Global;
use std::process::ExitCode;
use std::time::Instant;

const MIB: usize = 1_048_576;
const LONG_NAME: u32 = 524_288;
const PLACE_AND_TYPE: &[u8] = b"\0\0\x40\x0b\0\x01\0\0\0\x19\xff\xff\xff\xff\xff\xff\0\0";

fn main(rt: HostRuntime) -> ExitCode {
    match measure(&rt) {
        Ok(()) => ExitCode::SUCCESS,
        Err(NoMemory) => ExitCode::FAILURE,
    }
}

fn measure(rt: &HostRuntime) -> Result<(), NoMemory> {
    let alloc = rt.alloc();
    let none = Pg::new(alloc, Side::Incoming, &rules(alloc, false)?)?;
    let firm = Pg::new(alloc, Side::Incoming, &rules(alloc, true)?)?;
    print(rt, &none, &firm, table(alloc, 10, 1_000)?.as_slice())?;
    print(rt, &none, &firm, table(alloc, 10, 10_000)?.as_slice())?;
    print(rt, &none, &firm, table(alloc, 10, 160)?.as_slice())?;
    print(rt, &none, &firm, table(alloc, 1_600, 1)?.as_slice())?;
    print(rt, &none, &firm, hostile(alloc, false)?.as_slice())?;
    print(rt, &none, &firm, hostile(alloc, true)?.as_slice())
}

/// No names, or four that are firm: the first and the last column of ten and of 1,600.
fn rules(alloc: Global, is_firm: bool) -> Result<NameRules, NoMemory> {
    let mut rules = NameRules {
        pass: Names::new(alloc),
        firm: Names::new(alloc),
        free: Names::new(alloc),
    };
    if is_firm {
        rules.firm.push(b"C0000")?;
        rules.firm.push(b"c0009")?;
        rules.firm.push(b"c1599")?;
        rules.firm.push(b"another")?;
    }
    Ok(rules)
}

fn print(rt: &HostRuntime, none: &Pg, firm: &Pg, unit: &[u8]) -> Result<(), NoMemory> {
    let (without, _) = least(rt, none, unit)?;
    let (under, tokens) = least(rt, firm, unit)?;
    let _printed = println!(rt; "{without} {under} {tokens}");
    Ok(())
}

fn least(rt: &HostRuntime, pg: &Pg, unit: &[u8]) -> Result<(u64, u32), NoMemory> {
    let (mut micros, tokens) = walked(rt, pg, unit)?;
    for _ in 0..20 {
        let (again, _) = walked(rt, pg, unit)?;
        micros = micros.min(again);
    }
    Ok((micros, tokens))
}

/// Goes over the tokens of a reply: the microseconds, and how many there are.
fn walked(rt: &HostRuntime, pg: &Pg, unit: &[u8]) -> Result<(u64, u32), NoMemory> {
    if !(unit.len() < MIB) {
        return Err(NoMemory);
    }
    let Ok(since) = Instant::now(rt) else {
        return Err(NoMemory);
    };
    let mut cursor = pg.first_cursor();
    for tokens in 0..2_000_000u32 {
        match pg.next_token(Part::Reply, Phase(2), Note(5), unit, true, cursor) {
            Some((_, next)) => cursor = next,
            None => {
                let Ok(time) = since.elapsed(rt) else {
                    return Err(NoMemory);
                };
                let micros = time.as_secs().saturating_mul(1_000_000);
                return Ok((micros.saturating_add(time.subsec_micros() as u64), tokens));
            }
        }
    }
    Err(NoMemory)
}

fn push_message(out: &mut Bytes, letter: u8, content: &[u8]) -> Result<(), NoMemory> {
    if !(content.len() < MIB) {
        return Err(NoMemory);
    }
    out.push_slice(&[letter])?;
    out.push_slice(&(content.len() as u32 + 4).to_be_bytes())?;
    out.push_slice(content)
}

fn push_column(content: &mut Bytes, number: u16) -> Result<(), NoMemory> {
    content.push_slice(b"c")?;
    for unit in [1_000, 100, 10, 1u16] {
        content.push_slice(&[b'0' + (number / unit % 10) as u8])?;
    }
    content.push_slice(b"\0")?;
    content.push_slice(PLACE_AND_TYPE)
}

/// So many rows of so many columns, whose values have four bytes.
fn table(alloc: Global, columns: u16, rows: u32) -> Result<Bytes, NoMemory> {
    let mut content = Bytes::from_slice(alloc, &columns.to_be_bytes())?;
    for number in 0..columns {
        push_column(&mut content, number)?;
    }
    let mut unit = Bytes::new(alloc);
    push_message(&mut unit, b'T', content.as_slice())?;
    let row = row(alloc, columns, b"\0\0\0\x04some")?;
    for _ in 0..rows {
        unit.push_slice(row.as_slice())?;
    }
    push_message(&mut unit, b'Z', b"I")?;
    Ok(unit)
}

fn row(alloc: Global, columns: u16, value: &[u8]) -> Result<Bytes, NoMemory> {
    let mut content = Bytes::from_slice(alloc, &columns.to_be_bytes())?;
    for _ in 0..columns {
        content.push_slice(value)?;
    }
    let mut row = Bytes::new(alloc);
    push_message(&mut row, b'D', content.as_slice())?;
    Ok(row)
}

/// A long name, alone or between two that are firm, and as many rows of empty values as fit.
fn hostile(alloc: Global, is_between: bool) -> Result<Bytes, NoMemory> {
    let columns = if is_between { 3u16 } else { 1 };
    let mut content = Bytes::from_slice(alloc, &columns.to_be_bytes())?;
    if is_between {
        push_column(&mut content, 0)?;
    }
    for _ in 0..LONG_NAME {
        content.push_slice(b"x")?;
    }
    content.push_slice(b"\0")?;
    content.push_slice(PLACE_AND_TYPE)?;
    if is_between {
        push_column(&mut content, 9)?;
    }
    let mut unit = Bytes::new(alloc);
    push_message(&mut unit, b'T', content.as_slice())?;
    let row = row(alloc, columns, b"\0\0\0\0")?;
    for _ in 0..100_000u32 {
        if unit.len() >= MIB - 30 {
            break;
        }
        unit.push_slice(row.as_slice())?;
    }
    push_message(&mut unit, b'Z', b"I")?;
    Ok(unit)
}
"""


def write(path, text):
    os.makedirs(os.path.dirname(path), exist_ok=True)
    with open(path, "w", encoding="utf-8") as file:
        file.write(text)


def make(folder):
    for name in CRATES:
        crate = os.path.join(folder, "crates", name)
        for part in ("src", "specs", "proofs"):
            shutil.rmtree(os.path.join(crate, part), ignore_errors=True)
            shutil.copytree(os.path.join(ROOT, "crates", name, part), os.path.join(crate, part))
    kept = [line for line in open(os.path.join(ROOT, "crates.txt"), encoding="utf-8") if line.split(":")[0] in CRATES]
    write(os.path.join(folder, "crates.txt"), "".join(kept) + "measure: rd_base rd_dialect rd_pg_tokens\n")
    crate = os.path.join(folder, "crates", "measure")
    write(os.path.join(crate, "src", "main.rt"), PROGRAM)
    return crate


def measure(folder):
    run = subprocess.run(["rt", "run"], cwd=make(folder), capture_output=True, text=True)
    lines = [line.split() for line in run.stdout.splitlines()]
    found = [[int(word) for word in words] for words in lines if len(words) == 3 and all(w.isdigit() for w in words)]
    if len(found) != len(REPLIES):
        sys.exit(run.stdout + run.stderr)
    for name, (without, under, tokens) in zip(REPLIES, found):
        each = f"{without * 1000 / tokens:.0f} and {under * 1000 / tokens:.0f} ns a token"
        print(f"{name}: {without} us without names, {under} us under firm names; {tokens} tokens, {each}")
    for which, name in enumerate(["without names", "under firm names"]):
        rows = found[1][which] / found[0][which]
        wide = (found[3][which] / found[3][2]) / (found[2][which] / found[2][2])
        print(f"{name}: 10,000 rows take {rows:.1f} times 1,000 (wanted: at most 12)")
        print(f"{name}: a token of a wide row takes {wide:.2f} times one of 160 rows (wanted: at most 1.5)")
    print(f"the longest of all: {max(found[4][:2] + found[5][:2]) / 1e6:.2f} s (wanted: at most 1 s)")


def main():
    parser = argparse.ArgumentParser(description=__doc__, formatter_class=argparse.RawDescriptionHelpFormatter)
    parser.add_argument("--keep", metavar="FOLDER", help="work in this folder, and keep it")
    folder = parser.parse_args().keep
    if folder:
        measure(folder)
        return
    folder = tempfile.mkdtemp(prefix="measure_postgres.")
    try:
        measure(folder)
    finally:
        shutil.rmtree(folder)


if __name__ == "__main__":
    main()
