#!/usr/bin/env python3
"""Measures the streamed verdict against the verdict of whole lists: 8 copies of 1 MiB of words.

Copies the crates that it needs into a folder of its own, adds a small program beside them, builds and runs it,
and removes the folder at the end. With `--keep FOLDER` that folder is used and stays: what was proved in it is not
proved again. In one run the program times `judge` over the whole lists and feeding the same tokens one by one in
turn, side by side a few times, and takes the least time of each and the most bytes that were kept of the copies 1 to
7 together. It prints the two times in microseconds, their ratio, and these bytes as a share of copy 0's.

That the program asks before each call whether the copy may be fed is a part of the time that is measured.
"""

import argparse
import os
import shutil
import subprocess
import sys
import tempfile

ROOT = os.path.dirname(os.path.dirname(os.path.abspath(__file__)))
CRATES = ["rd_base", "rd_verdict", "rd_stream_verdict"]

PROGRAM = r"""//! Times the streamed verdict and the verdict of whole lists.
#![tactic(auto)]

ghost use Rattle.std.specs.Prelude.{◌≡◌, ◌≤◌, ◌<◌, ◌^◌, ◌+◌, length, All, IfOk, OnOk};
ghost use Rattle.rd_verdict.specs.LiesIn.{LiesIn};

use rd_base::{Bytes, MaskLimits, NoMemory, TokenKind, TokenSpan, cut_at};
use rd_stream_verdict::StreamVerdict;
use rd_verdict::{Copies, Spans, judge};
use std::alloc::Global;
use std::process::ExitCode;
use std::time::Instant;

const MOST: MaskLimits = MaskLimits {
    places: 64,
    bytes: 128,
};

fn main(rt: HostRuntime) -> ExitCode {
    match measure(&rt) {
        Ok(()) => ExitCode::SUCCESS,
        Err(NoMemory) => ExitCode::FAILURE,
    }
}

fn measure(rt: &HostRuntime) -> Result<(), NoMemory> {
    let alloc = rt.alloc();
    let text = words(alloc)?;
    if !(text.len() < 2_000_000) {
        return Err(NoMemory);
    }
    let spans = cut_words(alloc, text.as_slice())?;
    let copies = copies_of(alloc, text.as_slice())?;
    let mut whole = judged(rt, &copies)?;
    let mut streamed = fed(rt, alloc, text.as_slice(), spans.as_slice())?;
    for _ in 0..10 {
        whole = whole.min(judged(rt, &copies)?);
        streamed = streamed.min(fed(rt, alloc, text.as_slice(), spans.as_slice())?);
    }
    let _printed = println!(rt; "{whole} {streamed}");
    let kept = most_kept(alloc, text.as_slice(), spans.as_slice())?;
    let size = text.len();
    let _printed = println!(rt; "{kept} {size}");
    Ok(())
}

/// 1 MiB of words of two to nine bytes.
fn words(alloc: Global) -> Result<Bytes, NoMemory> {
    let mut text = Bytes::new(alloc);
    for number in 0..1_000_000u32 {
        if text.len() >= 1_048_576 {
            break;
        }
        let word = match number % 5 {
            0 => b"verdict ".as_slice(),
            1 => b"of ".as_slice(),
            2 => b"several ".as_slice(),
            3 => b"token ".as_slice(),
            _ => b"lists ".as_slice(),
        };
        text.push_slice(word)?;
    }
    if !(text.len() >= 1_048_576) {
        return Err(NoMemory);
    }
    Ok(text)
}

fn micros(rt: &HostRuntime, since: &Instant) -> Result<u64, NoMemory> {
    match since.elapsed(rt) {
        Ok(time) => Ok(time.as_secs().saturating_mul(1_000_000).saturating_add(time.subsec_micros() as u64)),
        Err(_) => Err(NoMemory),
    }
}

fn now(rt: &HostRuntime) -> Result<Instant, NoMemory> {
    match Instant::now(rt) {
        Ok(time) => Ok(time),
        Err(_) => Err(NoMemory),
    }
}

fn judged(rt: &HostRuntime, copies: &Copies) -> Result<u64, NoMemory> {
    if !(copies.len() >= 3) {
        return Err(NoMemory);
    }
    let since = now(rt)?;
    let _verdict = judge(copies, MOST);
    micros(rt, &since)
}

fn fed(rt: &HostRuntime, alloc: Global, text: &[u8], spans: &[TokenSpan]) -> Result<u64, NoMemory> {
    let mut verdict = StreamVerdict::new(alloc, 8, MOST)?;
    let since = now(rt)?;
    for span in spans {
        take_turns(&mut verdict, text, span)?;
    }
    for copy in 0..8 {
        if !(verdict.can_take(copy)) {
            return Err(NoMemory);
        }
        verdict.close(copy);
    }
    let _answer = verdict.answer();
    micros(rt, &since)
}

fn most_kept(alloc: Global, text: &[u8], spans: &[TokenSpan]) -> Result<usize, NoMemory> {
    let mut verdict = StreamVerdict::new(alloc, 8, MOST)?;
    let mut most = 0;
    for span in spans {
        for copy in 0..8 {
            feed_token(&mut verdict, copy, span.kind, token_of(text, span)?)?;
            most = most.max(kept_beside_first(&verdict)?);
        }
    }
    Ok(most)
}

fn kept_beside_first(verdict: &StreamVerdict) -> Result<usize, NoMemory> {
    let mut sum: usize = 0;
    for copy in 1..8 {
        if !(verdict.can_take(copy)) {
            return Err(NoMemory);
        }
        sum = sum.saturating_add(verdict.kept(copy));
    }
    Ok(sum)
}

fn take_turns(verdict: &mut StreamVerdict, text: &[u8], span: &TokenSpan) -> Result<(), NoMemory> {
    let token = token_of(text, span)?;
    for copy in 0..8 {
        feed_token(verdict, copy, span.kind, token)?;
    }
    Ok(())
}

fn token_of<'a>(text: &'a [u8], span: &TokenSpan) -> Result<&'a [u8], NoMemory> {
    let start = span.start as usize;
    let end = span.end as usize;
    if !(start <= end && end <= text.len()) {
        return Err(NoMemory);
    }
    Ok(&text[start..end])
}

#[inline(always)]
fn feed_token(verdict: &mut StreamVerdict, copy: u8, kind: TokenKind, token: &[u8]) -> Result<(), NoMemory> {
    if !(verdict.can_take(copy)) {
        return Err(NoMemory);
    }
    verdict.feed(copy, kind, token)
}

fn cut_words(alloc: Global, text: &[u8]) -> Result<Vec<TokenSpan>, NoMemory>
    requires { length text.now < 2 ^ 32 }
    ensures within { IfOk result (λ spans. All (LiesIn (length text.now)) spans.items) }
    ensures count { IfOk result (λ spans. length spans.items < 2 ^ 32) }
{
    let mut spans = Vec::new(alloc);
    let mut start = 0;
    while start < text.len() {
        let cut = cut_at(text, start);
        let span = TokenSpan {
            kind: cut.kind(),
            start: start as u32,
            end: cut.end as u32,
        };
        if spans.push(span).is_err() {
            return Err(NoMemory);
        }
        start = cut.end;
    }
    Ok(spans)
}

fn spans_of(alloc: Global, text: &[u8]) -> Result<Spans, NoMemory>
    requires { length text.now < 2 ^ 32 }
    ensures within { IfOk result (λ spans. All (LiesIn (length text.now)) spans) }
    ensures count { IfOk result (λ spans. length spans < 2 ^ 32) }
{
    let mut spans = Spans::new(alloc);
    let mut start = 0;
    while start < text.len() {
        let cut = cut_at(text, start);
        spans.push(TokenSpan {
            kind: cut.kind(),
            start: start as u32,
            end: cut.end as u32,
        })?;
        start = cut.end;
    }
    Ok(spans)
}

fn copies_of(alloc: Global, text: &[u8]) -> Result<Copies, NoMemory> {
    let mut copies = Copies::new(alloc);
    for _ in 0..8 {
        if !(text.len() < 2_000_000) {
            return Err(NoMemory);
        }
        let spans = spans_of(alloc, text)?;
        if !(copies.len() < 8) {
            return Err(NoMemory);
        }
        copies.push_copy(Bytes::from_slice(alloc, text)?, spans)?;
    }
    Ok(copies)
}
"""

CUT_WORDS = """use Rattle.std.proofs.Common.{{◌≤◌, ◌-◌, length}}
use Rattle.std.specs.List.{{All}}
use Rattle.rd_verdict.specs.LiesIn.{{LiesIn}}
use Rattle.measure.proofs.{name}.Given as goal

abbrev pub invariant-loop-start : goal.invariant-loop-start
invariant-loop-start l = record {{
  within : All (LiesIn (length l.text)) {spans};
  count : length {spans} ≤ l.start;
  start : l.start ≤ length l.text;
}}

abbrev pub decreases-loop-start : goal.decreases-loop-start
decreases-loop-start l = length l.text - l.start
"""


def write(path, text):
    os.makedirs(os.path.dirname(path), exist_ok=True)
    with open(path, "w", encoding="utf-8") as file:
        file.write(text)


def make(folder):
    for name in CRATES:
        crate = os.path.join(folder, "crates", name)
        for part in ("src", "specs", "proofs"):
            shutil.rmtree(os.path.join(crate, part), ignore_errors=True)
            shutil.copytree(os.path.join(ROOT, "crates", name, part), os.path.join(crate, part))
    kept = [line for line in open(os.path.join(ROOT, "crates.txt"), encoding="utf-8") if line.split(":")[0] in CRATES]
    write(os.path.join(folder, "crates.txt"), "".join(kept) + "measure: rd_base rd_verdict rd_stream_verdict\n")
    crate = os.path.join(folder, "crates", "measure")
    write(os.path.join(crate, "src", "main.rt"), PROGRAM)
    write(os.path.join(crate, "proofs", "cut_words", "Invariants.antt"), CUT_WORDS.format(name="cut_words", spans="l.spans.items"))
    write(os.path.join(crate, "proofs", "spans_of", "Invariants.antt"), CUT_WORDS.format(name="spans_of", spans="l.spans"))
    return crate


def measure(folder):
    run = subprocess.run(["rt", "run"], cwd=make(folder), capture_output=True, text=True)
    lines = [line.split() for line in run.stdout.splitlines()]
    found = [[int(word) for word in words] for words in lines if len(words) == 2 and all(w.isdigit() for w in words)]
    if len(found) != 2:
        sys.exit(run.stdout + run.stderr)
    (whole, streamed), (kept, size) = found
    print(f"judge over whole lists: {whole} us; fed in turn: {streamed} us; ratio {streamed / whole:.2f} (wanted: at most 2)")
    print(f"kept of copies 1 to 7 at most: {kept} bytes; of copy 0's {size}: {kept / size:.6f} (wanted: at most 0.1)")


def main():
    parser = argparse.ArgumentParser(description=__doc__, formatter_class=argparse.RawDescriptionHelpFormatter)
    parser.add_argument("--keep", metavar="FOLDER", help="work in this folder, and keep it")
    folder = parser.parse_args().keep
    if folder:
        measure(folder)
        return
    folder = tempfile.mkdtemp(prefix="measure_stream_verdict.")
    try:
        measure(folder)
    finally:
        shutil.rmtree(folder)


if __name__ == "__main__":
    main()
