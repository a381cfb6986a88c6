#!/usr/bin/env python3
"""Tries the keeper of session notes on real files, beside the `sqlite3` command.

    tools/try_keeper.py            notes one way and the other, kills in the midst of puts, locks, files of another make
    tools/try_keeper.py measure    puts a second and what each costs, a page of 100 notes, what a held file costs,
                                   the memory of a full board

A small program over the keeper is written beside copies of the crates that it needs, in a folder of its own that is
removed at the end. `rt try` compiles it without a proof, in a minute or two: what is proved of the keeper is proved in
its crate. A copy of what it runs is then run again and again. It checks each address as it runs, so that times and
memory are upper bounds: a program that is built takes less. With `--keep FOLDER` that folder is used and stays. Each
thing that was tried prints a line; the first that isn't as it should be ends the run with status 1.
"""

import argparse
import os
import random
import resource
import shutil
import signal
import subprocess
import sys
import tempfile
import time

ROOT = os.path.dirname(os.path.dirname(os.path.abspath(__file__)))
CRATES = ["rd_base", "rd_board", "rd_keeper"]
SECONDS = "300"

PROGRAM = r"""//! Puts notes into a store and says which were answered, or lists them, or measures.
#![tactic(auto)]

use rd_base::SessionNote;
use rd_board::Board;
use rd_keeper::{KeepFail, Keeper, Put, SqlKeeper};
use std::env;
use std::fs;
use std::fs::File;
use std::io;
use std::io::Write;
use std::process;
use std::time::Instant;

fn main(rt: HostRuntime) -> io::Result<()> {
    let mut words = Vec::new(rt.alloc());
    for word in env::args(&rt)? {
        words.push(word)?;
    }
    if words.len() < 2 {
        return println!(rt; "no words");
    }
    let number = if words.len() < 5 {
        (0u64, 0u64)
    } else {
        (
            words[3].as_str().parse::<u64>().unwrap_or(0),
            words[4].as_str().parse::<u64>().unwrap_or(0),
        )
    };
    match words[1].as_str() {
        "puts" if words.len() == 6 => puts(&rt, words[2].as_str(), number, words[5].as_str()),
        "list" if words.len() == 3 => list(&rt, words[2].as_str()),
        "put" if words.len() == 3 => measure_puts(&rt, words[2].as_str()),
        "page" if words.len() == 3 => measure_pages(&rt, words[2].as_str()),
        "held" if words.len() == 3 => measure_held(&rt, words[2].as_str()),
        "boards" if words.len() == 3 => measure_boards(&rt),
        _ => println!(rt; "other words"),
    }
}

fn noted(id: u64) -> SessionNote {
    SessionNote {
        id,
        side: (id % 2) as u8,
        dialect: (id % 3) as u8,
        began: id,
        ended: id + 1,
        events: 5,
        exchanges: 2,
        masked: (id % 7) as u32,
        code: (id % 16) as u8,
        link: 1,
        exchange: 3,
        place: 4,
        detail: 101,
        dropped: (id % 3) as u8,
    }
}

/// Puts the notes from an id on, and writes a line for each once its put was answered. The first line has the
/// number of this process.
fn puts(rt: &HostRuntime, name: &str, (first, count): (u64, u64), log: &str) -> io::Result<()> {
    let mut told: File = fs::create(rt, log)?;
    let Ok(mut keeper) = SqlKeeper::open(rt, rt.alloc(), name) else {
        return println!(rt; "no memory");
    };
    let process = process::id(rt.process());
    let line = format!(in rt.alloc(); "process {process}\n")?;
    told.write_all(line.as_bytes())?;
    for id in first..first + count {
        let answer = match keeper.put(&noted(id)) {
            Ok(Put::Fresh) => "fresh",
            Ok(Put::Repeat) => "repeat",
            Err(KeepFail::Failed) => "failed",
            Err(KeepFail::NoMemory) => "no memory",
        };
        let line = format!(in rt.alloc(); "{answer} {id}\n")?;
        told.write_all(line.as_bytes())?;
    }
    let faults = keeper.faults();
    let line = format!(in rt.alloc(); "faults {faults}\n")?;
    told.write_all(line.as_bytes())
}

/// Prints the notes of a store.
fn list(rt: &HostRuntime, name: &str) -> io::Result<()> {
    let Ok(mut keeper) = SqlKeeper::open(rt, rt.alloc(), name) else {
        return println!(rt; "no memory");
    };
    let mut from = 0;
    for _ in 0..1_000_000 {
        let Ok(notes) = keeper.page(from, 100) else {
            return println!(rt; "failed");
        };
        if notes.len() == 0 {
            break;
        }
        for place in 0..notes.len() {
            let n = notes.at(place);
            let (id, masked, dropped) = (n.id, n.masked, n.dropped);
            println!(rt; "note {id} {masked} {dropped}")?;
            from = n.id + 1;
        }
    }
    Ok(())
}

/// Puts 300 notes into a store.
fn measure_puts(rt: &HostRuntime, name: &str) -> io::Result<()> {
    let Ok(mut keeper) = SqlKeeper::open(rt, rt.alloc(), name) else {
        return println!(rt; "no memory");
    };
    for id in 1..301u64 {
        let since = Instant::now(rt)?;
        let _put = keeper.put(&noted(id));
        let micros = since.elapsed(rt)?.as_micros();
        println!(rt; "put {micros}")?;
    }
    let faults = keeper.faults();
    println!(rt; "faults {faults}")
}

/// Opens a store, and reads 20 pages of 100 notes.
fn measure_pages(rt: &HostRuntime, name: &str) -> io::Result<()> {
    let since = Instant::now(rt)?;
    let Ok(mut keeper) = SqlKeeper::open(rt, rt.alloc(), name) else {
        return println!(rt; "no memory");
    };
    let micros = since.elapsed(rt)?.as_micros();
    println!(rt; "open {micros}")?;
    for from in 1..21u64 {
        let since = Instant::now(rt)?;
        let notes = match keeper.page(from * 10, 100) {
            Ok(notes) => notes.len(),
            Err(_) => 0,
        };
        let micros = since.elapsed(rt)?.as_micros();
        println!(rt; "page {micros} {notes}")?;
    }
    Ok(())
}

/// Opens a store that another process holds, and puts a note.
fn measure_held(rt: &HostRuntime, name: &str) -> io::Result<()> {
    let since = Instant::now(rt)?;
    let Ok(mut keeper) = SqlKeeper::open(rt, rt.alloc(), name) else {
        return println!(rt; "no memory");
    };
    let opened = since.elapsed(rt)?.as_micros();
    let _put = keeper.put(&noted(1));
    let both = since.elapsed(rt)?.as_micros();
    let faults = keeper.faults();
    println!(rt; "held {opened} {both} {faults}")
}

/// The memory of this process before and behind 20 boards of 10,000 notes.
fn measure_boards(rt: &HostRuntime) -> io::Result<()> {
    let before = fs::read_to_string(rt, "/proc/self/smaps_rollup")?;
    let mut boards = Vec::new(rt.alloc());
    for _ in 0..20 {
        let Ok(mut board) = Board::make(rt.alloc(), 0) else {
            return println!(rt; "no memory");
        };
        for id in 1..10_001u64 {
            board.began();
            let _is_fresh = board.note(&noted(id));
        }
        let (sessions, let_go) = (board.sessions(), board.unkept());
        println!(rt; "board {sessions} {let_go}")?;
        boards.push(board)?;
    }
    let behind = fs::read_to_string(rt, "/proc/self/smaps_rollup")?;
    print!(rt; "{before}")?;
    print!(rt; "{behind}")
}
"""


def write(path, text):
    os.makedirs(os.path.dirname(path), exist_ok=True)
    with open(path, "w", encoding="utf-8") as file:
        file.write(text)


def make(folder):
    """Writes the program and what it stands on; the folder of its crate."""
    for name in CRATES:
        for part in ("src", "specs", "proofs"):
            to = os.path.join(folder, "crates", name, part)
            shutil.rmtree(to, ignore_errors=True)
            shutil.copytree(os.path.join(ROOT, "crates", name, part), to)
    with open(os.path.join(ROOT, "crates.txt"), encoding="utf-8") as file:
        lines = [line for line in file if line.split(":")[0] in CRATES]
    write(os.path.join(folder, "crates.txt"), "".join(lines) + "keeper_tool: rd_base rd_board rd_keeper\n")
    write(os.path.join(folder, "crates", "keeper_tool", "src", "main.rt"), PROGRAM)
    return os.path.join(folder, "crates", "keeper_tool")


def check(is_so, what):
    print(("ok: " if is_so else "NOT SO: ") + what, flush=True)
    if not is_so:
        sys.exit(1)


class Tool:
    """The program, and a folder for its files."""

    def __init__(self, folder):
        self.files = os.path.join(folder, "files")
        shutil.rmtree(self.files, ignore_errors=True)
        os.makedirs(self.files)
        self.program = self.path("program")
        self.build(make(folder))

    def path(self, name):
        return os.path.join(self.files, name)

    def build(self, crate):
        """Keeps a copy of the program that `rt try` compiles and runs."""
        words = ["rt", "try", "--seconds", SECONDS, "--", "puts", self.path("first.db"), "1", "1000000", self.path("log")]
        command = subprocess.Popen(words, cwd=crate, stdout=subprocess.DEVNULL, stderr=subprocess.DEVNULL)
        process = self.begun(command)
        with open(f"/proc/{process}/cmdline", encoding="utf-8") as file:
            words = file.read().split("\0")
        words = words[:words.index("puts")]
        shutil.copy(os.path.join(f"/proc/{process}/cwd", words[-1]), self.program)
        self.loader = words[:-1]
        os.kill(process, signal.SIGKILL)
        command.wait()

    def begun(self, command):
        """The number of the process that begins to put."""
        for _ in range(9000):
            told = read_log(self.path("log"))
            if told:
                return int(told[0][1])
            if command.poll() is not None:
                break
            time.sleep(0.1)
        sys.exit("the program doesn't begin")

    def command(self, *words):
        return [*self.loader, self.program, *words]

    def run(self, *words):
        """What it prints, as lists of words. The processor time that it took is kept."""
        before = resource.getrusage(resource.RUSAGE_CHILDREN)
        ran = subprocess.run(self.command(*words), capture_output=True, text=True, timeout=300)
        after = resource.getrusage(resource.RUSAGE_CHILDREN)
        self.processor = after.ru_utime + after.ru_stime - before.ru_utime - before.ru_stime
        if ran.returncode != 0:
            sys.exit(ran.stdout + ran.stderr)
        return [line.split() for line in ran.stdout.splitlines() if line.strip()]

    def list(self, name):
        """The id, the masked places and the dropped copy of each note."""
        return [tuple(int(w) for w in words[1:]) for words in self.run("list", self.path(name)) if words[0] == "note"]

    def puts(self, name, first, count):
        """What was answered to each put, and the count of faults."""
        log = self.path("log")
        self.run("puts", self.path(name), str(first), str(count), log)
        told = read_log(log)
        return [words[0] for words in told[1:-1]], int(told[-1][1])


def read_log(log):
    """The whole lines of a log, as lists of words."""
    if not os.path.exists(log):
        return []
    with open(log, encoding="utf-8") as file:
        return [line.split() for line in file if line.endswith("\n")]


def sql(path, text):
    ran = subprocess.run(["sqlite3", path, text], capture_output=True, text=True)
    if ran.returncode != 0:
        return ran.stderr
    return [tuple(int(w) if w.isdigit() else w for w in line.split("|")) for line in ran.stdout.splitlines()]


def note(id):
    return (id, id % 7, id % 3)


IDS_AND_DROPS = "SELECT s.id, s.masked, coalesce(d.copy, 0) FROM sessions s LEFT JOIN drops d ON d.id = s.id ORDER BY s.id"

COLUMNS = "id side dialect began ended events exchanges masked code link exchange place detail".split()

OLD_TABLE = "CREATE TABLE sessions (" + ", ".join(
    name + (" INTEGER PRIMARY KEY NOT NULL" if name == "id" else " INTEGER NOT NULL") for name in COLUMNS) + ")"


def try_both_ways(tool):
    answers, faults = tool.puts("ours.db", 1, 50)
    check(answers == ["fresh"] * 50 and faults == 0, "50 notes are put")
    check(sql(tool.path("ours.db"), IDS_AND_DROPS) == [note(id) for id in range(1, 51)], "sqlite3 reads them, with their drops")
    check(sql(tool.path("ours.db"), "PRAGMA integrity_check") == [("ok",)], "sqlite3 finds the file sound")
    sql(tool.path("ours.db"), "INSERT INTO sessions SELECT 60, side, dialect, began, ended, events, exchanges, 6, code, link, exchange, place, detail FROM sessions WHERE id = 1; INSERT INTO drops VALUES (60, 2)")
    check(tool.list("ours.db") == [note(id) for id in range(1, 51)] + [(60, 6, 2)], "the keeper reads them, and one that sqlite3 put")
    answers, faults = tool.puts("ours.db", 49, 3)
    check(answers == ["repeat", "repeat", "fresh"] and faults == 0, "a note that is kept is a repeat")
    check(sql(tool.path("ours.db"), "SELECT masked FROM sessions WHERE id = 49") == [(0,)], "and stays")


def try_older_file(tool):
    sql(tool.path("old.db"), OLD_TABLE + "; INSERT INTO sessions VALUES (7, 0, 1, 5, 6, 5, 2, 3, 0, 0, 0, 0, 0)")
    check(tool.list("old.db") == [(7, 3, 0)], "a file of sqlite3 without the table of drops is read")
    answers, _ = tool.puts("old.db", 7, 2)
    check(answers == ["repeat", "fresh"], "and written")
    check(sql(tool.path("old.db"), IDS_AND_DROPS) == [(7, 3, 0), note(8)], "with a drop beside")


def stays_refused(tool, name):
    with open(tool.path(name), "rb") as file:
        before = file.read()
    answers, faults = tool.puts(name, 1, 3)
    with open(tool.path(name), "rb") as file:
        after = file.read()
    return answers == ["failed"] * 3 and faults == 3 and before == after


def try_other_makes(tool):
    with open(tool.path("text.db"), "w", encoding="utf-8") as file:
        file.write("no database\n" * 1000)
    check(stays_refused(tool, "text.db"), "a text file fails at each put, and is left as it was")
    sql(tool.path("other.db"), "CREATE TABLE sessions (id INTEGER PRIMARY KEY, name TEXT)")
    check(stays_refused(tool, "other.db"), "a table with other columns too")
    sql(tool.path("drops.db"), OLD_TABLE + "; CREATE TABLE drops (id INTEGER PRIMARY KEY, copy INTEGER, more TEXT)")
    check(stays_refused(tool, "drops.db"), "and one of drops with other columns")
    os.makedirs(tool.path("folder.db"))
    answers, faults = tool.puts("folder.db", 1, 2)
    check(answers == ["failed"] * 2 and faults == 2, "and a folder")


def start(tool, name, first, count):
    """Starts puts in a process of their own."""
    log = tool.path("log")
    if os.path.exists(log):
        os.remove(log)
    command = subprocess.Popen(tool.command("puts", tool.path(name), str(first), str(count), log), stdout=subprocess.DEVNULL, stderr=subprocess.DEVNULL)
    return command, tool.begun(command)


def hold(tool, name, statements="BEGIN EXCLUSIVE; SELECT 'held';"):
    """A process of sqlite3 that holds a file to itself, or by other statements reads it."""
    holder = subprocess.Popen(["sqlite3", tool.path(name)], stdin=subprocess.PIPE, stdout=subprocess.PIPE, text=True)
    holder.stdin.write(statements + "\n")
    holder.stdin.flush()
    holder.stdout.readline()
    return holder


def release(holder):
    holder.stdin.close()
    holder.wait()


def try_locks(tool):
    command, process = start(tool, "held.db", 1, 1_000_000)
    refusal = sql(tool.path("held.db"), "SELECT count(*) FROM sessions")
    os.kill(process, signal.SIGKILL)
    command.wait()
    check("locked" in refusal, "while the keeper has the file, sqlite3 says that it is locked")
    holder = hold(tool, "held.db")
    answers, faults = tool.puts("held.db", 1, 3)
    release(holder)
    check(answers == ["failed"] * 3 and faults == 3, "while sqlite3 holds the file, each put fails, and none waits")
    reader = hold(tool, "held.db", "BEGIN; SELECT count(*) FROM sessions;")
    answers, faults = tool.puts("held.db", 1, 3)
    release(reader)
    check(answers == ["failed"] * 3 and faults == 3, "while sqlite3 reads the file too")
    notes = tool.list("held.db")
    answers, faults = tool.puts("held.db", len(notes) + 1, 3)
    check(answers == ["fresh"] * 3 and faults == 0, "once it has let go, notes are put behind those that were kept")


def try_kills(tool, times):
    first = 1
    put = 0
    for _ in range(times):
        command, process = start(tool, "killed.db", first, 1_000_000)
        time.sleep(random.uniform(0.05, 0.5))
        os.kill(process, signal.SIGKILL)
        command.wait()
        answered = [int(words[1]) for words in read_log(tool.path("log"))[1:]]
        kept = [row[0] for row in sql(tool.path("killed.db"), "SELECT id FROM sessions ORDER BY id")]
        put += len(answered)
        last = answered[-1] if answered else first - 1
        if not (set(answered) <= set(kept) and len(set(kept)) == len(kept) and set(kept) <= set(range(1, last + 2))):
            check(False, f"of {len(answered)} answered notes each is kept once, and at most one more")
        drops = sql(tool.path("killed.db"), IDS_AND_DROPS)
        if drops != [note(id) for id in kept]:
            check(False, "each note has its drop, or none of both is there")
        first = last + 1
    check(True, f"killed {times} times in {put} puts: each answered note is kept once, with its drop, and at most one more")


def try_all(tool):
    try_both_ways(tool)
    try_older_file(tool)
    try_other_makes(tool)
    try_locks(tool)
    try_kills(tool, 10)


def measure(tool):
    told = tool.run("put", tool.path("measure.db"))
    puts = sorted(int(words[1]) for words in told if words[0] == "put")
    check(told[-1] == ["faults", "0"] and len(puts) == 300, "300 notes are put into a file")
    mean = sum(puts) / len(puts)
    print(f"a put takes {mean / 1000:.1f} ms in the mean ({1_000_000 / mean:.0f} a second), half of them under "
          f"{puts[150] / 1000:.1f} ms, the longest {puts[-1] / 1000:.1f} ms; {tool.processor / 300 * 1000:.1f} ms of a processor")
    for name in ("measure.db", "measure.db-wal"):
        if os.path.exists(tool.path(name)):
            print(f"{name} has {os.path.getsize(tool.path(name))} bytes then")
    told = tool.run("page", tool.path("measure.db"))
    print(f"the file is opened again in {int(told[0][1]) / 1000:.0f} ms")
    pages = sorted(int(words[1]) for words in told if words == ["page", words[1], "100"])
    check(len(pages) == 20, "20 pages of 100 notes are read")
    print(f"a page of 100 notes takes {sum(pages) / 20_000:.1f} ms in the mean, the longest {pages[-1] / 1000:.1f} ms")
    measure_held(tool)
    measure_boards(tool)


def measure_held(tool):
    holder = hold(tool, "measure.db")
    opened, both, faults = [int(w) for w in tool.run("held", tool.path("measure.db"))[0][1:]]
    release(holder)
    check(faults == 1, "a put into a file that sqlite3 holds fails")
    print(f"the file is refused in {opened} us, and the put's answer is there {both - opened} us later")
    check(both <= 100_000, "both in less than 100 ms")


def measure_boards(tool):
    told = tool.run("boards", "20")
    boards = [words for words in told if words[0] == "board"]
    check(boards == [["board", "10000", "0"]] * 20, "20 boards have 10,000 notes each, and let none go")
    before, behind = [int(words[1]) * 1024 for words in told if words[0] == "Rss:"]
    size = (behind - before) // 20
    check(size < 2_000_000, f"one takes {size} bytes of memory, less than 2,000,000")


def main():
    parser = argparse.ArgumentParser(description=__doc__, formatter_class=argparse.RawDescriptionHelpFormatter)
    parser.add_argument("what", nargs="?", choices=["measure"], help="measure instead of trying")
    parser.add_argument("--keep", metavar="FOLDER", help="work in this folder, and keep it")
    words = parser.parse_args()
    work = measure if words.what else try_all
    if words.keep:
        work(Tool(os.path.abspath(words.keep)))
        return
    folder = tempfile.mkdtemp(prefix="try_keeper.")
    try:
        work(Tool(folder))
    finally:
        shutil.rmtree(folder)


if __name__ == "__main__":
    main()
