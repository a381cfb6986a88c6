"""What the recorders share: a relay that keeps what clients and servers say, scripts made of it, and their replay."""

import argparse
import json
import os
import re
import select
import shutil
import socket
import subprocess
import sys
import tempfile
import threading
import time
from typing import NamedTuple

HOST = "127.0.0.1"
ROOT = os.path.dirname(os.path.dirname(os.path.abspath(__file__)))
# The most bytes that a piece of a script has.
PIECE = 16_384
COPIES = 3


def free_port():
    with socket.socket() as probe:
        probe.bind((HOST, 0))
        return probe.getsockname()[1]


def wait_for_port(port):
    """Waits until someone listens there, and says whether it came to that."""
    for _ in range(100):
        try:
            socket.create_connection((HOST, port)).close()
            return True
        except OSError:
            time.sleep(0.1)
    return False


class Read(NamedTuple):
    """What a relay read at once: `>` from the client or `<` from the server; no bytes are the end."""

    connection: int
    mark: str
    data: bytes
    moment: int


class Relay:
    """Passes bytes between clients and the server, and keeps each read."""

    def __init__(self, server_port):
        self.server_port = server_port
        self.reads = []
        self.lock = threading.Lock()
        self.listener = socket.create_server((HOST, 0))
        self.port = self.listener.getsockname()[1]
        self.workers = []
        self.start = time.monotonic()
        threading.Thread(target=self.accept, daemon=True).start()

    def accept(self):
        number = 0
        while True:
            try:
                client, _ = self.listener.accept()
            except OSError:
                return
            worker = threading.Thread(target=self.carry, args=(number, client), daemon=True)
            self.workers.append(worker)
            worker.start()
            number += 1

    def keep(self, number, mark, data):
        with self.lock:
            moment = int((time.monotonic() - self.start) * 1000)
            self.reads.append(Read(number, mark, data, moment))

    def carry(self, number, client):
        with client, socket.create_connection((HOST, self.server_port)) as server:
            links = {client: (">", server), server: ("<", client)}
            while links:
                ready, _, _ = select.select(list(links), [], [])
                for link in ready:
                    mark, other = links[link]
                    try:
                        data = link.recv(65536)
                    except OSError:
                        data = b""
                    self.keep(number, mark, data)
                    if not data:
                        del links[link]
                    try:
                        other.sendall(data) if data else other.shutdown(socket.SHUT_WR)
                    except OSError:
                        links.pop(other, None)

    def wait(self):
        """Waits until each connection is closed on both sides."""
        for worker in self.workers:
            worker.join(10)

    def close(self):
        self.listener.close()

    def connections(self):
        """The connections in the order in which they were opened."""
        with self.lock:
            reads = list(self.reads)
        numbers = sorted({read.connection for read in reads})
        return [Connection([read for read in reads if read.connection == number]) for number in numbers]


class Message(NamedTuple):
    """A request or a reply as pieces, each with the moment at which it came, in milliseconds."""

    pieces: tuple

    def data(self):
        return b"".join(data for _, data in self.pieces)

    def changed(self, data, size=PIECE):
        """This message with other bytes, all at its last moment, in pieces of this size."""
        moment = self.pieces[-1][0] if self.pieces else 0
        return Message(tuple((moment, data[at:at + size]) for at in range(0, len(data), size)))


class Stream:
    """One direction of a connection: its bytes, and where and when each read of them ended."""

    def __init__(self, reads):
        start = reads[0].moment if reads else 0
        self.data = b"".join(read.data for read in reads)
        self.ends = []
        end = 0
        for read in reads:
            end += len(read.data)
            self.ends.append((end, read.moment - start))

    def message(self, start, end):
        """The bytes from `start` to `end`, cut where the reads were, and at most PIECE together."""
        pieces = []
        at = start
        for read_end, moment in self.ends:
            while at < min(read_end, end):
                to = min(read_end, end, at + PIECE)
                pieces.append((moment, self.data[at:to]))
                at = to
        return Message(tuple(pieces))


class Connection:
    """What was said on one connection. `first_end` is the mark of who ended it first, or None."""

    def __init__(self, reads):
        start = reads[0].moment
        moved = [read._replace(moment=read.moment - start) for read in reads]
        self.client = Stream([read for read in moved if read.mark == ">"])
        self.server = Stream([read for read in moved if read.mark == "<"])
        self.first_end = next((read.mark for read in moved if not read.data), None)


class Case(NamedTuple):
    """A script, the settings that it runs under, and what its replay has to come to."""

    name: str
    settings: str
    script: str
    sent: dict
    last: str


def script_text(side, requests, replies, ended):
    """A script of this side.

    `requests` has a list of messages for each link that asks, `replies` for each that answers; exchange by exchange
    the requests stand before the replies. `ended` is the mark of who ends at last: `>` who asks, `<` who answers.
    """
    copies = max(len(requests), len(replies))
    askers, answerers = ([copies], range(copies)) if side == "incoming" else (range(copies), [copies])
    lines = [f"side {side}"]
    now = 0
    for number in range(len(requests[0])):
        said = [(link, asked[number]) for link, asked in zip(askers, requests)]
        said += [(link, answered[number]) for link, answered in zip(answerers, replies) if number < len(answered)]
        for link, message in said:
            for moment, data in message.pieces:
                now = max(now, moment)
                lines.append(f"{now} piece {link} {data.hex()}")
    if ended is not None:
        lines += [f"{now} end {link}" for link in (askers if ended == ">" else answerers)]
    return "".join(line + "\n" for line in lines)


def joined(messages):
    return b"".join(message.data() for message in messages)


def in_single_bytes(messages):
    return [message.changed(message.data(), 1) for message in messages]


def sent_to(side, askers, answerers, copies=COPIES):
    """What each link is sent, where all askers are sent the same, and all answerers."""
    one, each = (askers, answerers) if side == "incoming" else (answerers, askers)
    return {**{copy: each for copy in range(copies)}, copies: one}


def done_by(side, ended):
    """The last line of a session in which all agree and this side ends."""
    if ended is None:
        return "live"
    return "end Done" if ended == ">" else f"end Closed link {0 if side == 'incoming' else COPIES}"


def run(program, settings, script):
    """Replays a script, and gives what each link was sent, the transcript's last line and the status."""
    done = subprocess.run([*program, "replay", settings, script], stdout=subprocess.PIPE, check=False)
    lines = done.stdout.decode("ascii", "replace").splitlines()
    sent = {}
    for line in lines:
        found = re.fullmatch(r"\d+ to (\d+) ((?:[0-9a-f]{2})+)", line)
        if found:
            link = int(found[1])
            sent[link] = sent.get(link, b"") + bytes.fromhex(found[2])
    return sent, lines[-1] if lines else "nothing", done.returncode


def difference(link, found, due):
    """Where two byte strings part, in words."""
    at = next((i for i, (a, b) in enumerate(zip(found, due)) if a != b), min(len(found), len(due)))
    return (f"link {link} was sent {len(found)} bytes where {len(due)} are due, the same up to byte {at}: "
            f"{found[at:at + 24]!r} for {due[at:at + 24]!r}")


def faults(case, sent, last, status):
    """What differs between a replay and what its case says, in words."""
    told = []
    if not re.fullmatch(case.last, last):
        told.append(f"the last line is {last!r} where {case.last!r} is due")
    if status != (0 if re.fullmatch(r"live|end (Done|Retired|Closed link \d)", last) else 1):
        told.append(f"the status is {status}")
    for link in sorted(set(sent) | set(case.sent)):
        if sent.get(link, b"") != case.sent.get(link, b""):
            told.append(difference(link, sent.get(link, b""), case.sent.get(link, b"")))
    return told


def keep(folder, case):
    """Writes a case as three files: its settings, its script, and what is due."""
    for ending, text in (("toml", case.settings), ("script", case.script)):
        with open(os.path.join(folder, f"{case.name}.{ending}"), "w", encoding="ascii") as file:
            file.write(text)
    due = {"sent": {str(link): data.hex() for link, data in case.sent.items()}, "last": case.last}
    with open(os.path.join(folder, f"{case.name}.json"), "w", encoding="ascii") as file:
        json.dump(due, file)
        file.write("\n")


def kept(folder):
    """The cases that stand in a folder."""
    for name in sorted(os.listdir(folder)):
        if not name.endswith(".json"):
            continue
        texts = []
        for ending in ("toml", "script", "json"):
            with open(os.path.join(folder, f"{name[:-5]}.{ending}"), encoding="ascii") as file:
                texts.append(file.read())
        due = json.loads(texts[2])
        sent = {int(link): bytes.fromhex(data) for link, data in due["sent"].items()}
        yield Case(name[:-5], texts[0], texts[1], sent, due["last"])


def replay_all(program, folder):
    """Replays the cases of a folder, prints a line for each, and gives the number of those that went otherwise."""
    wrong = 0
    for case in kept(folder):
        path = os.path.join(folder, case.name)
        sent, last, status = run(program, f"{path}.toml", f"{path}.script")
        told = faults(case, sent, last, status)
        wrong += bool(told)
        sizes = ", ".join(f"{len(sent.get(link, b''))} to {link}" for link in sorted(case.sent))
        print(f"{case.name}: {last} ({sizes})" + "".join(f"\n    WRONG: {text}" for text in told), flush=True)
    return wrong


def options(description):
    """The words that both recorders take."""
    parser = argparse.ArgumentParser(description=description)
    parser.add_argument("--program", default=os.path.join(ROOT, "rddr"), help="what is run as `PROGRAM replay ..`")
    parser.add_argument("--keep", metavar="FOLDER", help="keep settings, scripts and what is due there")
    parser.add_argument("--again", metavar="FOLDER", help="record nothing, replay what --keep kept there")
    parser.add_argument("--wanted", metavar="WORD", default="", help="record only sessions whose names have WORD")
    parser.add_argument("--only-make", action="store_true", help="make the scripts and replay none")
    return parser


def record_and_replay(given, record):
    """Makes cases by `record`, which yields them, replays them, and gives the status of the tool."""
    folder = given.again or given.keep or tempfile.mkdtemp(prefix="rddr-scripts-")
    try:
        if not given.again:
            os.makedirs(folder, exist_ok=True)
            for case in record():
                keep(folder, case)
                if given.only_make:
                    print(f"{case.name}: due is {case.last}", flush=True)
        wrong = 0 if given.only_make else replay_all([given.program], folder)
    finally:
        if not given.again and not given.keep:
            shutil.rmtree(folder)
    print(f"{wrong} went otherwise" if wrong else "made" if given.only_make else "all as they should", file=sys.stderr)
    return 1 if wrong else 0
