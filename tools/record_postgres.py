#!/usr/bin/env python3
"""Records what psql, pgbench and psycopg2 say to a real PostgreSQL server, and what it says back.

Starts a server of its own as an unprivileged user, in a folder of its own, on 127.0.0.1, puts a relay before
it, and prints each read of the relay as a line: the connection, `>` from the client or `<` from the server, and
the bytes as hex. Lines follow the order of the reads. Stops the server and removes the folder at the end.
With `--table` each line is a row of the table in crates/rd_pg_frame/src/recorded.rt instead.

With `--replay` it records longer sessions instead (psql, `pgbench -S` in its three query modes, psycopg2; the server
asks for no password, a clear one, an MD5 one or SCRAM), makes scripts of each connection, and replays them:

- `equal`, three equal instances, and `single-bytes`, the same in pieces of one byte where it is short: each link is
  sent the recorded bytes; `keys`, instances with keys and versions of their own: the same.
- `changed`, with the last value of a row changed in one instance: nothing of that reply is sent.
- `calls`, three equal callers before a backend, and `changed-call`, one of which calls something else.
- `refused-..`, where something isn't supported: MD5 before instances, SCRAM, COPY, LISTEN, a cancel request.

Needs Debian's package postgresql, and says so where it is not there; python3-psycopg2 where its part isn't to be
left out.
"""

import os
import pwd
import re
import secrets
import shutil
import signal
import subprocess
import sys
import tempfile

from recording import (COPIES, HOST, Case, Relay, done_by, free_port, in_single_bytes, joined, options,
                       record_and_replay, script_text, sent_to, wait_for_port)

SETTINGS = 'version = 1\nincoming = "pg"\n'
CALLS = 'version = 1\noutgoing = "pg"\n'
# Debian's own Python, which has Debian's psycopg2.
PYTHON = "/usr/bin/python3"


def find_programs():
    """The folder of initdb and postgres, newest first, or None."""
    root = "/usr/lib/postgresql"
    versions = os.listdir(root) if os.path.isdir(root) else []
    for version in sorted(versions, key=lambda v: [int(n) for n in v.split(".")], reverse=True):
        folder = os.path.join(root, version, "bin")
        if all(os.path.exists(os.path.join(folder, p)) for p in ("initdb", "postgres", "psql", "pgbench")):
            return folder
    return None


def start_server(programs, user, folder, port, access=""):
    """Makes a database and starts its server as this user. `access` stands before the rules of who may log in."""
    def become():
        os.setsid()
        if os.getuid() == 0:
            os.setgid(user.pw_gid)
            os.setgroups([])
            os.setuid(user.pw_uid)

    data = os.path.join(folder, "data")
    subprocess.run(
        [os.path.join(programs, "initdb"), "-D", data, "-U", "rddr", "-A", "trust", "-E", "UTF8",
         "--locale", "C", "--no-sync"],
        check=True, stdout=subprocess.DEVNULL, preexec_fn=become, cwd=folder)
    rules = os.path.join(data, "pg_hba.conf")
    with open(rules, encoding="ascii") as file:
        text = file.read()
    with open(rules, "w", encoding="ascii") as file:
        file.write(access + text)
    server = subprocess.Popen(
        [os.path.join(programs, "postgres"), "-D", data, "-h", HOST, "-p", str(port), "-k", folder, "-F"],
        stdout=subprocess.DEVNULL, stderr=subprocess.DEVNULL, preexec_fn=become, cwd=folder)
    if wait_for_port(port):
        return server
    server.kill()
    sys.exit("the server did not start")


def record(programs, relay, folder):
    """A start-up with trust, a query, an error, a notice, an extended query, the end."""
    environment = {"PATH": os.environ["PATH"], "PGHOST": HOST, "PGPORT": str(relay.port), "PGUSER": "rddr",
                   "PGDATABASE": "postgres", "PGAPPNAME": "", "PGSSLMODE": "prefer", "LC_ALL": "C"}

    def run(program, *arguments):
        subprocess.run([os.path.join(programs, program), *arguments], env=environment, cwd=folder,
                       stdout=subprocess.DEVNULL, stderr=subprocess.DEVNULL, check=False)
        relay.wait()

    run("psql", "-X", "-q", "-c", "select 1 as one", "-c", "select 1/0",
        "-c", "do $$ begin raise notice 'hello'; end $$", "-c", "")
    script = os.path.join(folder, "script.sql")
    with open(script, "w", encoding="ascii") as file:
        file.write("select 6 * 7 as answer;\n")
    run("pgbench", "-n", "-M", "prepared", "-t", "2", "-f", script)


def row(number, mark, data):
    """A row of a table of Rust, with the bytes as a byte string."""
    text = "".join("\\0" if b == 0 else "\\" + chr(b) if b in b"\"\\" else chr(b) if 32 <= b < 127
                   else "\\n" if b == 10 else f"\\x{b:02x}" for b in data)
    return f"    ({number}, b'{mark}', b\"{text}\"),"


def print_reads(programs, user, folder, port, servers):
    """The short sessions of the table, read by read."""
    servers.append(start_server(programs, user, folder, port))
    relay = Relay(port)
    record(programs, relay, folder)
    relay.close()
    for number, mark, data, _ in relay.reads:
        if data:
            print(row(number, mark, data) if "--table" in sys.argv[1:] else f"{number} {mark} {data.hex()}")


# ---- Messages: the PostgreSQL manual, 'Message Flow' and 'Message Formats'

# Codes of a client's first packet, and of what a server asks for at the start.
PROTOCOL_3 = 196608
CANCEL_REQUEST = 80877102
MD5_PASSWORD = 5
SASL = 10
# The letters of replies that aren't supported: notifications, COPY and function calls.
UNSUPPORTED = b"AGHVWcdv"


def number_at(data, at):
    return int.from_bytes(data[at:at + 4], "big")


def messages_of(data, at):
    """The letter, the beginning and the end of each message from `at` on."""
    while at < len(data):
        end = at + 1 + number_at(data, at + 1)
        if end > len(data):
            raise ValueError("a message is cut off")
        yield data[at:at + 1], at, end
        at = end


def request_end(data, at, is_open):
    """What the request from `at` on is, and where it ends."""
    if is_open:
        kinds = {PROTOCOL_3: "startup", CANCEL_REQUEST: "cancel"}
        return kinds.get(number_at(data, at + 4), "encryption"), at + number_at(data, at)
    for letter, _, end in messages_of(data, at):
        if letter == b"p":
            return "password", end
        if letter == b"X":
            return "farewell", end
        if letter in (b"Q", b"S"):
            return "query", end
    raise ValueError("a request is cut off")


def reply_end(data, at, kind):
    """Where the reply from `at` on ends, and what the client is asked for, or None."""
    if kind in ("farewell", "cancel"):
        return at, None
    if kind == "encryption":
        return at + 1, None
    for letter, start, end in messages_of(data, at):
        if letter == b"R" and number_at(data, start + 5) != 0:
            return end, number_at(data, start + 5)
        if letter == b"Z" or (letter == b"E" and kind != "query"):
            return end, None
    raise ValueError("a reply is cut off")


class Conversation:
    """One connection as requests, their kinds and replies. `code` is the last kind of password that was asked for."""

    def __init__(self, connection):
        self.requests, self.kinds, self.replies = [], [], []
        self.ended = connection.first_end
        self.code = None
        asked, answered = connection.client, connection.server
        to, back = 0, 0
        is_open = True
        while to < len(asked.data) and self.code != SASL:
            kind, end = request_end(asked.data, to, is_open)
            self.kinds.append(kind)
            self.requests.append(asked.message(to, end))
            to, start = end, back
            back, code = reply_end(answered.data, back, kind)
            self.code = code or self.code
            self.replies.append(answered.message(start, back))
            is_open = is_open and kind == "encryption"


def unsupported(data, kind, side):
    """The code of what isn't supported in a reply, or None. An MD5 password has a salt of each server's own."""
    refused = (MD5_PASSWORD, SASL) if side == "incoming" else (SASL,)
    for letter, start, _ in messages_of(data, 0) if kind in ("startup", "password", "query") else ():
        if letter == b"R" and number_at(data, start + 5) in refused:
            return number_at(data, start + 5)
        if letter in UNSUPPORTED:
            return letter[0]
    return None


# ---- What copies say, and what is due


def changed_row(data):
    """A reply in which the last byte of the last value of its rows is another one, or None."""
    at = None
    for letter, start, _ in messages_of(data, 0):
        place = start + 7
        for _ in range(int.from_bytes(data[start + 5:start + 7], "big") if letter == b"D" else 0):
            size = number_at(data, place)
            place += 4 + (0 if size == 2 ** 32 - 1 else size)
            if 0 < size < 2 ** 32 - 1:
                at = place - 1
    return None if at is None else data[:at] + bytes([data[at] ^ 1]) + data[at + 1:]


def with_own_keys(data, copy):
    """A reply to a startup with another key and another version of the server."""
    made = b""
    for letter, start, end in messages_of(data, 0):
        message = data[start:end]
        if letter == b"K":
            message = message[:5] + bytes([7 + copy]) * 8
        elif message[5:].startswith(b"server_version\0"):
            content = re.sub(rb"\0\d+", b"\0%d" % (20 + copy), message[5:])
            message = letter + (4 + len(content)).to_bytes(4, "big") + content
        made += message
    return made


def changed_call(data):
    """A query whose text differs in its last byte but the zero, or None where it has no such text."""
    return data[:-2] + bytes([data[-2] ^ 1]) + data[-1:] if data[:1] == b"Q" and len(data) > 7 else None


class Scripts:
    """The scripts of one conversation."""

    def __init__(self, name, talk):
        self.name, self.talk = name, talk

    def case(self, kind, side, requests, replies):
        """A case in which all agree."""
        talk = self.talk
        script = script_text(side, requests, replies, talk.ended)
        sent = sent_to(side, joined(replies[0]), joined(requests[0]))
        last = "end Done" if talk.kinds[-1] == "farewell" else done_by(side, talk.ended)
        return Case(f"{self.name}-{kind}", SETTINGS if side == "incoming" else CALLS, script, sent, last)

    def broken_off(self, kind, side, requests, replies, at, last):
        """A case that ends at this exchange, counted from 0, with nothing let out that isn't agreed."""
        script = script_text(side, requests, replies, self.talk.ended)
        asked = at if "call" in kind else at + 1
        sent = sent_to(side, joined(self.talk.replies[:at]), joined(self.talk.requests[:asked]))
        return Case(f"{self.name}-{kind}", SETTINGS if side == "incoming" else CALLS, script, sent, last)

    def changed(self, messages, change):
        """The messages of all copies, the last copy's last query or reply to one changed, and which one it is."""
        for at in reversed(range(len(messages))):
            other = change(messages[at].data()) if self.talk.kinds[at] == "query" else None
            if other is not None:
                last = messages[:at] + [messages[at].changed(other)] + messages[at + 1:]
                return at, [messages] * (COPIES - 1) + [last]
        return None

    def refused(self, side, requests, replies):
        """The case of a session of which something isn't supported, or None."""
        asker, answerer = (COPIES, 0) if side == "incoming" else (0, COPIES)
        for at, (kind, reply) in enumerate(zip(self.talk.kinds, self.talk.replies)):
            code = unsupported(reply.data(), kind, side)
            if kind == "cancel":
                last = f"end Unsupported link {asker} code {CANCEL_REQUEST}"
                return self.broken_off(f"refused-call-{side}", side, requests, replies, at, last)
            if code is not None:
                last = f"end Unsupported link {answerer} code {code}"
                return self.broken_off(f"refused-{side}", side, requests, replies, at, last)
        return None

    def incoming(self):
        talk = self.talk
        requests, replies = [talk.requests], [talk.replies] * COPIES
        refused = self.refused("incoming", requests, replies)
        if refused:
            yield refused
            return
        yield self.case("equal", "incoming", requests, replies)
        own = [[reply.changed(with_own_keys(reply.data(), copy)) if copy and kind in ("startup", "password") else reply
                for kind, reply in zip(talk.kinds, talk.replies)] for copy in range(COPIES)]
        yield self.case("keys", "incoming", requests, own)
        if len(joined(talk.requests) + joined(talk.replies)) < 3000:
            single = in_single_bytes(talk.replies)
            yield self.case("single-bytes", "incoming", [in_single_bytes(talk.requests)], [single] * COPIES)
        found = self.changed(talk.replies, changed_row)
        if found:
            at, copies = found
            last = rf"end Disagree exchange {at + 1} copy {COPIES - 1} place \d+"
            yield self.broken_off("changed", "incoming", requests, copies, at, last)

    def outgoing(self):
        talk = self.talk
        requests = [talk.requests] * COPIES
        refused = self.refused("outgoing", requests, [talk.replies])
        if refused:
            yield refused
            return
        yield self.case("calls", "outgoing", requests, [talk.replies])
        found = self.changed(talk.requests, changed_call)
        if found:
            at, copies = found
            last = rf"end Disagree exchange {at + 1} copy {COPIES - 1} place \d+"
            yield self.broken_off("changed-call", "outgoing", copies, [talk.replies], at, last)


# ---- Sessions


# For each way of logging in its user and password, which live as long as the server.
USERS = {"trust": ("rddr", None), **{way: (user, secrets.token_hex(8)) for way, user in
                                     (("password", "clear"), ("md5", "hashed"), ("scram-sha-256", "scrammed"))}}
ACCESS = "".join(f"host all {user} {HOST}/32 {way}\n" for way, (user, _) in USERS.items())
ROLES = "".join(f"""set password_encryption = '{'md5' if way == 'md5' else 'scram-sha-256'}';
create role {user} superuser login password '{password}';
""" for way, (user, password) in USERS.items() if password)
PSQL = """create table people (id int primary key, name text, born date);
insert into people values (1, 'Ada', '1815-12-10'), (2, 'Zoe', null), (3, '', '1906-12-09');
select * from people order by id;
select 1/0;
begin;
update people set name = 'Ada L.' where id = 1;
select name from people where id = 1;
rollback;
select count(*), max(born) from people;
\\d people
drop table people;
"""
SHORT = """select id, name from (values (1, 'Ada'), (2, 'Zoe')) as people (id, name);
"""
COPY = "select 1;\ncopy (select 7) to stdout;\n"
NOTIFY = "listen news;\nnotify news;\n"
PIPELINE = """\\startpipeline
select 1 as one;
select 2 as two;
\\endpipeline
"""
PSYCOPG2 = """
import os, sys, psycopg2
link = psycopg2.connect(sslmode=sys.argv[1])
cursor = link.cursor()
cursor.execute("create temp table t (id int, name text, raw bytea, ok bool)")
cursor.executemany("insert into t values (%s, %s, %s, %s)",
                   [(1, "one", b"\\x00\\xff", True), (2, None, b"", None), (3, "caf\\u00e9", None, False)])
cursor.execute("select * from t order by id")
assert len(cursor.fetchall()) == 3
link.commit()
try:
    cursor.execute("select * from nothing")
except psycopg2.Error:
    link.rollback()
named = link.cursor("walk")
named.itersize = 100
named.execute("select n, repeat('x', n % 50) from generate_series(1, 500) as n")
assert len(list(named)) == 500
named.close()
cursor.execute("do $$ begin raise notice 'hello'; end $$")
link.close()
"""
CANCEL = """
import psycopg2
link = psycopg2.connect()
link.cancel()
link.close()
"""


class Clients:
    """The clients, before one relay each."""

    def __init__(self, programs, folder, port):
        self.programs, self.folder, self.port = programs, folder, port

    def environment(self, way, port):
        user, password = USERS[way]
        words = {"PATH": os.environ["PATH"], "PGHOST": HOST, "PGPORT": str(port), "PGUSER": user,
                 "PGDATABASE": "postgres", "LC_ALL": "C.UTF-8", "HOME": self.folder, "PSQLRC": os.devnull}
        return {**words, "PGPASSWORD": password} if password else words

    def run(self, words, way, port, text=""):
        if not words[0].startswith("/"):
            words = [os.path.join(self.programs, words[0]), *words[1:]]
        return subprocess.run(words, env=self.environment(way, port), cwd=self.folder, input=text.encode(),
                              stdout=subprocess.PIPE, stderr=subprocess.STDOUT, check=False)

    def prepare(self):
        self.run(["psql", "-X", "-q"], "trust", self.port, ROLES)
        done = self.run(["pgbench", "-i", "-q", "-s", "1"], "trust", self.port)
        if done.returncode != 0:
            sys.exit(done.stdout.decode())

    def has_psycopg2(self):
        asked = subprocess.run([PYTHON, "-c", "import psycopg2"], stderr=subprocess.DEVNULL, check=False)
        if asked.returncode != 0:
            print("psycopg2 is not here: install Debian's package python3-psycopg2", file=sys.stderr)
        return asked.returncode == 0

    def sessions(self):
        """For each session its name, the way of logging in, the client's words and its input."""
        psql = ["psql", "-X", "-q", "-P", "pager=off"]
        has_psycopg2 = self.has_psycopg2()
        for way in ("trust", "password", "md5"):
            yield f"{way}-psql", way, psql, PSQL
            yield f"{way}-psql-short", way, psql, SHORT
            yield f"{way}-psql-no-database", way, [*psql, "-d", "nothing"], SHORT
            for mode in ("simple", "extended", "prepared"):
                words = ["pgbench", "-S", "-n", "-M", mode, "-t", "5", "--random-seed=7"]
                yield f"{way}-pgbench-{mode}", way, words, ""
            for mode in ("disable", "prefer") if has_psycopg2 else ():
                yield f"{way}-psycopg2-{mode}", way, [PYTHON, "-c", PSYCOPG2, mode], ""
        yield "trust-pgbench-pipeline", "trust", ["pgbench", "-n", "-M", "extended", "-t", "2", "-f", "-"], PIPELINE
        yield "trust-psql-copy", "trust", psql, COPY
        yield "trust-psql-notify", "trust", psql, NOTIFY
        yield "scram-psql", "scram-sha-256", psql, SHORT
        if has_psycopg2:
            yield "trust-psycopg2-cancel", "trust", [PYTHON, "-c", CANCEL], ""


def story(talk):
    counts = {kind: talk.kinds.count(kind) for kind in dict.fromkeys(talk.kinds)}
    sizes = f"{len(joined(talk.requests))} bytes asked, {len(joined(talk.replies))} answered"
    asked = f", asked for a password of kind {talk.code}" if talk.code else ""
    return ", ".join(f"{count} {kind}" for kind, count in counts.items()) + asked + "; " + sizes


def cases_of(relay, name):
    """The cases of all connections of a relay."""
    relay.wait()
    relay.close()
    spoken = [connection for connection in relay.connections() if connection.client.data]
    for number, connection in enumerate(spoken):
        full = name if len(spoken) == 1 else f"{name}-{number + 1}"
        try:
            talk = Conversation(connection)
        except ValueError as error:
            print(f"{full}: left out, {error}", file=sys.stderr)
            continue
        print(f"recorded {full}: {story(talk)}", flush=True)
        yield from Scripts(full, talk).incoming()
        yield from Scripts(full, talk).outgoing()


def record_sessions(programs, user, folder, port, servers, wanted):
    servers.append(start_server(programs, user, folder, port, ACCESS))
    clients = Clients(programs, folder, port)
    clients.prepare()
    for name, way, words, text in clients.sessions():
        if wanted in name:
            relay = Relay(port)
            clients.run(words, way, relay.port, text)
            yield from cases_of(relay, name)


def with_server(work):
    """Runs `work` with the programs, the user, a folder, a port and a list for the server, and clears up behind it."""
    programs = find_programs()
    if programs is None:
        sys.exit("PostgreSQL is not here: install Debian's package postgresql")
    user = pwd.getpwuid(os.getuid())
    if user.pw_uid == 0:
        user = pwd.getpwnam("nobody")
    folder = tempfile.mkdtemp(prefix="rddr-postgres-")
    os.chmod(folder, 0o755)
    shutil.chown(folder, user.pw_uid, user.pw_gid)
    servers = []
    try:
        return work(programs, user, folder, free_port(), servers)
    finally:
        for server in servers:
            server.send_signal(signal.SIGINT)
            server.wait(20)
        shutil.rmtree(folder)


def main():
    parser = options(__doc__.splitlines()[0])
    parser.add_argument("--table", action="store_true", help="print the reads as rows of a table of Rust")
    parser.add_argument("--replay", action="store_true", help="record longer sessions, make scripts and replay them")
    given = parser.parse_args()
    if not (given.replay or given.again or given.keep or given.only_make):
        return with_server(print_reads)
    return record_and_replay(given, lambda: with_server(
        lambda *place: list(record_sessions(*place, given.wanted))))


if __name__ == "__main__":
    sys.exit(main())
