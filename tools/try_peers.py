#!/usr/bin/env python3
"""Tries `rddr run` between real clients and real servers on 127.0.0.1, and compares with what comes without it.

- `http`: curl, and wrk with 31 connections, and then a 33rd client, before three nginx.
- `browser`: headless Chromium fetches a form from the three nginx and posts it.
- `forms`: curl with a cookie jar, and Chromium, fetch a form over one connection and post it over another, before three
  nginx that close each connection, each before an application that takes its own tokens and cookies alone.
- `postgres`: psql, `pgbench -S` in its three query modes, pgbench's own script with one client, and psycopg2, before
  three PostgreSQL servers, of which one then loses a backend to a KILL.
- `calls`: three curl and three psql call one nginx and one PostgreSQL server through the outgoing side.
- `trouble`: a port that is taken, a client that stops reading, one that sends a byte a second, 200 clients at once, a
  backend that closes, an instance that is killed amid a reply, one that is down; what stays open behind them, and what
  32 idle sessions cost.
- `notes`: an operator's pages by curl, the file of notes by SQLite, a second start over it, a file that is no such
  database.

Words choose parts; without any all are tried. What isn't installed (Debian's nginx-light, wrk, chromium, postgresql,
python3-psycopg2) is named and left out. `--binary FILE` serves a program that is built already, as the package does.
`--untimed` shows how long things take, and judges none by it.
The last line says how much went as it should, and how much didn't.
"""

import argparse
import contextlib
import http.client
import http.cookies
import http.server
import json
import os
import pwd
import re
import secrets
import shutil
import signal
import socket
import sqlite3
import subprocess
import sys
import tempfile
import threading
import time
import urllib.parse

import record_http
import record_postgres
from peers import Proxy, Results, command_of, is_here, run
from recording import COPIES, HOST, ROOT, free_port, wait_for_port

PARTS = ("http", "browser", "forms", "postgres", "calls", "trouble", "notes")
SESSIONS = 32
MEGA_LINES = 65_536  # of 16 bytes each


# ---- HTTP


class WebServers:
    """Three equal nginx before one small application."""

    def __init__(self, folder):
        self.site = record_http.make_site(folder)
        with open(os.path.join(self.site, "mega.txt"), "w", encoding="ascii") as file:
            file.write("".join(f"{n:015}\n" for n in range(MEGA_LINES)))
        self.application = record_http.start_application(self.site)
        self.servers = []
        program, text, words, user = record_http.SERVERS["nginx"]
        lasting = text.replace("absolute_redirect off;", "absolute_redirect off; keepalive_requests 1000000;")
        record_http.SERVERS["lasting"] = (program, lasting, words, user)
        for number in range(COPIES):
            own = os.path.join(folder, f"nginx-{number}")
            os.mkdir(own)
            os.chmod(own, 0o777)
            self.servers.append(record_http.start_server("lasting", own, self.site, self.application.server_port))

    def ports(self):
        return [port for _, port in self.servers]

    def end(self):
        for server, _ in self.servers:
            server.terminate()
            server.wait(20)
        self.application.shutdown()


def curl(port, words, folder):
    """What curl prints of these words: of each URL its body and its status. Parts of several ranges stand between words
    that each nginx counts by itself."""
    given = [word.replace("URL", f"http://{HOST}:{port}", 1) for word in words]
    text = run(["curl", "-q", "-s", "--max-time", "50", "-w", "\n%{http_code}\n", *given], cwd=folder)
    return re.sub(rb"0{12,}\d+", b"PART", text.replace(f":{port}".encode(), b":PORT"))


def try_curl(results, proxy, servers, folder):
    mega = os.path.join(servers.site, "mega.txt")
    sessions = record_http.curl_sessions(servers.site)
    sessions += [("1 MiB", ["URL/mega.txt"]), ("1 MiB posted", ["--data-binary", f"@{mega}", "URL/app/echo"])]
    for name, words in sessions:
        # A head has a date, so only the status is compared.
        if name == "head":
            words = ["-I", "-o", os.devnull, *words[1:2]]
        alone = [curl(port, words, folder) for port in servers.ports()]
        results.same(f"curl, {name}", curl(proxy.port, words, folder), alone[0])


def try_wrk(results, proxy):
    results.same("sessions are over", proxy.settled(proxy.idle), proxy.idle)
    # One connection less than there may be sessions: wrk tries one first, whose session may still end as they come.
    connections = SESSIONS - 1
    text = run(["wrk", "-t2", f"-c{connections}", "-d2s", "--timeout", "20s", f"http://{HOST}:{proxy.port}/index.html"])
    lines = text.decode().splitlines()
    faults = [line.strip() for line in lines if "Non-2xx" in line or "Socket errors" in line]
    rate = [line.strip() for line in lines if "Requests/sec" in line]
    results.say(f"wrk, {connections} connections", rate and not faults, "; ".join(rate + faults) or text.decode())
    results.same("sessions are over", proxy.settled(proxy.idle), proxy.idle)
    idle = [socket.create_connection((HOST, proxy.port)) for _ in range(SESSIONS)]
    time.sleep(1)
    with socket.create_connection((HOST, proxy.port)) as one_more:
        one_more.settimeout(5)
        results.say("a 33rd client is turned away", one_more.recv(1) == b"")
    for one in idle:
        one.close()


def try_http(results, program, folder):
    if not is_here("nginx", "curl"):
        return
    servers = WebServers(folder)
    try:
        proxy = Proxy(program, folder, "http", servers.ports(), unit_max=4_194_304, gather_ms=60_000)
        try_curl(results, proxy, servers, folder)
        if is_here("wrk"):
            try_wrk(results, proxy)
        proxy.stop(results)
    finally:
        servers.end()


def chromium(folder, name, port):
    """What headless Chromium shows behind the form that it fetches and posts."""
    words = ["--headless", "--no-sandbox", "--disable-gpu", "--disable-dev-shm-usage", "--no-first-run",
             "--disable-background-networking", "--disable-component-update", "--disable-sync",
             "--host-resolver-rules=MAP * ~NOTFOUND , EXCLUDE 127.0.0.1", "--virtual-time-budget=8000"]
    own = [f"--user-data-dir={folder}/chromium-{name}", "--dump-dom", f"http://{HOST}:{port}/app/form"]
    shown = run(["chromium", *words, *own], cwd=folder, env={**os.environ, "HOME": folder})
    return (re.findall(rb"Ordered:.*", shown) or [shown])[-1]


def try_browser(results, program, folder):
    if not is_here("nginx", "chromium"):
        return
    servers = WebServers(folder)
    try:
        proxy = Proxy(program, folder, "http", servers.ports())
        pages = [chromium(folder, number, port) for number, port in enumerate((proxy.port, servers.ports()[0]))]
        results.say("chromium posts a form", pages[0].startswith(b"Ordered:"), pages[0].decode(errors="replace")[-300:])
        results.same("chromium, the page behind the form", *(re.sub(rb"[0-9a-f]{16,}", b"TOKEN", one) for one in pages))
        proxy.stop(results)
    finally:
        servers.end()


class Shop(record_http.Application):
    """A form with a token, and a cookie, of this instance's own; an order is taken only with both."""

    def do_GET(self):
        token, visit = secrets.token_hex(16), secrets.token_hex(16)
        self.server.given.add((token, visit))
        self.answer(200, "text/html; charset=utf-8", record_http.FORM.format(token=token).encode(),
                    ("Cache-Control", "no-store"), ("Set-Cookie", f"visit={visit}; Path=/"))

    def do_POST(self):
        fields = urllib.parse.parse_qs(self.content().decode())
        cookies = http.cookies.SimpleCookie(self.headers.get("Cookie", ""))
        shown = tuple(fields.get("token", [])) + tuple(cookie.value for cookie in cookies.values())
        if shown in self.server.given:
            self.answer(200, "text/html; charset=utf-8", record_http.DONE.format(item="chairs").encode())
        else:
            self.answer(403, "text/plain", b"Not mine.\n")


def start_shop(folder, number):
    """An nginx that closes each connection, before a shop of its own."""
    shop = record_http.Quiet((HOST, 0), Shop)
    shop.given = set()
    threading.Thread(target=shop.serve_forever, daemon=True).start()
    program, text, words, user = record_http.SERVERS["nginx"]
    record_http.SERVERS["closing"] = (program, text.replace("absolute_redirect off;", "keepalive_timeout 0;"), words, user)
    own = os.path.join(folder, f"closing-{number}")
    os.mkdir(own)
    os.chmod(own, 0o777)
    return shop, *record_http.start_server("closing", own, own, shop.server_port)


def order(folder, name, asked, port):
    """What curl is answered that fetches a form from the first of these ports and posts it to the second."""
    jar, words = os.path.join(folder, f"jar-{name}"), ["curl", "-q", "-s", "--max-time", "20"]
    page = run([*words, "-c", jar, f"http://{HOST}:{asked}/app/form"])
    token = re.search(rb'name="token" value="([0-9a-f]+)"', page)
    if not token:
        return page
    return run([*words, "-b", jar, "-d", f"token={token[1].decode()}&item=chairs", f"http://{HOST}:{port}/app/form"])


def try_forms(results, program, folder):
    if not is_here("nginx", "curl"):
        return
    shops = [start_shop(folder, number) for number in range(COPIES)]
    ports = [port for _, _, port in shops]
    try:
        proxy = Proxy(program, folder, "http", ports)
        results.say("an instance takes no token of another", b"Not mine." in order(folder, "other", ports[0], ports[1]))
        for number in range(3):
            shown = order(folder, number, proxy.port, proxy.port)
            results.say(f"curl posts a form over another connection, {number + 1}", b"Ordered: chairs" in shown,
                        shown.decode(errors="replace")[-300:])
        if is_here("chromium"):
            shown = chromium(folder, "forms", proxy.port)
            results.say("chromium posts a form over another connection", shown.startswith(b"Ordered:"),
                        shown.decode(errors="replace")[-300:])
        results.same("sessions are over", proxy.settled(proxy.idle), proxy.idle)
        proxy.stop(results)
    finally:
        for shop, server, _ in shops:
            server.terminate()
            server.wait(20)
            shop.shutdown()


# ---- PostgreSQL


class Databases:
    """Equal PostgreSQL servers, with pgbench's tables."""

    def __init__(self, folder, count):
        self.programs = record_postgres.find_programs()
        user = pwd.getpwnam("postgres") if os.getuid() == 0 else pwd.getpwuid(os.getuid())
        self.servers, self.ports = [], []
        for number in range(count):
            own = os.path.join(folder, f"postgres-{number}")
            os.mkdir(own)
            os.chown(own, user.pw_uid, user.pw_gid)
            self.ports.append(free_port())
            self.servers.append(record_postgres.start_server(self.programs, user, own, self.ports[-1]))
            self.call(self.ports[-1], "pgbench", "-i", "-q")

    def environment(self, port):
        return {"PATH": os.environ["PATH"], "PGHOST": HOST, "PGPORT": str(port), "PGUSER": "rddr",
                "PGDATABASE": "postgres", "LC_ALL": "C", "PGGSSENCMODE": "disable"}

    def call(self, port, program, *words):
        return run([os.path.join(self.programs, program), *words], env=self.environment(port), cwd="/")

    def ask(self, port, *queries):
        return self.call(port, "psql", "-X", *(word for query in queries for word in ("-c", query)))

    def end(self):
        for server in self.servers:
            server.send_signal(signal.SIGQUIT)
            server.wait(20)


QUERIES = ("select 1 as one", "select 1/0", "select n, repeat('x', n) from generate_series(1, 500) n",
           "do $$ begin raise notice 'hello'; end $$", "select abalance from pgbench_accounts where aid = 7")

DRIVER = """
import psycopg2
link = psycopg2.connect("")
with link, link.cursor() as one:
    one.execute("select %s::int + 1, %s::text, %s::date", (41, "caf\\u00e9", "2026-12-01"))
    print(one.fetchall())
    one.execute("create temporary table kept (n int, t text)")
    one.executemany("insert into kept values (%s, %s)", [(n, "x" * n) for n in range(50)])
    one.execute("select count(*), sum(length(t)) from kept")
    print(one.fetchone())
try:
    with link, link.cursor() as one:
        one.execute("insert into kept values (100, 'lost')")
        one.execute("select no_such_column from kept")
except psycopg2.Error as error:
    print(error.pgcode, str(error).splitlines()[0])
with link, link.cursor() as one:
    one.execute("select max(n) from kept")
    print(one.fetchone())
link.close()
"""


def with_driver():
    """A Python that has psycopg2: this one, or Debian's. None where neither has it."""
    for python in (sys.executable, "/usr/bin/python3"):
        if os.path.exists(python) and run([python, "-c", "import psycopg2"]).endswith(b"status 0"):
            return python
    return None


def try_pgbench(results, databases, proxy):
    for mode in ("simple", "extended", "prepared"):
        text = databases.call(proxy.port, "pgbench", "-n", "-S", "-M", mode, "-c", "16", "-j", "2", "-T", "2")
        rate = next((line for line in text.decode().splitlines() if line.startswith("tps")), text.decode())
        results.say(f"pgbench -S -M {mode}, 16 clients", text.endswith(b"status 0"), rate)
    text = databases.call(proxy.port, "pgbench", "-n", "-c", "1", "-t", "50")
    results.say("pgbench, 1 client", text.endswith(b"status 0"), "" if text.endswith(b"0") else text.decode())
    sums = "select count(*), sum(delta) from pgbench_history", "select sum(abalance) from pgbench_accounts"
    without = [databases.ask(port, *sums) for port in databases.ports]
    results.say("each instance wrote the same", without == without[:1] * COPIES and b"   50 |" in without[0])
    results.same("and so it is read", databases.ask(proxy.port, *sums), without[0])


def try_lost_backend(results, databases, proxy):
    environment, psql = databases.environment(proxy.port), os.path.join(databases.programs, "psql")
    words = [psql, "-X", "-c", "select pg_sleep(30)"]
    waiting = subprocess.Popen(words, env=environment, stdout=subprocess.PIPE, stderr=subprocess.STDOUT, cwd="/")
    mine = "select 'pid ' || pid from pg_stat_activity where query like 'select pg_sleep%'"
    found = None
    for _ in range(50):
        found = found or re.search(rb"pid (\d+)", databases.ask(databases.ports[2], mine))
        time.sleep(0.1)
    began = time.monotonic()
    os.kill(int(found[1]), signal.SIGKILL)
    waiting.communicate(timeout=60)
    seconds = time.monotonic() - began
    results.say("an instance loses a backend amid a reply", waiting.returncode != 0 and results.is_within(seconds, 10),
                f"psql ended with status {waiting.returncode} after {seconds:.1f} s")
    for _ in range(100):
        if databases.ask(databases.ports[2], "select 1").endswith(b"status 0"):
            break
        time.sleep(0.1)
    results.same("psql once it is back", *(databases.ask(port, *QUERIES) for port in (proxy.port, databases.ports[0])))


def try_postgres(results, program, folder):
    if not record_postgres.find_programs():
        print("left out: postgresql not installed", flush=True)
        return
    databases = Databases(folder, COPIES)
    try:
        proxy = Proxy(program, folder, "pg", databases.ports, gather_ms=40_000)
        results.same("psql", *(databases.ask(port, *QUERIES) for port in (proxy.port, databases.ports[0])))
        python = with_driver()
        if python:
            seen = [run([python, "-c", DRIVER], env=databases.environment(port))
                    for port in (proxy.port, databases.ports[0])]
            results.same("psycopg2", *seen)
            results.say("psycopg2, the last line", b"(49,)\n\nstatus 0" in seen[0])
        else:
            print("left out: python3-psycopg2 not installed", flush=True)
        try_pgbench(results, databases, proxy)
        try_lost_backend(results, databases, proxy)
        results.same("sessions are over", proxy.settled(proxy.idle), proxy.idle)
        proxy.stop(results)
    finally:
        databases.end()


# ---- Calls


def at_once(commands, **more):
    """The outputs of commands that run at the same time."""
    started = [subprocess.Popen(words, stdout=subprocess.PIPE, stderr=subprocess.STDOUT, **more) for words in commands]
    return [process.communicate(timeout=60)[0] for process in started]


def curls(ports, path):
    return at_once([["curl", "-q", "-s", "--max-time", "40", f"http://{HOST}:{port}{path}"] for port in ports])


def try_calls(results, program, folder):
    if is_here("nginx", "curl"):
        servers = WebServers(folder)
        try:
            proxy = Proxy(program, folder, "http", servers.ports(), servers.ports()[0], unit_max=4_194_304)
            for path in ("/index.html", "/large.txt", "/data.json", "/nothing"):
                due = curls(servers.ports()[:1], path) * COPIES
                results.say(f"three curl call one nginx, {path}", curls(proxy.callers, path) == due)
            proxy.stop(results)
        finally:
            servers.end()
    if record_postgres.find_programs():
        databases = Databases(folder, 1)
        try:
            port = databases.ports[0]
            proxy = Proxy(program, folder, "pg", [port] * COPIES, port)
            psql = os.path.join(databases.programs, "psql")
            where = [f"host={HOST} port={one} user=rddr dbname=postgres gssencmode=disable" for one in proxy.callers]
            call = "update pgbench_accounts set abalance = abalance + 1 where aid = 3 returning abalance"
            for number in (1, 2):
                seen = at_once([[psql, "-X", "-q", "-c", call, one] for one in where])
                text = seen[0].decode()
                is_one = len(set(seen)) == 1 and f"\n        {number}\n" in text
                results.say(f"three psql, one update, {number}", is_one, "" if is_one else str(seen))
            proxy.stop(results)
        finally:
            databases.end()


# ---- Trouble


class Instance(http.server.BaseHTTPRequestHandler):
    """What a server in trouble answers: a page, half of one and then nothing, or nothing and an end."""

    protocol_version = "HTTP/1.1"

    def do_GET(self):
        body = b"All is well.\n" if self.path != "/large" else b"A line of a large page.\n" * 640
        if self.path == "/close":
            self.close_connection = True
            return
        self.send_response(200)
        self.send_header("Content-Length", str(len(body)))
        self.end_headers()
        if self.path == "/half":
            self.wfile.write(body[:4])
            time.sleep(60)
        self.wfile.write(body)

    def log_message(self, *_):
        pass


class Instances:
    """Three such servers, each a process of its own."""

    def __init__(self):
        self.ports = [free_port() for _ in range(COPIES)]
        self.processes = [self.start(port) for port in self.ports]

    @staticmethod
    def start(port):
        process = subprocess.Popen([sys.executable, __file__, "--instance", str(port)], stdin=subprocess.DEVNULL,
                                   stderr=subprocess.DEVNULL)
        if not wait_for_port(port):
            sys.exit("an instance did not start")
        return process

    def kill(self, number):
        self.processes[number].kill()
        self.processes[number].wait(20)

    def begin_again(self, number):
        self.processes[number] = self.start(self.ports[number])

    def end(self):
        for number in range(COPIES):
            self.kill(number)


def page(port, path="/"):
    """What a client of its own gets: the status, or how it ended, and after how many seconds."""
    began = time.monotonic()
    link = http.client.HTTPConnection(HOST, port, timeout=30)
    try:
        link.request("GET", path)
        seen = link.getresponse()
        shown = (seen.status, len(seen.read()))
    except (http.client.HTTPException, ConnectionError) as error:
        shown = type(error).__name__
    finally:
        link.close()
    return shown, time.monotonic() - began


CLOSED = ("RemoteDisconnected", "ConnectionResetError", "BrokenPipeError")


class Bystander:
    """A client that keeps its connection, and is to be served all the while."""

    def __init__(self, port):
        self.link = http.client.HTTPConnection(HOST, port, timeout=30)

    def is_served(self):
        self.link.request("GET", "/")
        seen = self.link.getresponse()
        return (seen.status, seen.read()) == (200, b"All is well.\n") and self.link.sock is not None


def seconds_to_close(link, most):
    """How long until the peer has closed, and what it sent before."""
    began = time.monotonic()
    link.settimeout(most)
    got = b""
    try:
        while more := link.recv(65_536):
            got += more
    except TimeoutError:
        return None, got
    except ConnectionError:
        pass
    return time.monotonic() - began, got


def try_slow_clients(results, proxy, bystander):
    unread = socket.socket()
    unread.setsockopt(socket.SOL_SOCKET, socket.SO_RCVBUF, 4_096)
    unread.connect((HOST, proxy.port))
    unread.sendall(b"GET /large HTTP/1.1\r\nHost: a\r\n\r\n" * 400)
    slow = socket.create_connection((HOST, proxy.port))
    began = time.monotonic()
    for byte in b"GET / HTTP/1.1\r\n":
        try:
            slow.sendall(bytes([byte]))
        except ConnectionError:
            break
        results.wrong += not bystander.is_served()
        time.sleep(1)
    seconds = time.monotonic() - began
    results.say("a client that sends a byte a second", 2 <= seconds and results.is_within(seconds, 6),
                f"closed after {seconds:.0f} s")
    due = (proxy.idle[0] + COPIES + 2, proxy.idle[1] + COPIES + 1)
    results.same("a client that stops reading: its session is over", proxy.settled(due), due)
    results.say("others beside them", bystander.is_served())
    slow.close()
    unread.close()


def try_many(results, proxy, bystander):
    many = [socket.create_connection((HOST, proxy.port)) for _ in range(200)]
    for one in many:
        one.sendall(b"GET / HTTP/1.1\r\nHost: a\r\nConnection: close\r\n\r\n")
    ended = [seconds_to_close(one, 20) for one in many]
    served = sum(b"All is well." in got for _, got in ended)
    turned = sum(got == b"" and seconds is not None for seconds, got in ended)
    for one in many:
        one.close()
    results.say("200 clients at once", served >= SESSIONS - 1 and served + turned == 200,
                f"{served} served, {turned} turned away")
    results.say("others beside them", bystander.is_served())


def try_idle(results, proxy):
    idle = [socket.create_connection((HOST, proxy.port)) for _ in range(SESSIONS)]
    time.sleep(2)
    spent, began = proxy.processor_seconds(), time.monotonic()
    time.sleep(8)
    share = (proxy.processor_seconds() - spent) / (time.monotonic() - began)
    threads = proxy.counts()[0]
    results.say(f"{SESSIONS} idle sessions use under 2 % of a core",
                results.is_within(share, 0.02) and threads > SESSIONS * 4, f"{share:.1%}, {threads} threads")
    for one in idle:
        one.close()
    results.same("no thread and no descriptor is left", proxy.settled(proxy.idle), proxy.idle)


def try_instances(results, proxy, instances):
    hanging = socket.create_connection((HOST, proxy.port))
    hanging.sendall(b"GET /half HTTP/1.1\r\nHost: a\r\n\r\n")
    time.sleep(1)
    instances.kill(2)
    seconds, got = seconds_to_close(hanging, 10)
    results.say("an instance that is killed amid a reply", seconds is not None and got == b"",
                f"closed after {seconds or 10:.1f} s, {len(got)} bytes before")
    shown, seconds = page(proxy.port)
    results.say("an instance that is down", shown in CLOSED and results.is_within(seconds, 3),
                f"{shown} after {seconds:.1f} s")
    instances.begin_again(2)
    results.same("once it is back", page(proxy.port)[0], (200, 13))
    results.same("no thread and no descriptor is left", proxy.settled(proxy.idle), proxy.idle)


def try_backend(results, proxy):
    seen = curls(proxy.callers, "/close")
    results.say("a backend that closes", seen == [b""] * COPIES)
    results.say("the calls behind it", curls(proxy.callers, "/") == [b"All is well.\n"] * COPIES)
    one = socket.create_connection((HOST, proxy.callers[0]))
    seconds, got = seconds_to_close(one, 10)
    results.say("a caller to whom no other comes", seconds is not None and results.is_within(seconds, 5),
                f"closed after {seconds or 10:.1f} s")
    results.say("the calls behind it", curls(proxy.callers, "/") == [b"All is well.\n"] * COPIES)
    results.same("no thread and no descriptor is left", proxy.settled(proxy.idle), proxy.idle)


def try_trouble(results, program, folder):
    if not is_here("curl"):
        return
    instances = Instances()
    try:
        proxy = Proxy(program, folder, "http", instances.ports, instances.ports[0], request_ms=2_000, gather_ms=3_000)
        taken = subprocess.run([program, "run", proxy.settings], stdin=subprocess.DEVNULL, stderr=subprocess.PIPE,
                               timeout=60, check=False)
        results.say("a port that is taken", taken.returncode == 7 and b"status 7" in taken.stderr,
                    f"status {taken.returncode}, {taken.stderr.decode().strip()}")
        bystander = Bystander(proxy.port)
        results.say("before any other trouble", bystander.is_served())
        try_slow_clients(results, proxy, bystander)
        try_many(results, proxy, bystander)
        bystander.link.close()
        results.same("no thread and no descriptor is left", proxy.settled(proxy.idle), proxy.idle)
        try_idle(results, proxy)
        try_instances(results, proxy, instances)
        try_backend(results, proxy)
        proxy.stop(results)
    finally:
        instances.end()


# ---- notes and pages


def asked(proxy, path, *words):
    """What an operator is answered: the status and the body."""
    given = ["curl", "-q", "-s", "--max-time", "10", "-w", " %{http_code}", *words]
    given += [f"http://{HOST}:{proxy.operator}{path}"]
    body, status = subprocess.run(given, stdout=subprocess.PIPE, timeout=20, check=False).stdout.decode().rsplit(" ", 1)
    return int(status), json.loads(body)


def in_time(ask, due):
    """What it answers, once that is what is due, or in the end."""
    for _ in range(60):
        seen = ask()
        if seen == due:
            break
        time.sleep(0.5)
    return seen


def ids_of(answer):
    return [note["id"] for note in answer[1]["sessions"]]


def kept(records):
    with contextlib.closing(sqlite3.connect(records)) as file:
        return file.execute("SELECT id, side, dialect, exchanges, code FROM sessions ORDER BY id").fetchall()


def try_pages(results, proxy):
    none = {"exchanges": 0, "masked": 0, "sessions": 0, "unkept": 0}
    results.same("nobody came yet", asked(proxy, "/totals"), (200, none))
    for _ in range(3):
        page(proxy.port)
    all_three = (200, {**none, "exchanges": 3, "sessions": 3})
    results.same("the totals", in_time(lambda: asked(proxy, "/totals"), all_three), all_three)
    results.same("the notes", ids_of(asked(proxy, "/sessions")), [1, 2, 3])
    results.same("the notes from an id on", ids_of(asked(proxy, "/sessions/from/2")), [2, 3])
    one = asked(proxy, "/sessions/2")[1]
    results.same("a note", [one[key] for key in ("id", "side", "dialect", "exchanges", "code")], [2, 0, 1, 1, 0])
    results.say("its moments", 0 <= time.time() * 1000 - one["ended"] < 60_000 and one["began"] <= one["ended"])
    refused = [asked(proxy, path)[0] for path in ("/sessions/9", "/nothing", "/sessions/x")]
    results.same("no such note, no such page, no id", refused, [404, 404, 400])
    results.same("another method", asked(proxy, "/live", "-X", "POST")[0], 405)
    bystander = Bystander(proxy.port)
    results.say("a client beside them", bystander.is_served())
    results.same("a session that runs", asked(proxy, "/live"), (200, {"live": 1}))
    silent = socket.create_connection((HOST, proxy.operator))
    results.say("a client beside a silent operator", bystander.is_served())
    seconds, got = seconds_to_close(silent, 10)
    results.say("a silent operator", seconds is not None and got == b"", f"closed after {seconds or 10:.1f} s")
    bystander.link.close()
    results.same("its session is over", in_time(lambda: asked(proxy, "/live"), (200, {"live": 0})), (200, {"live": 0}))


def try_other_file(results, program, proxy, folder):
    """A file that is no database, under the name of one that keeps notes."""
    with open(proxy.settings, encoding="ascii") as file:
        text = file.read().replace("notes.db", "other.db")
    other, settings = os.path.join(folder, "other.db"), os.path.join(folder, "other.toml")
    for name, said in ((other, "no database"), (settings, text)):
        with open(name, "w", encoding="ascii") as file:
            file.write(said)
    done = subprocess.run([program, "run", settings], stdin=subprocess.DEVNULL, stderr=subprocess.PIPE, timeout=60,
                          check=False)
    results.say("a file that is no database", done.returncode == 4 and b"status 4" in done.stderr,
                f"status {done.returncode}, {done.stderr.decode().strip()}")
    with open(other, encoding="ascii") as file:
        results.same("it is left as it was", file.read(), "no database")


def try_notes(results, program, folder):
    if not is_here("curl"):
        return
    instances = Instances()
    records = os.path.join(folder, "notes.db")
    try:
        proxy = Proxy(program, folder, "http", instances.ports, records=records)
        try_pages(results, proxy)
        proxy.stop(results)
        wanted = [(number, 0, 1, 1 if number < 4 else 2, 0) for number in range(1, 5)]
        results.same("the file's notes", kept(records), wanted)
        proxy = Proxy(program, folder, "http", instances.ports, records=records)
        page(proxy.port)
        due = [1, 2, 3, 4, 5]
        seen = in_time(lambda: ids_of(asked(proxy, "/sessions")), due)
        results.same("a second start goes on behind them", seen, due)
        proxy.stop(results)
        try_other_file(results, program, proxy, folder)
    finally:
        instances.end()


def main():
    parser = argparse.ArgumentParser(description=__doc__.splitlines()[0])
    parser.add_argument("parts", nargs="*", metavar="PART", help=f"of {', '.join(PARTS)}")
    program = parser.add_mutually_exclusive_group()
    program.add_argument("--program", default=os.path.join(ROOT, "rddr"), help="what is run as `PROGRAM run SETTINGS`")
    program.add_argument("--binary", metavar="FILE", help="the built program, which tools/serving.sh starts")
    parser.add_argument("--untimed", action="store_true", help="show how long things take, and judge none by it")
    parser.add_argument("--instance", type=int, metavar="PORT", help="be one of the servers of `trouble`")
    given = parser.parse_args()
    if given.instance:
        http.server.ThreadingHTTPServer((HOST, given.instance), Instance).serve_forever()
    parts = {"http": try_http, "browser": try_browser, "forms": try_forms, "postgres": try_postgres, "calls": try_calls,
             "trouble": try_trouble, "notes": try_notes}
    results = Results(given.untimed)
    for name in given.parts or PARTS:
        began = time.monotonic()
        folder = tempfile.mkdtemp(prefix="rddr-peers-")
        os.chmod(folder, 0o755)
        try:
            parts[name](results, command_of(given.binary, folder) if given.binary else given.program, folder)
        finally:
            shutil.rmtree(folder, ignore_errors=True)
        print(f"{name}: {time.monotonic() - began:.0f} s", flush=True)
    print(f"peers: {results.right} passed, {results.wrong} failed", flush=True)
    return 1 if results.wrong else 0


if __name__ == "__main__":
    sys.exit(main())
