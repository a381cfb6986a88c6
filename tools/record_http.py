#!/usr/bin/env python3
"""Records what HTTP clients say to real servers, makes scripts of it, and replays them.

Clients are curl and headless Chromium; servers are nginx, Apache and lighttpd, each alone and before a small
application of Python's http.server, and that application itself. Each server is started here with a configuration of
its own, in a folder of its own, on a free port of 127.0.0.1, and is ended at the end. A relay between client and
server keeps both directions of each connection.

Each connection becomes scripts of three instances: `equal`; `differing`, with other dates, other names of the server
and chunks of other sizes; `leaking`, with one instance's last body longer than the others'; where a page has a hidden
token, `tokens`, with a token of each instance's own; of a short one `single-bytes`, equal in pieces of one byte; and
`calls`, of three equal callers before a backend. Each reply stands behind its whole request. The client is to be sent
the recorded replies without interim heads (status 100 to 199 but 101), and of the reply that leaks nothing. Of a
reply that is to be refused there is `refused` alone. At last there is `diverse-curl`: nginx twice, Apache and lighttpd
as four instances, under a list of fields that are passed.

Needs Debian's packages curl, chromium, nginx, apache2 and lighttpd; what isn't there is named and left out.
"""

import http.server
import os
import re
import secrets
import shutil
import signal
import subprocess
import sys
import tempfile
import threading
import urllib.parse

from recording import (COPIES, HOST, Case, Relay, done_by, free_port, in_single_bytes, joined, options,
                       record_and_replay, script_text, sent_to, wait_for_port)

SETTINGS = 'version = 1\nincoming = "http"\n'
CALLS = 'version = 1\noutgoing = "http"\n'
DIVERSE = """version = 1
copies = 4
incoming = "http"
http_pass = ["accept-ranges", "etag", "last-modified", "vary"]
"""
FORM = """<!DOCTYPE html>
<html><head><title>Order</title><link rel="icon" href="data:,"></head>
<body><form id="order" method="post" action="/app/form">
<input type="hidden" name="token" value="{token}">
<input name="item" value="a pair of caf&eacute; chairs">
<input type="submit">
</form><script>document.getElementById("order").submit();</script></body></html>
"""
DONE = """<!DOCTYPE html>
<html><head><title>Thanks</title><link rel="icon" href="data:,"></head><body>Ordered: {item}</body></html>
"""


# ---- Messages: RFC 9112, sections 2 to 7


class Head:
    """A start line and fields, from `start` up to `end`."""

    def __init__(self, data, start):
        self.end = data.index(b"\r\n\r\n", start) + 4
        lines = data[start:self.end - 4].split(b"\r\n")
        self.first = lines[0]
        self.fields = [(name.lower(), value.strip(b" \t")) for name, _, value in (x.partition(b":") for x in lines[1:])]

    def value(self, name):
        return next((value for key, value in self.fields if key == name), None)

    def status(self):
        return int(self.first.split(b" ")[1])


def chunks_of(data, at):
    """The contents of the chunks from `at` on, where the last chunk's line begins, and where the trailer ends."""
    contents = []
    while True:
        last_chunk = at
        line_end = data.index(b"\r\n", at)
        size = int(data[at:line_end], 16)
        at = line_end + 2
        if size == 0:
            break
        contents.append(data[at:at + size])
        at += size + 2
    while True:
        line_end = data.index(b"\r\n", at)
        last = line_end == at
        at = line_end + 2
        if last:
            return contents, last_chunk, at


def body_end(data, head, empty, to_the_end):
    """Where the body behind this head ends; a reply without a length goes on to the end."""
    if empty:
        return head.end
    if head.value(b"transfer-encoding") is not None:
        return chunks_of(data, head.end)[2]
    length = head.value(b"content-length")
    if length is None:
        return len(data) if to_the_end else head.end
    if head.end + int(length) > len(data):
        raise ValueError("a body is cut off")
    return head.end + int(length)


def has_no_body(method, status):
    return method == b"HEAD" or 100 <= status < 200 or status in (204, 304)


def is_interim(status):
    return 100 <= status < 200 and status != 101


def reply_end(data, at, method):
    """Where the reply from `at` on ends, the interim ones before it included, and its status."""
    while True:
        head = Head(data, at)
        if head.status() == 101:
            return len(data), 101
        at = body_end(data, head, has_no_body(method, head.status()), True)
        if not is_interim(head.status()):
            return at, head.status()


def cut(connection):
    """The requests of a connection and their replies. A reply 101 is the last, with all that comes behind it."""
    requests, replies = [], []
    asked, answered = connection.client, connection.server
    to, back = 0, 0
    status = None
    while to < len(asked.data) and status != 101:
        end = body_end(asked.data, Head(asked.data, to), False, False)
        requests.append(asked.message(to, end))
        to, start = end, back
        back, status = reply_end(answered.data, back, requests[-1].data().split(b" ")[0])
        replies.append(answered.message(start, back))
    if back != len(answered.data):
        raise ValueError("the server said more than it was asked")
    return requests, replies


def final_start(reply):
    """Where the final head of a reply begins."""
    at = 0
    while is_interim(Head(reply, at).status()):
        at = Head(reply, at).end
    return at


def refusal(reply):
    """The ending that a whole reply is refused with, or None: a switch to another protocol, a CR with no LF."""
    head = Head(reply, final_start(reply))
    if head.status() == 101:
        return "end Unsupported link 0 code 101"
    return "end Malformed link 0" if re.search(rb"\r(?!\n)", reply[:head.end]) else None


def with_body(reply, change, chunk_size):
    """A final reply whose content was changed by `change`, in chunks of this size where it has chunks."""
    head = Head(reply, 0)
    top, rest = reply[:head.end], reply[head.end:]
    if head.value(b"transfer-encoding") is None:
        body = change(rest)
        return re.sub(rb"(?im)^(content-length:[ \t]*)\d+", lambda m: m[1] + str(len(body)).encode(), top) + body
    contents, last_chunk, end = chunks_of(reply, head.end)
    body = change(b"".join(contents))
    chunks = [body[at:at + chunk_size] for at in range(0, len(body), chunk_size)]
    return top + b"".join(b"%x\r\n%s\r\n" % (len(chunk), chunk) for chunk in chunks) + reply[last_chunk:end]


# ---- What copies say, and what is due


def differing(reply, copy):
    """The reply as another instance says it: another date, another name, chunks of another size."""
    data = reply.data()
    start = final_start(data)
    head = Head(data, start)
    top = data[start:head.end]
    top = re.sub(rb"(?im)^(date:).*\r$", rb"\1 Sun, 06 Nov 1994 08:49:%02d GMT\r" % (37 + copy), top)
    top = re.sub(rb"(?im)^(server:).*\r$", rb"\1 another/%d.0\r" % copy, top)
    final = top + data[head.end:]
    if head.value(b"transfer-encoding") is not None:
        final = with_body(final, lambda body: body, 7 if copy == 1 else 5000)
    return reply.changed(data[:start] + final)


def leaking(reply):
    data = reply.data()
    start = final_start(data)
    return reply.changed(data[:start] + with_body(data[start:], lambda body: body + b"4111 1111 1111 1111\n", 4096))


def has_content(request, reply):
    """Whether a reply has a body of some bytes."""
    data = reply.data()
    head = Head(data, final_start(data))
    return not has_no_body(request.data().split(b" ")[0], head.status()) and len(data) > head.end + 5


def as_copied(request):
    """A request as an instance gets it: without Upgrade, with `identity` as its Accept-Encoding."""
    head = Head(request, 0)
    lines = []
    for line in request[:head.end - 2].split(b"\r\n")[:-1]:
        name = line.partition(b":")[0].lower()
        if name == b"upgrade":
            continue
        if name == b"accept-encoding":
            line = re.sub(rb"^([^:]*:[ \t]*).*?[ \t]*$", rb"\1identity", line)
        lines.append(line)
    return b"".join(line + b"\r\n" for line in lines) + b"\r\n" + request[head.end:]


def shown(replies):
    return b"".join(reply.data()[final_start(reply.data()):] for reply in replies)


def story(request, reply):
    """One exchange in a few words."""
    data, head = reply.data(), Head(reply.data(), final_start(reply.data()))
    interim = ["100"] if head.end and final_start(data) else []
    marks = [word for word, name in (("in chunks", b"transfer-encoding"), ("coded", b"content-encoding"))
             if head.value(name) is not None]
    if len(data) > head.end and not marks and head.value(b"content-length") is None:
        marks = ["to the end"]
    asked = request.data().split(b"\r\n")[0].decode().rsplit(" ", 1)[0]
    return f"{asked}: {' '.join([*interim, str(head.status()), *marks])}"


class Session:
    """The exchanges of one connection, and the scripts that are made of them."""

    def __init__(self, name, connection):
        self.name = name
        self.requests, self.replies = cut(connection)
        self.ended = connection.first_end

    def case(self, kind, copies, asked=None, requests=None):
        """A case in which all agree; `asked` has what each copy is asked, where that isn't the same for all."""
        same = b"".join(as_copied(request.data()) for request in self.requests)
        sent = sent_to("incoming", shown(copies[0]), same)
        sent.update(asked or {})
        script = script_text("incoming", [requests or self.requests], copies, self.ended)
        return Case(f"{self.name}-{kind}", SETTINGS, script, sent, done_by("incoming", self.ended))

    def broken_off(self, kind, copies, at, last):
        """A case that ends at this exchange, counted from 0, with nothing of its reply."""
        asked = b"".join(as_copied(request.data()) for request in self.requests[:at + 1])
        script = script_text("incoming", [self.requests], copies, self.ended)
        sent = sent_to("incoming", shown(self.replies[:at]), asked)
        return Case(f"{self.name}-{kind}", SETTINGS, script, sent, last)

    def leak(self):
        """The case in which the last instance leaks in its last reply that has a body, or None."""
        leaks = [n for n in range(len(self.requests)) if has_content(self.requests[n], self.replies[n])]
        if not leaks:
            return None
        copies = [list(self.replies) for _ in range(COPIES)]
        copies[COPIES - 1][leaks[-1]] = leaking(self.replies[leaks[-1]])
        last = rf"end Disagree exchange {leaks[-1] + 1} copy {COPIES - 1} place \d+"
        return self.broken_off("leaking", copies, leaks[-1], last)

    def tokens(self):
        """The case in which each instance's page has a token of its own, or None where no page has one."""
        found = re.search(rb'name="token" value="([0-9a-f]+)"', joined(self.replies))
        if not found or not any(found[1] in request.data() for request in self.requests):
            return None
        own = [found[1]] + [secrets.token_hex(len(found[1]) // 2).encode() for _ in range(1, COPIES)]
        copies = [[reply.changed(reply.data().replace(found[1], own[copy])) for reply in self.replies]
                  for copy in range(COPIES)]
        asked = {copy: b"".join(as_copied(request.data()).replace(found[1], own[copy]) for request in self.requests)
                 for copy in range(COPIES)}
        return self.case("tokens", copies, asked)

    def calls(self):
        """The case of three equal callers before a backend, which are sent interim replies too."""
        script = script_text("outgoing", [self.requests] * COPIES, [self.replies], self.ended)
        sent = sent_to("outgoing", joined(self.replies), joined(self.requests))
        return Case(f"{self.name}-calls", CALLS, script, sent, done_by("outgoing", self.ended))

    def cases(self):
        equal = [self.replies] * COPIES
        refused = [(at, refusal(reply.data())) for at, reply in enumerate(self.replies) if refusal(reply.data())]
        if refused:
            return [self.broken_off("refused", equal, *refused[0])]
        other = [[differing(reply, copy) if copy else reply for reply in self.replies] for copy in range(COPIES)]
        made = [self.case("equal", equal), self.case("differing", other), self.leak(), self.tokens(), self.calls()]
        if len(joined(self.requests) + joined(self.replies)) < 2000:
            single = in_single_bytes(self.replies)
            made.append(self.case("single-bytes", [single] * COPIES, requests=in_single_bytes(self.requests)))
        return [case for case in made if case is not None]


# ---- Servers


class Application(http.server.SimpleHTTPRequestHandler):
    """Static files, a form with a hidden token, uploads, an echo in chunks, a redirect."""

    protocol_version = "HTTP/1.1"

    def log_message(self, *_):
        pass

    def content(self):
        if self.headers.get("Transfer-Encoding", "").lower() != "chunked":
            return self.rfile.read(int(self.headers.get("Content-Length", 0)))
        body = b""
        while True:
            size = int(self.rfile.readline(), 16)
            body += self.rfile.read(size)
            self.rfile.readline()
            if size == 0:
                return body

    def answer(self, status, kind, body, *fields):
        self.send_response(status)
        self.send_header("Content-Type", kind)
        for name, value in fields:
            self.send_header(name, value)
        if self.request_version != "HTTP/1.0":
            self.send_header("Content-Length", str(len(body)))
        self.end_headers()
        self.wfile.write(body)

    def answer_in_chunks(self, body, trailer):
        self.send_response(200)
        self.send_header("Content-Type", "text/plain")
        self.send_header("Transfer-Encoding", "chunked")
        self.end_headers()
        for at in range(0, len(body), 1000):
            chunk = body[at:at + 1000]
            self.wfile.write(b"%x\r\n%s\r\n" % (len(chunk), chunk))
        self.wfile.write(b"0\r\n" + trailer + b"\r\n")

    def do_GET(self):
        if self.path == "/app/form":
            page = FORM.format(token=secrets.token_hex(16)).encode()
            self.answer(200, "text/html; charset=utf-8", page, ("Cache-Control", "no-store"))
        elif self.path in ("/moved", "/app/moved"):
            self.answer(302, "text/plain", b"moved\n", ("Location", "/app/page"))
        elif self.path.startswith("/app/"):
            self.answer(200, "application/json", b'{"id": 17, "name": "caf\\u00e9", "tags": ["a", "b"]}\n')
        else:
            super().do_GET()

    def do_POST(self):
        body = self.content()
        if self.path == "/app/form":
            item = urllib.parse.parse_qs(body.decode()).get("item", ["nothing"])[0]
            self.answer(200, "text/html; charset=utf-8", DONE.format(item=item).encode())
        elif self.path == "/app/echo" and self.request_version != "HTTP/1.0":
            self.answer_in_chunks(body, b"")
        elif self.path == "/app/trailer" and self.request_version != "HTTP/1.0":
            self.answer_in_chunks(body, b"X-Length: %d\r\n" % len(body))
        else:
            self.answer(201, "text/plain", b"took %d bytes\n" % len(body))

    do_PUT = do_POST


class Quiet(http.server.ThreadingHTTPServer):
    """The application's server; a client that goes away is no news."""

    daemon_threads = True

    def handle_error(self, *_):
        pass


def start_application(site):
    def handler(*words):
        return Application(*words, directory=site)

    server = Quiet((HOST, 0), handler)
    threading.Thread(target=server.serve_forever, daemon=True).start()
    return server


NGINX = """daemon off; worker_processes 1; pid {folder}/nginx.pid; error_log {folder}/nginx.log;
{user}
events {{ }}
http {{
  access_log off; types {{ text/html html; text/css css; application/json json; text/plain txt; }}
  client_body_temp_path {folder}/body; proxy_temp_path {folder}/proxy; fastcgi_temp_path {folder}/fastcgi;
  uwsgi_temp_path {folder}/uwsgi; scgi_temp_path {folder}/scgi;
  absolute_redirect off;
  server {{
    listen {host}:{port}; root {site}; autoindex on;
    location /app/ {{ proxy_pass http://{host}:{application}; proxy_http_version 1.1; }}
    location /moved {{ return 302 /index.html; }}
    location /large.txt {{ gzip on; gzip_types text/plain; }}
  }}
}}
"""

APACHE = """ServerRoot {folder}
ServerName {host}
Listen {host}:{port}
PidFile {folder}/apache.pid
ErrorLog {folder}/apache.log
Mutex file:{folder}
{modules}
{user}
TypesConfig /etc/mime.types
DocumentRoot {site}
<Directory {site}>
  Require all granted
  Options Indexes
</Directory>
AddOutputFilterByType DEFLATE text/plain
Redirect /moved /index.html
ProxyPass /app/ http://{host}:{application}/app/
"""

APACHE_MODULES = ("mpm_event", "authz_core", "dir", "mime", "autoindex", "alias", "filter", "deflate", "proxy",
                  "proxy_http")

LIGHTTPD = """server.modules = ("mod_redirect", "mod_proxy")
server.document-root = "{site}"
server.bind = "{host}"
server.port = {port}
server.pid-file = "{folder}/lighttpd.pid"
server.errorlog = "{folder}/lighttpd.log"
server.upload-dirs = ("{folder}")
server.stream-response-body = 1
index-file.names = ("index.html")
dir-listing.activate = "enable"
mimetype.assign = (".html" => "text/html", ".css" => "text/css", ".json" => "application/json", ".txt" => "text/plain")
url.redirect = ("^/moved" => "/index.html")
$HTTP["url"] =~ "^/app/" {{ proxy.server = ("" => (("host" => "{host}", "port" => {application}))) }}
{user}
"""

# For each server its program, its configuration, the words that name the file of it, and whom it runs as under root.
SERVERS = {
    "nginx": ("/usr/sbin/nginx", NGINX, ["-c"], "user nobody nogroup;"),
    "apache": ("/usr/sbin/apache2", APACHE, ["-DFOREGROUND", "-f"], "User nobody\nGroup nogroup"),
    "lighttpd": ("/usr/sbin/lighttpd", LIGHTTPD, ["-D", "-f"],
                 'server.username = "nobody"\nserver.groupname = "nogroup"'),
}


def start_server(name, folder, site, application):
    """Starts a server, and gives it with its port; None where its package isn't here."""
    program, text, words, user = SERVERS[name]
    if not os.path.exists(program):
        return None
    port = free_port()
    modules = "\n".join(f"LoadModule {m}_module /usr/lib/apache2/modules/mod_{m}.so" for m in APACHE_MODULES)
    path = os.path.join(folder, f"{name}.conf")
    with open(path, "w", encoding="ascii") as file:
        file.write(text.format(folder=folder, site=site, host=HOST, port=port, application=application,
                               modules=modules, user=user if os.getuid() == 0 else ""))
    server = subprocess.Popen([program, *words, path], stdout=subprocess.DEVNULL, stderr=subprocess.DEVNULL)
    if not wait_for_port(port):
        server.kill()
        sys.exit(f"{name} did not start")
    return server, port


def make_site(folder):
    """The files that the servers serve."""
    site = os.path.join(folder, "site")
    files = {
        "index.html": "<!DOCTYPE html>\n<title>A shop</title>\n<p>Two chairs, one table.</p>\n",
        "style.css": "p { color: black; }\n",
        "data.json": '{"items": [{"id": 1, "price": "12.50"}, {"id": 2, "price": "3.00"}]}\n',
        "large.txt": "".join(f"line {n} of a longer text\n" for n in range(2000)),
        "files/one.txt": "one\n",
        "files/two.txt": "two\n",
    }
    for name, text in files.items():
        path = os.path.join(site, name)
        os.makedirs(os.path.dirname(path), exist_ok=True)
        with open(path, "w", encoding="ascii") as file:
            file.write(text)
    return site


# ---- Clients


def curl_sessions(site):
    """For each session its name and curl's words, with URL for the server's address."""
    large, small = os.path.join(site, "large.txt"), os.path.join(site, "data.json")
    expect = ["-H", "Expect: 100-continue"]
    return [
        ("keep-alive", ["URL/index.html", "URL/data.json", "URL/style.css", "URL/app/page?id=17&name=caf%C3%A9"]),
        ("expect", [*expect, "--data-binary", f"@{large}", "URL/app/upload"]),
        ("expect-put", [*expect, "-T", small, "URL/app/upload", "--next", "-s", "URL/data.json"]),
        ("chunked", ["-H", "Transfer-Encoding: chunked", "--data-binary", f"@{large}", "URL/app/echo"]),
        ("expect-chunked", [*expect, "-H", "Transfer-Encoding: chunked", "-T", small, "URL/app/echo"]),
        ("multipart", ["-F", "name=Ada", "-F", f"file=@{small}", "URL/app/upload"]),
        ("trailer", ["--data-binary", f"@{small}", "URL/app/trailer", "--next", "-s", "URL/data.json"]),
        ("head", ["-I", "URL/index.html", "URL/large.txt", "--next", "-s", "URL/data.json"]),
        ("redirect", ["-L", "URL/moved", "URL/app/moved"]),
        ("missing", ["URL/nothing", "URL/index.html"]),
        ("listing", ["-L", "URL/files"]),
        ("range", ["-r", "0-99", "URL/large.txt", "--next", "-s", "-r", "9999999-", "URL/large.txt",
                   "--next", "-s", "-r", "0-9,40-49", "URL/large.txt"]),
        ("coded", ["--compressed", "URL/large.txt"]),
        ("old", ["-0", "--data-binary", f"@{small}", "URL/app/echo"]),
        ("upgrade", ["--http2", "URL/index.html"]),
        ("delete", ["-X", "DELETE", "URL/data.json"]),
        ("large", ["URL/large.txt", "URL/large.txt"]),
    ]


def run_curl(words, port, folder):
    given = [word.replace("URL", f"http://{HOST}:{port}", 1) for word in words]
    unread = [word for name in words if name.startswith("URL") for word in ("-o", os.devnull)]
    subprocess.run(["curl", "-q", "-s", "--max-time", "20", "--noproxy", "*", *unread, *given], cwd=folder,
                   stdout=subprocess.DEVNULL, stderr=subprocess.DEVNULL, check=False)


def run_chromium(port, folder):
    """Fetches the form, which the page posts by itself."""
    words = ["--headless", "--no-sandbox", "--disable-gpu", "--disable-dev-shm-usage", "--no-first-run",
             "--disable-background-networking", "--disable-component-update", "--disable-sync",
             "--host-resolver-rules=MAP * ~NOTFOUND , EXCLUDE 127.0.0.1", f"--user-data-dir={folder}/chromium",
             "--virtual-time-budget=4000", "--dump-dom", f"http://{HOST}:{port}/app/form"]
    done = subprocess.run(["chromium", *words], cwd=folder, stdout=subprocess.PIPE, stderr=subprocess.DEVNULL,
                          timeout=60, check=False)
    shutil.rmtree(os.path.join(folder, "chromium"), ignore_errors=True)
    if b"Ordered:" not in done.stdout:
        print("chromium: it did not post the form", file=sys.stderr)


def cases_of(relay, name):
    """The cases of all connections of a relay on which something was asked."""
    relay.wait()
    relay.close()
    spoken = [connection for connection in relay.connections() if connection.client.data]
    for number, connection in enumerate(spoken):
        full = name if len(spoken) == 1 else f"{name}-{number + 1}"
        try:
            session = Session(full, connection)
        except ValueError as error:
            print(f"{full}: left out, {error}", file=sys.stderr)
            continue
        print(f"recorded {full}: {'; '.join(map(story, session.requests, session.replies))}", flush=True)
        yield from session.cases()


def record_at(server, port, folder, site, wanted):
    """The cases of all clients before one server."""
    if shutil.which("curl"):
        for name, words in curl_sessions(site):
            if wanted in f"{server}-curl-{name}":
                relay = Relay(port)
                run_curl(words, relay.port, folder)
                yield from cases_of(relay, f"{server}-curl-{name}")
    if shutil.which("chromium") and wanted in f"{server}-chromium-form":
        relay = Relay(port)
        run_chromium(relay.port, folder)
        yield from cases_of(relay, f"{server}-chromium-form")


def diverse(ports, folder):
    """A case of four instances: the first server twice, and each other one; `ports` are the servers'."""
    words = ["URL/index.html", "URL/app/page", "URL/style.css", "--next", "-s", "-I", "URL/index.html"]
    talks = []
    for port in [ports[0], *ports]:
        relay = Relay(port)
        run_curl(words, relay.port, folder)
        relay.wait()
        relay.close()
        talks.append(cut(relay.connections()[0]))
    copies = [replies for _, replies in talks]
    requests = talks[0][0]
    print(f"recorded diverse-curl: {'; '.join(map(story, requests, copies[0]))}", flush=True)
    asked = b"".join(as_copied(request.data()) for request in requests)
    sent = sent_to("incoming", shown(copies[0]), asked, len(copies))
    return Case("diverse-curl", DIVERSE, script_text("incoming", [requests], copies, ">"), sent, "end Done")


def record(wanted):
    for package in ("curl", "chromium"):
        if not shutil.which(package):
            print(f"{package} is not here: install Debian's package {package}", file=sys.stderr)
    folder = tempfile.mkdtemp(prefix="rddr-http-")
    os.chmod(folder, 0o755)
    if os.getuid() == 0:
        shutil.chown(folder, "nobody", "nogroup")
    site = make_site(folder)
    application = start_application(site)
    servers, ports = [], []
    try:
        yield from record_at("python", application.server_port, folder, site, wanted)
        for name in SERVERS:
            started = start_server(name, folder, site, application.server_port)
            if started is None:
                package = os.path.basename(SERVERS[name][0])
                print(f"{name} is not here: install Debian's package {package}", file=sys.stderr)
                continue
            servers.append(started[0])
            ports.append(started[1])
            yield from record_at(name, started[1], folder, site, wanted)
        if len(ports) == len(SERVERS) and shutil.which("curl") and wanted in "diverse-curl":
            yield diverse(ports, folder)
    finally:
        for server in servers:
            server.send_signal(signal.SIGTERM)
            server.wait(20)
        application.shutdown()
        shutil.rmtree(folder)


def main():
    given = options(__doc__.splitlines()[0]).parse_args()
    return record_and_replay(given, lambda: record(given.wanted))


if __name__ == "__main__":
    sys.exit(main())
