"""One instance of the demo's shop: `instance.py PORT NUMBER`. Number 2 has a fault: its report shows a password."""

import http.server
import secrets
import sys
import urllib.parse

number = int(sys.argv[2])
shown = set()


class Shop(http.server.BaseHTTPRequestHandler):
    protocol_version = "HTTP/1.1"

    def answer(self, status, text):
        body = text.encode()
        self.send_response(status)
        self.send_header("Content-Type", "text/html")
        self.send_header("Content-Length", str(len(body)))
        self.end_headers()
        self.wfile.write(body)

    def do_GET(self):
        if self.path == "/form":
            token = secrets.token_hex(16)
            shown.add(token)
            self.answer(200, f'<form method="post" action="/order"><input name="token" value="{token}"></form>\n')
        elif self.path == "/report":
            leak = "<p>admin:correct-horse-battery</p>\n" if number == 2 else ""
            self.answer(200, f"<p>7 orders</p>\n{leak}")
        elif self.path == "/":
            self.answer(200, "<p>Welcome to the shop.</p>\n")
        else:
            self.answer(404, "<p>There is no such page.</p>\n")

    def do_POST(self):
        body = self.rfile.read(int(self.headers["Content-Length"])).decode()
        token = urllib.parse.parse_qs(body).get("token", [""])[0]
        known = token in shown
        self.answer(200 if known else 403, "<p>Ordered.</p>\n" if known else "<p>That token isn't mine.</p>\n")

    def log_message(self, *_):
        pass


http.server.ThreadingHTTPServer(("127.0.0.1", int(sys.argv[1])), Shop).serve_forever()
