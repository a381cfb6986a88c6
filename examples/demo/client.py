"""The demo's client: `client.py SHOP LEAKY`, each a port of 127.0.0.1. It says of each request what came of it."""

import http.client
import re
import sys

shop, leaky = (int(word) for word in sys.argv[1:])
wrong = 0


def ask(link, method, path, body=None):
    """The page that a request gets, or None where the connection is closed in its place."""
    headers = {"Content-Type": "application/x-www-form-urlencoded"} if body else {}
    try:
        link.request(method, path, body, headers)
        return link.getresponse().read().decode().strip()
    except (http.client.HTTPException, ConnectionError):
        return None


def show(asked, page, is_due, meaning):
    global wrong
    wrong += not is_due
    print(f"{asked}\n    {page if page is not None else '(the connection is closed)'}")
    print(f"    {meaning if is_due else 'WRONG: this is not what the demo is to show'}\n")


def client(port):
    return http.client.HTTPConnection("127.0.0.1", port, timeout=30)


link = client(shop)
page = ask(link, "GET", "/")
show("GET / through rddr", page, page == "<p>Welcome to the shop.</p>", "All three said so: the first one's page goes out.")

page = ask(link, "GET", "/form") or ""
token = re.search('value="([0-9a-f]{32})"', page)
show("GET /form through rddr", page, token, "Each showed a token of its own. The first two are a pair: what they differ "
     "in is masked.")

page = ask(link, "POST", "/order", f"token={token[1] if token else ''}")
show("POST /order with that token, through rddr", page, page == "<p>Ordered.</p>",
     "Each got its own token in its place, and took it.")
link.close()

page = ask(client(leaky), "GET", "/report") or ""
show("GET /report from the third instance itself", page.replace("\n", " "), "admin:" in page,
     "This one leaks: the others show the first paragraph alone.")

page = ask(client(shop), "GET", "/report")
show("GET /report through rddr", page, page is None, "Withheld: not one byte of that page got out, and the session is over.")

page = ask(client(shop), "GET", "/")
show("GET / through rddr, by another client", page, page == "<p>Welcome to the shop.</p>", "Other sessions go on.")

sys.exit(1 if wrong else 0)
