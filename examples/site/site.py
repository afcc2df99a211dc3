#!/usr/bin/env python3
"""A small site that stands behind the cache: `examples/serve.sh --demo` starts it. Prints its port, and serves until it ends.

  site.py [PORT]    without a port at one that is free

  /, /shoes.html, /hats.html  pages for a minute, with tags in the field xkey, and the time at which they were made
  /style.css, /logo.svg       for an hour, with a cookie that says nothing
  /account                    for the bearer of a cookie `login` alone
  /api/slow                   takes three seconds, for five seconds
  /api/fails                  for two seconds; three times of four it can't be made, and the status is 500
"""
import http.server
import itertools
import json
import mimetypes
import pathlib
import re
import sys
import threading
import time

FOLDER = pathlib.Path(__file__).resolve().parent
TAGS = {"/": "home shoes hats", "/shoes.html": "shoes", "/hats.html": "hats"}
FILES = ("/style.css", "/logo.svg")
SLOW_SECONDS = 3


class Site:
    """What the site answers: a status, fields and a body for each path."""

    def __init__(self):
        self.lock = threading.Lock()
        self.tries = itertools.count()

    def answer(self, path, cookies):
        if path in TAGS:
            return self.page(path)
        if path in FILES:
            return self.file(path)
        if path == "/account":
            return self.account(cookies)
        if path == "/api/slow":
            time.sleep(SLOW_SECONDS)
            return self.data({"made at": now(), "took": f"{SLOW_SECONDS} s"}, "max-age=5")
        if path == "/api/fails":
            return self.failing()
        return 404, {"Cache-Control": "max-age=10"}, b"There is no such page.\n"

    def page(self, path):
        text = (FOLDER / (path[1:] or "index.html")).read_text(encoding="utf-8")
        fields = {"Content-Type": "text/html; charset=utf-8", "Cache-Control": "max-age=60", "xkey": TAGS[path]}
        return 200, fields, text.replace("{{now}}", now()).encode()

    def file(self, path):
        kind = mimetypes.guess_type(path)[0] or "application/octet-stream"
        fields = {"Content-Type": kind, "Cache-Control": "max-age=3600", "Set-Cookie": "seen=1"}
        return 200, fields, (FOLDER / path[1:]).read_bytes()

    def account(self, cookies):
        found = re.search(r"(?:^|; *)login=([A-Za-z0-9]+)", cookies)
        if not found:
            return 403, {"Cache-Control": "private"}, b"Log in first: curl --cookie login=NAME\n"
        return self.data({"account of": found.group(1), "made at": now()}, "private")

    def failing(self):
        with self.lock:
            works = next(self.tries) % 4 == 0
        if not works:
            return 500, {}, b"It can't be made now.\n"
        return self.data({"made at": now()}, "max-age=2")

    @staticmethod
    def data(values, lasting):
        return 200, {"Content-Type": "application/json", "Cache-Control": lasting}, json.dumps(values).encode() + b"\n"


def now():
    return time.strftime("%H:%M:%S")


class Handler(http.server.BaseHTTPRequestHandler):
    protocol_version = "HTTP/1.1"
    server_version = "site"
    site = Site()

    def do_GET(self):
        path = self.path.partition("?")[0]
        status, fields, body = self.site.answer(path, self.headers.get("Cookie", ""))
        self.send_response(status)
        for name, value in fields.items():
            self.send_header(name, value)
        self.send_header("Content-Length", str(len(body)))
        self.end_headers()
        if self.command != "HEAD":
            self.wfile.write(body)

    do_HEAD = do_GET

    def log_message(self, format, *args):
        print(f"the site is asked: {format % args}", file=sys.stderr, flush=True)


def main():
    port = int(sys.argv[1]) if len(sys.argv) > 1 else 0
    server = http.server.ThreadingHTTPServer(("127.0.0.1", port), Handler)
    server.daemon_threads = True
    print(server.server_port, flush=True)
    server.serve_forever()


if __name__ == "__main__":
    main()
