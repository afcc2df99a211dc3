#!/usr/bin/env python3
"""A backend for tools/smoke.sh and bench/serve.sh: prints the port that it listens at, and answers until it is ended.

  /..         a page that says how often this backend was asked for it
  /old..      one whose Age is 100
  /tag..      one with an ETag: asked with it, the answer is 304
  /chunked..  one in chunks
  /stall..    the front of a page, then nothing for two seconds, then the end of the connection
  /large..    a page of 8,000,000 bytes
  /late..     a page, behind a second of nothing
  /mute..     nothing at all for two seconds, then the end of the connection

A POST is answered by its body. All pages may be stored for an hour, but for the answers to a POST.
"""
import collections
import contextlib
import http.server
import sys
import threading
import time

STALL_SECONDS = 2
LATE_SECONDS = 1
ASKED = collections.Counter()
LOCK = threading.Lock()


def count(path):
    """How often the path was asked for, this time counted."""
    with LOCK:
        ASKED[path] += 1
        return ASKED[path]


class Handler(http.server.BaseHTTPRequestHandler):
    protocol_version = "HTTP/1.1"
    server_version = "backend"

    def answer(self, status, body, *fields):
        """A whole answer, whose fields are in front of the body's length."""
        self.send_response(status)
        for name, value in fields:
            self.send_header(name, value)
        if status != 304:
            self.send_header("Content-Length", str(len(body)))
        self.end_headers()
        if self.command != "HEAD" and status != 304:
            self.wfile.write(body)

    def stall(self):
        """What stood in front is sent, and nothing follows."""
        self.wfile.flush()
        time.sleep(STALL_SECONDS)
        self.close_connection = True

    def chunks(self, *pieces):
        self.send_response(200)
        self.send_header("Cache-Control", "max-age=3600")
        self.send_header("Transfer-Encoding", "chunked")
        self.end_headers()
        for piece in pieces:
            self.wfile.write(b"%x\r\n%s\r\n" % (len(piece), piece))
            self.wfile.flush()
        self.wfile.write(b"0\r\n\r\n")

    def do_GET(self):
        times = count(self.path)
        body = b"%s asked %d times\n" % (self.path.encode(), times)
        lasting = ("Cache-Control", "max-age=3600")
        if self.path.startswith("/old"):
            self.answer(200, body, lasting, ("Age", "100"))
        elif self.path.startswith("/tag"):
            known = self.headers.get("If-None-Match") == '"tag"'
            self.answer(304 if known else 200, body, lasting, ("ETag", '"tag"'))
        elif self.path.startswith("/chunked"):
            self.chunks(b"one ", b"two ", b"three\n")
        elif self.path.startswith("/stall"):
            self.send_response(200)
            self.send_header("Content-Length", "1000")
            self.end_headers()
            self.wfile.write(body)
            self.stall()
        elif self.path.startswith("/late"):
            time.sleep(LATE_SECONDS)
            # who asked has gone meanwhile
            with contextlib.suppress(OSError):
                self.answer(200, body, lasting)
            self.close_connection = True
        elif self.path.startswith("/mute"):
            self.stall()
        elif self.path.startswith("/large"):
            self.answer(200, b"x" * 8_000_000, lasting)
        else:
            self.answer(200, body, lasting)

    do_HEAD = do_GET

    def do_POST(self):
        body = self.rfile.read(int(self.headers.get("Content-Length", 0)))
        self.answer(200, body, ("X-Times", str(count(self.path))))

    def log_message(self, *_):
        pass


def main():
    port = int(sys.argv[1]) if len(sys.argv) > 1 else 0
    server = http.server.ThreadingHTTPServer(("127.0.0.1", port), Handler)
    server.daemon_threads = True
    print(server.server_port, flush=True)
    server.serve_forever()


if __name__ == "__main__":
    main()
