#!/usr/bin/env python3
"""Asks varn and Varnish the same, under one VCL and before one backend, and tells where they answer otherwise.

  tools/beside_varnish.py [NAME..]    tools/beside/NAME.vcl with the requests of NAME.asks; without a name all that there are

A request is a line: a method, a target, and behind each ` | ` a field, or `body: TEXT`. Behind `! ` stands one that the two are
known to answer otherwise, as docs/VCL.md says. Compared are the status, the reason and the fields, but those that tell of a
moment, a number or the program's name, and the body where it is the backend's. The exit status is 1 where an answer differs
that isn't known to, or doesn't where it is. It needs varnishd; PROGRAM names varn's program, or it is the one that is built or
kept here.
"""
import http.client
import http.server
import os
import pathlib
import shutil
import socket
import subprocess
import sys
import tempfile
import threading
import time
import urllib.parse

TOP = pathlib.Path(__file__).resolve().parent.parent
CASES = TOP / "tools/beside"
BUILT = ("crates/varn/out/varn", "out/try/varn")
# What tells of a moment, a number, the program, or of how a connection goes on.
PASSED_OVER = set(
    "age date x-varnish server via accept-ranges connection content-length content-type retry-after".split()
)
HOST = "www.example.com"
SECONDS = 60


class Backend(http.server.BaseHTTPRequestHandler):
    """Answers by the target's query: `st` is the status, each `h` a field, `NAME:VALUE`."""

    protocol_version = "HTTP/1.1"

    def answer(self):
        self.rfile.read(int(self.headers.get("Content-Length") or 0))
        target = urllib.parse.urlsplit(self.path)
        asked = urllib.parse.parse_qs(target.query)
        status = int(asked.get("st", ["200"])[0])
        body = b"" if status == 204 else f"made {target.path} for {self.headers.get('Host')}".encode()
        self.send_response(status)
        for field in asked.get("h", []):
            self.send_header(*field.split(":", 1))
        if status != 204:
            self.send_header("Content-Length", str(len(body)))
        self.end_headers()
        if self.command != "HEAD":
            self.wfile.write(body)

    do_GET = do_HEAD = do_POST = do_PUT = do_DELETE = do_PROPFIND = answer

    def log_message(self, *_):
        pass


def free_port():
    with socket.create_server(("127.0.0.1", 0)) as one:
        return one.getsockname()[1]


def answer_of(port, line):
    """What is compared of the answer to the request of a line."""
    first, *fields = line.split(" | ")
    method, target = first.split(" ", 1)
    names = [field.split(":", 1) for field in fields]
    body = next((value.strip().encode() for name, value in names if name == "body"), None)
    link = http.client.HTTPConnection("127.0.0.1", port, timeout=20)
    link.putrequest(method, target, skip_host=True, skip_accept_encoding=True)
    if not any(name == "Host" for name, _ in names):
        link.putheader("Host", HOST)
    for name, value in names:
        if name != "body":
            link.putheader(name, value.strip())
    if body:
        link.putheader("Content-Length", str(len(body)))
    link.endheaders(body)
    reply = link.getresponse()
    text = reply.read()
    link.close()
    shown = sorted(f"{name}: {value}" for name, value in reply.getheaders() if name.lower() not in PASSED_OVER)
    made = [text.decode()] if text.startswith(b"made ") else []
    return [f"{reply.status} {reply.reason}", *shown, *made]


class Server:
    """A server at a port of its own, which answers."""

    def __init__(self, words, said):
        self.port = free_port()
        self.child = subprocess.Popen(words(self.port), stdout=said, stderr=said)
        for _ in range(SECONDS * 10):
            try:
                socket.create_connection(("127.0.0.1", self.port), 5).close()
                return
            except OSError:
                time.sleep(0.1)
            if self.child.poll() is not None:
                break
        self.stop()
        sys.exit(f"beside_varnish: {self.child.args[0]} doesn't listen; it says what in {said.name}")

    def stop(self):
        self.child.terminate()
        self.child.wait()


def compare(varn, varnish, lines):
    """How many answers are otherwise than they are known to be."""
    wrong = 0
    for line in lines:
        known = line.startswith("! ")
        request = line[2:] if known else line
        ours, theirs = (answer_of(server.port, request) for server in (varn, varnish))
        if (ours != theirs) == known:
            continue
        wrong += 1
        print(f"{'the same, and known to differ' if known else 'otherwise'}: {request}")
        if not known:
            print(f"  varn     {' | '.join(ours)}\n  varnish  {' | '.join(theirs)}")
    return wrong


def program():
    named = [os.environ["PROGRAM"]] if "PROGRAM" in os.environ else [str(TOP / path) for path in BUILT]
    found = next((name for name in named if os.access(name, os.X_OK)), None)
    return found or sys.exit("beside_varnish: there is no program; tools/try_server.sh makes one")


def run(name, backend, folder):
    """Both servers under a VCL, asked all that stands beside it."""
    text = (CASES / f"{name}.vcl").read_text(encoding="utf-8")
    vcl = pathlib.Path(folder, f"{name}.vcl")
    vcl.write_text(text.replace('"8080"', f'"{backend}"'), encoding="utf-8")
    lines = [line for line in (CASES / f"{name}.asks").read_text(encoding="utf-8").splitlines() if line]
    ours = [program(), "serve", "--vcl", vcl, "--workers", "4", "--conns", "1000", "--listen"]
    theirs = ["varnishd", "-F", "-j", "none", "-n", f"{folder}/{name}", "-f", vcl, "-a"]
    with open(f"{folder}/said", "wb") as said:
        varn = Server(lambda port: [*ours, str(port)], said)
        varnish = Server(lambda port: [*theirs, f"127.0.0.1:{port}"], said)
        try:
            wrong = compare(varn, varnish, lines)
        finally:
            varn.stop()
            varnish.stop()
    known = sum(line.startswith("! ") for line in lines)
    print(f"{name}: {len(lines)} requests, {known} known to be answered otherwise; {wrong} are otherwise than known")
    return wrong


def main(names):
    if not shutil.which("varnishd"):
        sys.exit("beside_varnish: varnishd is not here")
    backend = http.server.ThreadingHTTPServer(("127.0.0.1", 0), Backend)
    threading.Thread(target=backend.serve_forever, daemon=True).start()
    names = names or sorted(path.stem for path in CASES.glob("*.asks"))
    with tempfile.TemporaryDirectory() as folder:
        return 1 if sum([run(name, backend.server_port, folder) for name in names]) else 0


if __name__ == "__main__":
    sys.exit(main(sys.argv[1:]))
