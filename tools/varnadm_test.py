#!/usr/bin/env python3
"""Tries contrib/varnadm against a console that stands in for a server's: it answers as docs/CONSOLE.md has it, keeps what lines it
got, and can end too early, say nothing, or say something else. Prints what goes otherwise; status 1 where something does.

    tools/varnadm_test.py
"""
import pathlib
import socket
import subprocess
import sys
import threading

VARNADM = pathlib.Path(__file__).resolve().parent.parent / "contrib/varnadm"


def answer(status, text):
    """The bytes of an answer."""
    return b"%03d %-8d\n%s\n" % (status, len(text), text)


ANSWERS = {
    b"ping": answer(200, b"PONG 1 1.0"),
    b"vcl.list": answer(200, b"active 0 boot\navailable 2 site"),
    b"vcl.discard site": answer(200, b""),
    b"vcl.use nobody": answer(106, b"No VCL named nobody"),
    b"quit": answer(500, b"Closing CLI connection"),
    b"lost": answer(200, b"0123456789")[:17],
    b"gone": b"",
    b"web": b"HTTP/1.1 400 Bad Request\r\n\r\n",
}


class StandIn:
    """A console that serves one connection after another, in a thread of its own, and keeps the lines that it got."""

    def __init__(self):
        self.listener, self.lines = socket.create_server(("127.0.0.1", 0)), []
        self.port = self.listener.getsockname()[1]
        threading.Thread(target=self.serve, daemon=True).start()

    def serve(self):
        while True:
            link, _ = self.listener.accept()
            with link, link.makefile("rb") as lines:
                line = lines.readline().rstrip(b"\n")
                self.lines.append(line)
                if line == b"mute":
                    lines.readline()
                else:
                    link.sendall(ANSWERS.get(line, answer(200, b"VCL compiled.")))


def main():
    stand_in, wrong = StandIn(), []
    with socket.create_server(("127.0.0.1", 0)) as unused:
        nobody = unused.getsockname()[1]

    def tries(words, line, status, out=b"", said=b"", place=stand_in.port):
        """varnadm with these words sends this line, ends with this status, and writes this."""
        known = len(stand_in.lines)
        done = subprocess.run([VARNADM, "-T", str(place), *words], stdin=subprocess.DEVNULL, capture_output=True, timeout=30, check=False)
        sent = stand_in.lines[known:]
        if (sent, done.returncode, done.stdout) != ([line] if line else [], status, out) or said not in done.stderr:
            wrong.append(words)
            print(f"{words}: sent {sent}, status {done.returncode}, {done.stdout}, {done.stderr}")

    tries(["ping"], b"ping", 0, b"PONG 1 1.0\n")
    tries(["vcl.list"], b"vcl.list", 0, b"active 0 boot\navailable 2 site\n")
    tries(["vcl.discard", "site"], b"vcl.discard site", 0, b"\n")
    tries(["vcl.discard site"], b"vcl.discard site", 0, b"\n", place=f"localhost:{stand_in.port}")
    tries(["vcl.use", "nobody"], b"vcl.use nobody", 1, said=b"106 No VCL named nobody\n")
    tries(["quit"], b"quit", 0, b"Closing CLI connection\n")
    tries(["ban", "obj.http.x", "==", r'a "b\c', ""], rb'ban obj.http.x == "a \"b\\c" ""', 0, b"VCL compiled.\n")
    tries(["ban", "req.url", "~", r"\.png$"], rb'ban req.url ~ "\\.png$"', 0, b"VCL compiled.\n")
    tries([r"ban req.url ~ \\.png$"], rb"ban req.url ~ \\.png$", 0, b"VCL compiled.\n")
    tries(["vcl.inline", "n", "vcl 4.1;\n\tx\r\n"], rb'vcl.inline n "vcl 4.1;\n\tx\r\n"', 0, b"VCL compiled.\n")
    long = "x" * 120_000
    tries(["vcl.inline", "n", long], b"vcl.inline n " + long.encode(), 0, b"VCL compiled.\n")
    tries(["lost"], b"lost", 2, said=b"ended before its answer did")
    tries(["gone"], b"gone", 2, said=b"ended before its answer did")
    tries(["web"], b"web", 2, said=b"is no console of varn")
    tries(["-t", "1", "mute"], b"mute", 2, said=b"no answer within 1 seconds")
    tries(["ping"], None, 2, said=b"no console at 127.0.0.1:", place=nobody)
    tries(["ping\npong"], None, 2, said=b"a command is one line")
    tries([], None, 2, said=b"varnadm [-T [HOST:]PORT]")
    tries(["-t", "x", "ping"], None, 2, said=b"no number of seconds")
    tries(["ping"], None, 2, said=b"is no port", place="here")
    return 1 if wrong else 0


if __name__ == "__main__":
    sys.exit(main())
