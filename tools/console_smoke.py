#!/usr/bin/env python3
"""Tries the console of `varn serve --cli PORT`: starts servers before a backend of its own, and speaks to their consoles as operators
do, over sockets and by contrib/varnadm, while clients ask for pages. A line for each check; status 1 where one fails. What it starts
it ends.

    console_smoke.py [FILE]     the built program; without it the one that PROGRAM names, or else crates/varn/out/varn
"""
import contextlib
import http.client
import os
import pathlib
import re
import signal
import socket
import subprocess
import sys
import tempfile
import threading
import time

TOP = pathlib.Path(__file__).resolve().parent.parent
PATIENCE = 20
SITE = """vcl 4.1;
backend default { .host = "127.0.0.1"; .port = "%d"; }
sub vcl_deliver {
  set resp.http.X-Vcl = "%s";
  if (obj.hits > 0) { set resp.http.X-Cache = "HIT"; } else { set resp.http.X-Cache = "MISS"; }
}
"""
PIPE = "vcl 4.1;\nbackend default none;\nsub vcl_recv { return (pipe); }\n"
COMPILED = (200, "VCL compiled.")


def answer(status, text):
    """The bytes of an answer."""
    return b"%03d %-8d\n%s\n" % (status, len(text), text.encode())


def free_port():
    with socket.create_server(("127.0.0.1", 0)) as unused:
        return unused.getsockname()[1]


def is_soon(condition):
    """Whether the condition comes to hold."""
    until = time.monotonic() + PATIENCE
    while not condition():
        if time.monotonic() > until:
            return False
        time.sleep(0.02)
    return True


class Operator:
    """One connection to a console."""

    def __init__(self, port, host="127.0.0.1"):
        self.link = socket.create_connection((host, port), PATIENCE)
        self.heard = self.link.makefile("rb")

    def __enter__(self):
        return self

    def __exit__(self, *_):
        self.heard.close()
        self.link.close()

    def send(self, text):
        self.link.sendall(text if isinstance(text, bytes) else text.encode())

    def hear(self):
        """The next answer: its status and its text. None where the end comes in its place."""
        head = self.heard.readline()
        if not head:
            return None
        found = re.fullmatch(rb"(\d{3}) (\d+) *\n", head)
        if len(head) != 13 or not found:
            return head
        text = self.heard.read(int(found[2]) + 1)
        return (int(found[1]), text[:-1].decode()) if text.endswith(b"\n") else text

    def ask(self, line):
        self.send(line + "\n")
        return self.hear()

    def ends(self):
        """Whether nothing but the end comes, or a reset where it was still sent."""
        with contextlib.suppress(ConnectionError):
            return self.heard.read() == b""
        return True


class Server:
    """A server with a console, of which clients ask for pages."""

    def __init__(self, program, folder, name, vcl, *words):
        self.port, self.console, self.stop = free_port(), free_port(), folder / f"{name}.stop"
        self.errors, self.rounds, self.counting = folder / f"{name}.errors", 0, threading.Lock()
        with open(self.errors, "wb") as said:
            self.process = subprocess.Popen(
                [program, "serve", "--listen", str(self.port), "--vcl", vcl, "--workers", "3", "--cli", str(self.console), *words],
                stdout=subprocess.PIPE, stderr=said, stdin=subprocess.DEVNULL, env={**os.environ, "VARN_STOP": str(self.stop)})

    def is_up(self):
        def listens():
            if self.process.poll() is not None:
                return True
            return f"listening at 0.0.0.0:{self.port}\n" in self.errors.read_text()
        return is_soon(listens) and self.process.poll() is None

    def get(self, path, host="127.0.0.1"):
        """The status of a page, and its fields X-Cache and X-Vcl."""
        link = http.client.HTTPConnection(host, self.port, timeout=PATIENCE)
        link.request("GET", path, headers={"Connection": "close"})
        page = link.getresponse()
        page.read()
        link.close()
        with self.counting:
            self.rounds += 1
        return page.status, page.getheader("X-Cache"), page.getheader("X-Vcl")

    def says(self, line):
        return self.errors.read_text().splitlines().count(line) == 1

    def end(self):
        """Asks the server to end: its status and what it says."""
        self.stop.touch()
        return self.ended()

    def ended(self):
        try:
            said, _ = self.process.communicate(timeout=3 * PATIENCE)
        except subprocess.TimeoutExpired:
            self.kill()
            return "it doesn't end"
        return self.process.returncode, said.decode()

    def kill(self):
        if self.process.poll() is None:
            self.process.kill()
            self.process.wait()


class Clients:
    """Clients who ask for pages all the while, in a thread of their own."""

    def __init__(self, server):
        self.server, self.seen, self.is_over = server, [], threading.Event()
        self.thread = threading.Thread(target=self.ask, daemon=True)
        self.thread.start()

    def ask(self):
        while not self.is_over.is_set():
            try:
                self.seen.append(self.server.get("/often"))
            except OSError as error:
                self.seen.append((0, str(error), None))

    def stop(self):
        self.is_over.set()
        self.thread.join()
        return self.seen


class Checks:
    """How many checks went well, and how many didn't."""

    def __init__(self):
        self.passed = self.failed = 0

    def that(self, name, is_well, seen=None):
        print(f"{'ok   ' if is_well else 'FAIL '} console: {name}", flush=True)
        if is_well:
            self.passed += 1
        else:
            self.failed += 1
            print(f"      | {seen!r}", flush=True)

    def same(self, name, seen, wanted):
        self.that(name, seen == wanted, (seen, "in place of", wanted))


def check_lines(checks, server):
    """How lines are read and answered."""
    with Operator(server.console) as one:
        told = one.ask("ping")
        found = re.fullmatch(r"PONG (\d+) 1\.0", told[1])
        checks.that("ping tells the moment", told[0] == 200 and found and abs(int(found[1]) - time.time()) < 60, told)
        checks.same("a word that is no command", one.ask("status"), (101, "Unknown request."))
        checks.same("an empty line", one.ask(""), (101, "Unknown request."))
        checks.same("a quote that isn't closed", one.ask('ban "req.url'), (100, "Syntax error"))
        checks.same("too few words", one.ask("vcl.use"), (104, "Too few parameters"))
        checks.same("too many words", one.ask("ping one two"), (105, "Too many parameters"))
        checks.same("a line that ends with CR and LF", one.ask("vcl.use nobody\r"), (106, "No VCL named nobody"))
        one.send("vcl.use n")
        time.sleep(0.5)
        one.send("obody\nnope\nquit\nping\n")
        told = [one.hear(), one.hear(), one.hear(), one.hear()]
        checks.same("lines in pieces and in one, up to quit", told,
                    [(106, "No VCL named nobody"), (101, "Unknown request."), (500, "Closing CLI connection"), None])
    with Operator(server.console) as one:
        one.send("nope\nnope\npin")
        one.link.shutdown(socket.SHUT_WR)
        checks.same("an operator who sends no more gets his answers", one.heard.read(), 2 * answer(101, "Unknown request."))
    with Operator(server.console) as one:
        with contextlib.suppress(ConnectionError):
            one.send(b"x" * 1_048_577)
        checks.same("a line over its limit, and the end", [one.hear(), one.ends()], [(100, "Syntax error"), True])


def check_bans(checks, server):
    """A ban acts on what is stored."""
    seen = [server.get("/banned"), server.get("/banned")]
    checks.same("a page is stored", seen, [(200, "MISS", "first"), (200, "HIT", "first")])
    with Operator(server.console) as one:
        checks.same("no bans yet", one.ask("ban.list"), (200, ""))
        before = time.time()
        checks.same("a ban", one.ask("ban req.url == /banned"), (200, ""))
        checks.same("what is banned isn't given again", server.get("/banned"), (200, "MISS", "first"))
        checks.same("and is stored anew", server.get("/banned"), (200, "HIT", "first"))
        told = one.ask("ban.list")
        found = re.fullmatch(r"(\d+) - req\.url == /banned", told[1])
        checks.that("the ban is shown with its moment", found and before - 1 <= int(found[1]) / 1000 <= time.time() + 1, told)
        told = one.ask("ban req.url")
        checks.that("words that are no ban", told[0] in (104, 106), told)


def check_vcls(checks, server, folder, backend):
    """Rounds begin under the VCL that an operator uses, while clients are served."""
    (folder / "second.vcl").write_text(SITE % (backend, "second"))
    (folder / "pipe.vcl").write_text(PIPE)
    clients = Clients(server)
    with Operator(server.console) as one:
        checks.same("a VCL is loaded from a file", one.ask(f"vcl.load second {folder}/second.vcl"), COMPILED)
        checks.same("its name is taken then", one.ask(f"vcl.load second {folder}/second.vcl"), (106, "Already a VCL named second"))
        checks.same("rounds go on under the first", server.get("/under"), (200, "MISS", "first"))
        checks.same("a VCL is used", one.ask("vcl.use second"), (200, "VCL 'second' now active"))
        checks.same("what is stored is given under it", server.get("/under"), (200, "HIT", "second"))
        checks.same("a file that isn't there", one.ask(f"vcl.load third {folder}/nothing"), (300, f"Cannot read {folder}/nothing"))
        checks.same("a text that is refused", one.ask(f"vcl.load third {folder}/pipe.vcl"), (106, "VCL refused: 5 at 54"))
        checks.same("the active one isn't discarded", one.ask("vcl.discard second"), (300, "VCL second is the active VCL"))
        checks.same("another one is", one.ask("vcl.discard boot"), (200, ""))
        checks.same("and can't be used then", one.ask("vcl.use boot"), (106, "No VCL named boot"))
        seen = clients.stop()
        told = one.ask("vcl.list")
        lines = [re.sub(r" \d+ ", " N ", line) for line in told[1].splitlines()]
        checks.that("the VCLs are listed", told[0] == 200 and "active N second" in lines and "available N boot" not in lines, told)
    vcls = [vcl for status, _, vcl in seen if status == 200]
    checks.that("no client was refused meanwhile", len(vcls) == len(seen) > 0, [page for page in seen if page[0] != 200][:3])
    checks.that("clients had the first VCL and then the second", vcls == sorted(vcls) and {"first", "second"} == set(vcls), set(vcls))


def check_health(checks, server):
    """A backend is sick where an operator says so."""
    with Operator(server.console) as one:
        checks.same("a backend is set sick", one.ask("backend.set_health default sick"), (200, ""))
        checks.same("nothing is fetched from it", server.get("/sick")[0], 503)
        checks.same("it is healthy again", one.ask("backend.set_health default auto"), (200, ""))
        checks.same("and is asked again", server.get("/sick")[0], 200)
        checks.same("a backend that the VCL hasn't", one.ask("backend.set_health nobody sick"), (106, "No backend named nobody"))
        checks.same("no state of health", one.ask("backend.set_health default ill"), (106, "No such state"))


def check_varnadm(checks, server, folder):
    """The script that gives one command."""
    def gives(*words):
        done = subprocess.run([TOP / "contrib/varnadm", "-T", str(server.console), *words], stdin=subprocess.DEVNULL,
                              capture_output=True, timeout=60, check=False)
        return done.returncode, done.stdout.decode(), done.stderr.decode()
    told = gives("ping")
    checks.that("varnadm pings", told[0] == 0 and re.fullmatch(r"PONG \d+ 1\.0\n", told[1]), told)
    checks.same("varnadm sends a VCL", gives("vcl.inline", "sent", (folder / "second.vcl").read_text()), (0, "VCL compiled.\n", ""))
    checks.same("varnadm bans by words", gives("ban", "req.url", "~", r"\.png$"), (0, "\n", ""))
    checks.same("varnadm tells what is refused", gives("vcl.use", "nobody"), (1, "", "106 No VCL named nobody\n"))
    checks.same("varnadm quits", gives("quit"), (0, "Closing CLI connection\n", ""))


def check_queue(checks, server):
    """Operators are served one behind another, at the machine's own address."""
    with Operator(server.console) as first:
        first.ask("ping")
        with Operator(server.console) as second:
            second.send("nope\n")
            second.link.settimeout(0.7)
            try:
                early = second.link.recv(1)
            except TimeoutError:
                early = None
            second.link.settimeout(PATIENCE)
            first.link.close()
            first.heard.close()
            second.heard = second.link.makefile("rb")
            checks.same("a second operator waits until the first has left", (early, second.hear()), (None, (101, "Unknown request.")))
    checks.same("clients come in at all addresses", server.get("/banned", "127.0.0.2")[0], 200)
    try:
        with Operator(server.console, "127.0.0.2"):
            checks.that("operators come in at 127.0.0.1 alone", False)
    except ConnectionRefusedError:
        checks.that("operators come in at 127.0.0.1 alone", True)


def check_end(checks, server):
    """A run ends in order though an operator is there who sends line behind line, and another one waits."""
    with Operator(server.console) as one, Operator(server.console) as other:
        one.ask("ping")

        def press():
            with contextlib.suppress(OSError):
                while True:
                    one.send("ping\n")
                    one.heard.readline()
                    one.heard.readline()
        thread = threading.Thread(target=press, daemon=True)
        thread.start()
        ended = server.end()
        thread.join(PATIENCE)
        checks.same("the run ends in order beside an operator who goes on", ended, (0, f"rounds {server.rounds}\n"))
        checks.that("and ends his connection and that of one who waits", not thread.is_alive() and other.ends())


def check_idle_end(checks, server):
    """A run ends behind its last connection though an operator is there who says nothing."""
    with Operator(server.console) as one:
        one.ask("ping")
        server.get("/last")
        checks.same("the run ends behind its last connection beside an operator who is silent", server.ended(), (0, "rounds 1\n"))
        checks.that("and ends his connection", one.ends())


def check_full(checks, server):
    """A call of the console that doesn't fit the history."""
    with Operator(server.console) as one:
        one.send("ban req.url == /\n")
        checks.that("a ban that doesn't fit the history is answered by the end", one.ends())
    checks.same("and the run's status is 9", server.end()[0], 9)


def check_ports(checks, program, vcl):
    """Ports that can't be had."""
    def ends(port, console):
        words = [program, "serve", "--listen", str(port), "--vcl", vcl, "--workers", "1", "--cli", str(console)]
        done = subprocess.run(words, stdin=subprocess.DEVNULL, capture_output=True, timeout=60, check=False)
        return done.returncode, done.stderr.decode()
    with socket.create_server(("127.0.0.1", 0)) as taken:
        port = taken.getsockname()[1]
        told = ends(free_port(), port)
        checks.that("a console's port that is taken: status 7", told[0] == 7 and f"the console's port {port} can't" in told[1], told)
    port = free_port()
    told = ends(port, port)
    checks.that("one port for clients and operators: status 7", told[0] == 7, told)
    told = ends(port, 65536)
    checks.that("no port: status 2", told[0] == 2 and "no value of --cli: 65536" in told[1], told)


def main():
    program = pathlib.Path((sys.argv[1:] or [os.environ.get("PROGRAM") or TOP / "crates/varn/out/varn"])[0]).resolve()
    checks, servers = Checks(), []
    signal.signal(signal.SIGTERM, lambda *_: sys.exit(1))
    backing = subprocess.Popen([sys.executable, TOP / "tools/smoke_backend.py"], stdout=subprocess.PIPE, stderr=subprocess.DEVNULL)
    try:
        backend = int(backing.stdout.readline())
        with tempfile.TemporaryDirectory() as name:
            folder = pathlib.Path(name)
            vcl = folder / "first.vcl"
            vcl.write_text(SITE % (backend, "first"))

            def begin(title, *words):
                servers.append(Server(program, folder, title, vcl, *words))
                return servers[-1]
            server, counted, full = begin("site"), begin("counted", "--conns", "1"), begin("full", "--history", "60")
            checks.that("servers listen", all([server.is_up(), counted.is_up(), full.is_up()]), server.errors.read_text())
            checks.that("it is told where the console is", server.says(f"console at 127.0.0.1:{server.console}"), server.errors.read_text())
            check_lines(checks, server)
            check_bans(checks, server)
            check_vcls(checks, server, folder, backend)
            check_health(checks, server)
            check_varnadm(checks, server, folder)
            check_queue(checks, server)
            check_end(checks, server)
            check_idle_end(checks, counted)
            check_full(checks, full)
            check_ports(checks, program, vcl)
    finally:
        for server in servers:
            server.kill()
        backing.kill()
        backing.wait()
    print(f"{checks.passed} passed, {checks.failed} failed", flush=True)
    return 1 if checks.failed else 0


if __name__ == "__main__":
    sys.exit(main())
