#!/usr/bin/env python3
"""Compares two builds of varn, as before a change and after it, on random VCL texts and random sessions.

    tools/random_vcl.py --before PROGRAM --after PROGRAM [--texts N] [--sessions M] [--seed S]
    tools/random_vcl.py --print [--seed S]     prints one text

A text is drawn from the grammar of docs/VCL.md, with names that are mostly declared and values that mostly fit; in each
second one a token is changed, left out or put twice. Both programs must answer the same kinds at the same places. A
session loads a text that the program before accepts, sends requests and answers each fetch that this program waits for;
both transcripts and both statuses must be the same. The same seed gives the same texts and, with the same program before,
the same sessions; without one it is 1. N and M are 1000 and 100 where neither is said, and 0 where only the other is.
Prints each difference and counts, and ends with 1 where there was a difference, and with 2 where a program can't be run.
"""
import argparse
import collections
import random
import re
import subprocess
import sys

CLIENT = ["vcl_recv", "vcl_hash", "vcl_purge", "vcl_hit", "vcl_miss", "vcl_pass", "vcl_deliver", "vcl_synth"]
BACKEND = ["vcl_backend_fetch", "vcl_backend_response", "vcl_backend_error"]
WORDS = {
    "vcl_recv": ["hash", "pass", "purge", "synth(404)", 'synth(200, "a")', "restart", "fail"],
    "vcl_hash": ["lookup", "fail"], "vcl_purge": ["synth(200)", "restart"], "vcl_hit": ["deliver", "pass", "restart"],
    "vcl_miss": ["fetch", "pass"], "vcl_pass": ["fetch"], "vcl_deliver": ["deliver", "restart"], "vcl_synth": ["deliver"],
    "vcl_backend_fetch": ["fetch", "error(503)", "abandon"], "vcl_backend_response": ["deliver", "pass(10s)", "retry"],
    "vcl_backend_error": ["deliver", "retry"], "vcl_init": ["ok"], "vcl_fini": ["ok"],
}
READ = {
    "STRING": ["req.url", "req.method", "req.http.Host", "req.http.X-A", "client.identity", "bereq.url", "beresp.http.Vary",
               "resp.http.X-B", "resp.reason", "obj.http.ETag"],
    "INT": ["req.restarts", "obj.hits", "beresp.status", "resp.status", "bereq.retries"],
    "DURATION": ["req.ttl", "req.grace", "beresp.ttl", "beresp.grace", "obj.ttl"],
    "BOOL": ["req.is_hitpass", "beresp.uncacheable", "bereq.is_bgfetch", "true", "false"],
    "IP": ["client.ip", "server.ip"],
    "BACKEND": ["req.backend_hint", "bereq.backend", "b0", "b1"],
}
SET = {"STRING": ["req.url", "req.http.X-A", "resp.http.X-B", "beresp.http.X-C", "bereq.http.X-D", "client.identity", "resp.body"],
       "INT": ["beresp.status", "resp.status"], "DURATION": ["req.ttl", "req.grace", "beresp.ttl", "beresp.grace", "beresp.keep"],
       "BOOL": ["req.hash_always_miss", "beresp.uncacheable"], "BACKEND": ["req.backend_hint", "bereq.backend"]}
STRINGS = ['"a"', '"/b"', '""', '"x-[0-9]+"', '"^/c"', '{"long " text"}', '"(a"', '"10.0.0.1"']
# the names by which what VCL sees begins, where it may be used
SEEN = {"vcl_hit": ("obj.",), "vcl_deliver": ("obj.hits", "obj.ttl", "resp."), "vcl_synth": ("resp.",),
        "vcl_backend_response": ("beresp.",), "vcl_backend_error": ("beresp.",)}
CHANGES = ["vcl", "sub", "if", "else", "set", "unset", "call", "new", "return", "import", "none", "b0", "p0", "a0", "s0", "d0", "nobody",
           "vcl_recv", "vcl_init", "req.url", "beresp.ttl", "client.ip", "regsub", "std.tolower", "d0.add_backend", "d0.backend", "hash",
           "1", "1s", "1.5", "-", "+", "==", "~", "!", "&&", "||", "=", "+=", "(", ")", "{", "}", ";", ",", "."] + STRINGS


class Text:
    """A text as a list of tokens."""

    def __init__(self, draw):
        self.draw, self.tokens = draw, []
        self.own, self.seen = [f"s{n}" for n in range(draw.randrange(3))], ("",)

    def say(self, line):
        # a name with its dots, a number with its unit, a string, a sign
        self.tokens += re.findall(r'\{".*?"\}|"[^"]*"|[A-Za-z][\w.-]*|[0-9][0-9.]*[a-z]*|[=!<>+]=|!~|&&|\|\||[^\s\w]', line)

    def one(self, choices):
        return self.draw.choice(choices)

    def chance(self, percent):
        return self.draw.randrange(100) < percent

    def name(self, names):
        """A name, mostly one that may be used in the subroutine."""
        return self.one([name for name in names if self.chance(2) or name.startswith(self.seen)] or names)

    def value(self, kind, deep=2):
        """An expression, mostly of this type."""
        if self.chance(4):
            kind = self.one(list(READ))
        if self.chance(3):
            return self.one(["p0", "a0", "d0", "nobody", "vcl_hash", "none"] + self.own)
        if deep and self.chance(30):
            return self.compound(kind, deep - 1)
        literal = {"STRING": self.one(STRINGS), "INT": str(self.draw.randrange(600)), "DURATION": self.one(["0s", "10s", "1.5m", "1h"])}
        return literal[kind] if kind in literal and self.chance(50) else self.name(READ[kind])

    def compound(self, kind, deep):
        if kind == "STRING":
            return self.one([
                lambda: f"{self.value('STRING', deep)} + {self.value(self.one(list(READ)), deep)}",
                lambda: f"regsub({self.value('STRING', deep)}, {self.one(STRINGS)}, {self.value('STRING', deep)})",
                lambda: f"std.tolower({self.value('STRING', deep)})",
            ])()
        if kind in ("INT", "DURATION"):
            return f"({self.value(kind, deep)} {self.one('+-')} {self.value(kind, deep)})"
        if kind == "BACKEND":
            return self.one(["d0.backend()", "d1.backend(req.url)"])
        return self.condition(deep) if kind == "BOOL" else self.name(READ[kind])

    def condition(self, deep=2):
        if deep and self.chance(40):
            a, b = self.condition(deep - 1), self.condition(deep - 1)
            return self.one([f"({a} && {b})", f"({a} || {b})", f"!({a})"])
        kind = self.one(["STRING", "INT", "DURATION", "BOOL"])
        return self.one([
            lambda: self.value(kind, deep),
            lambda: f"{self.value(kind, deep)} {self.one(['==', '!='])} {self.value(kind, deep)}",
            lambda: f"{self.value('INT', deep)} {self.one(['<', '<=', '>', '>='])} {self.value('INT', deep)}",
            lambda: f"{self.value('STRING', 0)} {self.one(['~', '!~'])} {self.one(STRINGS)}",
            lambda: f"client.ip {self.one(['~', '!~'])} a0",
        ])()

    def statement(self, sub, deep=2):
        kind = self.one(list(SET))
        header = self.name([name for name in SET["STRING"] if ".http." in name])
        choices = [f"set {self.name(SET[kind])} = {self.value(kind)};"] * 4
        choices += [f"unset {header};", f"set {header} += {self.value('STRING')};"]
        choices += [f"call {self.one(self.own)};"] if self.own and sub in CLIENT else []
        choices += [f"return ({self.one(WORDS.get(sub, ['fail']))});"]
        choices += ["hash_data(req.url);"] if sub == "vcl_hash" else ["ban(\"req.url == /a\");"] if sub in CLIENT else []
        if deep and self.chance(25):
            self.say(f"if ({self.condition()})")
            self.block(sub, deep - 1)
            if self.chance(40):
                self.say("else")
                self.block(sub, deep - 1)
        elif self.chance(2):
            self.say(self.one(["new d2 = directors.hash();", "d0.add_backend(b0);", "nobody();"]))
        else:
            self.say(self.one(choices))

    def block(self, sub, deep=2):
        self.say("{")
        for _ in range(self.draw.randrange(4)):
            self.statement(sub, deep)
        self.say("}")

    def item(self, which):
        if which == "acl":
            self.say("acl a0 { \"localhost\"; ! \"10.0.0.1\"; \"10.0.0.0\"/8;" + (' "10.0.0.1";' if self.chance(10) else "") + " }")
        elif which == "probe":
            self.say('probe p0 { .url = "/"; .interval = ' + self.one(["5s", "5s", "5", "p0"]) + "; }")
        elif which == "init":
            self.say("sub vcl_init { new d0 = directors.round_robin(); new d1 = directors.hash(); d0.add_backend(b0); d1.add_backend(b1, 2); }")
        else:
            side = ("bereq.",) if which in BACKEND else ("req.", "client.identity")
            self.seen = side + SEEN.get(which, ()) + ("client.ip", "server.ip", "b0", "b1", "true", "false")
            self.say(f"sub {which}")
            self.block(which)

    def all(self):
        self.say('vcl 4.1; import std; import directors; backend b0 { .host = "127.0.0.1"; .probe = p0; }')
        self.say(self.one(["backend b1 none;", 'backend b1 { .host = "h"; .max_connections = 5; .port = "81"; }']))
        items = ["acl", "probe", "init"] + self.own + self.draw.sample(CLIENT + BACKEND, self.draw.randrange(1, 5))
        self.draw.shuffle(items)
        for which in items:
            if not self.chance(2):
                self.item(which)
        return self.tokens


def text_of(draw, changed):
    tokens = Text(draw).all()
    if changed:
        at = draw.randrange(len(tokens))
        tokens[at:at + 1] = draw.choice([[draw.choice(CHANGES)], [draw.choice(CHANGES)], [], [tokens[at]] * 2])
    return " ".join(tokens)


def quoted(text):
    return '"' + text.replace("\\", "\\\\").replace('"', '\\"').replace("\n", "\\n").replace("\r", "\\r") + '"'


def played(program, session):
    done = subprocess.run([program, "replay"], input=session.encode(), capture_output=True, timeout=120)
    return done.stdout.decode("latin-1"), done.returncode, done.stderr.decode("latin-1")


def answers(program, texts):
    """What the console answers to each text."""
    lines = [f"cli vcl.inline t{n} {quoted(text)}\ncli vcl.discard t{n}\n" for n, text in enumerate(texts)]
    transcript, status, note = played(program, "at 0\n" + "".join(lines) + "end\n")
    said = transcript.splitlines()[0::2]
    if status != 0 or len(said) != len(texts):
        raise OSError(f"{program} ended with {status}, behind {len(said)} of {len(texts)} answers: {note.strip()}")
    return said


def compare_texts(old, new, count, seed):
    draw, wrong, accepted, kinds = random.Random(seed), 0, 0, collections.Counter()
    for first in range(0, count, 20):
        texts = [text_of(draw, n % 2 == 1) for n in range(first, min(first + 20, count))]
        before, after = answers(old, texts), answers(new, texts)
        for text, a, b in zip(texts, before, after):
            accepted += a.startswith('cli "200')
            kinds.update(int(kind) for kind in re.findall(r"VCL refused: (\d+)", a))
            if a != b:
                wrong += 1
                print(f"{text}\n  before: {a}\n  after:  {b}")
    told = ", ".join(f"{count} of kind {kind}" for kind, count in sorted(kinds.items()))
    print(f"{count} texts, {accepted} accepted, {told}; {wrong} answered otherwise")
    return wrong


def session_of(draw, old):
    """A session in which OLD answers all: a reply is written for each fetch that it waits for."""
    text = next(t for t in iter(lambda: text_of(draw, False), None) if answers(old, [t])[0].startswith('cli "200'))
    session = f"at 0\ncli vcl.inline r {quoted(text)}\ncli vcl.use r\n"
    now = 0
    for _ in range(draw.randrange(1, 8)):
        now += draw.choice([0, 5, 1000, 60000])
        head = f"{draw.choice(['GET', 'GET', 'HEAD', 'POST'])} {draw.choice(['/a', '/b', '/c'])} HTTP/1.1\r\nHost: h\r\n"
        session += f"at {now}\nreq {draw.randrange(1, 4)} {quoted(head + draw.choice(['', 'X-A: 1' + chr(13) + chr(10)]) + chr(13) + chr(10))}\n"
        for _ in range(12):
            transcript, status, note = played(old, session + "end\n")
            if status != 3 or "kind 8" not in note:
                break
            fetch = re.findall(r"^fetch (\d+)", transcript, re.M)[-1]
            reply = f"HTTP/1.1 {draw.choice([200, 200, 404, 503])} R\r\nCache-Control: max-age={draw.choice([0, 1, 120])}\r\nContent-Length: 2\r\n\r\nhi"
            session += f"fail {fetch}\n" if draw.randrange(10) == 0 else f"reply {fetch} {quoted(reply)}\n"
    return session + "end\n"


def compare_sessions(old, new, count, seed):
    draw, wrong = random.Random(seed), 0
    for _ in range(count):
        session = session_of(draw, old)
        if played(old, session) != played(new, session):
            wrong += 1
            print(session)
    print(f"{count} sessions, {wrong} played otherwise")
    return wrong


def count_of(text):
    if not text.isdigit():
        raise argparse.ArgumentTypeError(f"{text} is no number")
    return int(text)


def main():
    about = argparse.ArgumentParser(description=__doc__, formatter_class=argparse.RawDescriptionHelpFormatter)
    about.add_argument("--before", metavar="PROGRAM")
    about.add_argument("--after", metavar="PROGRAM")
    about.add_argument("--texts", metavar="N", type=count_of)
    about.add_argument("--sessions", metavar="M", type=count_of)
    about.add_argument("--seed", metavar="S", type=count_of, default=1)
    about.add_argument("--print", action="store_true")
    asked = about.parse_args()
    if asked.print:
        print(text_of(random.Random(asked.seed), False))
        return 0
    if not asked.before or not asked.after:
        about.error("--before and --after name the two programs")
    is_usual = asked.texts is None and asked.sessions is None
    texts, sessions = (1000, 100) if is_usual else (asked.texts or 0, asked.sessions or 0)
    try:
        wrong = compare_texts(asked.before, asked.after, texts, asked.seed) if texts else 0
        wrong += compare_sessions(asked.before, asked.after, sessions, asked.seed) if sessions else 0
    except OSError as error:
        print(f"random_vcl: {error}", file=sys.stderr)
        return 2
    return 1 if wrong else 0


if __name__ == "__main__":
    sys.exit(main())
