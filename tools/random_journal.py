#!/usr/bin/env python3
"""Writes a random journal of a lawful history: a small model of the cache answers each call, apart from varn.

    tools/random_journal.py [--entries N] [--objects K] [--segment M] [--seed S] [--bad]

Callers begin rounds, look up K pages, wait for each other's fetches, insert, are refused, drop and end; beside them come bans on
objects and on requests, lists of bans, purges and draws. A segment ends behind M entries, once nothing is open. All objects serve
for the whole journal. With --bad one reply is another one than the model's, and the last line on standard error says which:
`varn audit` has to tell `line L kind 5`. N is 1000, K 20, M 500, S 1 where they aren't said.
"""
import argparse
import random
import sys

FIRST = 'varn 1 1000000000000 1073741824 "vcl 4.1; backend default { .host = \\"127.0.0.1\\"; }" 1 "default"'
CALLERS = 6


class Model:
    """The cache: objects newest first, each with the bans that it has still to be tested on."""

    def __init__(self, draw, pages):
        self.draw, self.pages = draw, pages
        self.next, self.issued, self.moment = 1, 0, 0
        self.objects = []  # [number, page, pending]
        self.bans = []     # (number, words, test), the newest first
        self.rounds = {}   # caller -> the token that it waits for, or None
        self.fetches = {}  # token -> (caller, page)

    def drawn(self):
        self.next += 1
        return self.next - 1

    def begin(self, caller):
        if caller in self.rounds:
            return "begin", "noround"
        self.rounds[caller] = None
        return "begin", f"began {self.drawn()} 1"

    def lookup(self, caller):
        page = self.draw.randrange(self.pages)
        call = f'lookup 2 "/{page}" "h" "/{page}" 1 "Host" "h" 0 0 0 - -'
        if caller not in self.rounds:
            return call, "noround"
        # each object of the page is tested on what waits for it, up to the first that none of these takes away
        found, kept = None, []
        for it in self.objects:
            if it[1] == page and found is None:
                if any(test(page) for _, test in it[2]):
                    continue
                it[2] = []
                found = it[0]
            kept.append(it)
        self.objects = kept
        if found is not None:
            return call, f"hit {found}"
        # one fetch for a page is waited for
        busy = [token for token, (_, other) in self.fetches.items() if other == page]
        if busy:
            self.rounds[caller] = max(busy)
            return call, f"wait {max(busy)}"
        token = self.drawn()
        self.fetches[token] = (caller, page)
        return call, f"miss {token} -"

    def insert(self, caller, token):
        page = self.fetches[token][1] if token in self.fetches else 0
        body = "b" * self.draw.randrange(8)
        call = (f'insert {token} o 2 "/{page}" "h" 0 200 "OK" 1 "X-Varnish" "{token}" "{body}" '
                f"{self.moment} 1000000000000 10000 0 0 -")
        if self.fetches.get(token, (None,))[0] != caller:
            return call, "notopen"
        del self.fetches[token]
        if self.draw.random() < 0.1:
            return call, "refused"
        self.objects.insert(0, [token, page, []])
        return call, f"stored {token}"

    def drop(self, caller, token):
        if self.fetches.get(token, (None,))[0] != caller:
            return f"drop {token}", "notopen"
        del self.fetches[token]
        return f"drop {token}", "dropped"

    def end(self, caller):
        if caller not in self.rounds:
            return "end", "noround"
        del self.rounds[caller]
        return "end", "ended"

    def ban(self):
        self.issued += 1
        if self.draw.random() < 0.3:
            number = self.draw.randrange(1, self.next + 1)
            words = f'3 "obj.http.X-Varnish" "==" "{number}"'
            self.objects = [it for it in self.objects if it[0] != number]
        else:
            page = self.draw.randrange(self.pages)
            words = f'3 "req.url" "==" "/{page}"'
            for it in self.objects:
                it[2] = [(self.issued, lambda other, page=page: other == page)] + it[2]
        self.bans.insert(0, (self.issued, words))
        return f"ban {words}", "banned"

    def ban_list(self):
        # each ban, the newest first, completed where it may be or isn't, at random; or those alone that wait
        if self.draw.random() < 0.5:
            awaited = {number for it in self.objects for number, _ in it[2]}
            lines = [(number, 0) for number, _ in self.bans if number in awaited]
        else:
            seen, lines = set(), []
            for number, words in self.bans:
                lines.append((number, int(words in seen and self.draw.random() < 0.5)))
                seen.add(words)
        return "banlist", " ".join([f"bans {len(lines)}"] + [f"{number} {completed}" for number, completed in lines])

    def purge(self):
        page = self.draw.randrange(self.pages)
        left = [it for it in self.objects if it[1] != page]
        count = len(self.objects) - len(left)
        self.objects = left
        return f'purge 2 "/{page}" "h"', f"purged {count}"

    def waits(self, caller):
        """Whether the caller may not look up: its newest lookup was told to wait for a fetch that is open."""
        return self.rounds.get(caller) in self.fetches

    def closing(self):
        """A call that closes something, if something is open."""
        for token, (caller, _) in self.fetches.items():
            return caller, (self.insert if self.draw.random() < 0.8 else self.drop)(caller, token)
        for caller in self.rounds:
            return caller, self.end(caller)
        return None

    def any_call(self):
        caller = self.draw.randrange(1, CALLERS + 1)
        mine = [token for token, (other, _) in self.fetches.items() if other == caller]
        word = self.draw.choices(["begin", "lookup", "close", "end", "beside", "draw"], [4, 12, 8, 3, 1, 1])[0]
        if word == "beside":
            word = self.draw.choices(["ban", "banlist", "purge"], [5, 1 if len(self.bans) < 50 else 0, 2])[0]
            return 0, {"ban": self.ban, "banlist": self.ban_list, "purge": self.purge}[word]()
        if word == "lookup" and not self.waits(caller):
            return caller, self.lookup(caller)
        if word == "close" and mine:
            return caller, (self.insert if self.draw.random() < 0.9 else self.drop)(caller, mine[0])
        if word == "close" and self.draw.random() < 0.05:
            return caller, self.drop(caller, self.draw.randrange(1, self.next + 1))
        if word == "end" and not mine:
            return caller, self.end(caller)
        if word == "draw":
            if caller not in self.rounds:
                return caller, ("draw", "noround")
            return caller, ("draw", f"drawn {self.drawn()}")
        return caller, self.begin(caller)


def wrong(draw, reply):
    """Another reply, that no lawful history has there."""
    words = reply.split(" ")
    if words[0] in ("hit", "began", "drawn", "wait", "stored", "purged"):
        words[1] = str(int(words[1]) + 1 + draw.randrange(3))
        return " ".join(words)
    if words[0] == "miss":
        return f"miss {int(words[1]) + 1} -"
    return "noroom" if words[0] != "noroom" else "ended"


def main():
    read = argparse.ArgumentParser(description=__doc__, formatter_class=argparse.RawDescriptionHelpFormatter)
    read.add_argument("--entries", type=int, default=1000)
    read.add_argument("--objects", type=int, default=20)
    read.add_argument("--segment", type=int, default=500)
    read.add_argument("--seed", type=int, default=1)
    read.add_argument("--bad", action="store_true")
    asked = read.parse_args()
    draw = random.Random(asked.seed)
    model = Model(draw, asked.objects)
    bad = draw.randrange(asked.entries) if asked.bad else None
    out, line, count, segment = sys.stdout, 1, 0, 0
    out.write(FIRST + "\n")
    while count < asked.entries:
        caller, (call, reply) = (segment >= asked.segment and model.closing()) or model.any_call()
        line, count, segment = line + 1, count + 1, segment + 1
        if count - 1 == bad:
            reply = wrong(draw, reply)
            print(f"line {line} kind 5", file=sys.stderr)
        out.write(f"e {caller} {model.moment} {call} = {reply}\n")
        if draw.random() < 0.3:
            model.moment += draw.randrange(1000)
        if segment >= asked.segment and not model.rounds and not model.fetches:
            out.write("cut\n")
            line, segment = line + 1, 0
    out.write("close\n")


main()
