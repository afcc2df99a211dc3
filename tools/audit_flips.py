#!/usr/bin/env python3
"""Turns one byte of a journal, again and again, and tells which of the texts that come of it are still told to be legal.

    tools/audit_flips.py --program PROGRAM [--flips N] [--replies M] [--seed S] JOURNAL..

PROGRAM is a built varn; each JOURNAL has to be legal to it. N times a byte of one of them becomes another one, at least M times in
the reply of an entry, and `varn audit` reads that. For each text that is told to be legal, prints its line as it was and as it is: why
that is the line of another lawful history is for the reader to say. What is told is held to two things: no line before the one with
the byte is bad, and standard error says what was expected where standard output says `line L kind K`. N is 1000, M 300 and S 1 where
they aren't said. Ends with 1 where one of these fails, and with 2 where a journal isn't legal.
"""
import argparse
import collections
import random
import re
import subprocess
import sys

LEGAL = re.compile(rb"legal [0-9]+\n")
BAD = re.compile(rb"line ([0-9]+) kind ([1-7])\n")


def audit(program, text):
    told = subprocess.run([program, "audit"], input=text, stdout=subprocess.PIPE, stderr=subprocess.PIPE, check=False)
    return told.returncode, told.stdout, told.stderr


def reply_places(text):
    """The places of the bytes of replies."""
    places, at = [], 0
    for line in text.split(b"\n"):
        if line.startswith(b"e "):
            places += range(at + line.rindex(b" = ") + 3, at + len(line))
        at += len(line) + 1
    return places


def line_at(text, number):
    return text.split(b"\n")[number - 1].decode("latin-1")


def main():
    read = argparse.ArgumentParser(description=__doc__, formatter_class=argparse.RawDescriptionHelpFormatter)
    read.add_argument("--program", required=True)
    read.add_argument("--flips", type=int, default=1000)
    read.add_argument("--replies", type=int, default=300)
    read.add_argument("--seed", type=int, default=1)
    read.add_argument("journals", nargs="+")
    asked = read.parse_args()
    draw = random.Random(asked.seed)
    texts = [open(name, "rb").read() for name in asked.journals]
    for name, text in zip(asked.journals, texts):
        status, out, err = audit(asked.program, text)
        if status != 0 or not LEGAL.fullmatch(out):
            print(f"{name}: {status} {out!r} {err!r}")
            return 2
    replies = [reply_places(text) for text in texts]
    told, legal, faults = collections.Counter(), 0, 0
    for count in range(asked.flips):
        in_reply = count < asked.replies
        which = draw.choice([number for number, places in enumerate(replies) if places or not in_reply])
        text = texts[which]
        place = draw.choice(replies[which]) if in_reply else draw.randrange(len(text))
        turned = draw.choice([byte for byte in range(256) if byte != text[place]])
        other = text[:place] + bytes([turned]) + text[place + 1:]
        number = text.count(b"\n", 0, place) + 1
        status, out, err = audit(asked.program, other)
        where = f"{asked.journals[which]} line {number} byte {place}"
        bad = BAD.fullmatch(out)
        if status == 0 and LEGAL.fullmatch(out):
            legal += 1
            print(f"{where}: legal\n  was {line_at(text, number)}\n  is  {line_at(other, number)}")
        elif status == 10 and bad and int(bad[1]) >= number and err.startswith(b"line " + bad[1] + b": "):
            told["kind " + bad[2].decode()] += 1
        else:
            faults += 1
            print(f"{where}: {status} {out!r} {err!r}")
    print(f"{asked.flips} bytes turned, {asked.replies} or more of them in replies: {legal} legal, {faults} told otherwise than they may be")
    print(", ".join(f"{name}: {count}" for name, count in sorted(told.items())))
    return 1 if faults else 0


sys.exit(main())
