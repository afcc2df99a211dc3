#!/usr/bin/env python3
"""Tries what tools/varn_top.py tells of a journal and of an access log that were written by the rules, beside what is to be told.
Prints what goes otherwise; status 1 where something does.

    tools/varn_top_test.py
"""
import pathlib
import re
import subprocess
import sys
import tempfile

TOP = pathlib.Path(__file__).resolve().parent / "varn_top.py"


def lookup(at, url, reply, caller=1):
    return f'e {caller} {at} lookup 2 "{url}" "h" "{url}" 1 "Host" "h" 0 0 0 - - = {reply}'


def insert(at, number, url, times, body="", xkeys="0"):
    """An insertion of an object that takes 522 bytes and its body; `times` are origin, ttl, grace and keep."""
    return f'e 1 {at} insert {number} o 2 "{url}" "h" 0 200 "OK" 1 "X" "1" "{body}" {times} {xkeys} - = stored {number}'


JOURNAL = [
    'varn 1 2600 100000 "vcl 4.1;" 1 "b"',
    "e 1 0 begin = began 1 1",
    lookup(0, "/aa", "miss 2 -"),
    insert(0, 2, "/aa", "0 60000 0 0"),
    lookup(0, "/bb", "miss 3 -"),
    insert(0, 3, "/bb", "0 60000 20000 0"),
    lookup(0, "/cc", "miss 4 -"),
    insert(0, 4, "/cc", "0 600000 0 0", body="x" * 1000),
    lookup(5000, "/aa", "hit 2"),
    # 2,566 bytes are stored: of these /bb was used least recently, and goes for one of 522
    lookup(6000, "/dd", "miss 5 -"),
    insert(6000, 5, "/dd", "6000 60000 20000 0"),
    "e 1 6000 end = ended",
    "cut",
    # a ban on objects that takes out two of three, and one on requests that is met where /dd is looked up
    'e 2 7000 ban 3 "obj.age" "==" "7s" = banned',
    'e 2 7000 ban 7 "req.url" "~" "^/[c-e]" "&&" "req.http.host" "==" "h" = banned',
    "e 1 7000 begin = began 6 1",
    lookup(7000, "/aa", "miss 7 -"),
    insert(7000, 7, "/aa", "7000 3000 0 0"),
    lookup(8000, "/dd", "miss 8 -"),
    insert(8000, 8, "/dd", "8000 60000 20000 0", xkeys='1 "tag"'),
    # a marker by which /pp passes; meanwhile /aa is over
    lookup(9000, "/pp", "miss 9 -"),
    'e 1 9000 insert 9 m 2 "/pp" "h" 0 200 "" 0 "" 9000 9000 0 0 0 - = stored 9',
    lookup(11000, "/pp", "hitmiss 10"),
    "e 1 11000 drop 10 = dropped",
    # a soft purge: /dd is in grace then
    'e 2 12000 xkey 1 "tag" 1 = purged 1',
    lookup(13000, "/dd", "grace 8 11"),
    "e 2 13000 begin = began 12 1",
    lookup(13000, "/ff", "miss 13 -", caller=2),
    lookup(13000, "/ff", "wait 13"),
    'e 3 14000 purge 2 "/dd" "h" = purged 1',
    "close",
    "no line of a journal",
]
TOLD = {
    "requests": "3",
    "from": "1970-01-01 00:00:00 UTC",
    "seconds": "15",
    # two of the eleven that weren't told to wait
    "lookups that were given an object": "18.2%",
    "lookups: hit": "1",
    "lookups: grace": "1",
    "lookups: miss": "8",
    "lookups: pass": "1",
    "lookups: wait": "1",
    "half of what was given was at most so old": "5 s",
    "99 of 100 were at most so old": "5 s",
    "objects stored": "7",
    "objects that went by bans": "3",
    "objects that went by purges": "1",
    "objects that went by room": "1",
    "objects that went by time": "1",
    "the most objects at once": "3",
    "entries": "28",
    "lines that are none of a journal": "1",
    "hits on objects that are counted here as gone": "0",
}
BANS = ["2  1970-01-01 00:00:07  obj.age == 7s", "1  1970-01-01 00:00:07  req.url ~ ^/[c-e] && req.http.host == h"]

LOG = [
    '192.0.2.7 - - [06/Nov/1994:08:49:37 +0000] "GET /a HTTP/1.1" 200 5120 "-" "curl/8.5.0" 0.004 miss 7',
    '192.0.2.7 - - [06/Nov/1994:08:49:37 +0000] "GET /a HTTP/1.1" 200 5120 "-" "a \\"b\\"" 0.001 hit 8',
    '192.0.2.8 - - [06/Nov/1994:08:49:38 +0000] "GET /b HTTP/1.1" 404 0 "-" "-" 0.020 miss 9',
    '192.0.2.8 - - [06/Nov/1994:08:49:38 +0000] "-" - 0 "-" "-" 0.000 - -',
    "no line of a log",
]
LOG_TOLD = [
    r"the whole log +2\.0 +33\.3% +1 +2 +1 +5\.1 KB +4 +20",
    r"status: 2xx 2  4xx 1  none 1",
    r" +2 +1  /a",
    r" +1 +1  /b",
    r"lines that are none of an access log: 1",
]


def main():
    wrong = []

    def hold(what, holds):
        if not holds:
            wrong.append(what)
            print(f"otherwise: {what}")

    def tell(*words):
        return subprocess.run([TOP, *words], capture_output=True, text=True, check=False)

    with tempfile.TemporaryDirectory() as folder:
        folder = pathlib.Path(folder)
        cut = JOURNAL.index("cut") + 1
        front, rest, log, page = (folder / name for name in ("journal.1", "journal", "log", "page.html"))
        for path, lines in ((front, JOURNAL[:cut]), (rest, JOURNAL[cut:]), (log, LOG)):
            path.write_text("".join(line + "\n" for line in lines), encoding="utf-8")

        told = tell("--once", front, rest).stdout.splitlines()
        facts = dict(re.split(r" {2,}", line, maxsplit=1) for line in told[: len(TOLD)])
        for name, figure in TOLD.items():
            hold(f"{name}: {facts.get(name)}, and not {figure}", facts.get(name) == figure)
        for ban in BANS:
            hold(ban, any(line.strip() == ban for line in told))
        told = tell("--once", log).stdout.splitlines()
        for form in LOG_TOLD:
            hold(form, any(re.fullmatch(form, line) for line in told))

        hold("a journal's page", tell("--report", page, front, rest).returncode == 0 and "Bans, and what they took out" in page.read_text())
        hold("a log's page", tell("--report", page, log).returncode == 0 and "Time of a request" in page.read_text())
        hold("no screen of a journal", tell(front).returncode == 2)
        hold("no such file", tell("--once", folder / "none").returncode == 1)
    return 1 if wrong else 0


if __name__ == "__main__":
    sys.exit(main())
