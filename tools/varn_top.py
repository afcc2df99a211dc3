#!/usr/bin/env python3
"""Shows what a server does, from its access log (VARN_ACCESS_LOG, docs/OPERATING.md), or what a run did, from its journal.

    tools/varn_top.py LOG                       a screen that is drawn anew each second; q or Ctrl-C ends it
    tools/varn_top.py --once LOG                the same as text, once, over the whole log
    tools/varn_top.py --report PAGE.html LOG    one page with plots: hits, rates of status and times, and the URLs most asked for
    tools/varn_top.py --once JOURNAL..          what the journal's files in this order tell, as text
    tools/varn_top.py --report PAGE.html JOURNAL..   one page with plots: what lookups were given, how old that was, what is stored,
                                                and what bans, purges, room and time took out
    tools/varn_top.py --top N ..                how many URLs or bans are listed, 10 where it isn't said

A journal is a file that begins as one (crates/journal_text). A line of the log is in the combined form, with the seconds that the exchange took, `hit` or `miss`, and the number of the request
(on a hit, of the request that stored the object) behind it. What isn't such a line is counted and passed over. A `pass` is told by
the log as a miss.
"""
import argparse
import collections
import curses
import datetime
import html
import os
import re
import sys
import time

import journal_tally

LINE = re.compile(
    r'(?P<client>\S+) - - \[(?P<moment>[^\]]+)\] "(?P<request>(?:[^"\\]|\\.)*)" (?P<status>\d{3}|-) (?P<sent>\d+)'
    r' "(?:[^"\\]|\\.)*" "(?:[^"\\]|\\.)*" (?P<seconds>\d+\.\d{3}) (?P<outcome>hit|miss|-) (?P<number>\d+|-)$'
)
MOMENT = "%d/%b/%Y:%H:%M:%S %z"
SCREEN_SECONDS = 60
PLOT_POINTS = 240
Exchange = collections.namedtuple("Exchange", "second url status sent seconds outcome")


def read_line(text):
    """Returns the exchange of a line of the log, or None where it is no such line."""
    found = LINE.fullmatch(text.rstrip("\n"))
    if not found:
        return None
    try:
        moment = datetime.datetime.strptime(found["moment"], MOMENT)
    except ValueError:
        return None
    words = found["request"].split(" ")
    return Exchange(
        second=int(moment.timestamp()),
        url=words[1] if len(words) > 1 else "-",
        status=found["status"],
        sent=int(found["sent"]),
        seconds=float(found["seconds"]),
        outcome=found["outcome"],
    )


class Tally:
    """What a list of exchanges adds up to."""

    def __init__(self):
        self.outcomes = collections.Counter()
        self.classes = collections.Counter()
        self.urls = collections.Counter()
        self.misses = collections.Counter()
        self.sent = 0
        self.times = []

    def add(self, exchange):
        self.outcomes[exchange.outcome] += 1
        self.classes[class_of(exchange.status)] += 1
        self.urls[exchange.url] += 1
        if exchange.outcome == "miss":
            self.misses[exchange.url] += 1
        self.sent += exchange.sent
        self.times.append(exchange.seconds)

    def count(self):
        return sum(self.outcomes.values())

    def hit_share(self):
        """The share of hits among what was hit or missed, or None where there is neither."""
        told = self.outcomes["hit"] + self.outcomes["miss"]
        return self.outcomes["hit"] / told if told else None

    def time_at(self, share):
        """The time that this share of the exchanges took at most."""
        ordered = sorted(self.times)
        return ordered[min(len(ordered) - 1, int(share * len(ordered)))] if ordered else 0.0


def class_of(status):
    return f"{status[0]}xx" if status != "-" else "none"


def share_text(share):
    return "-" if share is None else f"{100 * share:.1f}%"


def size_text(count):
    for unit in ("B", "KB", "MB", "GB"):
        if count < 1000 or unit == "GB":
            return f"{count:.0f} {unit}" if unit == "B" else f"{count:.1f} {unit}"
        count /= 1000
    return ""


class Follower:
    """Reads what comes behind a log's end, also where the file is renamed and begun anew."""

    def __init__(self, path, from_start):
        self.path, self.file, self.rest, self.strange = path, None, "", 0
        self.from_start = from_start

    def open(self):
        try:
            self.file = open(self.path, encoding="utf-8", errors="replace")
        except OSError:
            return False
        if not self.from_start:
            self.file.seek(0, os.SEEK_END)
        self.from_start, self.rest = True, ""
        return True

    def is_replaced(self):
        try:
            found = os.stat(self.path)
        except OSError:
            return False
        opened = os.fstat(self.file.fileno())
        return found.st_ino != opened.st_ino or found.st_size < self.file.tell()

    def read(self):
        """Returns the exchanges that have come since the last call."""
        if not self.file and not self.open():
            return []
        found = self.take()
        if self.is_replaced():
            self.file.close()
            self.file = None
            if self.open():
                found += self.take()
        return found

    def take(self):
        *lines, self.rest = (self.rest + self.file.read()).split("\n")
        read = [read_line(it) for it in lines]
        self.strange += sum(it is None for it in read)
        return [it for it in read if it]


class Window:
    """The exchanges of the last seconds, by when they were read."""

    def __init__(self):
        self.seconds = collections.deque(maxlen=SCREEN_SECONDS)
        self.whole = Tally()

    def add(self, exchanges):
        self.seconds.append(exchanges)
        for exchange in exchanges:
            self.whole.add(exchange)

    def tally(self, seconds):
        found = Tally()
        for exchanges in list(self.seconds)[-seconds:]:
            for exchange in exchanges:
                found.add(exchange)
        return found


def row(name, seconds, tally):
    rate = tally.count() / max(seconds, 1)
    return (
        f"{name:<14}{rate:10.1f}{share_text(tally.hit_share()):>9}"
        f"{tally.outcomes['hit']:9}{tally.outcomes['miss']:9}{tally.outcomes['-']:9}"
        f"{size_text(tally.sent / max(seconds, 1)):>11}{1000 * tally.time_at(0.5):9.0f}{1000 * tally.time_at(0.99):9.0f}"
    )


HEAD = f"{'':14}{'requests/s':>10}{'hits':>9}{'hit':>9}{'miss':>9}{'neither':>9}{'sent/s':>11}{'ms half':>9}{'ms 99%':>9}"


def statuses_text(tally):
    return "  ".join(f"{name} {tally.classes[name]}" for name in sorted(tally.classes)) or "none yet"


def urls_text(tally, top):
    lines = [f"{'asked':>9}{'missed':>9}  URL"]
    for url, count in tally.urls.most_common(top):
        lines.append(f"{count:9}{tally.misses[url]:9}  {url}")
    return lines


def screen_lines(window, strange, top):
    """The lines of the screen: the last second, ten, and all that it keeps; statuses; the URLs most asked for."""
    minute = window.tally(SCREEN_SECONDS)
    kept = max(len(window.seconds), 1)
    lines = [HEAD]
    for name, seconds in (("last second", 1), ("last 10 s", 10), (f"last {SCREEN_SECONDS} s", SCREEN_SECONDS)):
        lines.append(row(name, min(seconds, kept), window.tally(seconds)))
    lines += ["", "status of these: " + statuses_text(minute), ""] + urls_text(minute, top)
    if strange:
        lines += ["", f"lines that are none of an access log: {strange}"]
    return lines


def draw(screen, path, top):
    curses.curs_set(0)
    screen.nodelay(True)
    follower, window = Follower(path, False), Window()
    follower.read()
    while True:
        ends = time.monotonic() + 1
        while time.monotonic() < ends:
            if screen.getch() in (ord("q"), ord("Q")):
                return
            time.sleep(0.05)
        window.add(follower.read())
        height, width = screen.getmaxyx()
        screen.erase()
        for at, line in enumerate([path, ""] + screen_lines(window, follower.strange, top)):
            if at < height - 1:
                screen.addnstr(at, 0, line, width - 1)
        screen.refresh()


def read_all(path):
    """Returns a log's exchanges, and how many of its lines are none of an access log."""
    found, strange = [], 0
    with open(path, encoding="utf-8", errors="replace") as log:
        for line in log:
            exchange = read_line(line)
            if exchange:
                found.append(exchange)
            else:
                strange += 1
    return found, strange


def span_of(exchanges):
    return exchanges[-1].second - exchanges[0].second + 1 if exchanges else 0


def once_lines(exchanges, strange, top):
    tally = Tally()
    for exchange in exchanges:
        tally.add(exchange)
    lines = [HEAD, row("the whole log", span_of(exchanges), tally), "", "status: " + statuses_text(tally), ""]
    lines += urls_text(tally, top)
    return lines + ([f"lines that are none of an access log: {strange}"] if strange else [])


# ---- the report


def utc(second):
    return datetime.datetime.fromtimestamp(second, datetime.timezone.utc).strftime("%Y-%m-%d %H:%M:%S")


def parts_of(exchanges):
    """Cuts the log's time into parts of equal length, at most PLOT_POINTS, and returns their length and their tallies."""
    step = max(1, -(-span_of(exchanges) // PLOT_POINTS))
    parts = [Tally() for _ in range(-(-span_of(exchanges) // step))]
    for exchange in exchanges:
        at = (exchange.second - exchanges[0].second) // step
        parts[min(max(at, 0), len(parts) - 1)].add(exchange)
    return step, parts


def polyline(values, most, color):
    """A line over the values, with a gap where there is none."""
    width, height = 900, 160
    runs, run = [], []
    for at, value in enumerate(values):
        if value is None:
            runs, run = runs + [run], []
        else:
            x = width * (at + 0.5) / len(values)
            run.append(f"{x:.1f},{height - height * value / most:.1f}")
    drawn = []
    for run in runs + [run]:
        if len(run) == 1:
            x, y = run[0].split(",")
            drawn.append(f'<circle cx="{x}" cy="{y}" r="2" fill="{color}"/>')
        elif run:
            drawn.append(f'<polyline points="{" ".join(run)}" fill="none" stroke="{color}" stroke-width="1.5"/>')
    return "".join(drawn)


def plot(title, unit, lines, ends, most=None):
    """A plot of several lines, each (name, color, values), from 0 to the greatest value, between the moments that are named."""
    greatest = most or max((it for _, _, values in lines for it in values if it is not None), default=0) or 1
    legend = " ".join(f'<span style="color:{color}">&#9632; {html.escape(name)}</span>' for name, color, _ in lines)
    drawn = "".join(polyline(values, greatest, color) for _, color, values in lines)
    grid = "".join(f'<line x1="0" x2="900" y1="{y}" y2="{y}" stroke="#ddd"/>' for y in (0, 40, 80, 120, 160))
    return (
        f"<h2>{html.escape(title)}</h2><p>{legend} &middot; the upper edge is {greatest:,.4g} {html.escape(unit)}</p>"
        f'<svg viewBox="0 -4 900 168" width="100%" role="img" aria-label="{html.escape(title)}">{grid}{drawn}</svg>'
        f'<p class="ends"><span>{ends[0]}</span><span>{ends[1]}</span></p>'
    )


def table(heads, rows):
    head = "".join(f"<th>{html.escape(it)}</th>" for it in heads)
    body = "".join("<tr>" + "".join(f"<td>{html.escape(str(it))}</td>" for it in cells) + "</tr>" for cells in rows)
    return f"<table><tr>{head}</tr>{body}</table>"


STYLE = """body{font:15px/1.4 system-ui,sans-serif;max-width:960px;margin:2em auto;color:#222}h1{font-size:1.4em}h2{font-size:1.1em;
margin:1.6em 0 .2em}p{margin:.2em 0}table{border-collapse:collapse;margin:.6em 0}td,th{padding:.15em .8em;border-bottom:1px solid #ddd;
text-align:left}td:first-child{word-break:break-all}.ends{display:flex;justify-content:space-between;color:#666;font-size:.85em}svg{background:#fafafa;border:1px solid #ddd}"""


def page_of(body):
    return f'<!doctype html><html lang="en"><meta charset="utf-8"><title>varn</title><style>{STYLE}</style>{"".join(body)}</html>\n'


def report(path, exchanges, strange, top):
    """The page of a log."""
    exchanges = sorted(exchanges, key=lambda it: it.second)
    whole = Tally()
    for exchange in exchanges:
        whole.add(exchange)
    step, parts = parts_of(exchanges)
    ends = [f"{utc(exchanges[at].second)} UTC" if exchanges else "-" for at in (0, -1)]
    classes = [("2xx", "#2a7"), ("3xx", "#27a"), ("4xx", "#c80"), ("5xx", "#c33"), ("none", "#888")]
    facts = [
        ("requests", f"{whole.count():,}"),
        ("from", ends[0]),
        ("seconds", f"{span_of(exchanges):,}"),
        ("hits among hits and misses", share_text(whole.hit_share())),
        ("sent", size_text(whole.sent)),
        ("half of the requests took at most", f"{1000 * whole.time_at(0.5):.0f} ms"),
        ("99 of 100 took at most", f"{1000 * whole.time_at(0.99):.0f} ms"),
        ("lines that are none of an access log", f"{strange:,}"),
    ]
    body = [
        f"<h1>What varn served: {html.escape(os.path.basename(path))}</h1>",
        table(("", ""), facts),
        plot("Hits among hits and misses", "%", [("hits", "#27a", [None if it.hit_share() is None else 100 * it.hit_share() for it in parts])], ends, 100),
        plot("Requests a second", "requests", [(name, color, [it.classes[name] / step for it in parts]) for name, color in classes if whole.classes[name]], ends),
        plot(
            "Time of a request",
            "ms",
            [
                ("half took at most", "#27a", [1000 * it.time_at(0.5) if it.times else None for it in parts]),
                ("99 of 100 took at most", "#c80", [1000 * it.time_at(0.99) if it.times else None for it in parts]),
            ],
            ends,
        ),
        plot("Sent a second", "KB", [("bodies", "#2a7", [it.sent / step / 1000 for it in parts])], ends),
        "<h2>Most asked for</h2>",
        table(("URL", "asked", "missed"), [(url, f"{count:,}", f"{whole.misses[url]:,}") for url, count in whole.urls.most_common(top)]),
        "<h2>Most missed</h2>",
        table(("URL", "missed", "asked"), [(url, f"{count:,}", f"{whole.urls[url]:,}") for url, count in whole.misses.most_common(top)]),
    ]
    return page_of(body)


# ---- journals

REPLIES = (("hit", "#2a7"), ("grace", "#27a"), ("miss", "#c80"), ("pass", "#888"), ("wait", "#a5c"))
ENDS = (("bans", "#c33"), ("purges", "#c80"), ("room", "#27a"), ("time", "#888"))


def seconds_text(value):
    return "-" if value is None else f"{value:,.0f} s"


def journal_facts(journal):
    whole = journal.whole
    return [
        ("requests", f"{whole.begun:,}"),
        ("from", f"{utc(min(journal.parts))} UTC" if journal.parts else "-"),
        ("seconds", f"{max(journal.parts) - min(journal.parts) + 1:,}" if journal.parts else "0"),
        ("lookups that were given an object", share_text(whole.given_share())),
        *((f"lookups: {name}", f"{whole.lookups[name]:,}") for name, _ in REPLIES),
        ("half of what was given was at most so old", seconds_text(whole.age_at(0.5))),
        ("99 of 100 were at most so old", seconds_text(whole.age_at(0.99))),
        ("objects stored", f"{whole.stored:,}"),
        *((f"objects that went by {name}", f"{whole.removed[name]:,}") for name, _ in ENDS),
        ("the most objects at once", f"{journal.most:,}"),
        ("entries", f"{journal.entries:,}"),
        ("lines that are none of a journal", f"{journal.strange:,}"),
        ("hits on objects that are counted here as gone", f"{journal.strange_hits:,}"),
    ]


def bans_of(journal, top):
    """The bans that took out the most, each with its moment and what it took out."""
    found = sorted(journal.bans, key=lambda ban: -ban.removed)[:top]
    return [(f"{utc(ban.moment // 1000)}", " ".join(ban.words), f"{ban.removed:,}") for ban in found]


def urls_of(journal, top):
    return [(url, f"{count:,}", f"{journal.missed[url]:,}") for url, count in journal.asked.most_common(top)]


def journal_lines(journal, top):
    lines = [f"{name:<48}{told:>24}" for name, told in journal_facts(journal)]
    lines += ["", f"{'asked':>9}{'missed':>9}  URL"] + [f"{asked:>9}{missed:>9}  {url}" for url, asked, missed in urls_of(journal, top)]
    if journal.bans:
        lines += ["", f"{'removed':>9}  ban"] + [f"{removed:>9}  {moment}  {words}" for moment, words, removed in bans_of(journal, top)]
    return lines


def steps_of(journal):
    """The run's time in parts of equal length, at most PLOT_POINTS: the length, and for each the parts of its seconds and their level."""
    begin, end = (min(journal.parts), max(journal.parts)) if journal.parts else (0, 0)
    step = max(1, -(-(end - begin + 1) // PLOT_POINTS))
    steps, level = [], (0, 0)
    for at in range(begin, end + 1, step):
        seconds = range(at, at + step)
        for second in seconds:
            level = journal.levels.get(second, level)
        steps.append(([journal.parts[it] for it in seconds if it in journal.parts], level))
    return step, steps


def sum_of(parts):
    """Several parts as one."""
    found = journal_tally.Part()
    for part in parts:
        found.lookups.update(part.lookups)
        found.removed.update(part.removed)
        found.ages += part.ages
    return found


def journal_report(paths, journal, top):
    """The page of a journal."""
    step, steps = steps_of(journal)
    parts, levels = [sum_of(them) for them, _ in steps], [level for _, level in steps]
    ends = [f"{utc(at)} UTC" for at in ((min(journal.parts), max(journal.parts)) if journal.parts else (0, 0))]
    shares = [None if it.given_share() is None else 100 * it.given_share() for it in parts]

    def each(kinds, count):
        return [(name, color, [count(it)[name] / step for it in parts]) for name, color in kinds if count(journal.whole)[name]]

    body = [
        f"<h1>What varn did: {html.escape(' '.join(os.path.basename(it) for it in paths))}</h1>",
        table(("", ""), journal_facts(journal)),
        plot("Lookups that were given an object", "%", [("given", "#27a", shares)], ends, 100),
        plot("Lookups a second", "lookups", each(REPLIES, lambda it: it.lookups), ends),
        plot(
            "Age of what was given",
            "s",
            [
                ("half was at most so old", "#27a", [it.age_at(0.5) for it in parts]),
                ("99 of 100 were at most so old", "#c80", [it.age_at(0.99) for it in parts]),
            ],
            ends,
        ),
        plot("Objects stored", "objects", [("objects", "#2a7", [count for count, _ in levels])], ends),
        plot("Room used", "MB", [("used", "#2a7", [size / 1_000_000 for _, size in levels])], ends, (journal.room / 1_000_000) or None),
        plot("Objects that went, a second", "objects", each(ENDS, lambda it: it.removed), ends),
        "<h2>Bans, and what they took out</h2>",
        table(("issued", "ban", "objects"), bans_of(journal, top)),
        "<h2>Most asked for</h2>",
        table(("URL", "asked", "missed"), urls_of(journal, top)),
    ]
    return page_of(body)


def read_journal(paths):
    journal = journal_tally.Journal()
    for path in paths:
        with open(path, encoding="latin-1", newline="\n") as lines:
            journal.read(lines)
    return journal


def is_journal(path):
    with open(path, encoding="latin-1", newline="\n") as lines:
        return lines.read(len(journal_tally.FIRST)) == journal_tally.FIRST


# ---- what is asked for


def tell_journal(asked):
    journal = read_journal(asked.files)
    if asked.report:
        write_page(asked.report, journal_report(asked.files, journal, asked.top))
    if asked.once:
        print("\n".join(journal_lines(journal, asked.top)))


def tell_log(asked):
    exchanges, strange = read_all(asked.files[0])
    if asked.report:
        write_page(asked.report, report(asked.files[0], exchanges, strange, asked.top))
    if asked.once:
        print("\n".join(once_lines(exchanges, strange, asked.top)))


def write_page(path, page):
    with open(path, "w", encoding="utf-8") as out:
        out.write(page)


def main():
    about = argparse.ArgumentParser(description=__doc__, formatter_class=argparse.RawDescriptionHelpFormatter)
    about.add_argument("--once", action="store_true")
    about.add_argument("--report", metavar="PAGE")
    about.add_argument("--top", metavar="N", type=int, default=10)
    about.add_argument("files", metavar="LOG", nargs="+")
    asked = about.parse_args()
    try:
        if not asked.once and not asked.report:
            if len(asked.files) > 1 or (os.path.isfile(asked.files[0]) and is_journal(asked.files[0])):
                about.error("the screen is of one access log; a journal is told by --once or --report")
            curses.wrapper(draw, asked.files[0], asked.top)
        elif is_journal(asked.files[0]):
            tell_journal(asked)
        elif len(asked.files) > 1:
            about.error("of access logs one is told at a time")
        else:
            tell_log(asked)
    except OSError as error:
        print(f"varn_top: {error}", file=sys.stderr)
        return 1
    except KeyboardInterrupt:
        pass
    return 0


if __name__ == "__main__":
    sys.exit(main())
