#!/usr/bin/env python3
"""Says what a run of the gate costs: processor time by crate and by kind of work, most memory, and which proofs are too dear.

    tools/gate_cost.py                    runs `rt ci` at the top of the repository, and ends with its status
    tools/gate_cost.py -- COMMAND..       runs another command there, as `rt ci NAME` or `tools/try_edits.sh NAME`
    tools/gate_cost.py --watch PID        watches a run that is under way, until it ends

The kinds are proof (of a library or a program), tests (the proof of a crate with its own tests), seeds (checks of a crate as it
stands, which those of its must-fail edits begin with), edits (checks with an edit), build (code and links of proved programs)
and run (programs and tests). What belongs to no crate, as `rt` itself, stands in a row of its own.

Only the processes below the watched one count, also where they lead a session of their own or outlive the one that started
them; the watch itself doesn't, so that a script can have itself watched. /proc is read twice a second: the last reading of each process counts. What a process used after its last reading is in
what its parent is told when it ends; that much is given to the children that ended in that half second, in equal shares. So the
sums are those of the system; a row can be wrong by half a second for each process that ended, and a process too short to be
seen is in the row of its parent. What a watched run did before the watch began and has ended is in no row, only in the sums.
Most memory is that of the largest single process.
"""
import argparse
import os
import re
import signal
import subprocess
import sys
import time

TICK = os.sysconf("SC_CLK_TCK")
PAUSE = 0.5
KINDS = ("proof", "tests", "seeds", "edits", "build", "run")
REST = ("", "rest")
DEAR = 240
TOP = os.path.dirname(os.path.dirname(os.path.realpath(__file__)))


class Process:
    """What is known of a process of the run: its last reading, and what its ended children used that is in no row yet."""

    def __init__(self, parent):
        self.parent = parent
        self.depth = parent.depth + 1 if parent else 0
        self.booking = None
        self.own = 0
        self.reaped = 0
        self.given = 0
        self.ended = []

    def row(self):
        """The crate and the kind that the process works for: its own, or those of the nearest that has some."""
        at = self
        while at and not at.booking:
            at = at.parent
        return at.booking if at else REST

    def unexplained(self):
        """Ticks of ended children that no reading of theirs had; less than none while the system has yet to say that one ended."""
        return self.reaped - self.given

    def whole(self):
        return self.own + self.reaped + max(0, -self.unexplained())


class Costs:
    """Ticks by crate and kind, and the largest process of each crate."""

    def __init__(self):
        self.ticks = {}
        self.memory = {}

    def add(self, row, ticks):
        self.ticks[row] = self.ticks.get(row, 0) + ticks

    def of(self, crate, kind):
        return self.ticks.get((crate, kind), 0) / TICK

    def of_kind(self, kind):
        return sum(self.of(crate, kind) for crate in {crate for crate, _ in self.ticks})

    def of_crate(self, crate):
        return sum(ticks for (name, _), ticks in self.ticks.items() if name == crate) / TICK

    def crates(self):
        names = {crate for crate, _ in self.ticks if crate}
        return sorted(names, key=self.of_crate, reverse=True)


def read_stats():
    """Returns (parent, session, start, own ticks, ticks of ended children) of each process, by its number."""
    found = {}
    for name in os.listdir("/proc"):
        if name.isdigit():
            try:
                with open(f"/proc/{name}/stat", encoding="utf-8", errors="replace") as it:
                    fields = it.read().rpartition(")")[2].split()
            except OSError:
                continue
            numbers = [int(fields[it]) for it in (1, 3, 19, 11, 12, 13, 14)]
            parent, session, start, user, system, user_ended, system_ended = numbers
            found[int(name)] = (parent, session, start, user + system, user_ended + system_ended)
    return found


def words_of(pid):
    try:
        with open(f"/proc/{pid}/cmdline", "rb") as it:
            return it.read().decode(errors="replace").rstrip("\0").split("\0")
    except OSError:
        return []


def folder_of(pid):
    try:
        return os.readlink(f"/proc/{pid}/cwd")
    except OSError:
        return ""


def most_memory(pid):
    """Returns the most that the process held so far, in KB."""
    try:
        with open(f"/proc/{pid}/status", encoding="utf-8", errors="replace") as it:
            found = re.search(r"^VmHWM:\s+(\d+)", it.read(), re.M)
    except OSError:
        return 0
    return int(found[1]) if found else 0


def crate_in(path):
    found = re.search(r"/crates/([^/]+)", path)
    return found[1] if found else ""


def booking_of_rattle(words, folder):
    """Books a command of the prover, which `rt` starts in the crate's folder, or for an edit in a copy of it; where the system
    doesn't tell the folder, an edit that is tried over kept work is told by that."""
    if "--help" in words:
        return None
    if "fmt" in words[:2]:
        return next(((crate_in(it), "proof") for it in words if crate_in(it)), None)
    if "--crate-name" not in words[:-1]:
        return None
    crate = words[words.index("--crate-name") + 1]
    if any(re.search(r"/rt-edits?-\d+-", it) for it in [folder, *words]):
        return crate, "seeds" if any(it.endswith("/seed") for it in words) else "edits"
    if "--test" in words:
        return crate, "tests"
    return crate, "build" if "--crate-checked" in words else "proof"


def booking_of(words, folder):
    """Returns the crate and the kind that a process with these words works for, or None where they do not tell."""
    for at, word in enumerate(words):
        name = os.path.basename(word)
        run = re.search(r"/rt-run-\d+-[^/]*/bin/([^/]+)$", word)
        if run:
            with_runner = any(os.path.basename(it) == "rattle-test" for it in words)
            return re.sub(r"_tests$", "", run[1]) if with_runner else run[1], "run"
        if name == "rattle":
            return booking_of_rattle(words[at + 1 :], folder)
        if at == 0 and re.fullmatch(r"rattle-link|clang.*|llvm-\w+|llc|opt|lld|ld.*|as", name):
            crate = next((crate_in(it) for it in [folder, *words] if crate_in(it)), "")
            return (crate, "build") if crate else None
    return None


class Watch:
    """Follows a process and all below it."""

    def __init__(self, top):
        self.top = top
        self.start = None
        self.live = {}
        self.costs = Costs()
        self.before = 0

    def sample(self):
        """Takes a reading of each process of the run, and returns whether any is left."""
        stats = read_stats()
        if self.start is None and self.top in stats:
            self.start = stats[self.top][2]
        ours = self.ours(stats)
        now = {}
        for pid in ours:
            parent, _, start, own, reaped = stats[pid]
            process = self.live.get((pid, start)) or self.begin(pid, parent, now, reaped)
            now[pid, start] = process
            self.costs.add(self.book(pid, process), own - process.own)
            process.own, process.reaped = own, reaped
        for key in sorted(self.live.keys() - now.keys(), key=lambda it: -self.live[it].depth):
            self.end(self.live[key])
        self.live = now
        for process in now.values():
            self.settle(process)
        return bool(now)

    def ours(self, stats):
        """Returns the numbers of the run's processes, each after its parent."""
        below = {}
        for pid, (parent, *_) in stats.items():
            below.setdefault(parent, []).append(pid)
        is_leader = self.top in stats and stats[self.top][1] == self.top
        roots = [self.top] if self.top in stats and stats[self.top][2] == self.start else []
        roots += [pid for pid, it in stats.items() if (pid, it[2]) in self.live or is_leader and it[1] == self.top]
        found, left = {}, roots[::-1]
        while left:
            pid = left.pop()
            if pid not in found and pid != os.getpid():
                found[pid] = True
                left += below.get(pid, [])
        return list(found)

    def begin(self, pid, parent, now, reaped):
        above = {it[0]: process for it, process in [*self.live.items(), *now.items()]}
        process = Process(above.get(parent) if pid != self.top else None)
        if not self.live and reaped:
            self.before += reaped
            process.given = reaped
        return process

    def book(self, pid, process):
        """Notes what the process works for; it may have become another program since the last reading."""
        words = words_of(pid)
        found = booking_of(words, folder_of(pid)) if words else None
        is_below_run = process.parent and process.parent.row()[1] == "run"
        process.booking = process.parent.row() if is_below_run else found or process.booking
        crate = process.row()[0]
        self.costs.memory[crate] = max(self.costs.memory.get(crate, 0), most_memory(pid))
        return process.row()

    def end(self, process):
        """Takes note of a process that has ended: what its own children used and no reading had, and what its parent will be told."""
        self.settle(process)
        if process.parent:
            process.parent.given += process.whole()
            process.parent.ended.append(process)

    def settle(self, process):
        """Books what ended children used after their last reading."""
        ticks = process.unexplained()
        if ticks < 0:
            return
        rows = [it.row() for it in process.ended] or [process.row()]
        for at, row in enumerate(rows):
            self.costs.add(row, ticks * (at + 1) // len(rows) - ticks * at // len(rows))
        process.given = process.reaped
        process.ended = []


def follow(watch):
    """Watches a process that something else started, until it ends or this command is interrupted."""
    while watch.sample():
        time.sleep(PAUSE)


def follow_own(watch, child):
    """Watches a process that this command started, and returns its status and the ticks that the system says it and all below it used."""
    while True:
        pid, status, used = os.wait4(child.pid, os.WNOHANG)
        if pid:
            child.returncode = os.waitstatus_to_exitcode(status)
            watch.sample()
            return child.returncode, round((used.ru_utime + used.ru_stime) * TICK)
        watch.sample()
        time.sleep(PAUSE)


def age_of(pid):
    """Returns for how many seconds the process has run."""
    with open("/proc/uptime", encoding="utf-8") as it:
        return float(it.read().split()[0]) - read_stats()[pid][2] / TICK


def told(watch, wall):
    """Returns the lines to print: a row a crate, the sums, and the crates that are too dear."""
    costs = watch.costs
    lines = [f"{'crate':28}" + "".join(f"{it:>9}" for it in (*KINDS, "all", "MB"))]
    rows = [(it, [costs.of(it, kind) for kind in KINDS] + [costs.of_crate(it)]) for it in costs.crates()]
    for crate, numbers in rows:
        lines.append(f"{crate:28}" + "".join(f"{it:9.1f}" for it in numbers) + f"{costs.memory.get(crate, 0) / 1024:9.0f}")
    rest, before = costs.of_crate(""), watch.before / TICK
    lines.append(f"{'(rt, and what has no crate)':28}{'':54}{rest:9.1f}{costs.memory.get('', 0) / 1024:9.0f}")
    lines.append("")
    sums = [f"{kind} {costs.of_kind(kind) / 60:.1f}" for kind in KINDS]
    whole = sum(costs.ticks.values()) / TICK + before
    early = f", before the watch began {before / 60:.1f}" if before else ""
    lines.append(f"processor minutes: {', '.join(sums)}, rest {rest / 60:.1f}{early}; all {whole / 60:.1f}")
    count = len(os.sched_getaffinity(0))
    lines.append(f"wall time: {wall / 60:.1f} minutes; processors: {count}, in use on average: {whole / max(wall, 1):.1f}")
    dear = [f"{crate} {numbers[0]:.0f}" for crate, numbers in sorted(rows, key=lambda it: -it[1][0]) if numbers[0] > DEAR]
    lines.append(f"proofs over {DEAR} s of a processor: {', '.join(dear) or 'none'}")
    return lines


def interrupted(*_):
    raise KeyboardInterrupt


def main():
    about = argparse.ArgumentParser(description=__doc__, formatter_class=argparse.RawDescriptionHelpFormatter)
    about.add_argument("--watch", metavar="PID", type=int)
    about.add_argument("command", nargs="*", metavar="COMMAND")
    asked = about.parse_args()
    signal.signal(signal.SIGTERM, interrupted)
    begun, status = time.monotonic(), 0
    if asked.watch:
        if not os.path.isdir(f"/proc/{asked.watch}"):
            about.error(f"there is no process {asked.watch}")
        begun -= age_of(asked.watch)
        watch = Watch(asked.watch)
        try:
            follow(watch)
        except KeyboardInterrupt:
            print("interrupted: the run goes on, and these are its costs so far")
    else:
        child = subprocess.Popen(asked.command or ["rt", "ci"], cwd=TOP)
        watch = Watch(child.pid)
        status, used = run_to_end(watch, child)
        watch.costs.add(REST, max(0, used - sum(watch.costs.ticks.values())))
    print("\n".join(told(watch, time.monotonic() - begun)), flush=True)
    return status if status >= 0 else 128 - status


def run_to_end(watch, child):
    """Follows the command; one that is interrupted is told so, and ends first."""
    while True:
        try:
            return follow_own(watch, child)
        except KeyboardInterrupt:
            child.send_signal(signal.SIGINT)


if __name__ == "__main__":
    sys.exit(main())
