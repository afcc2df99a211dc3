#!/usr/bin/env bash
# What a call of the lazy cache costs by how many objects are stored: a hit, a miss with its insertion, a purge, a purge by a tag, a ban,
# the lurker's test of one object, a hit on an object that waits for bans and one on an object that was tested on them, and an
# insertion into a full room; and a hit on a tested object and a ban by how many bans wait. Each is told beside its ratio to that at the
# least number: for 100,000 objects to 1,000 that is to be below 1.3 for a hit and below 2 for the others, and for 1,000 bans
# to 10 below 1.3. Last stands the processor's time of a session of 1,000,000 lines with 100,000 pages, which is to be below 10 s.
#
# A cost is the processor's time of whole requests, or lines of the console, in a session that `varn replay` plays, the least of three
# runs. Between its phases a session has a response that is larger than the pipe it is written to: while that is full, the
# program stands still, and its time is looked at. The program is built and proved first where it isn't there yet; PROGRAM names
# another build of it.
#
#   bench/cache.sh [OBJECTS..]     at these numbers of objects; without a word at 1000, 10000 and 100000, with the long session
# shellcheck source=bench/prepare.sh
. "$(dirname "$0")/prepare.sh"
prepare varn
python3 - "$work" "$program" "$@" <<'PY'
import fcntl, glob, os, sys

work, program, *words = sys.argv[1:]
SIZES = [int(word) for word in words] or [1000, 10000, 100000]
BANS = (10, 100, 1000)
CALLS = int(os.environ.get('CALLS', 500))
RUNS = int(os.environ.get('RUNS', 3))
# objects take some more than this of the room
LEAST_SIZE = 540
PAGE_OF_PIPE = 4096
SET_PIPE_SIZE = 1031

VCL = '''vcl 4.1;
import xkey;
backend default { .host = "127.0.0.1"; .port = "8080"; }
sub vcl_recv {
  if (req.url == "/mark") { return (pass); }
  if (req.method == "PURGE") { return (purge); }
  if (req.method == "TAG") { return (synth(200, "Gone: " + xkey.purge(req.http.X-Tag))); }
}
'''

def quoted(text):
    return '"%s"' % text.replace('\\', '\\\\').replace('"', '\\"').replace('\n', '\\n').replace('\r', '\\r')

class Session:
    """Lines of a session, with the number that is drawn next, and the names of its phases."""

    def __init__(self):
        self.lines = ['at 0', 'cli vcl.inline cache %s' % quoted(VCL), 'cli vcl.use cache']
        self.number = 1
        self.phases = []

    def ask(self, method, page, field='X: 1'):
        self.lines.append('req 1 %s' % quoted('%s %s HTTP/1.1\r\nHost: h\r\n%s\r\n\r\n' % (method, page, field)))
        self.number += 1

    def reply(self, fields, body):
        self.lines.append('reply %d %s' % (self.number, quoted('HTTP/1.1 200 OK\r\nContent-Length: %d\r\n%s\r\n\r\n%s' % (len(body), fields, body))))
        self.number += 1

    def hit(self, i):
        self.ask('GET', '/page%07d' % i)

    def miss(self, i):
        self.hit(i)
        self.reply('Cache-Control: max-age=1000000\r\nX-N: %07d\r\nxkey: tag%07d' % (i, i), 'hi')

    def ban_objects(self, i):
        self.lines.append('cli ban obj.http.x-n == none%d' % i)

    def ban_requests(self, i):
        self.lines.append('cli ban req.http.x == none%d' % i)

    def lurk(self):
        self.lines.append('lurk 1')

    def mark(self, name):
        """Ends a phase, of which the name is that of what was called, with how often; none ends what isn't measured."""
        self.ask('GET', '/mark')
        self.reply('Cache-Control: no-store', 'MARK%04d;%s' % (len(self.phases), 'm' * 65536))
        self.phases.append(name)

    def phase(self, name, one, members):
        for i in members:
            one(i)
        self.mark((name, len(members)))

    def written(self):
        path = '%s/session' % work
        with open(path, 'w') as out:
            out.write('\n'.join(self.lines + ['end']) + '\n')
        return path

def processor_time(pid):
    """The nanoseconds that a process has had of a processor."""
    total = 0
    for path in glob.glob('/proc/%d/task/*/schedstat' % pid):
        with open(path) as stat:
            total += int(stat.read().split()[0])
    return total

def play(path, *words):
    """The times at the marks of a session, and the time at its end in seconds."""
    read_end, write_end = os.pipe()
    fcntl.fcntl(write_end, SET_PIPE_SIZE, PAGE_OF_PIPE)
    child = os.fork()
    if child == 0:
        os.dup2(os.open(path, os.O_RDONLY), 0)
        os.dup2(write_end, 1)
        os.close(read_end)
        os.execv(program, [program, 'replay', '--history', '1073741824', *words])
    os.close(write_end)
    times, tail = [], b''
    while piece := os.read(read_end, PAGE_OF_PIPE):
        tail += piece
        if b'MARK%04d;' % len(times) in tail:
            times.append(processor_time(child))
            tail = b''
        tail = tail[-16:]
    os.close(read_end)
    _, status, usage = os.wait4(child, 0)
    if status != 0:
        sys.exit('status %d' % (status >> 8))
    return times, usage.ru_utime + usage.ru_stime

def measured(session, *words):
    """Of each phase the microseconds of a call: the least of the runs, less what a mark takes."""
    path = session.written()
    least = {}
    for _ in range(RUNS):
        times, _ = play(path, *words)
        assert len(times) == len(session.phases), 'a mark is missing'
        between = [(name, after - before) for name, before, after in zip(session.phases[1:], times, times[1:])]
        mark = min(time for name, time in between if name is None)
        for name, time in between:
            if name is not None:
                each = (time - mark) / name[1] / 1000
                least[name[0]] = min(each, least.get(name[0], each))
    return least

def begun(size):
    """A session with so many objects."""
    session = Session()
    for i in range(size):
        session.miss(i)
    for _ in range(3):
        session.mark(None)
    return session

def by_objects(size):
    calls = min(CALLS, size // 4)
    # pages that lie all over, and none twice
    some = [i * (size // calls) for i in range(calls)]
    session = begun(size)
    session.phase('hit', session.hit, some)
    session.phase('miss with its insertion', session.miss, range(size, size + calls))
    session.phase('purge', lambda i: session.ask('PURGE', '/page%07d' % i), [i + 1 for i in some])
    session.phase('purge by a tag', lambda i: session.ask('TAG', '/', 'X-Tag: tag%07d' % i), [i + 2 for i in some])
    session.phase('ban', session.ban_objects, range(50))
    session.phase('test by the lurker, on 50 bans', lambda i: session.lurk(), some)
    session.phase('hit behind 50 bans', session.hit, [i + 3 for i in some])
    session.phase('hit on a tested object', session.hit, [i + 3 for i in some])
    return measured(session)

def full(size):
    session = begun(size + size // 5)
    calls = min(CALLS, size // 4)
    session.phase('insertion into a full room', session.miss, range(2 * size, 2 * size + calls))
    return measured(session, '--room', '%d' % (LEAST_SIZE * size))

def by_bans(count):
    session = begun(1000)
    session.phase('ban', session.ban_requests, range(count))
    session.phase('hit behind them', session.hit, range(1, 251))
    session.phase('hit on a tested object', session.hit, range(1, 251))
    session.phase('ban more', session.ban_requests, range(count, count + 50))
    found = measured(session)
    return {name: found[name] for name in ('hit on a tested object', 'ban more')}

def tell(what, counts, measure):
    first = None
    for count in counts:
        found = measure(count)
        first = first or found
        for name, micros in found.items():
            print('%-34s %7d %s %10.3f us   %6.2f times that at %d' % (name, count, what, micros, micros / first[name], counts[0]), flush=True)

def long_session(lines, pages):
    """Pages that come once, and then are asked for in turn."""
    session = Session()
    for i in range(pages):
        session.miss(i)
    while len(session.lines) < lines - 1:
        session.hit(len(session.lines) % pages)
    _, seconds = play(session.written())
    print('a session of %d lines with %d pages: %.2f s of the processor' % (len(session.lines) + 1, pages, seconds), flush=True)

tell('objects', SIZES, by_objects)
tell('objects', SIZES, full)
tell('bans   ', BANS, by_bans)
if not words:
    long_session(1000000, 100000)
PY
