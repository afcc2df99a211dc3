#!/usr/bin/env bash
# What `varn serve` does over real sockets of this machine, beside `varnishd` where that is installed, in one run: hits a second
# over 1 to 16 connections, best of three runs of a second; misses a second over 8 connections, none of which is stored; the memory
# that a hit and a miss take; and the processor's time for a hit where 10, 1,000 and 100,000 pages are stored, or as many as words
# say, or as many as could be stored in three minutes. Ratios stand first in their lines, and what they are made of behind them. Requests are
# made by wrk, and where that isn't installed by a client in Python, which takes longer over a request than the programs do and so
# brings ratios nearer to 1. Run it at the top of the repository. The program is built and proved first where it isn't there yet;
# PROGRAM names another build of it.
# shellcheck source=bench/prepare.sh
. "$(dirname "$0")/prepare.sh"
prepare varn
python3 - "$work" "$program" "$@" <<'PY'
import itertools, os, re, shutil, signal, socket, subprocess, sys, time

work, program, *counts = sys.argv[1:]
COUNTS = [int(count) for count in counts] or [10, 1000, 100000]
WRK, VARNISHD = shutil.which('wrk'), shutil.which('varnishd')
SECONDS, FILL_SECONDS = 1, 180

# ---- a backend that closes each connection behind its answer, which the path chooses

def answer(path):
    lasting = b'max-age=3600' if path.startswith(b'/kept') else b'max-age=0, stale-while-revalidate=0'
    return b'HTTP/1.1 200 OK\r\nCache-Control: %s\r\nContent-Length: 2\r\nConnection: close\r\n\r\nhi' % lasting

def attend(listener):
    while True:
        link, _ = listener.accept()
        head = b''
        while b'\r\n\r\n' not in head:
            piece = link.recv(4096)
            if not piece:
                break
            head += piece
        else:
            link.sendall(answer(head.split(b' ', 2)[1]))
        link.close()

def forked(work):
    """A process that does nothing but this work."""
    child = os.fork()
    if child == 0:
        try:
            work()
        finally:
            os._exit(1)
    return child

def free_port():
    with socket.socket() as one:
        one.bind(('127.0.0.1', 0))
        return one.getsockname()[1]

listener = socket.create_server(('127.0.0.1', 0), backlog=1024)
BACKEND = listener.getsockname()[1]

# ---- the servers

VCL = '%s/site.vcl' % work
with open(VCL, 'w') as out:
    out.write('vcl 4.1;\nbackend default { .host = "127.0.0.1"; .port = "%d"; }\n' % BACKEND)

class Server:
    """A server on a port of its own, which answers."""
    def __init__(self, name, words):
        self.port = free_port()
        self.child = subprocess.Popen(words(self.port), stdout=subprocess.DEVNULL, stderr=subprocess.DEVNULL)
        for _ in range(200):
            try:
                fetch(self.port, ['/ready'])
                return
            except OSError:
                time.sleep(0.05)
        self.__exit__()
        sys.exit('%s: nothing listens' % name)

    def __enter__(self):
        return self

    def __exit__(self, *_):
        self.child.terminate()
        self.child.wait()

    def memory(self):
        """The bytes that are in memory."""
        with open('/proc/%d/status' % self.child.pid) as status:
            return 1024 * int(re.search(r'VmRSS:\s+(\d+) kB', status.read()).group(1))

    def worked(self):
        """The seconds that a processor worked for it."""
        with open('/proc/%d/stat' % self.child.pid) as stat:
            ticks = stat.read().rsplit(')', 1)[1].split()[11:13]
        return sum(map(int, ticks)) / os.sysconf('SC_CLK_TCK')

def varn(workers=16):
    most = str(1 << 30)
    return Server('varn', lambda port: [program, 'serve', '--listen', str(port), '--vcl', VCL, '--workers', str(workers),
                                        '--room', most, '--history', most])

places = itertools.count()
def varnish():
    return Server('varnishd', lambda port: [VARNISHD, '-F', '-j', 'none', '-n', '%s/varnishd%d' % (work, next(places)), '-f', VCL,
                                            '-a', '127.0.0.1:%d' % port, '-s', 'malloc,1g'])

# ---- clients

def request(path):
    return b'GET %s HTTP/1.1\r\nHost: h\r\n\r\n' % path.encode()

def fetch(port, paths):
    """Asks for the paths over one connection, one behind another, and gives how many were answered by a page."""
    with socket.create_connection(('127.0.0.1', port), 30) as link:
        for done, path in enumerate(paths):
            link.sendall(request(path))
            got = b''
            while not got.endswith(b'\r\n\r\nhi'):
                piece = link.recv(4096)
                if not piece or not b'HTTP/1.1 200'.startswith((got + piece)[:12]):
                    raise OSError('%s: %r' % (path, got + piece))
                got += piece
    return done + 1

def cycle(prefix, count):
    """Paths of so many pages, again and again and not in their order."""
    return ('%s%d' % (prefix, 7919 * turn % count) for turn in itertools.count())

def until(end, paths):
    for path in paths:
        if time.perf_counter() > end:
            return
        yield path

def by_python(port, connections, prefix, count):
    ends, began = [], time.perf_counter()
    for one in range(connections):
        reads, writes = os.pipe()
        paths = until(began + SECONDS, cycle('%s%s' % (prefix, 'abcdefghijklmnop'[one] if count > 1 << 40 else ''), count))
        ends.append((reads, forked(lambda: os.write(writes, b'%d' % fetch(port, paths)) and os._exit(0))))
        os.close(writes)
    done = 0
    for reads, child in ends:
        done += int(os.read(reads, 32) or sys.exit('a client failed'))
        os.close(reads)
        os.waitpid(child, 0)
    return done / (time.perf_counter() - began), done

def by_wrk(port, connections, prefix, pages):
    script = '%s/paths.lua' % work
    with open(script, 'w') as out:
        out.write('local turn = -1\nfunction request()\n  turn = turn + 1\n'
                  '  return wrk.format("GET", string.format("%s%%d", 7919 * turn %% %d), {Host = "h"})\nend\n' % (prefix, pages))
    done = subprocess.run([WRK, '-t1', '-c%d' % connections, '-d%ds' % SECONDS, '-s', script, 'http://127.0.0.1:%d' % port],
                          stdout=subprocess.PIPE, check=True, text=True).stdout
    count = int(re.search(r'(\d+) requests in', done).group(1))
    errors = re.search(r'connect (\d+), read (\d+), write (\d+), timeout (\d+)', done)
    connect, read, write, late = map(int, errors.groups()) if errors else (0, 0, 0, 0)
    # varn ends a connection behind 10,000 requests; wrk then makes another one.
    if 'Non-2xx' in done or connect or write or late or read > count // 10_000:
        sys.exit('wrk: ' + done)
    return float(re.search(r'Requests/sec:\s+([\d.]+)', done).group(1)), count

tags = itertools.count()
def load(server, connections, count):
    """Requests a second, and how many there were: of pages of which there are so many, or without a count of new ones."""
    prefix = '/kept' if count else '/new%d-' % next(tags)
    return (by_wrk if WRK else by_python)(server.port, connections, prefix, count or 1 << 50)

def best(server, connections, count):
    return max(load(server, connections, count)[0] for _ in range(3))

# ---- what is measured

SERVERS = [('varn', varn)] + [('varnishd', varnish)] * bool(VARNISHD)

def against(rates):
    """How varn does beside varnishd, and both rates."""
    shown = ' and '.join('%.0f a second by %s' % (rate, name) for name, rate in rates.items())
    return ('%6.3f times varnishd' % (rates['varn'] / rates['varnishd']) if VARNISHD else 'no varnishd') + '   (%s)' % shown

def hits():
    alone = {}
    for connections in (1, 2, 4, 8, 16):
        rates = {}
        for name, make in SERVERS:
            with make() as server:
                fetch(server.port, ['/kept0'])
                rates[name] = best(server, connections, 1)
        alone = alone or rates
        print('hits, %2d connections      %s; %.2f times one connection' % (connections, against(rates), rates['varn'] / alone['varn']), flush=True)

def misses():
    rates = {}
    for name, make in SERVERS:
        with make() as server:
            rates[name] = best(server, 8, None)
    print('misses, 8 connections     %s' % against(rates), flush=True)

# three entries of 64 bytes, the texts of the key, the URL and the two fields
COUNTED = 3 * 64 + len('/kept0' 'h' '/kept0' 'Host' 'h' 'X-Forwarded-For' '127.0.0.1')

def memory():
    with varn() as server:
        fetch(server.port, ['/kept0'])
        for name, count in (('hit', 1), ('miss', None)):
            load(server, 4, count)
            before, done = server.memory(), 0
            for _ in range(3):
                done += load(server, 4, count)[1]
            taken = (server.memory() - before) / done
            beside = '%6.2f times the %d that the history counts   ' % (taken / COUNTED, COUNTED) if count else ''
            print('memory, a %-4s            %s(%.0f bytes, over %d requests)' % (name, beside, taken, done), flush=True)

def a_hit(server, count):
    """The seconds of a processor for a hit, of so many pages."""
    began = server.worked()
    _, done = load(server, 1, count)
    return (server.worked() - began) / done

def stores():
    base = None
    for wanted in COUNTS:
        with varn() as server:
            pages = ('/kept%d' % page for page in range(wanted))
            count = fetch(server.port, until(time.perf_counter() + FILL_SECONDS, pages))
            taken = min(a_hit(server, count) for _ in range(3))
        base = base or taken
        fewer = '' if count == wanted else '; more than these weren\'t stored within %d s' % FILL_SECONDS
        print('a hit among %6d pages   %6.2f times that among %d   (%.1f us%s)' % (count, taken / base, COUNTS[0], taken * 1e6, fewer), flush=True)

signal.signal(signal.SIGTERM, lambda *_: sys.exit(1))
children = [forked(lambda: attend(listener)) for _ in range(2)]
try:
    print('requests by %s, %d processors' % ('wrk' if WRK else 'a client in Python', os.cpu_count()), flush=True)
    hits()
    misses()
    memory()
    stores()
finally:
    for child in children:
        os.kill(child, signal.SIGKILL)
        os.waitpid(child, 0)
PY
