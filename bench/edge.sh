#!/usr/bin/env bash
# What clients that hold connections take from others: 8 clients ask for hits for some seconds, alone and beside each crowd,
# from a `varn serve` of four workers. The crowds are clients that are idle behind one answer, as many as IDLE says (10,000
# where the system lets a process have so many descriptors); 64 that send a byte of a request each second; 64 that take 8 MiB at
# 10,000 bytes a second; 16 that send a body of 1 MiB at 20,000 bytes a second; 16 that ask each second for a page of a backend
# that takes connections and says nothing; and all of these together. A line has the hits of the 8 as a ratio to those alone,
# before the crowd came and behind it, with these rates, how long 99 of 100 took at most beside it, and the server's memory
# then. Run it at the top of the repository. The program is built and proved first where it isn't there yet; PROGRAM names
# another build of it, IDLE another number of idle clients, SECONDS_EACH how long is measured, LARGE_BYTES how long the large
# pages are.
# shellcheck source=bench/prepare.sh
. "$(dirname "$0")/prepare.sh"
prepare varn
ulimit -n "$(ulimit -Hn)"
python3 - "$work" "$program" "${IDLE:-10000}" "${SECONDS_EACH:-5}" "${LARGE_BYTES:-8000000}" <<'PY'
import os, re, resource, selectors, socket, subprocess, sys, time

work, program = sys.argv[1:3]
IDLE = min(int(sys.argv[3]), resource.getrlimit(resource.RLIMIT_NOFILE)[0] - 300)
SECONDS = float(sys.argv[4])
LARGE = int(sys.argv[5])

def free_port():
    with socket.socket() as one:
        one.bind(('127.0.0.1', 0))
        return one.getsockname()[1]

def forked(work):
    """A process that does nothing but this work."""
    child = os.fork()
    if child == 0:
        try:
            work()
        except KeyboardInterrupt:
            pass
        finally:
            os._exit(0)
    return child

# ---- a backend, of whose pages all are kept

def answer(path):
    body = b'x' * LARGE if path.startswith(b'/large') else b'hi'
    return b'HTTP/1.1 200 OK\r\nCache-Control: max-age=3600\r\nContent-Length: %d\r\nConnection: close\r\n\r\n%s' % (len(body), body)

def attend(listener):
    while True:
        link, _ = listener.accept()
        head = b''
        while b'\r\n\r\n' not in head:
            piece = link.recv(65536)
            if not piece:
                break
            head += piece
        else:
            link.sendall(answer(head.split(b' ', 2)[1]))
        link.close()

listener = socket.create_server(('127.0.0.1', 0), backlog=1024)
BACKEND, PORT = listener.getsockname()[1], free_port()
backend = forked(lambda: attend(listener))
# One that takes connections as far as the system does, and says nothing.
mute = socket.create_server(('127.0.0.1', 0), backlog=1024)
with open('%s/site.vcl' % work, 'w') as out:
    out.write('vcl 4.1;\nbackend default { .host = "127.0.0.1"; .port = "%d"; }\nbackend mute { .host = "127.0.0.1"; .port = "%d"; }\n'
              'sub vcl_recv { if (req.url ~ "^/mute") { set req.backend_hint = mute; } }\n' % (BACKEND, mute.getsockname()[1]))

# ---- clients

GET = b'GET /kept HTTP/1.1\r\nHost: h\r\n\r\n'

def connect(room=None):
    link = socket.socket()
    if room:
        link.setsockopt(socket.SOL_SOCKET, socket.SO_RCVBUF, room)
    link.settimeout(60)
    link.connect(('127.0.0.1', PORT))
    return link

def ask(link):
    link.sendall(GET)
    got = b''
    while not got.endswith(b'\r\n\r\nhi'):
        piece = link.recv(4096)
        if not piece or not b'HTTP/1.1 200'.startswith((got + piece)[:12]):
            raise OSError('%r' % (got + piece))
        got += piece

def hold_idle():
    """Clients that are idle behind one answer."""
    links = []
    for _ in range(IDLE):
        link = connect()
        ask(link)
        links.append(link)
    yield
    while True:
        time.sleep(1)

def each_second(links, step):
    yield
    while True:
        began = time.monotonic()
        for place, link in enumerate(links):
            try:
                step(link)
            except OSError:
                links[place] = None
        links[:] = [link for link in links if link]
        time.sleep(max(0, 1 - (time.monotonic() - began)))

def drip():
    links = [connect() for _ in range(64)]
    for link in links:
        link.sendall(b'GET / HTTP/1.1\r\nHost: h\r\nX-Slow: ')
    return each_second(links, lambda link: link.send(b'x'))

def take():
    links = [connect(4096) for _ in range(64)]
    for link in links:
        link.sendall(b'GET /large HTTP/1.1\r\nHost: h\r\n\r\n')
    # Each response was made, and waits for its client.
    for link in links:
        link.recv(1)
    return each_second(links, lambda link: link.recv(10_000))

def upload():
    links = [connect() for _ in range(16)]
    for link in links:
        link.sendall(b'POST /form HTTP/1.1\r\nHost: h\r\nContent-Length: 1000000\r\n\r\n')
    return each_second(links, lambda link: link.send(b'x' * 20_000))

def hang():
    links = [connect() for _ in range(16)]
    for place, link in enumerate(links):
        link.setblocking(False)
        link.send(b'GET /mute%d HTTP/1.1\r\nHost: h\r\n\r\n' % place)
    def again(link):
        try:
            if not link.recv(65536):
                raise OSError
            link.send(b'GET /mute%d HTTP/1.1\r\nHost: h\r\n\r\n' % link.fileno())
        except BlockingIOError:
            pass
    return each_second(links, again)

CROWDS = {'idle': hold_idle, 'dripping': drip, 'taking': take, 'uploading': upload, 'hanging': hang}

class Crowd:
    """Clients in a process of their own, which are there once this is."""
    def __init__(self, make):
        reads, writes = os.pipe()
        def work():
            steps = make()
            next(steps)
            os.write(writes, b'x')
            next(steps)
        self.child = forked(work)
        os.close(writes)
        if not os.read(reads, 1):
            sys.exit('a crowd failed')
        os.close(reads)

    def end(self):
        os.kill(self.child, 9)
        os.waitpid(self.child, 0)

def hits():
    """How many hits 8 clients have a second, and how many seconds 99 of 100 take at most."""
    links = [connect() for _ in range(8)]
    waits, began, times = selectors.DefaultSelector(), {}, []
    start = time.perf_counter()
    for link in links:
        waits.register(link, selectors.EVENT_READ)
        began[link] = time.perf_counter()
        link.sendall(GET)
    while time.perf_counter() < start + SECONDS:
        for key, _ in waits.select(1):
            link = key.fileobj
            got = link.recv(4096)
            if not got.endswith(b'\r\n\r\nhi'):
                sys.exit('%r' % got)
            now = time.perf_counter()
            times.append(now - began[link])
            began[link] = now
            link.sendall(GET)
    # A client that still waits took at least as long.
    now = time.perf_counter()
    times += [now - since for since in began.values() if now - since > 0.05]
    for link in links:
        link.close()
    times.sort()
    return len(times) / SECONDS, times[len(times) * 99 // 100]

# ---- what is measured

class Server:
    def __enter__(self):
        self.child = subprocess.Popen([program, 'serve', '--listen', str(PORT), '--vcl', '%s/site.vcl' % work, '--workers', '4',
                                       '--room', str(1 << 30), '--history', str(1 << 30)],
                                      stdout=subprocess.DEVNULL, stderr=subprocess.DEVNULL)
        for _ in range(400):
            try:
                with connect() as link:
                    ask(link)
                return self
            except OSError:
                time.sleep(0.05)
        sys.exit('nothing listens')

    def __exit__(self, *_):
        self.child.terminate()
        self.child.wait()

    def memory(self):
        with open('/proc/%d/status' % self.child.pid) as status:
            return int(re.search(r'VmRSS:\s+(\d+) kB', status.read()).group(1)) / 1024

def beside(name, makers):
    with Server() as server:
        before, _ = hits()
        crowds = []
        try:
            crowds = [Crowd(make) for make in makers]
            rate, slowest = hits()
            memory = server.memory()
        finally:
            for crowd in crowds:
                crowd.end()
        # The server sees the ends of the crowds first.
        time.sleep(1)
        behind, _ = hits()
        alone = (before + behind) / 2
        print('beside %-22s %5.2f times alone   (%.0f of %.0f and %.0f a second; 99 of 100 in %.1f ms; %.0f MiB)'
              % (name, rate / alone, rate, before, behind, 1000 * slowest, memory), flush=True)

try:
    for name, make in CROWDS.items():
        beside({'idle': '%d that are idle' % IDLE, 'dripping': '64 that drip', 'taking': '64 that take slowly', 'uploading': '16 that upload',
                'hanging': '16 at a mute backend'}[name], [make])
    beside('all of these', list(CROWDS.values()))
finally:
    os.kill(backend, 9)
PY
