#!/usr/bin/env bash
# Where the processor's time of a hit and of a miss goes in `varn serve`, by function: a table with the share of each function that
# has a hundredth or more somewhere, and above it sums of several. Requests are as curl sends them and as a browser does (700 bytes),
# over four connections, to four workers; pages have 13 bytes; a miss is of a new page each time, which is stored in place of
# another one, from a backend that keeps connections. It needs perf (linux-perf of Debian) and wrk, and a program that has its
# functions' names. Run it at the top of the repository. The program is built and proved first where it isn't there yet; PROGRAM
# names another build of it, SECONDS_EACH how long each column is measured. bench/PROFILE.md has such a table.
# shellcheck source=bench/prepare.sh
. "$(dirname "$0")/prepare.sh"
for tool in perf wrk python3; do
  command -v $tool > /dev/null || { echo "profile: there is no $tool here"; exit 1; }
done
prepare varn
python3 - "$work" "$program" "${SECONDS_EACH:-10}" <<'PY'
import collections, re, socket, subprocess, sys, threading, time

work, program, seconds = sys.argv[1:]
BODY = b'13 bytes long'
HEAD = (b'HTTP/1.1 200 OK\r\nServer: site\r\nDate: Tue, 01 Dec 2026 11:00:00 GMT\r\nContent-Type: text/html\r\n'
        b'Cache-Control: max-age=3600\r\nContent-Length: 13\r\n\r\n')
CURL = ['Host: www.example.com', 'User-Agent: curl/8.5.0', 'Accept: */*']
BROWSER = ['Host: www.example.com', 'Connection: keep-alive', 'sec-ch-ua: "Chromium";v="130", "Not?A_Brand";v="99"',
           'sec-ch-ua-mobile: ?0', 'sec-ch-ua-platform: "Linux"', 'Upgrade-Insecure-Requests: 1',
           'User-Agent: Mozilla/5.0 (X11; Linux x86_64) AppleWebKit/537.36 (KHTML, like Gecko) Chrome/130.0.0.0 Safari/537.36',
           'Accept: text/html,application/xhtml+xml,application/xml;q=0.9,image/avif,image/webp,image/apng,*/*;q=0.8',
           'Sec-Fetch-Site: same-origin', 'Sec-Fetch-Mode: navigate', 'Sec-Fetch-User: ?1', 'Sec-Fetch-Dest: document',
           'Referer: https://www.example.com/shop/shoes/a-page-that-leads-here?from=winter&sort=1&page=2',
           'Accept-Encoding: gzip, deflate, br, zstd', 'Accept-Language: en-GB,en;q=0.9']
COLUMNS = [('hit, curl', True, CURL), ('hit, browser', True, BROWSER), ('miss, curl', False, CURL), ('miss, browser', False, BROWSER)]

def attend(link):
    with link:
        came = b''
        while True:
            while b'\r\n\r\n' not in came:
                piece = link.recv(65536)
                if not piece:
                    return
                came += piece
            came = came.split(b'\r\n\r\n', 1)[1]
            link.sendall(HEAD + BODY)

def accept(listener):
    while True:
        threading.Thread(target=attend, args=(listener.accept()[0],), daemon=True).start()

listener = socket.create_server(('127.0.0.1', 0), backlog=128)
threading.Thread(target=accept, args=(listener,), daemon=True).start()
with open('%s/site.vcl' % work, 'w') as out:
    out.write('vcl 4.1;\nbackend default { .host = "127.0.0.1"; .port = "%d"; }\n' % listener.getsockname()[1])

def free_port():
    with socket.socket() as one:
        one.bind(('127.0.0.1', 0))
        return one.getsockname()[1]

def script(is_hit, fields):
    """What wrk sends: each request to one page, or each to a page of its own."""
    lines = ['GET /page%s HTTP/1.1', *fields, '', '']
    with open('%s/load.lua' % work, 'w') as out:
        out.write('local form = [==[%s]==]\nlocal n = 0\nrequest = function()\n  n = n + 1\n  return (form:gsub("\\n", "\\r\\n"):format(%s))\nend\n'
                  % ('\n'.join(lines), '0' if is_hit else 'n'))
    return len('\r\n'.join(lines)) - 1

def load(port, how_long):
    words = ['wrk', '-t1', '-c4', '-d%ss' % how_long, '-s', '%s/load.lua' % work, 'http://127.0.0.1:%d/' % port]
    return subprocess.run(words, capture_output=True, text=True, check=True).stdout

def profile(is_hit, fields):
    """The share of each function, of 100, and how many requests there were a second."""
    size, port = script(is_hit, fields), free_port()
    words = ['serve', '--listen', str(port), '--vcl', '%s/site.vcl' % work, '--workers', '4', '--room', '60000', '--history', str(1 << 30)]
    server = subprocess.Popen([program, *words], stdout=subprocess.DEVNULL, stderr=subprocess.DEVNULL)
    try:
        for _ in range(100):
            try:
                socket.create_connection(('127.0.0.1', port), 5).close()
                break
            except OSError:
                time.sleep(0.1)
        load(port, 1)
        kept = '%s/perf' % work
        record = subprocess.Popen(['perf', 'record', '-q', '-F', '4999', '-e', 'cpu-clock', '-p', str(server.pid), '-o', kept],
                                  stdout=subprocess.DEVNULL, stderr=subprocess.DEVNULL)
        time.sleep(0.3)
        said = load(port, seconds)
        record.send_signal(2)
        record.wait()
    finally:
        server.terminate()
        server.wait()
    told = subprocess.run(['perf', 'report', '-i', kept, '--stdio', '--no-children', '-g', 'none', '--percent-limit', '0'],
                          capture_output=True, text=True, check=False).stdout
    shares = collections.Counter()
    for share, library, kind, name in re.findall(r'^ +([\d.]+)% +\S+ +(\S+) +\[(.)\] (.+?) *$', told, re.M):
        shares['kernel' if kind == 'k' else re.sub(r'::<.*', '', name)] += float(share)
    return size, float(re.search(r'Requests/sec: +([\d.]+)', said)[1]), shares

KINDS = {'moving memory': r'__mem(move|cpy)', 'clearing memory': r'__memset', 'allocating': r'_?_?(malloc|int_malloc|int_free|realloc|int_realloc|cfree|free|calloc|unlink_chunk|malloc_consolidate|int_memalign).*|rattle_alloc|rattle_free|rattle_realloc'}
CRATES = {'VCL runs (vcl_operands, vcl_eval, vcl_runner, vcl_context, vcl_values)': r'vcl_',
          'client states (client_task, client_graph)': r'client_', 'fetch states (fetch_task, fetch_graph)': r'fetch_',
          'rounds (round_task, round_lead, server, connection)': r'(round_|server|steering|connection::)',
          'heads and bodies (http_heads, http_bodies, httparse, message_reader)': r'(http|message_reader)',
          'what goes on and comes (backend_request, backend_link, delivery, freshness, seen_request)': r'(backend_|delivery|freshness|seen_request)',
          'cache (cache_frame, cache_desk, flat_core, shared_cache, turnstile)': r'(cache_|flat_core|shared_cache|turnstile|softening)',
          'sockets (edge, system, access_log, world, wire, mio)': r'(edge|system|access_log|world|wire|mio|entrance|workers|crew)',
          'texts (units)': r'units', 'the standard library': r'(core|std)'}

def kind_of(name):
    if name == 'kernel':
        return name
    for kind, form in [*KINDS.items(), *CRATES.items()]:
        if re.match(form, name):
            return kind
    return 'other'

found = [profile(is_hit, fields) for _, is_hit, fields in COLUMNS]
print('| Of 100 | ' + ' | '.join(name for name, *_ in COLUMNS) + ' |')
print('|---|' + '---:|' * len(COLUMNS))

def row(name, figures):
    print('| %s | %s |' % (name, ' | '.join(figures)))

row('bytes of the request', ['%d' % size for size, _, _ in found])
row('requests a second', ['%.0f' % rate for _, rate, _ in found])
sums = [collections.Counter() for _ in found]
for total, (_, _, shares) in zip(sums, found):
    for name, share in shares.items():
        total[kind_of(name)] += share
for name in ['kernel', *KINDS, *CRATES, 'other']:
    row(name, ['%.1f' % total[name] for total in sums])
print()
print('| Function | ' + ' | '.join(name for name, *_ in COLUMNS) + ' |')
print('|---|' + '---:|' * len(COLUMNS))
names = {name for _, _, shares in found for name, share in shares.items() if share >= 1}
for name in sorted(names - {'kernel'}, key=lambda it: -sum(shares[it] for *_, shares in found)):
    row('`%s`' % name, ['%.1f' % shares[name] for *_, shares in found])
PY
