#!/usr/bin/env bash
# How the time and the memory of `varn replay` grow with the length of a session: sessions of 1,000 to 300,000 lines over 64
# pages, sessions in which each request is for a page of its own and moments go on, so that objects expire, and sessions of
# such pages at one moment over a room for some 64 of them, so that each page displaces one. The best of
# three runs each, the ratio of each step, and the peak memory a line beyond that of an empty session; and the memory that a
# hit takes, by sessions of hits alone, beside what the history counts for its entries. The program is built and proved first
# where it isn't there yet.
#
#   bench/replay.sh [LINES]     sessions of at most so many lines; without a word of 300,000
# shellcheck source=bench/prepare.sh
. "$(dirname "$0")/prepare.sh"
prepare varn
python3 - "$work" "$program" "${1:-300000}" <<'PY'
import os, sys, time
work, program = sys.argv[1:3]
MOST = int(sys.argv[3])
REPLY = ('HTTP/1.1 200 OK\\r\\nCache-Control: max-age=120, stale-while-revalidate=0'
         '\\r\\nContent-Length: 2\\r\\n\\r\\nhi')

def request(page):
    return 'req 1 "GET %s HTTP/1.1\\r\\nHost: h\\r\\n\\r\\n"' % page

def few(count):
    """Lines of a session: a moment, then requests of 64 pages in turn, with the replies to those that miss."""
    lines, number, moment, stored, turn = [], 1, 0, {}, 0
    while len(lines) < count - 3:
        if turn % 64 == 0:
            moment += 1000
            lines.append('at %d' % moment)
        page = '/page%d' % (turn % 64)
        turn += 1
        lines.append(request(page))
        if page in stored and moment < stored[page] + 120000:
            number += 1
            continue
        lines.append('reply %d "%s"' % (number + 1, REPLY))
        stored[page] = moment
        number += 2
    return lines + ['end']

def many(count):
    """Lines of a session: a second passes, and a page that none asked for before is asked for and comes."""
    lines, number = [], 1
    while len(lines) < count - 3:
        lines.append('at %d' % (1000 * number))
        lines.append(request('/page%d' % number))
        lines.append('reply %d "%s"' % (number + 1, REPLY))
        number += 2
    return lines + ['end']

def full(count):
    """Lines of a session: a page that none asked for before is asked for and comes, all at one moment."""
    lines, number = ['at 1000'], 1
    while len(lines) < count - 2:
        lines.append(request('/page%d' % number))
        lines.append('reply %d "%s"' % (number + 1, REPLY))
        number += 2
    return lines + ['end']

def hits(count):
    """Lines of a session: a page comes, and is asked for again and again."""
    first = ['at 1000', request('/page10'), 'reply 2 "%s"' % REPLY]
    return first + [request('/page10')] * count + ['end']

def run(path, *words):
    """The time of a run in seconds, its peak memory in bytes, and the lines that it wrote."""
    out = '%s/out' % work
    began = time.perf_counter()
    child = os.fork()
    if child == 0:
        os.dup2(os.open(path, os.O_RDONLY), 0)
        os.dup2(os.open(out, os.O_WRONLY | os.O_CREAT | os.O_TRUNC), 1)
        os.execv(program, [program, 'replay', *words])
    _, status, usage = os.wait4(child, 0)
    passed = time.perf_counter() - began
    if status != 0:
        sys.exit('%s: status %d' % (path, status >> 8))
    with open(out, 'rb') as written:
        return passed, usage.ru_maxrss * 1024, sum(1 for _ in written)

def written(name, lines):
    path = '%s/%s.session' % (work, name)
    with open(path, 'w') as out:
        out.write('\n'.join(lines) + '\n')
    return path

_, least, _ = run(written('empty', ['end']))
for name, session, counts, words in (('64 pages', few, (1000, 10000, 100000, 300000), ()),
                                     ('a page a request', many, (1000, 10000, 100000), ()),
                                     ('full room', full, (1000, 10000, 100000), ('--room', '40000'))):
    before = None
    for count in [count for count in counts if count <= MOST] or [MOST]:
        path = written('%s%d' % (name[0], count), session(count))
        best, peak, lines = min(run(path, *words) for _ in range(3))
        step = '' if before is None else '   %5.2f times as long for %g times the lines' % (best / before[0], count / before[1])
        print('%s: %7d lines   %8.4f s   %7d lines written   %5.0f bytes a line%s'
              % (name, count, best, lines, (peak - least) / count, step), flush=True)
        before = (best, count)
FEWER, MORE = min(20000, MOST // 3), min(100000, MOST)
fewer, more = (run(written('h%d' % count, hits(count)))[1] for count in (FEWER, MORE))
# three entries, the texts of the key, the URL and the two fields
counted = 3 * 64 + len('/page10' 'h' '/page10' 'Host' 'h' 'X-Forwarded-For' '10.0.0.1')
print('a hit: %.0f bytes, %.2f times the %d that the history counts for its entries'
      % ((more - fewer) / (MORE - FEWER), (more - fewer) / (MORE - FEWER) / counted, counted))
PY
