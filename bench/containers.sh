#!/usr/bin/env bash
# How the time of a call of a container of the lazy cache grows with its members: at 1,000, 10,000 and 100,000 of them, and
# the ratio of each to that at 1,000, which is to be 2.5 at most. A row puts so many members in, and then makes some calls
# between two looks at the clock of the processor, again and again: what is told is the median of all of them, with what it
# takes to read a step and to write its answer. Of a call that goes over all lines the time of a line is taken. The calls
# come to members all over, so a ratio has in it what memory costs that no cache of the processor holds. The program, which
# is that of the rows, is built and proved first where it isn't there yet.
#
#   bench/containers.sh [WORD [STRIDE]]    the calls whose names have this word, or all; each call comes to the member that is
#                                          STRIDE behind the last one's: 7919 without one, and at 1 the members that calls
#                                          come to stay in the processor's caches, so a ratio is the container's alone
. "$(dirname "$0")/prepare.sh"
prepare container_tests
python3 - "$program" "${1:-}" "${2:-7919}" <<'PY'
import functools, itertools, os, re, statistics, subprocess, sys
program, word, stride = sys.argv[1], sys.argv[2], int(sys.argv[3])
SIZES = (1000, 10000, 100000)
# so many looks at the clock a row, so many calls between two of them, and so many rows
LOOKS = 9
CALLS = 500
ROWS = 5
# the lines that calls go over between two looks which go over all of them
LINES = 100000
TOP = 1 << 40

# steps with their answers
def xkey_put(i):
    return ('put %d k%d' % (TOP - i, i), 'put')

def xkeys(n):
    return [xkey_put(i) for i in range(n)]

def room_put(i):
    return ('put %d %d 10 %d' % (i + 1, TOP - i, 1000 + i), 'put')

def rooms(n):
    return [room_put(i) for i in range(n)]

def head_put(i):
    return ('put %d %d 0 k%d' % (TOP - i, i, i), 'put')

def heads(n):
    return [head_put(i) for i in range(n)]

def head_item(i):
    return '%d [b"k%d"] 0 0 0' % (i, i)

def ban(i, key):
    return ('ban 0 req.url == /k%d' % key, 'ban %d' % (i + 1))

def bans(n):
    return [ban(i, i) for i in range(n)]

def object_at(n):
    return [('enter 0 0', '1 objects')] + bans(n)

def ban_and_cut(i, n):
    return [ban(n + i, n + i), ('enter %d %d' % (i + 1, i + 1), '2 objects'), ('depart %d %d' % (i, i), '1 objects'), ('cut', '%d left' % n)]

# of each call: the container, how so many members are put in, and the steps of the i-th time at so many members
CASES = {
    'xkeys put': ('xkeys', xkeys, lambda i, n: [xkey_put(n + i)]),
    'xkeys find': ('xkeys', xkeys, lambda i, n: [('find k%d' % (i * stride % n), '%d' % (TOP - i * stride % n))]),
    'xkeys take, none there': ('xkeys', xkeys, lambda i, n: [('take %d' % (i + 1), 'none')]),
    'xkeys drop_all, none there': ('xkeys', xkeys, lambda i, n: [('drop %d,%d' % (i + 1, i + 2), 'dropped')]),
    'xkeys put and drop_all': ('xkeys', xkeys, lambda i, n: [xkey_put(n + i), ('drop %d' % (TOP - i), 'dropped')]),
    'xkeys put and take': ('xkeys', xkeys, lambda i, n: [xkey_put(n + i), ('take %d' % (TOP - i), '[b"k%d"]' % i)]),
    'room put_last': ('room', rooms, lambda i, n: [room_put(n + i)]),
    'room get': ('room', rooms, lambda i, n: [('get %d' % (i * stride % n + 1), '%d 10 %d' % (TOP - i * stride % n, 1000 + i * stride % n))]),
    'room put_last and drop_all': ('room', rooms, lambda i, n: [room_put(n + i), ('drop %d' % (i + 1), 'dropped')]),
    'room move_use': ('room', rooms, lambda i, n: [('use %d %d' % (i + 1, n + i + 1), 'used')]),
    'room move_end': ('room', rooms, lambda i, n: [('end %d %d' % (i * stride % n + 1, 1000 + 2 * n + i), 'ends')]),
    'room total': ('room', rooms, lambda i, n: [('total', '%d' % (10 * n))]),
    'room expired, none': ('room', rooms, lambda i, n: [('expired 999', 'none')]),
    'room expired': ('room', rooms, lambda i, n: [('expired %d' % (1000 + n), '%d' % TOP)]),
    'room least_out, 50 go': ('room', rooms, lambda i, n: [('out %d 10' % (10 * (n - 49)), ' '.join('%d' % (TOP - k) for k in range(50)))]),
    'room least_out, none go': ('room', rooms, lambda i, n: [('out %d 10 %d' % (10 * n, i * stride % n + 1), 'none')]),
    'room put_last and take': ('room', rooms, lambda i, n: [room_put(n + i), ('take %d' % (i + 1), '%d 10 %d' % (TOP - i, 1000 + i))]),
    'heads put': ('heads', heads, lambda i, n: [head_put(n + i)]),
    'heads find': ('heads', heads, lambda i, n: [('find k%d' % (i * stride % n), '%d' % (TOP - i * stride % n))]),
    'heads number': ('heads', heads, lambda i, n: [('number %d' % (i * stride % n), '%d' % (TOP - i * stride % n))]),
    'heads from': ('heads', heads, lambda i, n: [('from %d' % (TOP - i * stride % n), '%d' % (TOP - i * stride % n))]),
    'heads get': ('heads', heads, lambda i, n: [('get %d' % (TOP - i * stride % n), head_item(i * stride % n))]),
    'heads pay': ('heads', heads, lambda i, n: [('pay %d 7' % (TOP - i * stride % n), 'done')]),
    'heads hit': ('heads', heads, lambda i, n: [('hit %d' % (TOP - i * stride % n), 'done')]),
    'heads age': ('heads', heads, lambda i, n: [('age %d 7' % (TOP - i * stride % n), 'done')]),
    'heads take, none there': ('heads', heads, lambda i, n: [('take %d' % (i + 1), 'none')]),
    'heads put and drop_all': ('heads', heads, lambda i, n: [head_put(n + i), ('drop %d' % (TOP - i), 'dropped')]),
    'heads put and take': ('heads', heads, lambda i, n: [head_put(n + i), ('take %d' % (TOP - i), head_item(i))]),
    'bans ban': ('bans', bans, lambda i, n: [ban(n + i, n + i)]),
    'bans ban, equal to one': ('bans', bans, lambda i, n: [ban(n + i, i * stride % n)]),
    'bans newer': ('bans', bans, lambda i, n: [('newer %d' % (i * stride % n), '%d' % (n - i * stride % n))]),
    'bans line': ('bans', bans, lambda i, n: [('line %d' % (n - 1 - i * stride % n), '%d 0 requests [b"req.url",b"==",b"/k%d"]' % (i * stride % n + 1, i * stride % n))]),
    'bans placed_at, marked_at': ('bans', object_at, lambda i, n: [('at %d' % (i * stride % n + 1), '0 0')]),
    'bans enter and depart': ('bans', bans, lambda i, n: [('enter %d %d' % (i * stride % n, i * (stride + 2) % n), '1 objects'), ('depart %d %d' % (i * stride % n, i * (stride + 2) % n), '0 objects')]),
    'bans enter': ('bans', bans, lambda i, n: [('enter %d %d' % (i * stride % n, i * (stride + 2) % n), '%d objects' % (i + 1))]),
    'bans ban, move and cut': ('bans', object_at, ban_and_cut),
}

# of each call that goes over all lines: the same, and one such call
PASS_CASES = {
    'bans keep_needed, a line': ('bans', object_at, lambda n: ('keep', '%d left' % n)),
    'bans shown, a line': ('bans', bans, lambda n: ('shown', ' '.join('%d 0 [b"req.url",b"==",b"/k%d"]' % (i + 1, i) for i in reversed(range(n))))),
}

def passed_between(container, steps):
    """The nanoseconds between looks at the clock. Each other step has its answer."""
    row = '%s %s => none\n' % (container, '; '.join(step for step, _ in steps))
    done = subprocess.run([program], input=row.encode(), stdout=subprocess.PIPE, check=True)
    said = done.stdout.decode().split('\n')[0].partition(' => ')[2].split('; ')
    for (step, wanted), answer in zip(steps, said, strict=True):
        assert step == 'clock' or answer == wanted, (step, answer)
    looks = [int(answer) for (step, _), answer in zip(steps, said) if step == 'clock']
    return [after - before for before, after in itertools.pairwise(looks)]

def calls_between(calls, steps_of):
    """So many calls between two looks at the clock, each with its own number."""
    steps = [('clock', None)]
    for look in range(LOOKS):
        for i in range(look * calls, (look + 1) * calls):
            steps += steps_of(i)
        steps.append(('clock', None))
    return steps

@functools.lru_cache(maxsize=None)
def instructions_of(row):
    """How many instructions the program takes for the row."""
    words = ['valgrind', '--tool=callgrind', '--callgrind-out-file=/dev/null', program]
    done = subprocess.run(words, input=row.encode(), stdout=subprocess.PIPE, stderr=subprocess.PIPE, check=True)
    return int(re.search(rb'Collected : (\d+)', done.stderr)[1])

def row_of(container, steps):
    return '%s %s => none\n' % (container, '; '.join(step for step, _ in steps))

def tell_instructions(name, container, members_of, steps_of, calls_of, parts_of):
    """The instructions of a call, or of each of its parts, at each size: of a row with calls, less those of one without. Members
    that are put in are as many as are there, so that a table's growth is counted as often as it comes."""
    least = None
    for n in SIZES:
        count = n if ' put' in name and calls_of(n) == CALLS else calls_of(n)
        members, calls = members_of(n), [step for i in range(count) for step in steps_of(i, n)]
        taken = instructions_of(row_of(container, members + calls)) - instructions_of(row_of(container, members))
        each = taken / count / parts_of(n)
        least = least or each
        print('%-28s %7d members   %8.0f instructions a call   %5.2f times those at %d' % (name, n, each, each / least, SIZES[0]), flush=True)

def tell(name, container, members_of, steps_of, calls_of, parts_of):
    """The median time of a call, or of each of its parts, at each size."""
    if os.environ.get('INSTRUCTIONS'):
        return tell_instructions(name, container, members_of, steps_of, calls_of, parts_of)
    least = None
    for n in SIZES:
        steps = members_of(n) + calls_between(calls_of(n), lambda i: steps_of(i, n))
        passed = [nanos for _ in range(ROWS) for nanos in passed_between(container, steps)]
        micros = statistics.median(passed) / 1000 / calls_of(n) / parts_of(n)
        least = least or micros
        print('%-28s %7d members   %8.3f us a call   %5.2f times that at %d' % (name, n, micros, micros / least, SIZES[0]), flush=True)

for name, (container, members_of, steps_of) in CASES.items():
    if word in name:
        tell(name, container, members_of, steps_of, lambda n: CALLS, lambda n: 1)
for name, (container, members_of, step_of) in PASS_CASES.items():
    if word in name:
        tell(name, container, members_of, lambda i, n: [step_of(n)], lambda n: LINES // n, lambda n: n)
PY
