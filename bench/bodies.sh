#!/usr/bin/env bash
# How the time of reading a body grows with the smallness of its pieces: a body of 8 MiB in chunks of 4,096 bytes, one in
# chunks of 16 bytes and one of a stated length, each fed in pieces of 64 KiB, 1 KiB and 1 byte, the best of three runs,
# and what each takes against pieces of 64 KiB. Then an eighth of the body against the whole in pieces of 1 byte. The time that a
# run takes with an empty body is taken off. The program is built and proved first where it isn't there yet.
#
#   bench/bodies.sh [KIB]     bodies of so many KiB, a multiple of 64; without a word of 8,192
# shellcheck source=bench/prepare.sh
. "$(dirname "$0")/prepare.sh"
prepare measure
python3 - "$work" "$program" "${1:-8192}" <<'PY'
import subprocess, sys, time
work, program, kib = sys.argv[1:]
WHOLE = int(kib) << 10

def chunked(size, chunk):
    """A body of so many bytes, in chunks."""
    whole = b'%x\r\n' % chunk + b'x' * chunk + b'\r\n'
    return whole * (size // chunk) + b'0\r\n\r\n'

def best(shape, piece, path, size):
    least = None
    for _ in range(3):
        with open(path, 'rb') as source:
            began = time.perf_counter()
            done = subprocess.run([program, 'bodies', shape, str(piece)], stdin=source, stdout=subprocess.PIPE, check=True)
            passed = time.perf_counter() - began
        assert done.stdout == b'%d\n' % size, done.stdout
        least = passed if least is None else min(least, passed)
    return least

def written(name, content):
    path = '%s/%s' % (work, name)
    with open(path, 'wb') as out:
        out.write(content)
    return path

start = best('sized', 1, written('empty', b''), 0)
KINDS = (('chunked', 4096), ('chunked', 16), ('sized', 0))
for shape, chunk in KINDS:
    content = chunked(WHOLE, chunk) if shape == 'chunked' else b'x' * WHOLE
    name = '%s of %d' % (shape, chunk) if chunk else shape
    path = written('body', content)
    base = None
    for piece in (65536, 1024, 1):
        taken = best(shape, piece, path, WHOLE) - start
        base = taken if base is None else base
        print('%-16s %s KiB  pieces of %5d   %8.4f s   %6.2f times as long as pieces of 65536' % (name, kib, piece, taken, taken / base))
for shape, chunk in KINDS:
    times = []
    for size in (WHOLE // 8, WHOLE):
        content = chunked(size, chunk) if shape == 'chunked' else b'x' * size
        times.append(best(shape, 1, written('body', content), size) - start)
    name = '%s of %d' % (shape, chunk) if chunk else shape
    print('%-16s pieces of 1   the whole takes %5.2f times as long as an eighth of it' % (name, times[1] / times[0]))
PY
