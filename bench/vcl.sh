#!/usr/bin/env bash
# Runs per second of the built-in vcl_recv, by itself and behind 10, 100 and 1,000 statements, and what each takes against a
# reading of the same request's head; the best of five each. The time in which as many requests are read and the values of
# variables made of them is taken off that of the runs. The program is built and proved first where it isn't there yet.
#
#   bench/vcl.sh [READINGS]     so many readings, and a tenth of them or less with statements; without a word 200,000
# shellcheck source=bench/prepare.sh
. "$(dirname "$0")/prepare.sh"
prepare vcl_run_tests
python3 - "$program" "${1:-200000}" <<'PY'
import subprocess, sys, time
program, readings = sys.argv[1:]

def best(kind, times, statements, shown):
    """The shortest time of so many readings or runs, by one row of the program's input."""
    row = '%s %d %s => %s\n' % (kind, times, statements, shown)
    least = None
    for _ in range(5):
        began = time.perf_counter()
        done = subprocess.run([program], input=row.encode(), stdout=subprocess.PIPE, check=True)
        passed = time.perf_counter() - began
        assert done.stdout == b'1 rows\n', done.stdout
        least = passed if least is None else min(least, passed)
    return least

def each(kind, times, statements, shown):
    """The seconds of one more, of so many."""
    return (best(kind, times + 1, statements, shown) - best(kind, 1, statements, shown)) / times

READINGS = int(readings)
read = each('reads', READINGS, 'of a request', '/A')
made = each('contexts', READINGS, 'of a request', '/A')
print('a request is read in %.2f us, and with the values of variables made of it in %.2f us' % (read * 1e6, made * 1e6))
base = None
for count in (0, 10, 100, 1000):
    run = each('runs', max(1, READINGS // (10 + count) * 10), 'set req.http.A = "1"; ' * count + '/**/', '/A hash') - made
    base = run if base is None else base
    one = '' if count == 0 else '   %5.2f us a statement' % ((run - base) / count * 1e6)
    print('vcl_recv behind %4d statements   %9.0f runs/s   %8.2f times a reading%s' % (count, 1 / run, run / read, one))
PY
