#!/usr/bin/env bash
# Turns of one lock per second by 1, 2, 4, 8 and 16 threads, the best of five runs each: bare turns, in which a number is
# written down and nothing more, and turns with some microseconds of work in each. Each rate stands beside two ratios: to
# one thread, which shows what it costs that turns go from processor to processor, and, where there are more threads than
# processors, to as many threads as processors, which shows what sleeping and waking costs and is to be a half at least.
# The time that a run of no turns takes is taken off. The program is built and proved first where it isn't there yet.
#
#   bench/turns.sh [TURNS]     so many bare turns, and a sixteenth of them with work; without a word 1,048,576
# shellcheck source=bench/prepare.sh
. "$(dirname "$0")/prepare.sh"
prepare turns
python3 - "$program" "${1:-1048576}" <<'PY'
import os, subprocess, sys, time
program, most = sys.argv[1:]
THREADS = (1, 2, 4, 8, 16)

def best(threads, turns, work):
    """The shortest time in which so many threads took so many turns in all."""
    least = None
    for _ in range(5):
        began = time.perf_counter()
        done = subprocess.run([program, str(threads), str(turns // threads), str(work)], stdout=subprocess.PIPE, check=True)
        passed = time.perf_counter() - began
        assert done.stdout == b'%d\n' % (turns // threads * threads), done.stdout
        least = passed if least is None else min(least, passed)
    return least

print('%d processors' % os.cpu_count())
for work, turns in ((0, int(most)), (100, int(most) // 16)):
    alone, full = None, None
    for threads in THREADS:
        rate = turns / (best(threads, turns, work) - best(threads, 0, work))
        alone = rate if alone is None else alone
        full = (threads, rate) if threads <= os.cpu_count() else full
        kind = 'bare turns' if work == 0 else 'turns with work (%d)' % work
        more = '' if threads <= os.cpu_count() else ', %5.2f times %d threads' % (rate / full[1], full[0])
        print('%-22s %2d threads   %10.0f turns/s   %5.2f times one thread%s' % (kind, threads, rate, rate / alone, more))
PY
