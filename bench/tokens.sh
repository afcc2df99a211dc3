#!/usr/bin/env bash
# How the time of reading the tokens of a VCL text grows with its length: texts of 64 KiB, 256 KiB and 1 MiB (the longest
# that is read), the best of five runs each, and the ratio of each to 64 KiB, where 4 and 16 are linear. The time that a
# run takes with an empty text is taken off. The program is built and proved first where it isn't there yet.
#
#   bench/tokens.sh [BYTES]     texts of a sixteenth, a quarter and the whole of so many bytes; without a word of 1,048,576
# shellcheck source=bench/prepare.sh
. "$(dirname "$0")/prepare.sh"
prepare measure
python3 - "$work" "$program" "${1:-1048576}" <<'PY'
import subprocess, sys, time
work, program, most = sys.argv[1:]
MOST = int(most)
SUB = b'''sub vcl_recv {
    # a comment on one line
    if (req.http.X-Forwarded-For != "10.0.0.1" && req.url ~ "^/static/") {
        set req.http.X-Grace = 10m + 1.5s; /* and one
        on two */
        unset req.http.Cookie;
        return (hash);
    }
}
'''

def text(size):
    """A VCL text of just so many bytes."""
    head = b'vcl 4.1;\n'
    whole = head + SUB * ((size - len(head)) // len(SUB))
    return whole + b' ' * (size - len(whole))

def best(content):
    path = work + '/text.vcl'
    with open(path, 'wb') as out:
        out.write(content)
    least = None
    for _ in range(5):
        with open(path, 'rb') as source:
            began = time.perf_counter()
            done = subprocess.run([program, 'tokens'], stdin=source, stdout=subprocess.PIPE, check=True)
            passed = time.perf_counter() - began
        least = passed if least is None else min(least, passed)
    return least, int(done.stdout)

start, _ = best(b'')
base = None
for size in (MOST // 16, MOST // 4, MOST):
    taken, count = best(text(size))
    taken -= start
    base = taken if base is None else base
    print('%8d bytes   %8.4f s   %7d tokens   %6.2f times as long' % (size, taken, count, taken / base))
PY
