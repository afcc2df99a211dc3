#!/usr/bin/env bash
# How long an audit takes and how much memory, of journals of 125,000 to 1,000,000 entries over 20 objects, a segment 5,000 entries: the
# seconds are to grow as the entries do, and the memory hardly. The program is built and proved first where it isn't there yet.
#
#   bench/audit.sh [ENTRIES]    the most entries; without a word 1,000,000
# shellcheck source=bench/prepare.sh
. "$(dirname "$0")/prepare.sh"
prepare varn
python3 - "$program" "${1:-1000000}" <<'PY'
import os, resource, subprocess, sys, tempfile, time
program, most = sys.argv[1], int(sys.argv[2])

def audited(entries):
    """The seconds of an audit, and the most memory in KB."""
    with tempfile.TemporaryFile() as journal:
        words = ["tools/random_journal.py", "--entries", str(entries), "--segment", "5000"]
        subprocess.run(words, stdout=journal, check=True)
        size = journal.seek(0, os.SEEK_END)
        journal.seek(0)
        began = time.perf_counter()
        child = subprocess.Popen([program, "audit"], stdin=journal, stdout=subprocess.PIPE)
        told = child.stdout.read()
        _, status, used = os.wait4(child.pid, 0)
        passed = time.perf_counter() - began
        assert status == 0 and told == b"legal %d\n" % entries, (status, told)
        return size, passed, used.ru_maxrss

for part in (8, 4, 2, 1):
    entries = most // part
    size, passed, memory = audited(entries)
    print("%8d entries, %9d bytes: %6.2f s, %6.2f us an entry, %d KB" % (entries, size, passed, passed * 1e6 / entries, memory))
PY
