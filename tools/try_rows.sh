#!/usr/bin/env bash
# Tries the edits of edits/rows/: wrong bodies that no clause refuses, as that each run wants memory or that one worker serves
# all. Each names its crate and the crate of tests whose rows must tell it. An edit is made in a copy of the crates, and the
# rows are run there without proofs: some 6 minutes of a processor and 4 GB of memory an edit. It has status 1 where the rows
# go on as before, or an edit doesn't fit.
#
#   tools/try_rows.sh            all of them
#   tools/try_rows.sh NAME..     these
set -euo pipefail
cd "$(dirname "$0")/.."
[ $# -gt 0 ] || set -- $(cd edits/rows && ls | sed 's/\.edit$//')
work=$(mktemp -d "$PWD/out-rows-XXXXXX")
trap 'rm -rf "$work"' EXIT
missed=0
for name in "$@"; do
  edit=edits/rows/$name.edit
  [ -r "$edit" ] || { sed -n '/^#   /s/^# *//p' "$0" >&2; exit 2; }
  crate=$(sed -n 's/^crate: //p' "$edit")
  tests=$(sed -n 's/^tests: //p' "$edit")
  rm -rf "$work"/*
  cp -r crates crates.txt HANDLES "$work"
  python3 - "$edit" "$work/crates/$crate" << 'END'
import sys
from pathlib import Path
file = text = old = None
for line in Path(sys.argv[1]).read_text(encoding="utf-8").splitlines():
    key, _, value = line.partition(": ")
    if key == "file":
        file = Path(sys.argv[2]) / value
        text = file.read_text(encoding="utf-8")
    elif key == "old":
        old = value.strip()
        if text.count(old) != 1:
            sys.exit(f"{sys.argv[1]}: doesn't stand once: {old}")
    elif key == "new":
        text = text.replace(old, value.strip())
        file.write_text(text, encoding="utf-8")
END
  (cd "$work/crates/$tests" && rt try --seconds 600 < stdin > "$work/said" 2> "$work/why") || true
  if cmp -s "$work/said" "crates/$tests/stdout"; then
    echo "$name: NOT TOLD by the rows of $tests"
    missed=1
  elif ! grep -q ' rows$\| => ' "$work/said"; then
    echo "$name: the rows didn't run: $(tail -n 1 "$work/why")"
    missed=1
  else
    echo "$name: told by $(grep -c ' => ' "$work/said") rows of $tests"
  fi
done
exit "$missed"
