#!/usr/bin/env bash
# Tries the edits that stand in edits/ and not in must-fail/: the gate has no time for them. Each is one wrong body, and
# `rt must-fail` wants the prover to refuse it. A crate's edits cost its whole proof once, and some 20 s each. At the end it
# counts what came of them, and has status 1 where one was not refused, was bad or was not tried.
#
#   tools/try_edits.sh CRATE..    the edits of these crates
#   tools/try_edits.sh --all      those of all crates, which takes hours
set -euo pipefail
cd "$(dirname "$0")/.."
case ${1:-} in
  --all)
    cd edits
    # Those of rows/ are refused by tests: tools/try_rows.sh.
    mapfile -t crates < <(ls | grep -vx rows)
    set -- "${crates[@]}"
    cd ..
    ;;
  '' | -*) sed -n '/^#  /s/^# *//p' "$0" >&2; exit 2 ;;
esac
for crate in "$@"; do
  [ -d "edits/$crate" ] || { echo "try_edits.sh: there is no edits/$crate" >&2; exit 2; }
done

aside=$(mktemp -d)
folder=
put_back() {
  [ -n "$folder" ] || return 0
  rm -rf "$folder"
  [ ! -d "$aside/must-fail" ] || mv "$aside/must-fail" "$folder"
  folder=
}
trap 'put_back; rm -rf "$aside"' EXIT

# try CRATE: tries its edits in the place of those that the gate tries, and says how long that took
try() {
  local begun=$SECONDS edits
  edits=$(find "edits/$1" -name '*.edit' | wc -l)
  [ ! -d "crates/$1/must-fail" ] || mv "crates/$1/must-fail" "$aside/must-fail"
  folder="crates/$1/must-fail"
  cp -r "edits/$1" "$folder"
  rt must-fail "$1" 2>&1 | tee -a "$aside/said" || true
  put_back
  all=$((all + edits))
  echo "$1: $edits edits in $((SECONDS - begun)) s"
}

# count TEXT: how many edits came to what `rt must-fail` says in these words
count() {
  grep -c "^rt: .*: $1" "$aside/said" || true
}

all=0
for crate in "$@"; do
  try "$crate"
done
refused=$(count 'refused, as it must be')
missed=$(count 'NOT REFUSED')
bad=$(count 'BAD EDIT')
untried=$((all - refused - missed - bad))
echo "$all edits in $SECONDS s: $refused refused, $missed not refused, $bad bad, $untried not tried"
[ "$refused" -eq "$all" ]
