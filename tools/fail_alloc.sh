#!/usr/bin/env bash
# Refuses each request for memory of a run in turn, one a run, and says how the runs ended. It needs a C compiler, and proves
# nothing. `rt try --fail-alloc N` shows one of these runs.
#
#   tools/fail_alloc.sh            all of them
#   tools/fail_alloc.sh NAME..     these: `stored`, the stored run of `varn replay`; a session of tools/memory/ (hits, ban,
#                                  stale); `served`, a server's run of two requests over a world in memory
#
# A session's run may end as the whole one; for want of memory, having written a front of the whole or of another text named
# here; or, where an insertion was refused, with the text of NAME.refused-N, whose last line is its note: the page was sent all
# the same, and is fetched again when it is next asked for. A server's run may end as the whole one, for want of memory, with a
# connection that ended so, or with a second fetch. Anything else makes the status 1.
#
# The sessions are played by the proved program where it is built, or else by the one of tools/try_server.sh; the server's run
# by the one of `rt run` in crates/varn_serve_tests, which is proved first.
set -u
cd "$(dirname "$0")/.." || exit 1
work=$(mktemp -d)
trap 'rm -rf "$work"' EXIT
cc -shared -fPIC -O1 -o "$work/failing.so" tools/failing_malloc.c -ldl || exit 1
odd_runs=0

# count INPUT PROGRAM ARGUMENT..: how many requests for memory a run makes
count() {
  COUNT_TO="$work/count" LD_PRELOAD="$work/failing.so" "${@:2}" < "$1" > "$work/out" 2> "$work/err" || true
  cat "$work/count"
}

# play N INPUT PROGRAM ARGUMENT..: a run whose request N is refused
play() {
  FAIL_AT="$1" LD_PRELOAD="$work/failing.so" "${@:3}" < "$2" > "$work/out" 2> "$work/err"
}

is_front_of() {
  cmp -s -n "$(stat -c %s "$work/out")" "$work/out" "$1"
}

# session NAME SESSION TRANSCRIPT REFUSED..: the runs of a session
session() {
  local name=$1 input=$2 whole=$3 program number status text all memory=0 refused=0 same=0 odd=0
  shift 3
  program=crates/varn/out/varn
  [ -x "$program" ] || program=$(tools/try_server.sh) || exit 1
  "$program" replay < "$input" > "$work/out" 2> "$work/err"
  cmp -s "$work/out" "$whole" || { echo "$name: the run with ample memory has another text"; odd_runs=1; return; }
  all=$(count "$input" "$program" replay)
  for number in $(seq 1 "$all"); do
    play "$number" "$input" "$program" replay
    status=$?
    if [ "$status" = 0 ] && cmp -s "$work/out" "$whole"; then same=$((same + 1)); continue; fi
    if [ "$status" = 6 ] && is_front_of "$whole"; then memory=$((memory + 1)); continue; fi
    for text in "$@"; do
      head -n -1 "$text" > "$work/text"
      if [ "$status" = 3 ] && cmp -s "$work/out" "$work/text" && [ "$(cat "$work/err")" = "$(tail -n 1 "$text")" ]; then
        refused=$((refused + 1)); continue 2
      fi
    done
    odd=$((odd + 1)); echo "$name: request $number: status $status: $(cat "$work/err")"
  done
  echo "$name: $all requests: $memory ended for want of memory, $refused with a refused insertion, $same whole, $odd otherwise"
  [ "$odd" = 0 ] || odd_runs=1
}

# the runs of a server over a world in memory, by a row of its tests
served() {
  local program=crates/varn_serve_tests/out/varn_serve_tests row number all said memory=0 refused=0 same=0 odd=0
  [ -x "$program" ] || (cd crates/varn_serve_tests && rt run < stdin > "$work/out") || exit 1
  row=$(grep -m 1 '^run | "GET /a HTTP/1.1\\r\\nHost: h\\r\\n\\r\\nGET /a ' crates/varn_serve_tests/stdin) || exit 1
  echo "$row" > "$work/row"
  all=$(count "$work/row" "$program")
  [ "$(cat "$work/out")" = '1 rows' ] || { echo "served: the run with ample memory goes otherwise"; odd_runs=1; return; }
  for number in $(seq 1 "$all"); do
    play "$number" "$work/row" "$program"
    said=$(sed -n 's/.* => //p' "$work/out")
    case $said in
      '') same=$((same + 1)) ;;
      '6 wrote "" '* | *' NoMemory '*) memory=$((memory + 1)) ;;
      '0 wrote "rounds 2\n" '*'X-Varnish: 1\r\n'*'X-Varnish: 3\r\n'*' Closed 2 '*) refused=$((refused + 1)) ;;
      *) odd=$((odd + 1)); echo "served: request $number: $said" ;;
    esac
  done
  echo "served: $all requests: $memory ended for want of memory, $refused with a refused insertion, $same whole or before the row, $odd otherwise"
  [ "$odd" = 0 ] || odd_runs=1
}

[ $# -gt 0 ] || set -- stored hits ban stale served
for name in "$@"; do
  case $name in
    served) served ;;
    stored) session stored crates/varn/stdin crates/varn/stdout tools/memory/stored.refused-* ;;
    *)
      [ -r "tools/memory/$name.session" ] || { sed -n '/^#   /s/^# *//p' "$0" >&2; exit 2; }
      mapfile -t texts < <(find tools/memory -name "$name.refused-*" | sort)
      session "$name" "tools/memory/$name.session" "tools/memory/$name.transcript" "${texts[@]}"
      ;;
  esac
done
exit "$odd_runs"
