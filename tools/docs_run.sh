#!/usr/bin/env bash
# Runs each command that README.md and the pages of docs/ name, as a reader would who has `varn` among his commands and a
# site.vcl and a site.session in his folder. A line for each; status 1 where one ends otherwise than it should, or where a page
# names a command that this script doesn't know. What takes long, as the gate and the measurements, is named and not run.
#
#   tools/docs_run.sh     with the program that PROGRAM names, or the proved one, or else the one of tools/try_server.sh
set -u
cd "$(dirname "$0")/.." || exit 1
top=$PWD
program=${PROGRAM:-crates/varn/out/varn}
[ -x "$program" ] || program=$(tools/try_server.sh) || exit 1
program=$(realpath "$program")

work=$(mktemp -d)
serving=
finish() {
  [ -z "$serving" ] || kill "$serving" 2> /dev/null
  [ -z "$serving" ] || wait "$serving" 2> /dev/null
  rm -rf "$work"
}
trap finish EXIT
trap 'exit 1' INT TERM HUP

# The reader's folder: the repository's own files, his two, and `varn`.
mkdir -p "$work/here/out/try" "$work/bin"
ln -s "$top"/{.ci,README.md,bench,contrib,crates,docs,examples,tools} "$work/here/"
ln -s "$program" "$work/bin/varn"
ln -s "$program" "$work/here/out/try/varn"
cp examples/vcl/grace.vcl "$work/here/site.vcl"
cp examples/sessions/grace.session "$work/here/site.session"
cp examples/sessions/grace.transcript "$work/here/site.transcript"
# A log of the line that OPERATING.md shows.
sed -n 's/^    \(192\.0\.2\.7 - - .*\)$/\1/p' docs/OPERATING.md > "$work/here/site.log"
export PATH=$work/bin:$PATH PROGRAM=$program

free_port() {
  python3 -c 'import socket; s = socket.socket(); s.bind(("127.0.0.1", 0)); print(s.getsockname()[1])'
}

failed=0
tell() { printf '%-5s %s\n' "$1" "$2"; }
# runs STATUS COMMAND: the command ends so in the reader's folder
runs() {
  (cd "$work/here" && exec timeout 300 bash -c "$2") > "$work/said" 2>&1 < /dev/null
  local status=$?
  if [ $status = "$1" ]; then
    tell ok "$2"
  else
    tell FAIL "$2: status $status"
    sed 's/^/      | /' "$work/said" | head -10
    failed=$((failed + 1))
  fi
}

# serves COMMAND: it serves, and each curl command that it prints is answered
serves() {
  local port
  port=$(free_port)
  : > "$work/served"
  (cd "$top" && PORT=$port exec bash -c "exec $1") >> "$work/served" 2>&1 &
  serving=$!
  for _ in {1..300}; do
    grep -q 'curl -i' "$work/served" && break
    sleep 0.1
  done
  sleep 0.5
  grep -oE 'curl -i .*' "$work/served" > "$work/asked"
  if [ -s "$work/asked" ]; then
    tell ok "$1"
    while read -r command; do
      runs 0 "${command/curl/curl --fail --silent --show-error --max-time 20}"
    done < "$work/asked"
  else
    tell FAIL "$1: it doesn't serve"
    failed=$((failed + 1))
  fi
  kill "$serving" 2> /dev/null
  wait "$serving" 2> /dev/null
  serving=
}

# operates COMMAND: a server has a console at the port that the command names
operates() {
  printf 'vcl 4.1;\nbackend default none;\n' > "$work/none.vcl"
  local console
  console=$(free_port)
  varn serve --listen "$(free_port)" --vcl "$work/none.vcl" --workers 1 --cli "$console" > /dev/null 2> "$work/served" &
  serving=$!
  for _ in {1..300}; do
    grep -q '^console at' "$work/served" && break
    sleep 0.1
  done
  runs 0 "${1/-T 6082/-T $console}"
  kill "$serving" 2> /dev/null
  wait "$serving" 2> /dev/null
  serving=
}

# The commands of the pages, each once: indented lines, and those that stand between backquotes with a word behind them.
commands() {
  grep -hE '^    (varn|out|tools|examples|contrib|bench|\.ci|cd|rt|curl)[/ ]' README.md docs/*.md | sed 's/^ *//'
  # shellcheck disable=SC2016
  grep -hoE '`((varn|rt) [^`]+|(tools|bench|contrib|examples)/[a-z_-]+(\.sh|\.py)?( [^`]*)?)`' README.md docs/*.md | tr -d '`'
}

while read -r command; do
  case $command in
    .ci/run* | rt* | bench/* | tools/beside_varnish.py | tools/fail_alloc.sh | tools/session_limit.sh | tools/smoke.sh | \
      tools/try_edits.sh*)
      tell - "$command (not run: it takes long)" ;;
    'varn serve' | 'varn load' | 'varn replay' | *[[\ ][A-Z]\ * | *SESSION*) tell - "$command (not run: a form)" ;;
    examples/serve.sh*) serves "$command" ;;
    contrib/varnadm\ -T\ 6082\ *) operates "$command" ;;
    'tools/varn_top.py LOG') runs 0 "tools/varn_top.py --once site.log | grep -q '^ *1 *0  /a$'" ;;
    'tools/port_vcl.py FILE') runs 1 "${command/FILE/examples/port/blog.vcl}" ;;
    varn* | out/try/varn* | contrib/check-vcl\ * | tools/examples.py\ *) runs 0 "$command" ;;
    contrib/* | examples/* | tools/*)
      [ -e "$command" ] || { tell FAIL "there is no $command"; failed=$((failed + 1)); } ;;
    *)
      tell FAIL "$command: not known here"
      failed=$((failed + 1))
      ;;
  esac
done < <(commands | sort -u)

# What the pages say of these files.
runs 0 'contrib/check-vcl examples/vcl/*.vcl examples/port/*.varn.vcl contrib/*.vcl'
runs 0 'tools/port_vcl.py examples/vcl/*.vcl examples/port/*.varn.vcl contrib/*.vcl'
runs 0 'cd examples/port && ../../tools/port_vcl.py --places *.vcl | cmp - places'
runs 0 'tools/examples.py'
case $program in
  */out/try/varn) tell - 'tools/vcl_tables.py (not run: it takes this slow program long)' ;;
  *) runs 0 'tools/vcl_tables.py' ;;
esac
runs 0 'tools/varnadm_test.py'
runs 0 'tools/varn_top_test.py'
[ "$failed" = 0 ]
