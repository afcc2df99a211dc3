#!/usr/bin/env bash
# Tries the built program as a user would: how it ends and with which status, the sessions of examples/, and `varn serve` on a
# free loopback port before a backend of its own, asked by curl and, where a client has to be rude, by python3. A line for
# each check; status 1 where one fails. What it starts it ends, also where it fails or is interrupted. On a free machine it
# takes a minute, since clients are waited for that are ended after half of one.
#
#   tools/smoke.sh [FILE]     the built program; without it the one that PROGRAM names, or else crates/varn/out/varn
set -u
cd "$(dirname "$0")/.." || exit 1
program=${1:-${PROGRAM:-crates/varn/out/varn}}
connections=40
for tool in curl python3; do
  command -v $tool > /dev/null || { echo "smoke: there is no $tool here"; exit 1; }
done
[ -x "$program" ] || { echo "smoke: no program at $program (rt run in crates/varn builds it)"; exit 1; }

work=$(mktemp -d)
finish() {
  exec 2> /dev/null
  for process in $(jobs -pr); do
    kill -KILL "$process"
  done
  wait
  rm -rf "$work"
}
trap finish EXIT
trap 'exit 1' INT TERM HUP

passed=0
failed=0
# check NAME COMMAND..: a line that says whether the command goes well
check() {
  local name=$1
  shift
  if "$@"; then
    echo "ok    $name"
    passed=$((passed + 1))
  else
    echo "FAIL  $name"
    failed=$((failed + 1))
    sed 's/^/      | /' "$work/reply" 2> /dev/null | head -20
  fi
}

free_port() {
  python3 -c 'import socket; s = socket.socket(); s.bind(("127.0.0.1", 0)); print(s.getsockname()[1])'
}

asked=0
# ask WORDS OF CURL..: one request over a connection of its own, whose head and body are then in the file reply
ask() {
  asked=$((asked + 1))
  curl --silent --show-error --include --max-time 8 "$@" > "$work/reply" 2> "$work/said"
}
status() { [ "$(head -c 12 "$work/reply")" = "HTTP/1.1 $1" ]; }
has_no_body() { [ "$(tail -c 4 "$work/reply" | tr '\r\n' 'rn')" = rnrn ]; }
line() { tr -d '\r' < "$work/reply" | grep --quiet --line-regexp --extended-regexp -- "$1"; }
# gets STATUS LINE..: the reply has the status, and each line, which is a pattern, is among those of its head or body
gets() {
  status "$1" || return 1
  shift
  for pattern in "$@"; do
    line "$pattern" || return 1
  done
}

# ---- how it ends

# ends STATUS TEXT WORDS..: the program ends with this status, and says a line that this pattern is found in
ends() {
  local wanted=$1 said=$2
  shift 2
  "$program" "$@" < "$work/stdin" > "$work/reply" 2>&1
  [ $? = "$wanted" ] && grep --quiet -- "$said" "$work/reply"
}
# given LINE..: what the program is given at its standard input
given() { printf '%s\n' "$@" > "$work/stdin"; }
request='req 1 "GET / HTTP/1.1\r\nHost: h\r\n\r\n"'

given 'cli ping' end
check "help: status 0" ends 0 'usage: ' --help
check "a session: status 0" ends 0 'PONG' replay
check "no words: status 2" ends 2 'load or audit'
check "a word that isn't known: status 2" ends 2 '--rooms' replay --rooms 1
check "a load: status 0" ends 0 'requests 19' load --seed 1 --steps 20
check "a load without steps: status 2" ends 2 '--steps' load --seed 1
check "an option is missing: status 2" ends 2 '--workers' serve --listen 8000 --vcl x --conns 1
given "$request" 'nothing' end
check "a line without a meaning: status 3" ends 3 'line 2 kind 2' replay
given "$request" end
check "an exchange under way at the end: status 3" ends 3 'line 2 kind 8' replay
check "a history that gets full: status 9" ends 9 'history' replay --history 100
"$program" replay < "$work/stdin" > /dev/full 2> "$work/reply"
ended=$?
check "standard output takes nothing: status 5" [ $ended = 5 ]
journal='varn 1 1000000 640 "vcl 4.1; backend default { .host = \"127.0.0.1\"; }" 1 "default"'
given "$journal" 'e 1 0 begin = began 1 1' 'e 1 0 end = ended' close
check "a journal: status 0" ends 0 'legal 2' audit
given "$journal" 'e 1 0 begin = began 1 1' 'e 1 0 end = ended'
check "a journal that isn't closed: status 10" ends 10 'line 4 kind 7' audit
check "an audit with a word more: status 2" ends 2 'audit stands alone' audit --room
check "a VCL that can't be read: status 4" ends 4 "can't be read" serve --listen 8000 --vcl "$work" --workers 1 --conns 1
check "no such VCL: status 8" ends 8 'no such file' serve --listen 8000 --vcl "$work/none" --workers 1 --conns 1
printf 'vcl 4.1;\nbackend default none;\nsub vcl_recv { return (pipe); }\n' > "$work/pipe.vcl"
check "a VCL that is refused: status 8" ends 8 'line 3, column 24' serve --listen 8000 --vcl "$work/pipe.vcl" --workers 1 --conns 1
check "its place and kind" grep --quiet --line-regexp 'place 54 kind 5' "$work/reply"
check "a caret below it" grep --quiet --line-regexp ' *^' "$work/reply"

plays() { "$program" replay < "$1" > "$work/reply" 2>&1 && cmp --silent "$work/reply" "${1%.session}.transcript"; }
for session in examples/sessions/*.session; do
  check "${session#examples/}" plays "$session"
done

console() { python3 tools/varnadm_test.py > "$work/reply" 2>&1; }
check "varnadm before a console that stands in" console

# ---- the backend, and the program before it

python3 tools/smoke_backend.py > "$work/port" &
for _ in {1..100}; do
  [ -s "$work/port" ] && break
  sleep 0.05
done
backend=$(cat "$work/port")
nobody=$(free_port)
port=$(free_port)
printf 'vcl 4.1;\nbackend default none;\n' > "$work/none.vcl"
check "a port that is taken: status 7" ends 7 'port' serve --listen "$backend" --vcl "$work/none.vcl" --workers 1 --conns 1
site=http://127.0.0.1:$port

cat > "$work/site.vcl" <<VCL
vcl 4.1;

backend default {
  .host = "127.0.0.1";
  .port = "$backend";
}

backend nobody {
  .host = "127.0.0.1";
  .port = "$nobody";
}

backend hasty {
  .host = "127.0.0.1";
  .port = "$backend";
  .first_byte_timeout = 200ms;
}

acl office {
  "127.0.0.1";
}

sub vcl_recv {
  if (req.method == "PURGE" || req.method == "BAN") {
    if (client.ip !~ office) {
      return (synth(405, "Not allowed"));
    }
    if (req.method == "PURGE") {
      return (purge);
    }
    ban("req.url ~ " + req.http.X-Ban);
    return (synth(200, "Banned"));
  }
  if (req.url ~ "^/down") {
    set req.backend_hint = nobody;
  }
  if (req.url ~ "^/late") {
    set req.backend_hint = hasty;
  }
}

sub vcl_backend_response {
  if (bereq.url ~ "^/tag") {
    set beresp.ttl = 1ms;
    set beresp.grace = 0s;
    set beresp.keep = 1m;
  }
}

sub vcl_deliver {
  if (obj.hits > 0) {
    set resp.http.X-Cache = "HIT";
  } else {
    set resp.http.X-Cache = "MISS";
  }
}
VCL

VARN_ACCESS_LOG=$work/access "$program" serve --listen "$port" --vcl "$work/site.vcl" --workers 4 --conns $connections \
  > "$work/out" 2> "$work/errors" &
server=$!
# A try that finds nobody at the port makes no connection.
for _ in {1..200}; do
  ask "$site/first" && break
  asked=$((asked - 1))
  kill -0 $server 2> /dev/null || break
  sleep 0.05
done
check "the program listens, and a first page comes" gets 200 'X-Cache: MISS' '/first asked 1 times'
status 200 || { cat "$work/said" "$work/errors"; echo "$passed passed, $failed failed"; exit 1; }

# ---- a second server, whose clients are ruder, beside the first

# listens_at PORT PROCESS: somebody listens there, before the process ends
listens_at() {
  for _ in {1..200}; do
    (exec 3<> "/dev/tcp/127.0.0.1/$1") 2> /dev/null && return 0
    kill -0 "$2" 2> /dev/null || return 1
    sleep 0.05
  done
  return 1
}
# rude NAME PORT: such a client's words are in the file of its name
rude() { python3 tools/rude_clients.py "$1" "$2" > "$work/$1" 2>&1; }
# bears NAME PROCESS: the client found that the server does as it should
bears() {
  wait "$2"
  local ended=$?
  cp "$work/$1" "$work/reply"
  [ $ended = 0 ]
}

bearing_port=$(free_port)
VARN_STOP=$work/stop VARN_ACCESS_LOG=$work "$program" serve --listen "$bearing_port" --vcl "$work/site.vcl" --workers 8 --conns 1000 \
  > "$work/bearing_out" 2> "$work/bearing_errors" &
bearing=$!
check "a second server listens" listens_at "$bearing_port" $bearing
rude drip "$bearing_port" &
drip=$!
rude taker "$bearing_port" &
taker=$!
rude upload "$bearing_port" &
upload=$!

# Those with a console have a script of their own.
python3 tools/console_smoke.py "$program" > "$work/operators" 2>&1 &
operators=$!

# One that serves as many connections as come: a client that is idle or slow keeps no worker.
open_port=$(free_port)
VARN_STOP=$work/open_stop "$program" serve --listen "$open_port" --vcl "$work/site.vcl" --workers 2 \
  > "$work/open_out" 2> "$work/open_errors" &
open=$!
holds() { listens_at "$open_port" $open && rude hold "$open_port"; }
holds &
hold=$!

# One with so few descriptors that there is room for some two connections beside its port.
printf 'vcl 4.1;\nbackend default none;\nsub vcl_recv { return (synth(200)); }\n' > "$work/synth.vcl"
crowded_port=$(free_port)
(ulimit -n 8 && VARN_STOP=$work/crowd_stop exec "$program" serve --listen "$crowded_port" --vcl "$work/synth.vcl" --workers 4 --conns 1000) \
  > "$work/crowded_out" 2> "$work/crowded_errors" &
crowded=$!
crowds() { listens_at "$crowded_port" $crowded && rude crowd "$crowded_port"; }
crowds &
crowd=$!

# ---- checks that take their time, beside the others

# Two requests over one connection, then silence: the program is to end it after 5 seconds.
asked=$((asked + 1))
python3 - "$port" > "$work/silent" 2>&1 <<'PY' &
import socket, sys, time
link = socket.create_connection(("127.0.0.1", int(sys.argv[1])), 15)
for _ in range(2):
    link.sendall(b"GET /silent HTTP/1.1\r\nHost: h\r\n\r\n")
    answer = b""
    while not answer.endswith(b"times\n"):
        piece = link.recv(4096)
        if not piece:
            sys.exit("the connection ended within a reply")
        answer += piece
print("silent from now on", flush=True)
began = time.monotonic()
last = link.recv(4096)
passed = time.monotonic() - began
if last or not 4 < passed < 12:
    sys.exit("got %r after %.1f s" % (last, passed))
PY
silent=$!
asked=$((asked + 1))
curl --silent --include --max-time 8 "$site/stall" > "$work/stalled" 2> /dev/null &
stalled=$!

# Meanwhile others are served, by workers of their own: each of these two holds one for some seconds.
for _ in {1..100}; do
  [ -s "$work/silent" ] && break
  sleep 0.05
done
begun=$SECONDS
ask "$site/beside"
took=$((SECONDS - begun))
comes_soon() { [ $took -lt 3 ] && gets 200 '/beside asked 1 times'; }
check "a page beside a silent client and a backend that stalls" comes_soon

# told LINE [FILE]: the server has said this line on standard error, which is that file, once
told() {
  local errors=${2:-$work/errors}
  cp "$errors" "$work/reply"
  [ "$(grep --count --line-regexp --fixed-strings -- "$1" "$errors")" = 1 ]
}
# logs PATTERN: a line like this comes in the log, which is written each second
logs() {
  for _ in {1..80}; do
    grep --quiet --line-regexp --extended-regexp -- "$1" "$work/access" 2> /dev/null && return 0
    sleep 0.05
  done
  cp "$work/access" "$work/reply" 2> /dev/null
  return 1
}
client='127\.0\.0\.. - - \[../.../20..:..:..:.. \+0000\]'
agent='"curl/[^"]*" [0-9]+\.[0-9]{3}'

# ---- one after another

ask "$site/page"
check "a miss" gets 200 'X-Cache: MISS' 'Age: 0' '/page asked 1 times'
aged=$SECONDS
ask "$site/page"
check "a hit" gets 200 'X-Cache: HIT' '/page asked 1 times'
ask --head "$site/page"
check "a HEAD" gets 200 'X-Cache: HIT' 'Content-Length: [0-9]+'
check "a HEAD has no body" has_no_body
check "a miss is logged" logs "$client \"GET /page HTTP/1.1\" 200 20 \"-\" $agent miss [0-9]+"
check "a hit is logged" logs "$client \"GET /page HTTP/1.1\" 200 20 \"-\" $agent hit [0-9]+"
mv "$work/access" "$work/access.1"
ask --data 'some words' "$site/form"
check "a POST" gets 200 'X-Cache: MISS' 'some words' 'X-Times: 1'
ask --data 'other words' "$site/form"
check "a POST is passed on each time" gets 200 'X-Cache: MISS' 'other words' 'X-Times: 2'
ask "$site/old"
check "a page that was old when it came" gets 200 'Age: 10[0-9]'
ask "$site/chunked"
check "a chunked reply" gets 200 'Content-Length: 14' 'one two three'
ask "$site/chunked"
check "a chunked reply is stored" gets 200 'X-Cache: HIT' 'one two three'
ask "$site/tag"
ask "$site/tag"
check "a page that its backend confirms" gets 200 'ETag: "tag"' '/tag asked 1 times'
ask "$site/down"
check "a backend that is down" gets 503 '503 Backend fetch failed'
check "it is told once" told "the backend 127.0.0.1:$nobody can't be reached"
ask --interface 127.0.0.2 --request PURGE "$site/page"
check "a purge refused" gets 405 '405 Not allowed'
ask "$site/page"
check "a refused purge leaves the page" gets 200 'X-Cache: HIT' '/page asked 1 times'
check "the log goes on in a new file once it was renamed" logs "$client \"PURGE /page HTTP/1.1\" 405 [0-9]+ \"-\" $agent miss [0-9]+"

while [ $((SECONDS - aged)) -lt 3 ]; do
  sleep 0.1
done
ask "$site/page"
check "Age after two seconds" gets 200 'X-Cache: HIT' 'Age: ([2-9]|1[0-9])' '/page asked 1 times'

ask --request PURGE "$site/page"
check "a purge allowed" gets 200
ask "$site/page"
check "a purged page is fetched again" gets 200 'X-Cache: MISS' '/page asked 2 times'
ask --request BAN --header 'X-Ban: ^/pa' "$site/"
check "a ban" gets 200 '200 Banned'
ask "$site/page"
check "a banned page is fetched again" gets 200 'X-Cache: MISS' '/page asked 3 times'
ask "$site/chunked"
check "a ban leaves other pages" gets 200 'X-Cache: HIT'
ask --header 'Host: one' --header 'Content-Length: 2, 3' "$site/"
check "a request that can't be read" gets 400 'Connection: close'
ask "$site/mute"
check "a backend that says nothing" gets 503 '503 Backend fetch failed'
ask "$site/late"
check "a backend that is late for the VCL's limit" gets 503 '503 Backend fetch failed'

wait $stalled
cp "$work/stalled" "$work/reply"
check "a backend that stalls in a body" gets 503 '503 Backend fetch failed'
wait $silent
ended=$?
cp "$work/silent" "$work/reply"
check "a client that sends nothing for 5 seconds" [ $ended = 0 ]

# ---- the end, behind the last connection

while [ $asked -lt $connections ]; do
  ask "$site/page"
done
for _ in {1..100}; do
  kill -0 $server 2> /dev/null || break
  sleep 0.05
done
kill -KILL $server 2> /dev/null
wait $server 2> /dev/null
ended=$?
cp "$work/errors" "$work/reply"
# Every connection had one round, but for the silent one, which had two, and the one whose request can't be read.
check "the program ends, and tells its rounds" [ "$ended $(cat "$work/out")" = "0 rounds $connections" ]
# The request that can't be read has a line too.
cat "$work/access.1" "$work/access" > "$work/reply"
check "the log has a line of each request" [ "$(wc -l < "$work/reply")" = $((connections + 1)) ]
check "a log that can't be written is told once" told "the access log can't be written: lines of it are lost" "$work/bearing_errors"

# ---- the ruder clients, and ends before the last connection

check "an upload that is refused sees its 400" bears upload $upload
check "clients that are idle or slow keep no worker" bears hold $hold
rude leave "$open_port" &
leave=$!
check "a client that asks for leave to send a body gets it" bears leave $leave
check "descriptors run out and come back" bears crowd $crowd
check "a request that drips in is ended after half a minute" bears drip $drip
check "a client that takes nothing is ended after half a minute" bears taker $taker

wait $operators
ended=$?
grep -v '^ok' "$work/operators" > "$work/reply"
check "operators at a console: $(tail -1 "$work/operators")" [ $ended = 0 ]

# stopped PROCESS OUT ERRORS: the process ends in time, with 0 and a line of rounds
stopped() {
  for _ in {1..400}; do
    kill -0 "$1" 2> /dev/null || break
    sleep 0.05
  done
  kill -KILL "$1" 2> /dev/null
  wait "$1" 2> /dev/null
  local ended=$?
  cat "$2" "$3" > "$work/reply"
  [ $ended = 0 ] && grep --quiet --line-regexp 'rounds [0-9]*' "$2"
}
rude idle "$bearing_port" &
idle=$!
for _ in {1..100}; do
  [ -s "$work/idle" ] && break
  sleep 0.05
done
: > "$work/stop"
check "an idle connection ends once the stop file is there" bears idle $idle
check "a run ends once its stop file is there" stopped $bearing "$work/bearing_out" "$work/bearing_errors"
check "and says why" told "the run is to end: its stop file is there" "$work/bearing_errors"
kill -STOP $open
sleep 0.5
kill -CONT $open
ask "http://127.0.0.1:$open_port/page"
check "a run that was stopped for a while goes on" gets 200
: > "$work/open_stop"
check "so does one that serves as many connections as come" stopped $open "$work/open_out" "$work/open_errors"
: > "$work/crowd_stop"
check "so does one that was short of descriptors" stopped $crowded "$work/crowded_out" "$work/crowded_errors"

if env --block-signal=TERM true 2> /dev/null; then
  term_port=$(free_port)
  env --block-signal=TERM "$program" serve --listen "$term_port" --vcl "$work/synth.vcl" --workers 2 --conns 1000 \
    > "$work/term_out" 2> "$work/term_errors" &
  term=$!
  listens_at "$term_port" $term
  rude press "$term_port" &
  press=$!
  for _ in {1..400}; do
    grep --quiet asking "$work/press" && break
    sleep 0.05
  done
  sleep 0.5
  kill -TERM $term
  check "a run that blocks SIGTERM ends in order by it" stopped $term "$work/term_out" "$work/term_errors"
  check "no answer breaks off meanwhile" bears press $press
  check "and each of its rounds was answered" [ "rounds $(sed -n 's/^answers //p' "$work/press")" = "$(cat "$work/term_out")" ]
  check "and says so" told "the run is to end: SIGTERM came" "$work/term_errors"
fi
echo "$passed passed, $failed failed"
[ $failed = 0 ]
