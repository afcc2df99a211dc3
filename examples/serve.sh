#!/usr/bin/env bash
# Serves files through the cache, from a backend of its own, for a first look: at http://127.0.0.1:8000, or at the port in PORT.
# It ends at Ctrl-C, or behind a thousand connections.
#
#   examples/serve.sh --demo    the site of examples/site/ by examples/vcl/demo.vcl; it says what to ask for
#   examples/serve.sh [NAME]    the files of docs/ by examples/vcl/NAME.vcl; without a name by members.vcl, which says of each
#                               page whether it was stored
#
# The program is the one that PROGRAM names, or the proved one where it was built, or else one that is made without proofs, by
# tools/try_server.sh: with nothing but the toolchain that takes some 5 minutes the first time.
set -eu
cd "$(dirname "$0")/.."
proved=crates/varn/out/varn
port=${PORT:-8000}
site=http://127.0.0.1:$port

name=${1:-members}
[ "$name" != --demo ] || name=demo
vcl=examples/vcl/$name.vcl
if [ $# -gt 1 ] || [ ! -r "$vcl" ]; then
  sed -n 's/^#   //p' "$0" >&2
  exit 2
fi

if [ -n "${PROGRAM:-}" ]; then
  program=$PROGRAM
elif [ -x "$proved" ]; then
  program=$proved
else
  program=$(tools/try_server.sh)
  echo "This program isn't proved, and is slow. This proves it, and builds it at $proved: (cd crates/varn && rt run -- --version)"
fi

work=$(mktemp -d)
started=()
finish() {
  [ ${#started[@]} = 0 ] || kill "${started[@]}" 2> /dev/null || true
  rm -rf "$work"
}
trap finish EXIT
trap 'exit 1' INT TERM HUP

# The backend says at which port it listens; the VCL is taken with that port in the place of its own.
if [ "$name" = demo ]; then
  backend=(examples/site/site.py)
else
  backend=(-m http.server 0 --bind 127.0.0.1 --directory docs)
fi
: > "$work/said"
python3 -u "${backend[@]}" >> "$work/said" &
started+=($!)
until backend_port=$(grep -oE '[0-9]{4,}' "$work/said" | head -1) && [ -n "$backend_port" ]; do
  kill -0 "${started[0]}" || { echo "serve: the backend doesn't start" >&2; exit 1; }
  sleep 0.1
done
sed "s/\([\":]\)808[0-9]\"/\1$backend_port\"/" "$vcl" > "$work/site.vcl"

"$program" serve --listen "$port" --vcl "$work/site.vcl" --workers 16 --conns 1000 &
started+=($!)
until (exec 3<> "/dev/tcp/127.0.0.1/$port") 2> /dev/null; do
  kill -0 "${started[1]}" 2> /dev/null || break
  sleep 0.1
done
if [ "$name" = demo ]; then
  cat <<TEXT
The site is served at $site. Ask it in another terminal, or in a browser. Here stands what the cache asks of the site.

  a page, and once more: X-Cache is MISS, then HIT, and the time in the page stays the same
    curl -i $site/
  with a cookie that says nothing to the site: HIT still; with a login: PASS, and never stored
    curl -i --cookie _ga=1 $site/
    curl -i --cookie login=ann $site/account
  a picture, stored for all without the cookie that the site sets with it
    curl -i $site/logo.svg
  an answer that takes three seconds to make. It is stored for five, and for ten more it is sent at once, and made anew
  behind the response
    curl -i $site/api/slow
  an answer that the site can make one time in four, and that is old after two seconds: the last one that there was is sent
    curl -i $site/api/fails
  the operator makes all pages with the tag shoes old: each is sent once more, and fetched anew behind that
    curl -i -X PURGE -H 'X-Purge-Key: demo' -H 'X-Tags: shoes' $site/

TEXT
else
  echo "serving: curl -i $site/VCL.md"
fi
wait "${started[1]}"
