#!/usr/bin/env bash
# Plays a session of 67,108,864 bytes, which is the limit, and one of a byte more: the first is whole, and the second
# is told at the line in which the limit is passed. Run it at the top of the repository.
set -u
cd "$(dirname "$0")/../crates/varn" || exit 1
[ -x out/varn ] || rt run -- replay < stdin > /dev/null || exit 1
# a session of so many bytes: a comment and `end`
session() { printf '#'; head -c $(($1 - 6)) /dev/zero | tr '\0' x; printf '\nend\n'; }
at=$(session 67108864 | ./out/varn replay 2>&1); at_status=$?
past=$(session 67108865 | ./out/varn replay 2>&1); past_status=$?
echo "at the limit: status $at_status '$at'; a byte more: status $past_status '$past'"
[ "$at_status" = 0 ] && [ -z "$at" ] && [ "$past_status" = 3 ] && [ "$past" = 'line 2 kind 3' ]
