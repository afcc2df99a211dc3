#!/usr/bin/env bash
# Words that name no task of the built `measure`: for each line of them it writes nothing but its usage, on standard error,
# and ends with status 2. Status 1 where one goes otherwise. The program is built and proved first where it
# isn't there yet.
. "$(dirname "$0")/../bench/prepare.sh"
prepare measure
set +e
failed=0
while read -r -a words; do
  said=$(echo hello | "$program" "${words[@]}" 2>&1 > /dev/null)
  ended=$?
  written=$(echo hello | "$program" "${words[@]}" 2> /dev/null)
  if [ "$ended" != 2 ] || [ -n "$written" ] || [[ "$said" != "usage: measure "* ]]; then
    echo "measure ${words[*]}: status $ended, wrote '$written', said '$said'"
    failed=1
  fi
done << 'ROWS'
bodies chunked 0
bodies other 1
bodies
replay
ROWS
exit $failed
