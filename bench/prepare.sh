# shellcheck shell=bash
# Sourced by the scripts of this folder: `prepare CRATE` goes to the top of the repository and sets `program`, the crate's
# program, which is built and proved first on its stored run where it isn't there yet, or the one that PROGRAM names, and
# `work`, a folder that is removed at the end.
set -eu
prepare() {
  cd "$(dirname "${BASH_SOURCE[0]}")/.."
  program=${PROGRAM:-crates/$1/out/$1}
  [ -x "$program" ] || (cd "crates/$1" && words=() && if [ -e args ]; then mapfile -t words < args; fi && rt run -- "${words[@]}" < stdin > /dev/null)
  # shellcheck disable=SC2034
  work=$(mktemp -d)
  trap 'rm -rf "$work"' EXIT
}
