#!/usr/bin/env bash
# Runs a command unproved, as `rt try` builds it from the sources, with checks: scripts/try.sh WORDS
# `./mokdrai try WORDS` runs it, and has the folder locked by then.
set -u
top=$(cd "$(dirname "$(readlink -f "${BASH_SOURCE[0]}")")/.." && pwd)

# The words, with each path from the root, since rt runs the program in a folder of its own.
words=()
for word in "$@"; do
  case ${#words[@]}/${1:-}/$word in
    1/once/ | */@/* | 1/once//*) ;;
    1/once/*) word=$PWD/$word ;;
    */@*) word=@$PWD/${word#@} ;;
  esac
  words+=("$word")
done
case ${1:-} in
  serve | edit)
    echo "mokdrai: try runs no $1: build the program for what speaks with others over a network" >&2
    exit 1
    ;;
esac
room=$(mktemp -d) || exit 1
tried=
trap '[ -z "$tried" ] || kill "$tried" 2>/dev/null; rm -rf "$room"' EXIT
: >"$room/input"
case "$*/$#" in
  once\ * | replay/1 | upgrade/1 | audit/1 | contents\ */3) cat >"$room/input" ;;
esac
if [ "$(wc -c <"$room/input")" -gt 67108864 ]; then
  echo 'mokdrai: try takes no more than 64 MiB of input' >&2
  exit 1
fi
echo 'mokdrai: trying the program unproved, with checks; nothing is kept for the next time' >&2
(cd "$top/crates/mokdrai" && RT_SECONDS=${RT_SECONDS:-3600} exec rt try -- "${words[@]}") <"$room/input" 2>"$room/notes" &
tried=$!
wait "$tried"
status=$?
tried=
cat "$room/notes" >&2
# rt tells the program's status in the last of its notes.
tail -n 1 "$room/notes" | grep -q '^run=ended ' && exit "$status"
echo 'mokdrai: the program was not tried to its end' >&2
exit 1
