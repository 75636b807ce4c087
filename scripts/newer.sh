#!/bin/sh
# Names a source of the program that is newer than the file at PATH, or nothing: scripts/newer.sh PATH
top=$(dirname "$(dirname "$(readlink -f "$0")")")
find "$top/crates" "$top/crates.txt" \( -path '*/out' -o -path '*_tests' \) -prune -o -type f \
  \( -name '*.rt' -o -name '*.antt' -o -name crates.txt \) -newer "$1" -print -quit
