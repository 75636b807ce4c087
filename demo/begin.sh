#!/bin/sh
# Begins a host over FILES, above all versions of those before it, and keeps its journal in STATE, or logs in KEEP: demo/begin.sh
# Its settings come from the environment, or are those below. It ends as `serve` ends, by the same signals.
set -eu
program=${MOKDRAI:-/opt/mokdrai/mokdrai}
files=${FILES:-/srv/files}
state=${STATE:-/var/lib/mokdrai}
key=${KEY:-@/etc/mokdrai/key}
base=${BASE:-https://files.example.org}
port=${PORT:-8880}

# With KEEP, a folder for logs, the host keeps each call there in place of a journal, and runs for months. No file is saved a
# million times a second, so the microsecond of now is above all versions of before, unless the clock was set back.
if [ -n "${KEEP:-}" ]; then
  mkdir -p "$KEEP"
  exec "$program" serve "$files" "$port" "$key" "$base" 16 --links 256 --keep "$KEEP" --first "$(date +%s%6N)" ${OPTIONS:-}
fi

# A host that began at version V with room for 32,768 calls a shard never tells a version above V + 32,768, also where it
# was killed and left no journal. So the next one begins behind that.
room=32768
first=1
[ ! -f "$state/first" ] || first=$(($(cat "$state/first") + room + 1))
echo "$first" >"$state/first.new"
mv "$state/first.new" "$state/first"
# (OPTIONS has further options, parted by spaces)
exec "$program" serve "$files" "$port" "$key" "$base" 16 --links 256 --journal "$room" --first "$first" ${OPTIONS:-} \
  >"$state/$(date +%Y-%m-%dT%H%M%S).$first.journal"
