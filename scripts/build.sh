#!/usr/bin/env bash
# Proves and builds the program, where it isn't built or is older than its sources: scripts/build.sh
# What it says goes to the notes. `./mokdrai build` runs it.
set -u
top=$(cd "$(dirname "$(readlink -f "${BASH_SOURCE[0]}")")/.." && pwd)
program=$top/crates/mokdrai/out/mokdrai

is_current() {
  [ -x "$program" ] && [ -z "$(sh "$top/scripts/newer.sh" "$program")" ]
}

# The crates that the program stands on, a line each: how many lines are to be proved from it up to the program, its
# name, and then all crates below it. The longest way comes first, so no crate before one that it stands on.
crates_by_way() {
  local name
  for name in $(sed -n 's/^\([a-z]\w*\).*/\1/p' "$top/crates.txt"); do
    echo "size $name $(find "$top/crates/$name/src" "$top/crates/$name/specs" "$top/crates/$name/proofs" -type f -exec cat {} + 2>/dev/null | wc -l)"
  done | cat - "$top/crates.txt" | awk '
    $1 == "size" { size[$2] = $3 + 1; next }
    /^[a-z]/ {
      split($0, sides, ":")
      split(sides[1], words, " ")
      below[words[1]] = sides[2]
    }
    # Puts all crates below this one into a line, and then itself into the list.
    function visit(name, list, count, at) {
      if (name in line) return
      line[name] = " "
      count = split(below[name], list, " ")
      for (at = 1; at <= count; at++)
        if (list[at] in below) {
          visit(list[at])
          add(name, list[at] line[list[at]])
        }
      order[++total] = name
    }
    function add(name, more, list, count, at) {
      count = split(more, list, " ")
      for (at = 1; at <= count; at++)
        if (!index(line[name], " " list[at] " ")) line[name] = line[name] list[at] " "
    }
    END {
      visit("mokdrai")
      for (last = total; last >= 1; last--) {
        name = order[last]
        way = size[name] + above[name]
        print way, name line[name]
        count = split(line[name], list, " ")
        for (at = 1; at <= count; at++)
          if (way > above[list[at]]) above[list[at]] = way
      }
    }
  ' | sort -k 1,1nr -s
}

# As many at a time as there are processors, and 4 GiB of free memory for each.
lanes() {
  local processors memory
  processors=$(nproc)
  memory=$(awk '/^MemAvailable:/ { print int($2 / 4194304) }' /proc/meminfo)
  [ "$memory" -ge 1 ] || memory=1
  echo $((processors < memory ? processors : memory))
}

# Whether all of the crates have been built.
all_built() {
  local name
  for name in "$@"; do
    [ -n "${built[$name]:-}" ] || return 1
  done
}

# rt locks a crate and all those below it, so that two of them are proved side by side only in two copies of the sources:
# such a copy is a room. A crate of which rt has kept work is proved in place, over that work.
choose_room() {
  local name=$1 each part
  room=$top
  [ "$name" != mokdrai ] && [ ! -d "$top/crates/$name/out/incremental" ] || return 0
  for each in $(seq "$most"); do
    room=$rooms/$each
    [ -n "${taken[$room]:-}" ] || break
  done
  [ ! -d "$room" ] || return 0
  mkdir "$room" && cp "$top/crates.txt" "$room" || return
  for each in "$top"/crates/*/; do
    each=crates/$(basename "$each")
    mkdir -p "$room/$each" || return
    for part in src specs proofs; do
      [ ! -d "$top/$each/$part" ] || cp -r "$top/$each/$part" "$room/$each" || return
    done
  done
}

# Has a room the libraries below its crate, by hard links where these can be made: rt replaces such a file and never
# writes into it, and takes a library only where its stamp is that of the sources.
bring_libraries() {
  local name from to
  for name in "$@"; do
    from=$top/crates/$name/out/rlib to=$room/crates/$name/out
    [ "$room" != "$top" ] && [ -d "$from" ] && [ ! -d "$to/rlib" ] || continue
    mkdir -p "$to" || return
    cp -al "$from" "$to" 2>/dev/null || { rm -rf "$to/rlib" && cp -a "$from" "$to"; } || return
  done
}

# Puts what was made of a crate in its room where it belongs, while no other rt works there.
bring_home() {
  local name=$1 from=$2/crates/$1/out to=$top/crates/$1/out part held
  [ "$2" != "$top" ] || return 0
  exec {held}<"$top/crates/$name" || return
  ! command -v flock >/dev/null || flock "$held"
  mkdir -p "$to"
  for part in rlib incremental; do
    [ ! -d "$from/$part" ] || { rm -rf "${to:?}/$part" && mv "$from/$part" "$to"; } || break
  done
  exec {held}<&-
}

# Begins a crate: that with the longest way takes the processors that it can use, the others what it leaves.
begin() {
  local way=$1 name=$2 each ahead=0 command=(rt lib) room
  choose_room "$name" && bring_libraries "${@:3}" || return
  for each in "${ways[@]}"; do
    [ "$each" -lt "$way" ] || ahead=$((ahead + 1))
  done
  [ "$name" != mokdrai ] || command=(rt run -- --version)
  [ "$ahead" = 0 ] || command=(nice -n $((5 * ahead)) "${command[@]}" --jobs 2)
  (cd "$room/crates/$name" && exec "${command[@]}") {building}<&- </dev/null >"$rooms/$name.log" 2>&1 &
  running[$!]=$name ways[$!]=$way in_room[$!]=$room taken[$room]=$!
}

# Begins each crate that waits for nothing, while a lane is free.
begin_ready() {
  local at line
  for at in "${!waiting[@]}"; do
    [ ${#running[@]} -lt "$most" ] || return 0
    read -ra line <<<"${waiting[at]}"
    all_built "${line[@]:2}" || continue
    unset "waiting[at]"
    begin "${line[@]}" || return
  done
}

# Ends what is being proved, and takes the rooms away.
end_build() {
  trap - EXIT
  [ ${#running[@]} = 0 ] || kill "${!running[@]}" 2>/dev/null
  wait
  rm -rf "$rooms"
}

# What is known of a crate whose proof has ended.
finish() {
  local ended=$1 status=$2 name=${running[$1]}
  if [ "$status" = 0 ]; then
    bring_home "$name" "${in_room[$ended]}" || status=$?
  else
    cat "$rooms/$name.log" >&2
  fi
  unset "taken[${in_room[$ended]}]" "running[$ended]" "ways[$ended]" "in_room[$ended]"
  [ "$status" = 0 ] || return
  built[$name]=yes
  printf 'mokdrai: %s of %s crates built, after %s:%02d: %s\n' ${#built[@]} "$count" $((SECONDS / 60)) $((SECONDS % 60)) "$name" >&2
}

# Builds the crates that wait. Once one has failed no other is begun, and what is being proved goes on to its end.
build_all() {
  local ended status count=${#waiting[@]} failed=
  while :; do
    [ -n "$failed" ] || begin_ready || failed=yes
    [ ${#running[@]} -gt 0 ] || break
    wait -n -p ended "${!running[@]}"
    status=$?
    finish "$ended" "$status" || failed=yes
  done
  [ -z "$failed" ] && [ ${#waiting[@]} = 0 ]
}

# One run of this script builds at a time; another one waits for it, and may find that there is nothing left to do.
build() {
  local most rooms building status
  local -a waiting
  local -A running=() ways=() in_room=() taken=() built=()
  exec {building}<"$top/crates" || return
  if command -v flock >/dev/null && ! flock -n "$building"; then
    echo 'mokdrai: another run builds the program; waiting for it' >&2
    flock "$building"
  fi
  if is_current; then
    exec {building}<&-
    return
  fi
  mapfile -t waiting < <(crates_by_way)
  most=$(lanes)
  rooms=$(mktemp -d) || return
  SECONDS=0
  trap end_build EXIT
  echo "mokdrai: proving and building the program, crate by crate, which takes half an hour or so the first time" >&2
  build_all
  status=$?
  end_build
  exec {building}<&-
  [ "$status" = 0 ] && touch "$program"
}

if ! is_current && ! build; then
  echo 'mokdrai: the program was not built' >&2
  exit 1
fi
