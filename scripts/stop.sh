#!/usr/bin/env bash
# Shows that a signal ends a `serve` in order: scripts/stop.sh [PROGRAM]
#
# Starts PROGRAM (./mokdrai where it is left out) over a folder and a port of its own, with a connection that is in
# the middle of a save when the signal comes, and finishes that save. Meanwhile who connects has to be refused at once,
# and who waited for a worker has to be closed, also while every worker is busy. The reply has to come, the save has to
# stand in the folder and in the journal, no other connection may be served, and the status has to be 0. SIGTERM goes to
# the script alone and to its group, as supervisors send it, SIGINT to the group, as a terminal sends it, and each also
# twice; SIGHUP and SIGQUIT go once. At last SIGTERM, SIGQUIT and SIGHUP come before or as the host begins. A second host over the folder,
# begun meanwhile, has to end with status 5. It is no part of the gate.
set -um
top=$(cd "$(dirname "$(readlink -f "${BASH_SOURCE[0]}")")/.." && pwd)
program=$(readlink -f "${1:-$top/mokdrai}")
key=4a656665
room=$(mktemp -d) || exit 1
trap 'rm -rf "$room"' EXIT
faults=0

check() { # what, wanted, found
  if [ "$2" != "$3" ]; then
    echo "  $1: wanted '$2', found '$3'"
    faults=$((faults + 1))
  fi
}

is_open() {
  (: <>"/dev/tcp/127.0.0.1/$port") 2>/dev/null
}

# A port that nobody listens at.
find_port() {
  port=$((20000 + RANDOM % 10000))
  while is_open; do
    port=$((20000 + RANDOM % 10000))
  done
}

begin_host() {
  rm -rf "$room/files" && mkdir "$room/files" && echo 1,2 >"$room/files/a.csv"
  find_port
  "$program" serve "$room/files" "$port" "$key" "http://localhost:$port" 2 >"$room/journal" 2>"$room/notes" &
  host=$!
  [ "${1:-}" = early ] && return
  for _ in $(seq 200); do
    is_open && return
    sleep 0.1
  done
  echo "  no host answers: $(cat "$room/notes")"
  exit 1
}

# Reads a reply's status line and the rest of its head.
read_reply() {
  local line
  read -r -t 30 -u 3 status_line
  while read -r -t 30 -u 3 line && [ "$line" != $'\r' ]; do :; done
  status_line=${status_line%$'\r'}
}

begin_save() {
  local act="/wopi/files/612e637376?access_token=$token" contents="/wopi/files/612e637376/contents?access_token=$token"
  exec 3<>"/dev/tcp/127.0.0.1/$port"
  printf 'POST %s HTTP/1.1\r\nHost: h\r\nX-WOPI-Override: LOCK\r\nX-WOPI-Lock: L1\r\nContent-Length: 0\r\n\r\n' "$act" >&3
  read_reply
  check 'the reply before the signal' 'HTTP/1.1 200 OK' "$status_line"
  printf 'POST %s HTTP/1.1\r\nHost: h\r\nX-WOPI-Override: PUT\r\nX-WOPI-Lock: L1\r\nContent-Length: 6\r\n\r\nhal' "$contents" >&3
}

# Keeps the other worker busy by a connection that stays open after a reply, and lets somebody wait for a worker.
keep_other() {
  exec 5<>"/dev/tcp/127.0.0.1/$port"
  printf 'GET /wopi/files/612e637376?access_token=%s HTTP/1.1\r\nHost: h\r\n\r\n' "$token" >&5
  IFS= read -r -t 30 -u 5 status_line
  check 'the reply at the other worker' 'HTTP/1.1 200 OK' "${status_line%$'\r'}"
  exec 6<>"/dev/tcp/127.0.0.1/$port"
  printf 'GET / HTTP/1.1\r\nHost: h\r\n\r\n' >&6
}

# What somebody gets who waited for a worker when the signal came.
read_waiting() {
  timeout 2 cat <&6 2>/dev/null
  [ $? -ne 124 ] || echo nothing yet
}

let_other_go() {
  exec 5>&- 6>&-
}

finish_save() {
  printf 'ves' >&3
  read_reply
  check 'the reply after the signal' 'HTTP/1.1 200 OK' "$status_line"
  exec 3>&-
}

# How a connect ends after the signal.
connect_late() {
  local said
  if said=$(LC_ALL=C timeout 2 bash -c ": <>/dev/tcp/127.0.0.1/$port" 2>&1); then
    echo connected
  elif [[ $said == *'Connection refused'* ]]; then
    echo refused
  else
    echo "$said"
  fi
}

# The status of a second host over the same folder, at a port of its own.
begin_second() {
  "$program" serve "$room/files" $((port + 10000)) "$key" http://localhost 1 >/dev/null 2>&1 </dev/null
  echo $?
}

# One run: its name, how many of the two workers are busy, and the signals, each with the processes that it goes to.
run() {
  local name=$1 busy=$2 signal to
  shift 2
  echo "$name"
  begin_host
  begin_save
  [ "$busy" -lt 2 ] || keep_other
  for signal in "$@"; do
    to=$host
    [ "${signal#*:}" = group ] && to=-$host
    kill -s "${signal%:*}" -- "$to"
    sleep 0.5
  done
  check 'a later connect' refused "$(connect_late)"
  check 'the status of a second host' 5 "$(begin_second)"
  if [ "$busy" -eq 2 ]; then
    check 'who waited for a worker' '' "$(read_waiting)"
    let_other_go
  fi
  kill -0 "$host" 2>/dev/null || check 'the host before the save is whole' runs ended
  finish_save
  wait "$host"
  check 'the status' 0 $?
  check 'the file' halves "$(cat "$room/files/a.csv")"
  check "the journal's entries" 'lock put' "$(awk '$7 == "lock" || $7 == "put" { print $7 }' "$room/journal" | xargs)"
  check "the journal's end" "end $((busy + 1))" "$(tail -n 1 "$room/journal")"
  check 'the notes' '' "$(cat "$room/notes")"
}

# Until the child runs the host's script and no longer this one, in which bash would hear no SIGQUIT, and would take the
# room away at another signal.
wait_for_script() {
  local own word
  IFS= read -rd '' own <"/proc/$$/cmdline"
  while IFS= read -rd '' word <"/proc/$host/cmdline" && [ "$word" = "$own" ]; do :; done
}

# A signal so many seconds after the start. It ends the host in order, or the script before it has begun one.
run_early() {
  local signal=$1 ended
  begin_host early
  wait_for_script
  sleep "$2"
  kill -s "$signal" "$host"
  wait "$host" 2>/dev/null
  ended="$? $(tail -n 1 "$room/journal")"
  [ "$ended" = "$((128 + $(kill -l "$signal"))) " ] || check "the status and the journal's end" '0 end 0' "$ended"
}

token=$("$program" token "$key" ann a.csv w 1 253402300000000 253402300799999) || exit 1
run 'SIGTERM to the script' 1 TERM:script
run 'SIGTERM to the group' 1 TERM:group
run 'SIGINT to the group' 1 INT:group
run 'SIGHUP to the script' 1 HUP:script
run 'SIGQUIT to the group' 1 QUIT:group
run 'SIGTERM to the script, twice' 1 TERM:script TERM:script
run 'SIGINT to the group, twice' 1 INT:group INT:group
run 'SIGTERM to the script, with every worker busy' 2 TERM:script
run 'SIGINT to the group, twice, with every worker busy' 2 INT:group INT:group
echo 'signals within half a second'
for signal in TERM QUIT HUP; do
  for seconds in 0 0.002 0.004 0.006 0.008 0.01 0.015 0.02 0.025 0.03 0.04 0.05 0.1 0.2 0.3 0.5; do
    run_early "$signal" "$seconds"
  done
done
echo "$faults faults"
[ "$faults" -eq 0 ]
