#!/bin/sh
# Tries demo/mokdrai.service under a systemd of its own: scripts/unit.sh [PROGRAM]
#
# PROGRAM is the built one, crates/mokdrai/out/mokdrai where it is missing. The script wants root, and a systemd in
# /lib/systemd. That systemd is the first process of namespaces of its own, over a root that takes all that is written
# beside this machine's. Nothing of either is left.
set -eu
here=$(dirname "$(readlink -f "$0")")/..
program=$(readlink -f "${1:-$here/crates/mokdrai/out/mokdrai}")
room=$(mktemp -d)
outer=/sys/fs/cgroup/unified/mokdrai-unit
[ -d /sys/fs/cgroup/unified ] || outer=/sys/fs/cgroup/mokdrai-unit
boot=''

leave() {
  [ -z "$boot" ] || kill -9 "$boot" 2>/dev/null || true
  sleep 1
  rmdir "$room" 2>/dev/null || true
  rm -f "$room.begin" "$room.log"
  find "$outer" -depth -type d -exec rmdir {} \; 2>/dev/null || true
}
trap leave EXIT

# What the first process does before it is systemd.
cat >"$room.begin" <<EOF
set -eu
mount -t tmpfs tmpfs $room
mkdir $room/up $room/work $room/root
mount -t overlay overlay -o lowerdir=/,upperdir=$room/up,workdir=$room/work $room/root
cd $room/root
mount -t proc proc proc
mount --bind proc/sys proc/sys
mount -o remount,ro,bind proc/sys
mount -t sysfs -o ro sysfs sys
mount -t cgroup2 cgroup2 sys/fs/cgroup
for each in dev run tmp; do mount -t tmpfs -o mode=755 tmpfs \$each; done
chmod 1777 tmp
for each in 'null 1 3' 'zero 1 5' 'full 1 7' 'random 1 8' 'urandom 1 9' 'tty 5 0'; do
  set -- \$each
  mknod -m 666 dev/\$1 c \$2 \$3
done
mkdir -p dev/shm dev/pts var/lib/mokdrai.none opt/mokdrai srv/files etc/mokdrai
rmdir var/lib/mokdrai.none

# Of this machine's own services none begins, but for the journal.
rm -rf lib/systemd/system/sysinit.target.wants/* lib/systemd/system/multi-user.target.wants/* etc/systemd/system/*.wants
ln -s ../systemd-journald.service lib/systemd/system/sysinit.target.wants
: >etc/fstab

# As docs/OPERATING.md has it.
cp $program opt/mokdrai/mokdrai-program
cp $here/mokdrai $here/demo/begin.sh opt/mokdrai
chmod 755 opt/mokdrai/*
chroot . useradd --system --no-create-home mokdrai
printf 1,2 >srv/files/a.csv
printf 4a656665 >etc/mokdrai/key
chmod 600 etc/mokdrai/key
chown -R --from=root --no-dereference \$(chroot . id -u mokdrai):\$(chroot . id -g mokdrai) srv/files etc/mokdrai
cp $here/demo/mokdrai.service etc/systemd/system
mkdir etc/systemd/system/multi-user.target.wants
ln -s ../mokdrai.service etc/systemd/system/multi-user.target.wants
mkdir .before
pivot_root . .before
umount -l /.before
exec env -i container=other PATH=/usr/sbin:/usr/bin:/sbin:/bin /lib/systemd/systemd --system --unit=multi-user.target --log-target=journal
EOF
mkdir "$outer"
sh -c "echo \$\$ >$outer/cgroup.procs; exec unshare -m -p -f -i -u -n -C --propagation private sh $room.begin" >/dev/null 2>"$room.log" &
unshared=$!

# The first process, as it is numbered outside.
for _ in $(seq 100); do
  boot=$(cat "/proc/$unshared/task/$unshared/children" 2>/dev/null | tr -d ' ')
  [ -z "$boot" ] || [ "$(cat "/proc/$boot/comm" 2>/dev/null)" != systemd ] || break
  sleep 0.1
done
inside() {
  nsenter -t "$boot" -m -p -n -i -u -C -- "$@"
}

# Waits until the host answers.
until_it_answers() {
  for _ in $(seq 150); do
    ! inside curl -s -o /dev/null http://127.0.0.1:8880/ 2>/dev/null || return 0
    sleep 0.2
  done
  inside systemctl status --no-pager mokdrai || true
  inside journalctl --no-pager -u mokdrai || true
  cat "$room.log"
  echo 'the host answers nobody'
  exit 1
}

call() {
  inside curl -s "$@"
}

# What was found has to be what is wanted.
is() {
  echo "$1: $2"
  [ "$2" = "$3" ] || {
    echo "wanted: $3"
    exit 1
  }
}

# Whether the host's process, if it were root, could make a file there.
writes() {
  inside nsenter -t "$main" -m -- sh -c "touch $1/.unit 2>/dev/null && rm $1/.unit && echo yes || echo no"
}

new_token() {
  token=$(inside /opt/mokdrai/mokdrai token @/etc/mokdrai/key --file a.csv --user ann --write --for 1h)
}

post() {
  call -o /dev/null -w '%{http_code}' -X POST -H "X-WOPI-Override: $1" -H 'X-WOPI-Lock: L1' --data-binary "$2" "$file$3?access_token=$token"
}

until_it_answers
main=$(inside systemctl show -p MainPID --value mokdrai)
is 'runs as' "$(inside sh -c "id -nu \$(awk '/^Uid/ {print \$2}' /proc/$main/status)")" mokdrai
is 'no new privileges' "$(inside awk '/^NoNewPrivs/ {print $2}' "/proc/$main/status")" 1
is 'open files' "$(inside awk '/^Max open files/ {print $4}' "/proc/$main/limits")" 4096
is 'writes to /etc/mokdrai' "$(writes /etc/mokdrai)" no
is 'writes to /opt/mokdrai' "$(writes /opt/mokdrai)" no
is 'writes to /srv/files' "$(writes /srv/files)" yes
file=http://127.0.0.1:8880/wopi/files/612e637376
new_token
is 'a lock' "$(post LOCK '' '')" 200
is 'a save' "$(post PUT 1,9 /contents)" 200
is 'the file' "$(inside cat /srv/files/a.csv)" 1,9
is 'first version' "$(inside cat /var/lib/mokdrai/first)" 1

# Killed, it is begun again above all versions of before.
inside systemctl kill -s KILL mokdrai
sleep 0.5
until_it_answers
new_token
is 'restarts after a kill' "$(inside systemctl show -p NRestarts --value mokdrai)" 1
is 'first version' "$(inside cat /var/lib/mokdrai/first)" 32770
is 'the file' "$(call "$file/contents?access_token=$token")" 1,9

# With a client that says nothing it ends in order all the same.
inside bash -c 'exec 3<>/dev/tcp/127.0.0.1/8880; sleep 100' &
silent=$!
sleep 1
begun=$(date +%s)
inside systemctl stop mokdrai
echo "stopped in $(($(date +%s) - begun)) seconds"
kill "$silent" 2>/dev/null || true
is 'its result' "$(inside systemctl show -p Result --value mokdrai)" success
is 'its status' "$(inside systemctl show -p ExecMainStatus --value mokdrai)" 0
is 'its journal' "$(inside sh -c 'cat /var/lib/mokdrai/*.32770.journal' | tail -n 1)" 'end 1'
is 'whose' "$(inside sh -c 'stat -c "%U %a" /var/lib/mokdrai/*.32770.journal')" 'mokdrai 600'
