#!/usr/bin/env bash
# Tries a package as a new administrator would, in a clean root of Debian 12 that debootstrap makes:
#
#   tools/package_trial.sh FILE.deb        writes a line for each thing that was tried; the status is 0 if all went well
#
# It installs the package with what it depends on, and starts the command of its unit as the unit's user, since there is no systemd
# in there. Two users put mail into the spool, ask by tap and get a maildir; the service and the program are killed, then stopped in
# order; then the package is removed and purged, and nothing of it may be left. It wants root, debootstrap and the network.
# MIRROR names another mirror than Debian's. ROOT names a clean root that is there already: it is copied. KEEP=1 keeps the root.
# If systemd-analyze is here, it looks at the unit.
set -euo pipefail
[ $# -eq 1 ] || { sed -n '2,11s/^# \{0,1\}//p' "$0" >&2; exit 2; }
[ "$(id -u)" -eq 0 ] || { echo 'package_trial: it wants root' >&2; exit 1; }
# Mounts and processes of the trial are its own, and end with it.
if [ -z "${INSIDE:-}" ]; then
  INSIDE=1 exec unshare --mount --pid --fork --kill-child --mount-proc --propagation private "$0" "$@"
fi
file="$(realpath "$1")"
export LC_ALL=C.UTF-8 DEBIAN_FRONTEND=noninteractive
scratch="$(mktemp -d)"
root="$scratch/root"
log="$scratch/log"

# Removes the root, whatever happened.
end() {
  local status=$?
  [ "$status" -eq 0 ] || { echo "package_trial: failed; the last lines of its log:" >&2; tail -n 20 "$log" >&2; }
  umount -l "$root/proc" "$root/dev" 2>/dev/null || true
  if [ -n "${KEEP:-}" ]; then echo "package_trial: kept $root" >&2; else rm -rf --one-file-system "$scratch"; fi
}
trap end EXIT

# Says what was tried and went well.
well() {
  echo "well: $1"
}

# Ends the trial with what went wrong.
wrong() {
  echo "wrong: $1"
  exit 1
}

# Runs a command in the root; as LOGIN by `inside LOGIN COMMAND..`.
inside() {
  local login="$1" home
  shift
  home="$(chroot "$root" getent passwd "$login" | cut -d: -f6)"
  chroot "$root" setpriv --reuid="$login" --regid="$login" --init-groups \
    env -i HOME="$home" USER="$login" PATH=/usr/local/bin:/usr/bin:/bin:/usr/sbin:/sbin LC_ALL=C.UTF-8 COLUMNS=120 "$@"
}

# Waits until a command succeeds, 30 seconds at most.
until_well() {
  local what="$1" n
  shift
  for ((n = 0; n < 300; n++)); do
    if "$@" >/dev/null 2>&1; then return; fi
    sleep 0.1
  done
  wrong "not within 30 seconds: $what"
}

# All names of the root, and its users: what a removal has to leave as it was.
state_of() {
  (cd "$root" && find . -xdev \( -path ./proc -o -path ./dev -o -path ./run -o -path ./tmp -o -path ./var/log -o -path ./var/cache \
    -o -path ./var/lib/dpkg -o -path ./var/lib/apt -o -name __pycache__ \) -prune -o -print | sort)
  sed 's/^/passwd /' "$root/etc/passwd"
  sed 's/^/group /' "$root/etc/group"
}

if [ -n "${ROOT:-}" ]; then
  cp -a "$ROOT" "$root"
else
  debootstrap --variant=minbase bookworm "$root" "${MIRROR:-http://deb.debian.org/debian}" >"$log" 2>&1
fi
# What is lost with the root needs no sync.
echo force-unsafe-io >"$root/etc/dpkg/dpkg.cfg.d/90trial"
mount -t proc proc "$root/proc"
mount --rbind /dev "$root/dev"
cp /etc/resolv.conf "$root/etc/resolv.conf"
# Nothing starts by itself in here.
printf '#!/bin/sh\nexit 101\n' >"$root/usr/sbin/policy-rc.d"
chmod 755 "$root/usr/sbin/policy-rc.d"
well "a clean root of Debian $(cat "$root/etc/debian_version")"

# Installation. What it depends on goes first, so that a purge can be compared with the state before.
chroot "$root" apt-get -qq update >>"$log" 2>&1
mapfile -t needed < <(dpkg-deb -f "$file" Depends | sed 's/ *([^)]*)//g; s/, */\n/g' | sed 's/|.*//')
chroot "$root" apt-get -qq install -y --no-install-recommends "${needed[@]}" acl >>"$log" 2>&1
for login in ann bob; do chroot "$root" useradd -m -s /bin/bash "$login"; done
state_of >"$scratch/before"
cp "$file" "$root/tmp/tapestry.deb"
chroot "$root" apt-get -qq install -y --no-install-recommends /tmp/tapestry.deb >>"$log" 2>&1
# shellcheck disable=SC2016
well "installed with ${needed[*]}: $(chroot "$root" dpkg-query -W -f '${Package} ${Version}, ${Installed-Size} KB' tapestry)"
chroot "$root" test -L /etc/systemd/system/multi-user.target.wants/tapestryd.service || wrong 'the unit is not enabled'
[ "$(chroot "$root" stat -c '%U %a' /var/lib/tapestry)" = 'tapestry 750' ] || wrong '/var/lib/tapestry'
well 'the unit is enabled, the user and the folders are there'

# The unit, as systemd reads it.
unit="$root/lib/systemd/system/tapestryd.service"
if command -v systemd-analyze >/dev/null; then
  # The root has neither systemd, and so not the units that each unit names, nor man.
  said="$(systemd-analyze --root="$root" verify tapestryd.service 2>&1 | grep -F tapestryd.service |
    grep -v -e 'Unit sysinit.target not found' -e "Command 'man " || true)"
  [ -z "$said" ] || wrong "systemd-analyze verify: $said"
  well "systemd-analyze verify; $(systemd-analyze --root="$root" --offline=yes security tapestryd.service 2>/dev/null | grep -o 'Overall.*SAFE\|Overall.*[A-Z]' | tail -n 1)"
fi

# The service, by the command of its unit.
mapfile -t words < <(sed -n 's/^ExecStart=//p' "$unit" | tr ' ' '\n')
install -d -m 0755 -o "$(chroot "$root" id -u tapestry)" -g "$(chroot "$root" id -g tapestry)" "$root/run/tapestry"
start() {
  (umask "$(sed -n 's/^UMask=//p' "$unit")" && inside tapestry "$(sed -n 's/^Environment=//p' "$unit")" "${words[@]}") 2>>"$scratch/said" &
  started=$!
  until_well 'the service is ready' inside ann tap ask now TRUE
}
# setpriv and env become the service, so its number is that of the process begun.
daemon() {
  pgrep -P "$started" -f tapestryd || echo "$started"
}
: >"$scratch/said"
start
well "the service runs as tapestry: $(tail -n 1 "$scratch/said")"

# Mail by the spool, as any login, and by tap.
message() {
  printf 'From: %s@example.org\nSubject: %s\nMessage-ID: <%s@example.org>\n\nthe %s of this year\n' "$1" "$2" "$2" "$3"
}
put() {
  # shellcheck disable=SC2016
  message "$1" "$2" "$3" | inside "$1" sh -c 'umask 007; cat >/var/spool/tapestry/tmp/$0 && mv /var/spool/tapestry/tmp/$0 /var/spool/tapestry/new/$0' "$2"
}
inside ann tap query budget "m.words HAS 'budget'" | grep -q . || wrong 'tap query'
inside bob tap query mine "m.from = 'bob@example.org'" >/dev/null
put ann a1 budget
put bob b1 budget
put bob b2 holiday
until_well 'the spool is loaded' inside root sh -c '! ls /var/spool/tapestry/new | grep -q .'
inside ann sh -c "ls /var/spool/tapestry/new" >/dev/null 2>&1 && wrong 'ann sees the spool'
message ann a2 budget >"$root/home/ann/one"
inside ann tap load /home/ann/one | grep -q . || wrong 'tap load'
sleep 1.1
inside ann tap run budget >"$scratch/run"
if ! grep -q a1 "$scratch/run" || ! grep -q b1 "$scratch/run" || grep -q b2 "$scratch/run"; then wrong "tap run: $(cat "$scratch/run")"; fi
inside ann tap box budget >"$scratch/box"
[ "$(grep -c example.org "$scratch/box")" -eq 3 ] || wrong "tap box: $(cat "$scratch/box")"
well 'two users put mail into the spool; ann loads, runs and looks at her box:'
sed 's/^/      /' "$scratch/box"
status=0
inside bob tap box budget >"$scratch/bob" 2>&1 || status=$?
[ "$status" -eq 1 ] || wrong 'bob sees a box of ann'
inside bob tap run mine | grep -q b2 || wrong 'tap run of bob'
well 'bob has a query of his own, and no box of ann'
# shellcheck disable=SC2016
inside ann bash -c '. /usr/share/bash-completion/completions/tap; COMP_WORDS=(tap bo); COMP_CWORD=1; _tap; echo "${COMPREPLY[*]}"' >"$scratch/words"
[ "$(cat "$scratch/words")" = box ] || wrong "completion of \`tap bo\`: $(cat "$scratch/words")"
well 'bash completes words of tap'

# A maildir of ann's, to which she lets the service write, as GUIDE says.
# shellcheck disable=SC2016
inside ann sh -ec 'cd; mkdir -p Maildir/.budget/tmp Maildir/.budget/new Maildir/.budget/cur
  setfacl -m u:tapestry:x . Maildir
  setfacl -R -m u:tapestry:rwx,d:u:tapestry:rwx,d:u:$USER:rwx Maildir/.budget'
echo 'deliver ann budget maildir /home/ann/Maildir/.budget' >>"$root/etc/tapestry/rules"
kill -HUP "$(daemon)"
box="$root/home/ann/Maildir/.budget"
in_box() {
  [ "$(find "$box/new" "$box/cur" -type f | wc -l)" -eq "$1" ]
}
until_well 'the maildir has the box' in_box 3
inside ann sh -c 'grep -h "^Subject: a1$" ~/Maildir/.budget/new/*' >/dev/null || wrong 'ann reads what was delivered'
inside bob sh -c 'cat /home/ann/Maildir/.budget/new/*' >/dev/null 2>&1 && wrong 'bob reads what was delivered'
well "the rules were read again, the maildir has $(find "$box/new" -type f | wc -l) messages, and ann reads them"

# Killed, both, and begun again.
rm "$(find "$box/new" -type f | head -n 1)"
pkill -9 -P "$(daemon)" || true
put ann a3 budget
until_well 'the message after a kill of the program' in_box 3
kill -9 "$(daemon)"
wait "$started" 2>/dev/null || true
put ann a4 budget
start
until_well 'the message after a kill of the service' in_box 4
sleep 1.5
in_box 4 || wrong 'a message came twice'
well 'program and service killed (-9): each message came once, and the deleted one not again'
kill "$(daemon)"
status=0
wait "$started" || status=$?
[ "$status" -eq 0 ] || wrong "SIGTERM: status $status"
put bob b3 budget
start
until_well 'the message after an orderly end' in_box 5
well "stopped in order (status 0) and begun again"
kill "$(daemon)"
wait "$started" || wrong 'the second end'
# The file alone has the seven messages.
cp "$root/var/lib/tapestry/mail.db" "$root/tmp/alone.db"
printf 'at 2099-01-01T00:00:00Z\nmbox\n.\n' | chroot "$root" tapestry --store /tmp/alone.db >"$scratch/alone" || true
grep -q '^ok 0 docs 0 8$' "$scratch/alone" || wrong "the file alone: $(cat "$scratch/alone")"
well 'ended in order, the file of the store alone has all messages'

# Installed once more, as by an upgrade; removed; purged.
chroot "$root" dpkg -i /tmp/tapestry.deb >>"$log" 2>&1
grep -q '^deliver ann' "$root/etc/tapestry/rules" || wrong 'an upgrade changed the rules'
chroot "$root" apt-get -qq remove -y tapestry >>"$log" 2>&1
for kept in var/lib/tapestry/mail.db var/spool/tapestry/new etc/tapestry/rules; do
  [ -e "$root/$kept" ] || wrong "a removal took /$kept"
done
[ ! -e "$root/usr/share/tapestry" ] || wrong 'a removal left /usr/share/tapestry'
well 'an upgrade keeps the rules; a removal keeps the store, the spool and the rules'
chroot "$root" apt-get -qq purge -y tapestry >>"$log" 2>&1
rm -rf "$root/home/ann/Maildir" "$root/home/ann/one" "$root/run/tapestry"
state_of >"$scratch/after"
left="$(diff "$scratch/before" "$scratch/after" || true)"
[ -z "$left" ] || wrong "a purge leaves: $left"
well 'a purge leaves nothing'
