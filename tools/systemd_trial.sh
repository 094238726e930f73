#!/usr/bin/env bash
# Tries a package under a real systemd, as a new user would who follows docs/GUIDE.md:
#
#   tools/systemd_trial.sh FILE.deb        writes a line for each thing that was tried; the status is 0 if all went well
#
# A clean root of Debian 12 is booted in namespaces of its own, with systemd as its process 1. There the login ann pastes what GUIDE
# says from the package to her folder in mutt and in an IMAP client over dovecot. Then the unit is tried: readiness, the sandbox, a
# reload with a wrong line, the watchdog, a kill, a stop within a second, a shard over a log, a removal.
#
# It wants root, debootstrap, a mounted cgroup2 and the network. MIRROR names another mirror than Debian's. ROOT names a clean root
# that is there already: it is copied. KEEP=1 keeps the root.
set -euo pipefail
[ $# -eq 1 ] || { sed -n '2,12s/^# \{0,1\}//p' "$0" >&2; exit 2; }
[ "$(id -u)" -eq 0 ] || { echo 'systemd_trial: it wants root' >&2; exit 1; }
top="$(cd "$(dirname "$0")/.." && pwd)"
file="$(realpath "$1")"
export LC_ALL=C.UTF-8 DEBIAN_FRONTEND=noninteractive
groups="$(awk '$3 == "cgroup2" { print $2; exit }' /proc/mounts)"
[ -n "$groups" ] || { echo 'systemd_trial: no cgroup2 is mounted' >&2; exit 1; }
group="$groups/tapestry-trial-$$"
scratch="$(mktemp -d)"
chmod 755 "$scratch"
root="$scratch/root"
log="$scratch/log"
init=

# Ends the machine and removes the root, whatever happened.
end() {
  local status=$?
  [ "$status" -eq 0 ] || { echo "systemd_trial: failed; the last lines of its log:" >&2; tail -n 30 "$log" >&2; }
  if [ -n "$init" ]; then
    kill -9 "$init" 2>/dev/null || true
    wait "$init" 2>/dev/null || true
  fi
  for ((n = 0; n < 50; n++)); do
    find "$group" -depth -type d -exec rmdir {} + 2>/dev/null || true
    [ -d "$group" ] || break
    sleep 0.1
  done
  if [ -n "${KEEP:-}" ]; then echo "systemd_trial: kept $root" >&2; else rm -rf --one-file-system "$scratch"; fi
}
trap end EXIT
trap 'exit 1' INT TERM

# Says what was tried and went well.
well() {
  echo "well: $1"
}

# Ends the trial with what went wrong.
wrong() {
  echo "wrong: $1"
  exit 1
}

# Waits until a command succeeds, 60 seconds at most.
until_well() {
  local what="$1" n
  shift
  for ((n = 0; n < 600; n++)); do
    if "$@" >/dev/null 2>&1; then return; fi
    sleep 0.1
  done
  wrong "not within 60 seconds: $what"
}

if [ -n "${ROOT:-}" ]; then
  cp -a "$ROOT" "$root"
else
  debootstrap --variant=minbase bookworm "$root" "${MIRROR:-http://deb.debian.org/debian}" >"$log" 2>&1
fi
cp /etc/resolv.conf "$root/etc/resolv.conf"
# Nobody is there to say yes.
echo 'APT::Get::Assume-Yes "true";' >"$root/etc/apt/apt.conf.d/90trial"
# What is lost with the machine needs no sync.
echo force-unsafe-io >"$root/etc/dpkg/dpkg.cfg.d/90trial"
printf "127.0.0.1 localhost\n127.0.1.1 %s\n" "$(uname -n)" >>"$root/etc/hosts"
{
  chroot "$root" apt-get -qq update
  chroot "$root" apt-get -qq install --no-install-recommends systemd-sysv sudo procps curl
  chroot "$root" useradd -m -s /bin/bash -G sudo ann
  echo ann:secret | chroot "$root" chpasswd
  echo 'ann ALL=(ALL) NOPASSWD: ALL' >"$root/etc/sudoers.d/ann"
} >>"$log" 2>&1
cp "$file" "$root/home/ann/"

# A machine of its own: its processes, mounts and names, the network of this one.
mkdir "$group"
cat >"$scratch/boot" <<'END_OF_BOOT'
set -e
root="$1"
mount --bind "$root" "$root"
mount -t proc proc "$root/proc"
mount -t sysfs -o ro sysfs "$root/sys"
mount -t cgroup2 cgroup2 "$root/sys/fs/cgroup"
mount -t tmpfs -o mode=755 tmpfs "$root/run"
mount -t tmpfs -o mode=755 tmpfs "$root/dev"
mkdir "$root/dev/pts" "$root/dev/shm"
mount -t devpts -o newinstance,ptmxmode=666,mode=620,gid=5 devpts "$root/dev/pts"
mount -t tmpfs -o mode=1777 tmpfs "$root/dev/shm"
for name in null zero full random urandom tty; do
  touch "$root/dev/$name"
  mount --bind "/dev/$name" "$root/dev/$name"
done
ln -s pts/ptmx "$root/dev/ptmx"
ln -s /proc/self/fd "$root/dev/fd"
cd "$root"
pivot_root . tmp
umount -l /tmp
exec env -i container=trial PATH=/usr/sbin:/usr/bin:/sbin:/bin /lib/systemd/systemd --show-status=no </dev/null
END_OF_BOOT
(
  echo $BASHPID >"$group/cgroup.procs"
  exec unshare --mount --pid --fork --kill-child --uts --ipc --cgroup --propagation private bash "$scratch/boot" "$root"
) >>"$log" 2>&1 &
init=$!
until_well 'a process 1' pgrep -P "$init"
leader="$(pgrep -P "$init")"

# Runs a command in the machine; as a login by `as LOGIN COMMAND..`, from its home.
inside() {
  nsenter -t "$leader" --mount --pid --uts --ipc --cgroup --root --wd env -i PATH=/usr/sbin:/usr/bin:/sbin:/bin LC_ALL=C.UTF-8 \
    DEBIAN_FRONTEND=noninteractive "$@"
}
as() {
  local login="$1"
  shift
  inside setpriv --reuid="$login" --regid="$login" --init-groups env HOME="/home/$login" USER="$login" COLUMNS=100 \
    TERM=xterm sh -c 'cd && exec "$@"' sh "$@"
}
is_up() {
  case "$(inside systemctl is-system-running)" in running | degraded) ;; *) return 1 ;; esac
}
until_well 'systemd is up' is_up
well "a clean root of Debian $(cat "$root/etc/debian_version"), with $(inside systemctl --version | head -n 1 | cut -d' ' -f1,2) as process 1"

# What GUIDE says, block by block: those behind a heading, up to the next one.
blocks_of() {
  awk -v heading="$1" '/^#/ { inside = $0 == heading } inside && /^```/ { open = !open; if (open) print "#block"; next } inside && open' \
    "$top/docs/GUIDE.md"
}

# Pastes the next block of GUIDE as ann, with what the lines behind it change in it (a script of sed).
paste_block() {
  local heading="$1" number="$2" change="${3:-}" text
  text="$(blocks_of "$heading" | awk -v number="$number" '/^#block$/ { at++; next } at == number' | sed -e "$change")"
  [ -n "$text" ] || wrong "GUIDE has no block $number under: $heading"
  printf '\n-- pasted:\n%s\n--\n' "$text" >>"$log"
  as ann bash -e -c "$text" >"$scratch/said" 2>&1 || { cat "$scratch/said" >>"$log"; wrong "GUIDE, $heading, block $number: $(tail -n 5 "$scratch/said")"; }
  cat "$scratch/said" >>"$log"
}
message() {
  printf 'From: %s@example.org\nSubject: %s\nMessage-ID: <%s@example.org>\n\nthe %s of this year\n' "$1" "$2" "$2" "$3"
}
for n in 1 2 3 4 5; do
  word=budget
  [ $((n % 2)) -eq 1 ] || word=holiday
  printf 'From user%s Tue Dec  1 08:00:00 2026\n' "$n"
  message "user$n" "m$n" "$word"
  echo
done >"$root/home/ann/mbox"
chroot "$root" chown ann: /home/ann/mbox
box="$root/home/ann/Maildir/.budget"
in_box() {
  [ "$(find "$box/new" "$box/cur" -type f | wc -l)" -eq "$1" ]
}

heading='### With the package'
paste_block "$heading" 1
[ "$(inside systemctl is-active tapestryd)" = active ] || wrong 'the service does not run after the installation'
well "installed; systemd says: $(inside systemctl show tapestryd -P ActiveState -P SubState -P StatusText | paste -sd, | sed 's/,/, /g')"
paste_block "$heading" 2
for n in 1 3 5; do grep -q "m$n" "$scratch/said" || wrong "tap run and tap box: $(cat "$scratch/said")"; done
paste_block "$heading" 3
paste_block "$heading" 4
until_well 'the folder has the box' in_box 3
well 'GUIDE, with the package: each pasted step, up to the folder with its 3 messages'

# mutt, with the keys that it is given.
heading='### In mutt, and in an IMAP client'
paste_block "$heading" 1 's/^mutt .*/(sleep 3; printf n; sleep 2; printf q; sleep 1) | script -qc "&" \/dev\/null/'
for n in 1 3 5; do grep -q "m$n" "$scratch/said" || wrong "mutt shows no m$n"; done
well 'GUIDE, mutt: the folder is shown with its 3 messages'
paste_block "$heading" 2
paste_block "$heading" 3 's/-u \$USER/-sS -u $USER:secret/'
grep -q 'STATUS budget (MESSAGES 3' "$scratch/said" || wrong "curl: $(cat "$scratch/said")"
imap() {
  as ann python3 -c '
import imaplib, sys
talk = imaplib.IMAP4("localhost")
talk.login("ann", "secret")
talk.select("budget")
exec(sys.argv[1])
found = talk.fetch("1:*", "(FLAGS BODY.PEEK[HEADER.FIELDS (SUBJECT)])")[1]
print(*sorted(f"""{it[1].decode().split()[1]}{"*" * (b"Flagged" in it[0])}""" for it in found if isinstance(it, tuple)))
talk.logout()' "$1"
}
[ "$(imap 'talk.store("1", "+FLAGS", "(\\Seen \\Flagged)")')" = 'm1* m3 m5' ] || wrong 'dovecot shows something else'
message ann a1 budget | as ann sh -c 'umask 007; cat >/var/spool/tapestry/tmp/a1 && mv /var/spool/tapestry/tmp/a1 /var/spool/tapestry/new/a1'
until_well 'the message of the spool is in the folder' in_box 4
[ "$(imap pass)" = 'a1 m1* m3 m5' ] || wrong 'dovecot shows something else after a delivery'
well 'GUIDE, dovecot: by IMAP each message is there once, with its flag; one from the spool comes'

# The unit.
said="$(inside systemd-analyze verify tapestryd.service 2>&1 | grep -F tapestryd.service | grep -v "Command 'man " || true)"
[ -z "$said" ] || wrong "systemd-analyze verify: $said"
main() {
  inside systemctl show tapestryd -P MainPID
}
pid="$(main)"
[ "$(inside awk '/NoNewPrivs/ { print $2 }' "/proc/$pid/status")" = 1 ] || wrong 'the sandbox: NoNewPrivs'
[ "$(inside readlink "/proc/$pid/ns/net")" != "$(inside readlink /proc/1/ns/net)" ] || wrong 'the sandbox: the network'
inside nsenter -t "$pid" --mount touch /usr/here 2>/dev/null && wrong 'the sandbox: /usr can be written'
inside nsenter -t "$pid" --mount touch /home/ann/here 2>/dev/null && wrong 'the sandbox: /home can be written'
well "the sandbox: no network, a read-only system; $(inside systemd-analyze security tapestryd.service | grep -o 'Overall.*' | sed 's/ *[^a-zA-Z]*$//')"
echo 'run ann' >>"$root/etc/tapestry/rules"
inside systemctl reload tapestryd
until_well 'the wrong line is named' inside sh -c 'journalctl -u tapestryd | grep -q "rules:[0-9]*: it wants: run NAME QUERY: the rules stay as they were"'
sed -i '$d' "$root/etc/tapestry/rules"
inside systemctl reload tapestryd
until_well 'the rules are read again' inside sh -c 'journalctl -u tapestryd | sed "1,/it wants: run NAME QUERY/d" | grep -q "read /etc/tapestry/rules: 1 queries"'
[ "$(main)" = "$pid" ] || wrong 'a reload began another process'
well 'a reload names a wrong line and changes nothing, then reads the rules'

# A stop of the process, which the watchdog ends; a kill. Mail comes meanwhile.
put() {
  message ann "$1" budget | as ann sh -c 'umask 007; cat >/var/spool/tapestry/tmp/$0 && mv /var/spool/tapestry/tmp/$0 /var/spool/tapestry/new/$0' "$1"
}
inside sh -c 'mkdir -p /run/systemd/system/tapestryd.service.d; printf "[Service]\nWatchdogSec=2\n" >/run/systemd/system/tapestryd.service.d/soon.conf; systemctl daemon-reload; systemctl restart tapestryd'
sleep 6
pid="$(main)"
[ "$(inside systemctl show tapestryd -P NRestarts)" = 0 ] || wrong 'the watchdog ends a service that is well'
inside kill -STOP "$pid"
put a2
restarted() {
  [ "$(inside systemctl show tapestryd -P NRestarts)" = "$1" ] && [ "$(inside systemctl is-active tapestryd)" = active ]
}
until_well 'the watchdog begins it anew' restarted 1
inside journalctl -u tapestryd | grep -q -i 'watchdog timeout' || wrong 'the journal says nothing of the watchdog'
until_well 'the message after that' in_box 5
inside kill -9 "$(main)"
put a3
until_well 'systemd begins it anew' restarted 2
until_well 'the message after that, too' in_box 6
sleep 1.5
in_box 6 || wrong 'a message came twice'
well 'a process that hangs is ended by the watchdog, a killed one begun anew; each message came once'

# The end.
began="$(date +%s%N)"
inside systemctl is-active tapestryd >/dev/null
middle="$(date +%s%N)"
inside systemctl stop tapestryd
# A machine that is busy takes long to ask anything.
taken=$((($(date +%s%N) - middle) / 1000000))
limit=$((1000 + 10 * (middle - began) / 1000000))
[ "$(inside systemctl show tapestryd -P Result)" = success ] || wrong "the stop: $(inside systemctl show tapestryd -P Result)"
[ "$taken" -lt "$limit" ] || wrong "the stop took $taken ms"
inside journalctl -u tapestryd | grep -e 'stopped by signal 15' -e 'belong together' && wrong 'systemd ended the program in place of the service'
cp "$root/var/lib/tapestry/mail.db" "$root/tmp/alone.db"
printf 'at 2099-01-01T00:00:00Z\nmbox\n.\n' | inside tapestry --store /tmp/alone.db >"$scratch/alone" || true
grep -q '^ok 0 docs 0 9$' "$scratch/alone" || wrong "the file alone: $(cat "$scratch/alone")"
well "stopped in $taken ms, and the file of the store alone has all messages"
inside systemctl start tapestryd

# A shard, as GUIDE sets it up, with the log on the same machine.
heading='### Set it up'
paste_block "$heading" 1 "s/ 10\.0\.0\.5'/'/"
mkdir -p "$root/etc/systemd/system/tapestryd.service.d"
blocks_of "$heading" | awk '/^#block$/ { at++; next } at == 3' | sed 's/10\.0\.0\.5/127.0.0.1/' >"$root/etc/systemd/system/tapestryd.service.d/shard.conf"
paste_block "$heading" 2 's/10\.0\.0\.5/127.0.0.1/; s/systemctl edit tapestryd/systemctl daemon-reload/'
put s1
shown() {
  as ann tap show 1 | grep -q '^Subject: *s1'
}
until_well 'the message of the spool comes by the log' shown
as ann tap note 1 score 3 worth reading >>"$log" 2>&1 || wrong 'a note is not taken'
as ann tap notes 1 | grep -q 'worth reading' || wrong 'the note is not there'
[ "$(inside redis-cli -a SECRET xlen tapestry:rows 2>/dev/null)" = 2 ] || wrong 'the log has other rows'
inside systemctl restart tapestryd redis-server
until_well 'the shard is there again' shown
as ann tap note 1 score 4 once more >>"$log" 2>&1 || wrong 'a note is not taken after a restart'
well 'GUIDE, more than one machine: each pasted step; a message and notes come by the log'

inside apt-get -qq purge tapestry >>"$log" 2>&1
[ "$(inside systemctl is-active tapestryd || true)" = inactive ] || wrong 'a purge leaves the service running'
[ ! -e "$root/var/lib/tapestry" ] || wrong 'a purge leaves the store'
in_box 6 || wrong 'a purge takes messages of the folder'
well 'a purge ends the service, and leaves the folder'
