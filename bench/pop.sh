#!/usr/bin/env bash
# A box of 500 messages is fetched over POP3, on the loopback address, by Python's poplib, curl, fetchmail and mpop; each that is not
# installed says so. What is fetched has to be the box's documents, but for line ends. Then come a second fetch with unique ids, a
# wrong password, a client that hangs up within a message, one that sends a line of 1 MiB, and two clients at once.
#
# socat starts examples/pop-session.sh for each connection, and that the program tapestry_pop over its input and output. PROGRAM and
# LOADER are builds of tapestry_pop and tapestry that are taken as they are. MESSAGES and PORT are other numbers of these.
name=tapestry_pop
. "$(dirname "$0")/common.sh"
loader="${LOADER:-$top/crates/tapestry/out/tapestry}"
[ -n "${LOADER:-}" ] || "$top/tools/build.py" program tapestry </dev/null
messages="${MESSAGES:-500}"
port="${PORT:-11110}"
store="$scratch/mail.db"
check="$top/bench/pop.py"
wrong=0
for tool in socat python3; do
  command -v "$tool" >/dev/null || { echo "$tool is not installed: nothing was fetched"; exit 0; }
done

# The store, and what a client should get: one file a message, its lines ended by CRLF.
python3 "$check" script "$messages" | "$loader" --store "$store" >"$scratch/replies"
grep -q "^ok $messages run 1 " "$scratch/replies" || { echo 'the store was not made'; exit 1; }
mkdir "$scratch/wanted"
python3 "$check" wanted "$messages" "$scratch/wanted"
cp "$store" "$scratch/before.db"

echo secret >"$scratch/secret"
WAIT=2 TAPESTRY_POP="$program" socat "TCP-LISTEN:$port,bind=127.0.0.1,reuseaddr,fork" "EXEC:$top/examples/pop-session.sh $store ann all $scratch/secret" 2>"$scratch/socat.log" &
server=$!
trap 'kill "$server" 2>/dev/null || true; rm -rf "$scratch"' EXIT
for _ in $(seq 100); do (exec 3<>"/dev/tcp/127.0.0.1/$port") 2>/dev/null && break; sleep 0.05; done

# Prints the line of a trial; what FOLDER has must be what is wanted, if it is named.
trial() {
  local title="$1" since="$2" good="$3" folder="${4:-}" note="${5:-}" form="${6:-}"
  local seconds
  seconds=$(awk "BEGIN { printf \"%.2f\", $(date +%s.%N) - $since }")
  if [ "$good" = yes ] && [ -n "$folder" ]; then
    note=$(python3 "$check" same "$messages" "$folder" ${form:+"$form"}) || good=no
  fi
  [ "$good" = yes ] || wrong=1
  printf '%-44s %8s s  %s  %s\n' "$title" "$seconds" "$([ "$good" = yes ] && echo right || echo WRONG)" "$note"
}
now() { date +%s.%N; }

start=$(now); good=yes
mkdir "$scratch/poplib"
python3 "$check" fetch "$port" "$scratch/poplib" || good=no
trial "Python's poplib" "$start" "$good" "$scratch/poplib"

if command -v curl >/dev/null; then
  start=$(now); good=yes
  mkdir "$scratch/curl"
  curl -s --user ann:secret "pop3://127.0.0.1:$port/[1-$messages]" -o "$scratch/curl/#1" || good=no
  trial 'curl' "$start" "$good" "$scratch/curl"
else
  echo 'curl is not installed'
fi

if command -v fetchmail >/dev/null; then
  cat >"$scratch/fetchmailrc" <<RC
set no bouncemail
set invisible
set idfile $scratch/fetchids
poll 127.0.0.1 service $port protocol pop3 uidl timeout 30
  user ann password secret no sslcertck sslproto '' keep no rewrite nodropdelivered noforcecr
  mda "$scratch/deliver"
RC
  # One file a message.
  printf '#!/bin/sh\nexec cat >"$(mktemp "%s/XXXXXX")"\n' "$scratch/fetchmail" >"$scratch/deliver"
  chmod +x "$scratch/deliver"
  chmod 600 "$scratch/fetchmailrc"
  mkdir "$scratch/fetchmail"
  start=$(now); good=yes
  # There is no TOP here, which fetchmail else uses for messages that are to be kept.
  FETCHMAIL_POP3_FORCE_RETR=1 FETCHMAILHOME="$scratch" fetchmail -s --nosyslog -f "$scratch/fetchmailrc" >"$scratch/fetchmail.log" 2>&1 || good=no
  # It drops CRs within lines.
  trial 'fetchmail' "$start" "$good" "$scratch/fetchmail" '' no-cr
  start=$(now)
  status=0
  FETCHMAIL_POP3_FORCE_RETR=1 FETCHMAILHOME="$scratch" fetchmail -s --nosyslog -f "$scratch/fetchmailrc" >>"$scratch/fetchmail.log" 2>&1 || status=$?
  # 1: there was no mail to fetch.
  count=$(find "$scratch/fetchmail" -type f | wc -l)
  trial 'fetchmail once more' "$start" "$([ "$status" = 1 ] && [ "$count" = "$messages" ] && echo yes || echo no)" '' "status $status, $count messages"
else
  echo 'fetchmail is not installed'
fi

if command -v mpop >/dev/null; then
  cat >"$scratch/mpoprc" <<RC
account default
host 127.0.0.1
port $port
user ann
password secret
auth user
tls off
keep on
received_header off
uidls_file $scratch/uidls
delivery maildir $scratch/mpop
RC
  chmod 600 "$scratch/mpoprc"
  mkdir -p "$scratch/mpop/cur" "$scratch/mpop/new" "$scratch/mpop/tmp"
  start=$(now); good=yes
  mpop -q -C "$scratch/mpoprc" 2>"$scratch/mpop.log" || good=no
  trial 'mpop' "$start" "$good" "$scratch/mpop/new"
  start=$(now); good=yes
  mpop -q -C "$scratch/mpoprc" 2>>"$scratch/mpop.log" || good=no
  count=$(find "$scratch/mpop/new" -type f | wc -l)
  trial 'mpop once more' "$start" "$([ "$good" = yes ] && [ "$count" = "$messages" ] && echo yes || echo no)" '' "$count messages"
else
  echo 'mpop is not installed'
fi

for case in password hangup long two; do
  start=$(now); good=yes
  note=$(python3 "$check" "$case" "$port") || good=no
  trial "$(python3 "$check" title "$case")" "$start" "$good" '' "$note"
done

# Nothing was lost, and nothing was changed.
start=$(now); good=yes
mkdir "$scratch/last"
python3 "$check" fetch "$port" "$scratch/last" || good=no
trial 'all once more, by poplib' "$start" "$good" "$scratch/last"
cmp -s "$store" "$scratch/before.db" && echo 'the store has the same bytes as before' || { echo 'the store has OTHER bytes than before'; wrong=1; }
exit "$wrong"
