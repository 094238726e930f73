#!/usr/bin/env bash
# What a store on disk goes through: a second program at the same store, programs that are killed at some moment, and very many
# commits. KILLS, COMMITS are other numbers of these.
name=tapestry
. "$(dirname "$0")/common.sh"
store="$scratch/mail.db"
kills="${KILLS:-200}"
commits="${COMMITS:-100000}"
wrong=0

# So many short mails, numbered from the next of the store on, each one transaction.
short() {
  awk -v n="$1" 'BEGIN { print "at 1"; for (i = 1; i <= n; i++) { print "mail"; print "Subject: short " i; print ""; print "text"; print "." } }'
}

# How many documents the store has: the number that the next mailbox file without a message would begin with, less one.
stored() {
  printf '%s\n' 'at 1' mbox . | "$program" --store "$1" | awk '$3 == "docs" { print $5 - 1 }'
}

# Two programs at one store: the first waits for input, the second comes.
mkfifo "$scratch/first"
"$program" --store "$store" <"$scratch/first" >"$scratch/first.replies" &
exec 3>"$scratch/first"
printf '%s\n' 'at 1' mail 'Subject: one' '' . >&3
until grep -q 'ok 0 doc 1' "$scratch/first.replies"; do sleep 0.05; done
second=0
short 1 | "$program" --store "$store" >"$scratch/second.replies" || second=$?
exec 3>&-
first=0
wait $! || first=$?
echo "two programs at one store: status $first and $second; the second wrote $(wc -c <"$scratch/second.replies") bytes; documents: $(stored "$store")"
[ "$first" -le 1 ] && [ "$second" -eq 5 ] || wrong=1

# Programs that are killed: each reply that was written stands for a stored row.
rm -f "$store" "$store-wal"
lost=0
torn=0
before=0
for ((i = 1; i <= kills; i++)); do
  short 100000 | "$program" --store "$store" >"$scratch/replies" 2>/dev/null &
  victim=$!
  sleep "0.$(printf '%03d' $((RANDOM % 200 + 10)))"
  kill -9 "$victim" 2>/dev/null || true
  wait "$victim" 2>/dev/null || true
  # Only whole lines count: what is appended here completes the last one, which is left out then.
  told=$({ cat "$scratch/replies"; echo x; } | sed '$d' | awk '$3 == "doc" { last = $4 } END { print last + 0 }')
  has=$(stored "$store")
  if [ -z "$has" ]; then
    torn=$((torn + 1))
  elif [ "$has" -lt "$told" ] || [ "$has" -lt "$before" ]; then
    lost=$((lost + 1))
  fi
  before="${has:-$before}"
done
echo "$kills kills: $before documents at the end, $lost times an acknowledged row was gone, $torn times the store didn't open"
[ "$lost" -eq 0 ] && [ "$torn" -eq 0 ] || wrong=1

# Very many commits: how large the two files get before the end, and after it.
rm -f "$store" "$store-wal"
short "$commits" >"$scratch/script"
greatest=0
"$program" --store "$store" <"$scratch/script" >"$scratch/replies" &
many=$!
while kill -0 "$many" 2>/dev/null; do
  size=$(stat -c %s "$store-wal" 2>/dev/null || echo 0)
  [ "$size" -le "$greatest" ] || greatest=$size
  sleep 0.2
done
wait "$many" || true
echo "$commits commits: the log had at most $greatest bytes; after the end the file has $(stat -c %s "$store") and the log $(stat -c %s "$store-wal" 2>/dev/null || echo 0); documents: $(stored "$store")"
exit "$wrong"
