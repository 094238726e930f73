#!/usr/bin/env bash
# What runs cost beside the documents that are stored: the same runs over few and over many documents, timed as the
# difference between a script with the runs and the same script without them, in seconds of the processor.
. "$(dirname "$0")/common.sh"

# So many short mails, a second apart, under one query; then `turns` more turns of the awk statement, each for one k.
script() {
  awk -v n="$1" -v turns="$2" -v query="$3" "BEGIN {
    print \"at 1000\"; print \"as ann\"; print \"query q \" query
    for (i = 1; i <= n; i++) { print \"at \" 1000 + i; print \"mail\"; print \"Message-ID: <\" i \"@example.org>\"; print \"Subject: hi\"; print \"\"; print \".\" }
    now = 1000 + n + 86400; print \"at \" now; print \"run q\"
    for (k = 1; k <= turns; k++) { $4 }
  }" >"$scratch/script"
}

# Prints what each of the turns takes over so many documents.
turns() {
  local title="$1" n="$2" count="$3" query="$4" turn="$5" without
  script "$n" 0 "$query" "$turn"
  measure "$n documents, $title: before" "$scratch/script"
  without=$cpu
  script "$n" "$count" "$query" "$turn"
  measure "$n documents, $title: with" "$scratch/script"
  awk -v a="$without" -v b="$cpu" -v c="$count" 'BEGIN { printf "  microseconds each: %.1f\n", (b - a) * 1000000 / c }'
}

quiet='print "at " now + k; print "run q"'
for n in 1000 100000; do
  turns '100,000 quiet runs' "$n" 100000 "m.words HAS 'yo'" "$quiet"
done

# One more day of an absence: a mail comes, a day goes by, and the run delivers the mail of that day.
absence="NOW >= m.ts + 1 DAY AND NOT EXISTS (r: DOC WHERE r.inreplyto = m.msgid)"
day='print "mail"; print "Message-ID: <day" k "@example.org>"; print ""; print "."; print "at " now + k * 86401; print "run q"'
for n in 10000 100000; do
  turns '20,000 days of an absence' "$n" 20000 "$absence" "$day"
done
