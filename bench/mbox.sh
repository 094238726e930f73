#!/usr/bin/env bash
# The same 16,000 messages loaded by `mail`, one after another, and by `mbox`, in one block of just under 16 MiB.
. "$(dirname "$0")/common.sh"
message='{
  for (i = 1; i <= 16000; i++) {
    if (how == "mail") print "mail"; else print "From user Mon Jun  1 10:00:00 1992"
    print "From: user" (i % 50) "@example.org"; print "Message-ID: <" i "@example.org>"; print "Subject: message number " i; print ""
    for (j = 0; j < 14; j++) print "word" ((i * 7 + j) % 997) " and some more text that fills a line of this message " j
    if (how == "mail") print "."; else print ""
  }
}'
for how in mail mbox; do
  {
    echo "at 1000"
    if [ "$how" = mbox ]; then echo mbox; fi
    awk -v how="$how" "BEGIN $message"
    if [ "$how" = mbox ]; then echo .; fi
  } >"$scratch/script"
  measure "16,000 messages by $how" "$scratch/script"
done
