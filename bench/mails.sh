#!/usr/bin/env bash
# Mails of 1 KB under one query, and one run at the end.
. "$(dirname "$0")/common.sh"
for count in 10000 100000; do
  awk -v n="$count" 'BEGIN {
    print "at 1000"; print "as ann"; print "query q m.words HAS \x27budget\x27"
    for (i = 1; i <= n; i++) {
      print "mail"; print "Subject: mail number " i; print "Message-ID: <" i "@example.org>"; print ""
      for (j = 0; j < 12; j++) print "word" ((i * 7 + j) % 997) " and some more text that fills a line of this message up " j
      if (i % 100 == 0) print "budget"
      print "."
    }
    print "at 1001"; print "run q"; print "box q"
  }' >"$scratch/script"
  measure "$count mails of 1 KB" "$scratch/script"
done
