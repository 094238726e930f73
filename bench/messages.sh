#!/usr/bin/env bash
# Long messages and many short ones.
. "$(dirname "$0")/common.sh"
awk 'BEGIN { print "at 1"; print "mail"; print ""; for (i = 1; i <= 130000; i++) printf "w%06d\n", i; print "." }' >"$scratch/script"
measure "1 MiB of distinct words" "$scratch/script"
awk 'BEGIN { print "at 1"; print "mail"; for (i = 1; i <= 40000; i++) printf "X-%05d: some value here\n", i; print ""; print "text"; print "." }' >"$scratch/script"
measure "a header of 1 MiB" "$scratch/script"
awk 'BEGIN { print "at 1"; for (i = 1; i <= 100000; i++) { print "mail"; print "Subject: short " i; print ""; print "text"; print "." } }' >"$scratch/script"
measure "100,000 short mails" "$scratch/script"
