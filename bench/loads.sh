#!/usr/bin/env bash
# What a load, a start and first runs cost over a store, beside C that does the same work over SQLite's library (peer.c).
# MAILS are the numbers of mails (10000), QUERIES that of the queries that are run once each (1000), TIMES the processes of a figure (3).
name=tapestry
. "$(dirname "$0")/common.sh"
if ! command -v cc >/dev/null || [ ! -e /usr/include/sqlite3.h ]; then
  echo 'a C compiler or sqlite3.h is missing: nothing to compare with'
  exit 1
fi
cc -O2 -DSQLITE -o "$scratch/peer" "$top/bench/peer.c" -lsqlite3
SCRATCH="$scratch" python3 "$top/bench/loads.py" "$program" "$scratch/peer"
