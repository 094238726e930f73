#!/usr/bin/env bash
# What a mail costs beside its bytes: instructions, peak memory and a start, beside C that does the same work (peer.c).
# NAME=tapestry measures the start of a store too: then the program is tapestry, and C reads the store by SQLite's library.
# MAILS are the numbers of mails (10000 and 100000), STORES those of the stores.
name="${NAME:-tapestry_mem}"
. "$(dirname "$0")/common.sh"
peer=
if command -v cc >/dev/null; then
  peer="$scratch/peer"
  if [ "$name" = tapestry ] && [ -e /usr/include/sqlite3.h ]; then
    cc -O2 -DSQLITE -o "$peer" "$top/bench/peer.c" -lsqlite3
  else
    [ "$name" = tapestry_mem ] || echo 'sqlite3.h is not installed: no start is timed beside the program'
    cc -O2 -o "$peer" "$top/bench/peer.c"
  fi
else
  echo 'there is no C compiler: nothing is measured beside the program'
fi
command -v valgrind >/dev/null || echo 'valgrind is not installed: no instructions are counted'
SCRATCH="$scratch" python3 "$top/bench/costs.py" "$program" "$name" ${peer:+"$peer"}
