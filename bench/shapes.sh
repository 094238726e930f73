#!/usr/bin/env bash
# What queries of each shape cost: the first run over the documents that are stored, then 200 rounds of one event and one run, and
# some as a question. The time is that of the processor, so other work on the machine changes it little. What bench/peer.c does too
# is timed beside it, if there is a C compiler; most rows have the same in SQLite beside them. SIZES, CROSS, ROUNDS, TIMES, LIMIT and
# SHAPES are described in bench/shapes.py.
. "$(dirname "$0")/common.sh"
peer=
if command -v cc >/dev/null; then
  peer="$scratch/peer"
  cc -O2 -o "$peer" "$top/bench/peer.c"
else
  echo 'there is no C compiler: nothing is timed beside the program'
fi
python3 "$top/bench/shapes.py" "$program" ${peer:+"$peer"}
