#!/usr/bin/env bash
# How the time of hostile input grows, from a size to four times that size, in processor time. LIMIT and SHAPES are described in
# bench/growth.py.
. "$(dirname "$0")/common.sh"
collide=
if command -v cc >/dev/null; then
  collide="$scratch/collide"
  cc -O2 -o "$collide" "$top/bench/collide.c"
else
  echo 'there is no C compiler: no words that collide were made'
fi
python3 "$top/bench/growth.py" "$program" ${collide:+"$collide"}
