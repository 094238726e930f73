#!/usr/bin/env bash
# The program is stopped at each call that changes a file, in four ways: what is opened again has the rows of the commands that were
# answered, or of one command more. Rows are read by Python's sqlite3.
name=tapestry
. "$(dirname "$0")/common.sh"
cc -O2 -shared -fPIC -o "$scratch/stop_at.so" "$top/bench/stop_at.c" -ldl
# Files in memory take no time to sync.
[ -d /dev/shm ] && export TMPDIR=/dev/shm
python3 "$top/bench/stops.py" "$program" "$scratch/stop_at.so"
