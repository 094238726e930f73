#!/usr/bin/env bash
# Each allocation of the program fails once, over the worked examples: bench/alloc.sh [SCRIPT..]
#
# A run must end with status 7, or answer `no 18` to one command and the others as if it weren't there. NAME=tapestry has a store on
# disk, and compares what is stored; else the rows are in memory. MOST is described in bench/alloc.py.
name="${NAME:-tapestry_mem}"
. "$(dirname "$0")/common.sh"
cc -O2 -shared -fPIC -o "$scratch/fail_alloc.so" "$top/bench/fail_alloc.c"
where=MEMORY
[ "$name" = tapestry_mem ] || where=FILE
# Files in memory take no time to sync.
[ -d /dev/shm ] && export TMPDIR=/dev/shm
[ $# -gt 0 ] || set -- "$top"/examples/*.script
python3 "$top/bench/alloc.py" "$program" "$scratch/fail_alloc.so" "$where" "$@"
