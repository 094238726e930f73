#!/usr/bin/env bash
# Serves one POP3 session on a box over standard input and output, as a superserver starts it for each connection:
#
#   socat TCP-LISTEN:1110,bind=127.0.0.1,reuseaddr,fork EXEC:'examples/pop-session.sh STORE USER BOX SECRETFILE'
#
# SECRETFILE has the password in its first line. If another session holds the store, this one waits, WAIT seconds at most (10), and a
# client then gets one line that begins with -ERR. The lock is that of the other scripts here, the file STORE.lock.
# The status is 0 whatever the program's was: socat drops what it hasn't sent yet if a command ends with another.
# TAPESTRY_POP names another program than crates/tapestry_pop/out/tapestry_pop, which `tools/build.py program tapestry_pop` builds.
set -euo pipefail
[ $# -eq 4 ] || { sed -n '2,9s/^# \{0,1\}//p' "$0" >&2; exit 2; }
program="${TAPESTRY_POP:-$(dirname "$(dirname "$(realpath "$0")")")/crates/tapestry_pop/out/tapestry_pop}"
IFS= read -r secret <"$4"
exec 9>"$1.lock"
status=0
flock -w "${WAIT:-10}" 9 || status=5
[ "$status" -ne 0 ] || "$program" --store "$1" --user "$2" --box "$3" --pass "$secret" || status=$?
# 5 comes before the greeting alone.
[ "$status" -ne 5 ] || printf -- '-ERR [SYS/TEMP] the store is in use\r\n'
[ "$status" -le 1 ] || echo "pop-session: the program ended with status $status" >&2
