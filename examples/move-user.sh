#!/usr/bin/env bash
# Says how a user is moved to another store: the commands of tap(1) that define his queries there.
#
#   examples/move-user.sh STORE USER        writes them; STORE is a copy, or a store that no service holds
#   examples/move-user.sh old.db ann | sudo -u ann TAPESTRY_SOCKET=/run/tapestry/socket sh -e
#
# A query that was defined with FROM NOW begins anew at the moment of the move, any other covers all mail again. Filters aren't
# among them, since no command shows their rules. TAPESTRY names the program, else it is that of this clone, else that of PATH.
set -euo pipefail
[ $# -eq 2 ] || { sed -n '2,8s/^# \{0,1\}//p' "$0" >&2; exit 2; }
program="${TAPESTRY:-$(dirname "$0")/../crates/tapestry/out/tapestry}"
[ -x "$program" ] || program=tapestry
[ -f "$1" ] || { echo "move-user: there is no store $1" >&2; exit 1; }
printf 'as %s\nqueries\n' "$2" | "$program" --store "$1" | awk -v user="$2" '
  /^no / || /^stop / { print "move-user: the program says " $0 >"/dev/stderr"; exit 1 }
  /^query / {
    start = $4 == $6 ? "FROM NOW " : ""
    name = $2
    # A quote in the text is written as the shell wants it.
    match($0, / boxed [0-9]+ text /)
    text = substr($0, RSTART + RLENGTH)
    gsub(/\047/, "\047\\\047\047", text)
    print "tap query " name " \047" start text "\047"
  }'
