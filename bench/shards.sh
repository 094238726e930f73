#!/usr/bin/env bash
# Shards of users over one log, with the program, feeders and a Redis server of its own: what kills leave, what is noticed of a log
# that is lost or cut, and how fast it is. The program is proved and built first, or is PROGRAM.
#
#   bench/shards.sh [PART..]       log, lost, kills, rate; all of them if none is named
#
# log runs the tests of the log's replies with a real server. lost takes the log away from a shard in five ways. kills lets SHARDS (4)
# shards with USERS (40) users have MAILS (10000) mails from feeders and NOTES (2000) notes, while each shard is killed KILLS (50) times
# and the server and each feeder REDIS_KILLS (10) times; PAUSE (1.0) is the longest time between two kills, SEED (54) draws their
# moments. Then one store gets everything in the log's order, and each reply to a user has to be the same, byte by byte. rate puts
# SPOOL (10000) mails into 1, 2 and 4 shards. Each part writes rows of the tables in README.md; the status is 1 if something was wrong.
#
# FOLDER is where files are, a file system in memory if it isn't set. It wants root, since its users are logins of their own, and
# redis-server and python3-redis (apt install redis-server python3-redis); PYTHON is a Python that has the latter.
name=tapestry
. "$(dirname "$0")/common.sh"
command -v redis-server >/dev/null || { echo 'shards: redis-server is missing: apt install redis-server' >&2; exit 1; }
python=
for it in "${PYTHON:-python3}" /usr/bin/python3; do
  if "$it" -c 'import redis' 2>/dev/null; then python="$it"; break; fi
done
[ -n "$python" ] || { echo 'shards: python3-redis is missing: apt install python3-redis' >&2; exit 1; }
status=0
TAPESTRY="$program" nice -n "${NICE:-0}" "$python" "$top/bench/shards.py" "$@" || status=$?
exit "$status"
