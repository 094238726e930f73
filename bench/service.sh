#!/usr/bin/env bash
# The service with the program: what kills, a full disk and a falling clock leave of it, how fast it takes a spool, many clients, and
# what dovecot, mutt and lei make of its maildirs. The program is proved and built first, or is PROGRAM.
#
#   bench/service.sh [PART..]      kills, rate, update, clients, clock, disk, dovecot, mutt, lei; or all, as if none is named
#
# Each part writes rows of the tables in README.md. The status is 1 if a message was lost, doubled or changed. KILLS (200) and MESSAGES
# (2000) are those of kills, SEED (48) draws its moments; SPOOL (10000) is the number of messages of rate, TIMES (3) how often it is
# measured; CLIENTS (100) are those of clients; MAILS (2000) the number of mails of update and lei. FOLDER is where files are, a file
# system in memory if it isn't set. disk mounts a small file system and dovecot starts a server, so they want root; dovecot wants
# dovecot-imapd, mutt and lei the programs of their names (apt install dovecot-imapd mutt lei). A part that lacks something says so.
name=tapestry
. "$(dirname "$0")/common.sh"
status=0
TAPESTRY="$program" nice -n "${NICE:-0}" python3 "$top/bench/service.py" "$@" || status=$?
exit "$status"
