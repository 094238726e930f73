#!/usr/bin/env bash
# The digest of one run over 1,000 messages, read as a mailbox by Python's module mailbox and by formail: the same number of
# messages, and the same bytes line by line. MESSAGES is another number.
. "$(dirname "$0")/common.sh"
count="${MESSAGES:-1000}"
if ! command -v python3 >/dev/null; then
  echo 'python3 is not installed: no digest was made'
  exit 0
fi
digest="$top/bench/digest.py"
python3 "$digest" make "$count" >"$scratch/script"
measure "a digest of $count messages" "$scratch/script"
python3 "$digest" mailbox <"$scratch/replies" >"$scratch/mailbox"
status=0
python3 "$digest" read "$count" "$scratch/mailbox" || status=1
if command -v formail >/dev/null; then
  mkdir "$scratch/split"
  # -b: formail itself quotes nothing. -m 1: a `From ` line begins a message, also one without a header. FILENO is the number
  # of the first message. The shell that formail starts writes one file a message.
  # shellcheck disable=SC2016
  FILENO=0 formail -b -m 1 -s sh -c 'cat >"$0/$FILENO"' "$scratch/split" <"$scratch/mailbox"
  python3 "$digest" split "$count" "$scratch/split" || status=1
else
  echo 'formail is not installed: it read no digest'
fi
exit "$status"
