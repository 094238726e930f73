#!/usr/bin/env bash
# Writes a script that adds the messages of mailbox files and maildirs, as they stand:
#
#   examples/mail-script.sh PATH.. | ./run --store STORE
#
# A folder is a maildir: each file of its cur and new is one `mail`, in order of the names. Any other PATH is a mailbox file: it
# becomes `mbox` blocks below 16 MiB, each added whole or not at all. All arrive at the moment AT, now if it isn't set. A line that
# begins with a dot gets one more.
set -euo pipefail
[ $# -ge 1 ] || { sed -n '2,8s/^# \{0,1\}//p' "$0" >&2; exit 2; }
echo "at ${AT:-$(date +%s)}"
for path in "$@"; do
  if [ -d "$path" ]; then
    for folder in cur new; do
      [ -d "$path/$folder" ] || continue
      find "$path/$folder" -maxdepth 1 -type f ! -name '.*' -print0 | sort -z | while IFS= read -r -d '' file; do
        echo mail
        # awk ends the last line, if the file doesn't.
        LC_ALL=C awk '{ print (substr($0, 1, 1) == "." ? "." : "") $0 }' "$file"
        echo .
      done
    done
  else
    # A message is put into the block as long as the block stays below 16,000,000 bytes.
    LC_ALL=C awk '
      function put_message() {
        if (size + length(message) > 16000000) { print "."; print "mbox"; size = 0 }
        printf "%s", message; size += length(message); message = ""
      }
      BEGIN { print "mbox"; empty = 1 }
      empty && /^From / { put_message() }
      { message = message (substr($0, 1, 1) == "." ? "." : "") $0 "\n"; empty = $0 ~ /^\r*$/ }
      END { put_message(); print "." }' "$path"
  fi
done
