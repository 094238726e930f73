#!/usr/bin/env bash
# Mails each digest that is among the replies on standard input:
#
#   ./run < SCRIPT | examples/digest-mail.sh ADDRESS              by sendmail
#   ./run < SCRIPT | examples/digest-mail.sh ADDRESS COMMAND ..   by a command that reads one message from standard input
#
# A message is the header line To: ADDRESS and the lines of the digest. It is shown, and not mailed, by
#   ./run < SCRIPT | examples/digest-mail.sh ann@example.org cat
#
# The status is 0 if each digest was handed over, 1 if one wasn't, 2 if there was none, 9 if there is no sendmail.
set -u
case "${1:-}" in
  '' | *[![:print:]]*)
    echo 'digest-mail: give the address that the digests go to' >&2
    exit 9
    ;;
esac
address="$1"
shift
if [ $# -eq 0 ]; then
  PATH="$PATH:/usr/sbin:/usr/lib"
  command -v sendmail >/dev/null || {
    echo 'digest-mail: there is no sendmail here: give a command that takes the message' >&2
    exit 9
  }
  # -t: the recipient stands in the header. -i: a line of one dot doesn't end the message.
  set -- sendmail -t -i
fi
replies="$(mktemp)"
trap 'rm -f "$replies"' EXIT
cat >"$replies"

# The places of the digests. `ok K` says that K lines follow, which may look like replies themselves.
places="$(LC_ALL=C awk 'below > 0 { below--; next }
  $1 == "ok" { below = $2; if ($3 == "digest") print NR + 1, $2, $4, $5 }' "$replies")"
if [ -z "$places" ]; then
  echo 'digest-mail: no digest is among the replies' >&2
  exit 2
fi

status=0
while read -r place lines name run; do
  if {
    printf 'To: %s\n' "$address"
    tail -n "+$place" "$replies" | head -n "$lines"
  } | "$@"; then
    echo "digest-mail: handed over digest $name $run, $lines lines" >&2
  else
    echo "digest-mail: digest $name $run was not taken" >&2
    status=1
  fi
done <<<"$places"
exit "$status"
