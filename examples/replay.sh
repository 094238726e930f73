#!/usr/bin/env bash
# Replays every examples/*.script and compares what is written with its .replies. It uses the program that ./run has built;
# with --quick it builds one of which nothing is proved, and runs that. The status is 0 if all replies are the same.
set -eu
here="$(cd "$(dirname "$0")" && pwd)"
top="$(dirname "$here")"
command -v rt >/dev/null || {
  echo 'replay: rt is missing: put the folder bin of the kit that README names into PATH' >&2
  exit 127
}
scratch="$(mktemp -d)"
trap 'rm -rf "$scratch"' EXIT

if [ "${1:-}" = --quick ]; then
  for script in "$here"/*.script; do
    name="$(basename "$script" .script)"
    cp "$script" "$scratch/$name"
    cp "$here/$name.replies" "$scratch/$name.stdout"
  done
  (cd "$top/crates/tapestry_mem" && rt try --cases "$scratch")
  exit
fi

differ=0
count=0
for script in "$here"/*.script; do
  name="$(basename "$script" .script)"
  status=0
  "$top/run" <"$script" >"$scratch/replies" || status=$?
  if [ "$status" -gt 1 ]; then
    echo "replay: $name ended with status $status" >&2
    differ=$((differ + 1))
  elif ! diff -u "$here/$name.replies" "$scratch/replies"; then
    echo "replay: $name differs" >&2
    differ=$((differ + 1))
  fi
  count=$((count + 1))
done
echo "replay: $count scripts, $differ of them differ" >&2
[ "$differ" -eq 0 ]
