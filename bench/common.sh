# shellcheck shell=bash
# What the measurements share: the program, and a clock. `name` is the program, tapestry_mem if it isn't set. It is proved and
# built first; PROGRAM is the path of another build, which is taken as it is.
set -eu
export PYTHONDONTWRITEBYTECODE=1
top="$(cd "$(dirname "$0")/.." && pwd)"
name="${name:-tapestry_mem}"
program="${PROGRAM:-$top/crates/$name/out/$name}"
scratch="$(mktemp -d)"
trap 'rm -rf "$scratch"' EXIT
[ -n "${PROGRAM:-}" ] || "$top/tools/build.py" program "$name" </dev/null

# Runs the program, with the words that follow, on a script and prints a line with its name, size, seconds, processor seconds and
# memory. Sets `seconds`, and `cpu`, which other work on the machine changes less.
measure() {
  local title="$1" script="$2" bytes memory times
  shift 2
  bytes=$(wc -c <"$script")
  if [ -x /usr/bin/time ]; then
    /usr/bin/time -f '%e %U %S %M' -o "$scratch/time" "$program" "$@" <"$script" >"$scratch/replies" || true
  else
    times=$({ TIMEFORMAT='%R %U %S'; time "$program" "$@" <"$script" >"$scratch/replies" 2>/dev/null || true; } 2>&1)
    echo "$times ?" >"$scratch/time"
  fi
  read -r seconds cpu memory < <(tail -n 1 "$scratch/time" | awk '{ print $1, $2 + $3, $4 }')
  printf '%-36s %12s bytes %8s s %8s s of the processor %10s KB  last reply: %s\n' \
    "$title" "$bytes" "$seconds" "$cpu" "$memory" "$(tail -n 1 "$scratch/replies")"
}
