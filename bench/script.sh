#!/usr/bin/env bash
# A script of 100 MB: comments, empty lines and short commands.
. "$(dirname "$0")/common.sh"
awk 'BEGIN {
  for (i = 1; i <= 1000000; i++) { print "# a comment that the reader skips, with some words in it, up to a usual length of line"; print "at " i }
}' >"$scratch/script"
measure "comments and moments" "$scratch/script"
