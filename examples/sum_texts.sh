#!/bin/bash
# The sum of texts that `hhm export` or `hhm sum` wrote, of one size, on standard output: sum_texts.sh TEXT..
# HHM is the program, hhm where it isn't set.
set -eu
[ $# -gt 0 ] || { echo "usage: sum_texts.sh TEXT.." >&2; exit 2; }
size() { sed -n '2 { p; q }' "$1"; }
first=$(size "$1")
entries=0
for text in "$@"; do
    this=$(size "$text")
    [ "${this% *}" = "${first% *}" ] || { echo "$text has other numbers of rows and columns" >&2; exit 3; }
    entries=$((entries + ${this##* }))
done
{
    head -n 1 "$1"
    echo "${first% *} $entries"
    for text in "$@"; do tail -n +3 "$text"; done
} | "${HHM:-hhm}" sum
