#!/usr/bin/env bash
# How long tmsim takes for a message, the more messages of later rounds are kept: processor microseconds a
# message for each thousand, from runs of growing length at 64 validators, each the least of three runs, and
# how much more that is than a message takes that is only read, checked and refused: what keeping it costs.
# The senders' 64 tags for each message are most of the rest.
# usage: bench/flood.sh [STEP]
set -euo pipefail
cd "$(dirname "${BASH_SOURCE[0]}")/.."
./build.sh >&2
step=${1:-1000}
work=$(mktemp -d)
trap 'rm -rf "$work"' EXIT
least() { # least KIND COUNT: the least of three runs, in seconds, and its peak memory in KB
  python3 bench/flood.py "$1" "$2" > "$work/schedule.txt"
  for _ in 1 2 3; do
    /usr/bin/time -f '%U %M' -o "$work/time.txt" bin/tmsim "$work/schedule.txt" > "$work/report.txt"
    cat "$work/time.txt"
  done | sort -n | head -1
}
read -r nothing _ <<< "$(least refused 0)"
read -r refused least_kilobytes <<< "$(least refused 31500)"
for kind in apart together; do
  most=31500
  if [ "$kind" = together ]; then most=10500; fi
  before=$nothing
  for ((count = step; count <= most; count += step)); do
    read -r seconds kilobytes <<< "$(least "$kind" "$count")"
    awk -v k="$kind" -v n="$count" -v s="$step" -v b="$before" -v t="$seconds" -v m="$kilobytes" \
      -v r="$refused" -v z="$nothing" 'BEGIN {
      each = (t - b) * 1e6 / s
      printf "%s: %d kept, %.1f microseconds a message of the last %d, %.1f of them to keep it, peak %d KB\n",
        k, n, each, s, each - (r - z) * 1e6 / 31500, m
    }'
    before=$seconds
  done
  [ "$kind" = together ] || { kept=$kilobytes last=$((count - step)); }
done
echo "refused: 31500, $(awk -v r="$refused" -v z="$nothing" 'BEGIN { printf "%.1f", (r - z) * 1e6 / 31500 }') microseconds a message, peak $least_kilobytes KB"
echo "$last kept prevotes take $((kept - least_kilobytes)) KB"
