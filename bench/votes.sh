#!/usr/bin/env bash
# How many events a second tmsim takes in, and its peak memory, on 20,000 votes and 200 proposals
# at 64 validators: 200 heights that are decided one after the other.
set -euo pipefail
cd "$(dirname "${BASH_SOURCE[0]}")/.."
./build.sh >&2
heights=${1:-200}
votes=${2:-100}
work=$(mktemp -d)
trap 'rm -rf "$work"' EXIT
python3 bench/heights.py "$heights" "$votes" > "$work/schedule.txt"
/usr/bin/time -f '%e %M' -o "$work/time.txt" bin/tmsim "$work/schedule.txt" > "$work/report.txt"
read -r seconds kilobytes < "$work/time.txt"
events=$(grep -cE '^(propose|vote) ' "$work/schedule.txt")
tail -1 "$work/report.txt" | cut -c1-60
awk -v e="$events" -v s="$seconds" -v k="$kilobytes" 'BEGIN {
  if (s == 0) s = 0.01
  printf "%d events, %.2f s, %.0f events a second, peak %d KB\n", e, s, e / s, k
}'
