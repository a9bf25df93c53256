#!/usr/bin/env bash
# How many events a second tmsim takes in a world, and how its memory grows: four correct validators for 1,000 heights, and 128, the
# most there are, for ten.
#
# usage: bench/world.sh [--with PROGRAM] [HEIGHTS [HEIGHTS128]]
#
# PROGRAM is a built tmsim; without it the one in bin/ is brought up to date and taken.
# Each `pass` brings each message to each validator, which is counted as one event for each of them. A height takes three.
set -euo pipefail
program=bin/tmsim
if [ "${1:-}" = --with ]; then
    program=$(realpath -- "${2:?--with wants a program}")
    shift 2
fi
cd "$(dirname "${BASH_SOURCE[0]}")/.."
[ "$program" != bin/tmsim ] || ./build.sh >&2
work=$(mktemp -d)
trap 'rm -rf "$work"' EXIT

# Prints a schedule of so many validators and heights.
schedule() {
    echo "powers$(printf ' 1%.0s' $(seq "$1"))"
    printf 'clients 8\nvalue E\n'
    for _ in $(seq $((3 * $2))); do echo pass; done
}

# Runs so many validators for so many heights; prints the seconds, the peak memory in KB and the messages.
run() {
    schedule "$1" "$2" > "$work/schedule.txt"
    /usr/bin/time -f '%e %M' -o "$work/time.txt" "$program" "$work/schedule.txt" > "$work/report.txt"
    grep -q "^v0 at $2 " "$work/report.txt"
    echo "$(cat "$work/time.txt") $(grep -c '^[0-9]' "$work/report.txt")"
}

# Tells of so many validators and heights, beside a tenth of the heights.
tell() {
    local validators=$1 heights=$2 fewer=$(($2 / 10))
    read -r _ before _ < <(run "$validators" "$fewer")
    read -r seconds kilobytes messages < <(run "$validators" "$heights")
    awk -v n="$validators" -v h="$heights" -v f="$fewer" -v s="$seconds" -v k="$kilobytes" -v b="$before" -v m="$messages" 'BEGIN {
      if (s == 0) s = 0.01
      frames = m * (n - 1)
      printf "%d validators, %d heights: %d messages, %d frames brought, %.2f s, %.0f frames a second, peak %d KB, %.1f KB for each height\n",
        n, h, m, frames, s, frames / s, k, (k - b) / (h - f)
    }'
}

tell 4 "${1:-1000}"
tell 128 "${2:-10}"
