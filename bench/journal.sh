#!/usr/bin/env bash
# How many saves a second a journal on a file takes and what of each is the sync; and of a journal of about 100 MB of
# decisions, how many MB a second its opening takes, the peak memory of that, and the memory after it. The files lie in a
# new folder within FOLDER, which should not be in memory.
# usage: bench/journal.sh [FOLDER]
set -euo pipefail
folder=$(realpath -- "${1:-$(dirname "${BASH_SOURCE[0]}")/..}")
cd "$(dirname "${BASH_SOURCE[0]}")/.."
./build.sh tmbench >&2
work=$(mktemp -d "$folder/tmbench.XXXXXX")
trap 'rm -rf "$work"' EXIT
bin/tmbench journal save "$work/saves" 2000 | awk '{ printf "%s, %d saves a second\n", $0, 1000000 / ($3 > 0 ? $3 : 1) }'
bin/tmbench journal fill "$work/decisions" 335
bytes=$(stat -c %s "$work/decisions")
for _ in 1 2 3; do
    said=$(/usr/bin/time -f '%M' -o "$work/memory.txt" bin/tmbench journal open "$work/decisions")
    awk -v b="$bytes" -v k="$(cat "$work/memory.txt")" '{
        ms = $7 > 0 ? $7 : 1
        printf "%s after it, peak %d KB, %.0f MB a second\n", $0, k, b / ms / 1000
    }' <<< "$said"
done
