#!/usr/bin/env bash
# How many frames a second 1, 2 and 4 threads hand in through a node's lock, beside its core alone: transactions of 64
# bytes. How long a read of the node's status takes, which doesn't wait for the lock, beside a thread that hands frames in
# and beside none. How many items a second pass through a subscriber's ring, from one thread to another. Of several turns
# the quickest counts.
set -euo pipefail
cd "$(dirname "${BASH_SOURCE[0]}")/.."
./build.sh tmbench >&2
for threads in 1 2 4; do
    bin/tmbench lock handle "$threads" 200 | awk -v n="$threads" '{
        printf "handle, %d thread(s): %.0f frames a second, %.0f by the core alone: %+.1f %% time\n",
            n, $1 * 1e9 / $7, $1 * 1e9 / $14, ($7 / $14 - 1) * 100
    }'
done
bin/tmbench lock status 100 | awk '{ printf "status: %.1f ns a read beside a thread that hands frames in, %.1f ns beside none\n", $4 / $1, $14 / $1 }'
for _ in 1 2 3; do
    bin/tmbench lock take 2000000 | awk '{ printf "take: %.2f million items a second\n", $1 * 1e3 / $4 }'
done
