#!/usr/bin/env bash
# How long one validator of four takes for a frame, and the hashing of it: prevotes, transactions of 64 bytes, and a
# proposal of 256 of them.
set -euo pipefail
cd "$(dirname "${BASH_SOURCE[0]}")/.."
./build.sh tmbench >&2
for turns in "prevotes 2000" "transactions 100" "proposal 200"; do
    read -r kind count <<<"$turns"
    echo "$kind: $(bin/tmbench frames "$kind" "$count")"
done
