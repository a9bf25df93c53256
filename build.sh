#!/usr/bin/env bash
# Proves what the programs stand on, and leaves tmsim, tmnode and client_example in bin/, and other programs that are named:
# ./build.sh [NAME..], as tmbench. Half an hour or so the first time on four processors; a minute where a gate has passed the
# same sources on this machine.
set -euo pipefail
cd "$(dirname "${BASH_SOURCE[0]}")"
source gate/sources.sh

are_there() {
    for name in "$@"; do [ -x "bin/$name" ] || return 1; done
}
if is_built && are_there tmsim tmnode client_example "$@"; then
    echo "bin/ is up to date"
    exit 0
fi
exec gate/build.py "$@"
