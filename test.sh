#!/usr/bin/env bash
# The merge gate: proves, tests and runs everything, and tries every wrong body: ./test.sh [--anew]. It says how long it takes.
# What this machine proved before of the same files is not proved again; with --anew it is.
set -euo pipefail
exec "$(dirname "${BASH_SOURCE[0]}")/gate/whole.py" "$@"
