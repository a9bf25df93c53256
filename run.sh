#!/usr/bin/env bash
# Runs tmsim on a schedule and prints its report: ./run.sh [SCHEDULE], the first decision if none is named.
# Where bin/ holds the proved program of these sources (./build.sh) it is used; else it runs unproved.
set -euo pipefail
top=$(cd "$(dirname "${BASH_SOURCE[0]}")" && pwd)
case ${1:-} in --help | -h) sed -n '2,3s/^# //p' "${BASH_SOURCE[0]}" && exit ;; esac
schedule=$(realpath -- "${1:-$top/schedules/first_decision.txt}")
[ $# -le 1 ] && [ -r "$schedule" ] || { echo "usage: ./run.sh [SCHEDULE]; $schedule can't be read" >&2; exit 2; }
cd "$top"
source gate/sources.sh
program=$(program_of tmsim)
exec "$program" "$schedule"
