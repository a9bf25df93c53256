#!/usr/bin/env bash
# Searches the model of the rules with spin, and compares the answers with those of searches.txt.
#
# usage: model/check.sh [--wrong] [--traces] [--jobs N] [--keep FOLDER] [NAME..]
#
# Searches with the project's rules, or with --wrong each wrong rule, and other forms that break nothing. A NAME (as nil_quorum_unlocks)
# chooses the searches whose names have it. --traces prints the steps of what was found, --keep leaves spin's files in FOLDER. N searches
# run at a time, as many as there are processors where nothing is said. Wants spin (Debian's package of that name) and gcc. A line of the
# table is a search: rounds, answer, states, processor seconds, and the steps of what was found or the number of matrices and their sum.
# The last line is 'N passed, M failed'.
set -euo pipefail
here=$(cd "$(dirname "${BASH_SOURCE[0]}")" && pwd)
kinds='right|form' traces='' jobs=$(nproc) keep='' names=()
while [ $# -gt 0 ]; do
    case $1 in
    --wrong) kinds='wrong|other' ;;
    --traces) traces=yes ;;
    --jobs) jobs=${2:?--jobs wants a number} && shift ;;
    --keep) keep=${2:?--keep wants a folder} && shift ;;
    -*) sed -n '2,11s/^# \{0,1\}//p' "${BASH_SOURCE[0]}" >&2 && exit 2 ;;
    *) names+=("$1") ;;
    esac
    shift
done
for tool in spin gcc; do
    command -v "$tool" > /dev/null || { echo "$tool isn't there: Debian has it in the package $tool" >&2 && exit 2; }
done
if [ -n "$keep" ]; then
    mkdir -p "$keep" && work=$(realpath -- "$keep")
else
    work=$(mktemp -d)
fi
# Each search is a group of processes of its own, which ends with this script.
set -m
end_all() {
    for search in $(jobs -p); do kill -- -"$search" 2> /dev/null || true; done
    [ -n "$keep" ] || rm -rf "$work"
}
trap end_all EXIT

# how each way is compiled, and with which options it runs
declare -A compiled=([depth]='-O0 -DCOLLAPSE' [long]='-O1 -DCOLLAPSE' [breadth]='-O0 -DCOLLAPSE -DBFS' [part]='-O0 -DBITSTATE')
declare -A run_with=([depth]='-m1000000' [long]='-m1000000 -w23' [breadth]='' [part]='-m100000 -w29 -Q1')

# Prints the lines of searches.txt that were asked for, without the blanks around their fields.
asked() {
    grep -E "^($kinds) " "$here/searches.txt" | sed 's/ *| */|/g' | while IFS= read -r line; do
        [ ${#names[@]} -gt 0 ] || { echo "$line" && continue; }
        for name in "${names[@]}"; do
            case $(cut -d '|' -f 2 <<< "$line") in *"$name"*) echo "$line" && break ;; esac
        done
    done
}

# Prints what the search whose output is in the file answered.
answer_of() {
    if grep -q 'errors: [1-9]' "$1"; then
        echo found
    elif ! grep -q 'errors: 0' "$1" || grep -qE 'out of memory|reached -DMEMLIM' "$1"; then
        echo 'no end'
    elif grep -qE 'Search not completed|search depth too small|Bit statespace' "$1"; then
        echo part
    else
        echo holds
    fi
}

# Prints the last measure of a search in the present folder: the steps of what was found, or the matrices and their sum.
measure_of() {
    if [ "$1" = found ]; then
        spin "${defined[@]}" -t -k validators.pml.trail -T validators.pml > trail.txt
        sed -n 's/^ *\(v[0-3] .*\|both .*\|a later .*\|votes twice\)$/\1/p' trail.txt > trace.txt
        grep '^v[0-3] ' trace.txt | grep -vc ' proposes '
    else
        sed -n 's/^MATRICES \([0-9]*\) SUM \([0-9a-f]*\)$/\1 \2/p' pan.out
    fi
}

# Runs the search of a line of searches.txt in a folder of its own; leaves its line of the table there, and whether it is as expected.
search() {
    local folder=$1 name rounds options way answer states measure got seconds kept measured
    IFS='|' read -r _ name rounds options way answer states measure <<< "$2"
    mkdir -p "$folder" && cd "$folder" && rm -f passed line trace.txt trail.txt ./*.trail && cp "$here"/validators.pml "$here"/*.h .
    read -ra defined <<< "ROUNDS=$rounds $options" && defined=("${defined[@]/#/-D}")
    spin "${defined[@]}" -a validators.pml > spin.out 2>&1
    # shellcheck disable=SC2086
    gcc -w ${compiled[$way]} -DSAFETY -DVECTORSZ=2048 -DMEMLIM="${MEMORY:-4000}" -o pan pan.c
    # shellcheck disable=SC2086
    seconds=$( { TIMEFORMAT=%U && time ./pan ${run_with[$way]} > pan.out 2>&1; } 2>&1 | tail -1)
    got=$(answer_of pan.out) kept=$(sed -n 's/^ *\([0-9]*\) states, stored.*/\1/p' pan.out | head -1) measured=$(measure_of "$got" || true)
    printf '%-52s %s  %-6s %9s %7s  %s\n' "$name" "$rounds" "$got" "${kept:--}" "$seconds" "$measured" > line
    [ "$got" = "$answer" ] && [ "${states:-$kept}" = "$kept" ] && [ "${measure:-$measured}" = "$measured" ] && touch passed
    rm -f pan pan.[a-z]
}

mapfile -t lines < <(asked)
[ ${#lines[@]} -gt 0 ] || { echo "searches.txt has no such search" >&2 && exit 2; }
for at in "${!lines[@]}"; do
    [ "$at" -lt "$jobs" ] || wait -n || true
    (search "$work/$at" "${lines[$at]}") &
done
wait || true

printf '%-52s %s  %-6s %9s %7s  %s\n' search R answer states seconds measure
failed=0
for at in "${!lines[@]}"; do
    cat "$work/$at/line" 2> /dev/null || echo "$(cut -d '|' -f 2 <<< "${lines[$at]}") was not searched"
    [ -e "$work/$at/passed" ] || { failed=$((failed + 1)) && echo "    expected: ${lines[$at]}"; }
    [ -z "$traces" ] || [ ! -e "$work/$at/trace.txt" ] || sed 's/^/    /' "$work/$at/trace.txt"
done
echo "$((${#lines[@]} - failed)) passed, $failed failed"
[ "$failed" = 0 ]
