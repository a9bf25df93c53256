#!/usr/bin/env bash
# Runs tmsim on the schedules of this folder, and compares what it prints with the reports that are in them.
#
# usage: schedules/check.sh [--rewrite] [--with PROGRAM] [NAME..]
#
# With no NAME (as first_decision) all are run. NAME.txt has its report within, each line behind `#` and four spaces, as
# `tmsim --follow` writes it; beside it stand NAME.status where the exit status isn't 0, and NAME.errors where something is told on
# standard error. `tmsim --follow` has to give the same text, up to the event that can't happen where there is one, and `tmsim` the
# lines of the report. A difference is shown as a diff; --rewrite keeps what the program prints, for a person to read before it is
# committed. PROGRAM is a built tmsim; without it the one in bin/ is taken where it is up to date, else one without any proof, which
# is built in a minute or two. The last line is 'N passed, M failed'.
set -euo pipefail
here=$(cd "$(dirname "${BASH_SOURCE[0]}")" && pwd)
rewrite= program= names=()
while [ $# -gt 0 ]; do
    case $1 in
    --rewrite) rewrite=yes ;;
    --with) program=$(realpath -- "${2:?--with wants a program}") && shift ;;
    -*) sed -n '2,12s/^# \{0,1\}//p' "${BASH_SOURCE[0]}" >&2 && exit 2 ;;
    *) names+=("$1") ;;
    esac
    shift
done
[ ${#names[@]} -gt 0 ] || mapfile -t names < <(cd "$here" && printf '%s\n' *.txt | sed 's/\.txt$//')
for name in "${names[@]}"; do
    [ -f "$here/$name.txt" ] || { echo "check.sh: no schedule $name" >&2; exit 2; }
done
got=$(mktemp -d)
trap 'rm -rf "$got"' EXIT

# Prints the lines of a schedule but those of a report in it.
lines_of() {
    grep -v '^#    ' "$1" || true
}

# Prints the lines of the report in a schedule.
report_of() {
    sed -n 's/^#    //p' "$1"
}

# Runs the program on a schedule, and keeps what it prints and its exit status under a name: run NAME KIND [OPTION]
run() {
    local status=0
    (cd "$here" && "$program" "${@:3}" "$1.txt") > "$got/$1.$2" 2> "$got/$1.$2.errors" || status=$?
    echo "$status" > "$got/$1.$2.status"
}

# Runs the schedules with the built program. Where a run ends early, the lines of the schedule behind its end follow.
run_all() {
    for name in "${names[@]}"; do
        run "$name" report
        run "$name" text --follow
        lines_of "$here/$name.txt" | tail -n "+$(($(lines_of "$got/$name.text" | wc -l) + 1))" >> "$got/$name.text"
    done
}

# Compares what a run printed (KIND) with what is wanted: the file NAME, or WANTED where there is none.
compare() {
    local printed=$1 name=$2 wanted=$3
    if [ -e "$here/$name" ]; then cp "$here/$name" "$got/wanted"; else printf '%s' "${wanted:+$wanted$'\n'}" > "$got/wanted"; fi
    diff -u --label "$name" --label "as printed" "$got/wanted" "$got/$printed"
}

# Keeps what a run printed, but for WANTED, which is meant where no file is kept.
keep() {
    local printed=$1 name=$2 wanted=$3
    if [ "$(cat "$got/$printed")" = "$wanted" ]; then rm -f "$here/$name"; else cp "$got/$printed" "$here/$name"; fi
}

cd "$here/.."
source gate/sources.sh
[ -n "$program" ] || program=$(program_of tmsim)
[ -x "$program" ] || { echo "check.sh: $program is no program; ./build.sh makes it" >&2; exit 2; }
run_all

failed=0
for name in "${names[@]}"; do
    right=yes
    if [ -n "$rewrite" ]; then
        cp "$got/$name.text" "$here/$name.txt"
        keep "$name.report.status" "$name.status" 0
        keep "$name.report.errors" "$name.errors" ""
    fi
    compare "$name.text" "$name.txt" "" || right=
    diff -u --label "the report in $name.txt" --label "as printed" <(report_of "$here/$name.txt") "$got/$name.report" || right=
    for kind in report text; do
        compare "$name.$kind.status" "$name.status" 0 || right=
        compare "$name.$kind.errors" "$name.errors" "" || right=
    done
    [ -n "$right" ] || failed=$((failed + 1))
done
echo "$((${#names[@]} - failed)) passed, $failed failed"
[ "$failed" -eq 0 ]
