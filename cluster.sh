#!/usr/bin/env bash
# Runs four validators on this machine and two clients, kills one validator with -9 in the middle and starts it again over its
# journal, and compares what they delivered: ./cluster.sh [PROGRAM]. If none is named it is the proved one of ./build.sh, or, where
# that isn't built of these sources, one without any proof, which is made in a minute or two.
# It takes some seconds and ends by itself. Key files, journals, lists and logs stay in a folder, whose name it prints. Its
# status is other than 0 if a list differs, or isn't whole in two minutes.
set -euo pipefail
top=$(cd "$(dirname "${BASH_SOURCE[0]}")" && pwd)
case $#${1:-} in
0 | 1[!-]*) ;;
1--help | 1-h) sed -n '2,6s/^# //p' "${BASH_SOURCE[0]}" && exit ;;
*) echo "usage: ./cluster.sh [PROGRAM]" >&2 && exit 2 ;;
esac
if [ $# -gt 0 ]; then
    program=$(realpath -- "$1")
else
    program=$(cd "$top" && source gate/sources.sh && program_of tmnode)
fi
[ -x "$program" ] || { echo "cluster.sh: $program is no program" >&2; exit 2; }
folder=$(mktemp -d "${TMPDIR:-/tmp}/tmnode_cluster.XXXXXX")
cd "$folder"
each=10                    # transactions of each client, with its close
wanted=$((2 * each))
deadline=$((SECONDS + 120))
pids=(0 0 0 0)

fail() {
    echo "cluster.sh: $1; see $folder" >&2
    exit 1
}
end_all() {
    for pid in "${pids[@]}"; do
        [ "$pid" = 0 ] || kill -9 "$pid" 2> ends.log || true
    done
}
trap end_all EXIT

# start ID LIST: a validator, whose list goes to this file
start() {
    "$program" run --id "$1" --powers 1,1,1,1 --keys "keys/v$1.keys" --journal "v$1.journal" --peers "$peers" \
        --start 200 --delta 100 --links guarded --rest 60000 > "$2" 2>> "v$1.log" &
    pids[$1]=$!
}
# send CLIENT VALIDATOR NUMBER WORD..: a transaction, again until it is accepted
send() {
    local client=$1 to=$2 number=$3
    shift 3
    # (13 3 says that it is there already: its answer was lost)
    until answer=$("$program" send --id "$client" --validators 4 --keys "keys/c$client.keys" --to "${addresses[$to]}" \
        --number "$number" "$@" 2>> "c$client.log") || [ "$answer" = "refused 13 3" ]; do
        echo "$answer" >> "c$client.log"
        [ $SECONDS -lt $deadline ] || fail "transaction $number of client $client was not accepted"
        sleep 0.1
    done
}
# send_some FROM TO: the transactions of both clients with these numbers
send_some() {
    for ((number = $1; number <= $2; number++)); do
        send 7 0 "$number" --data "$(printf '61%04x' "$number")"
        send 9 1 "$number" --data ""
    done
}
# wait_for COUNT LIST..: until each list has so many lines
wait_for() {
    local count=$1
    shift
    for list in "$@"; do
        until [ "$(wc -l < "$list")" -ge "$count" ]; do
            [ $SECONDS -lt $deadline ] || fail "$list has $(wc -l < "$list") lines of $count"
            sleep 0.1
        done
    done
}

# (of ports that the system gives to nobody who dials)
ports=$(python3 -c '
import random, socket
with open("/proc/sys/net/ipv4/ip_local_port_range") as it: dialed = int(it.read().split()[0])
found = []
for port in random.sample(range(1024, dialed), dialed - 1024):
    with socket.socket() as it:
        try: it.bind(("127.0.0.1", port))
        except OSError: continue
    found.append(port)
    if len(found) == 4: break
print(*found)')
addresses=()
for port in $ports; do addresses+=("127.0.0.1:$port"); done
peers=$(IFS=,; echo "${addresses[*]}")

"$program" keys --validators 4 --clients 10 --out keys
for id in 0 1 2 3; do start $id v$id.list; done
half=$((each / 2))
send_some 1 $half
wait_for $((2 * half)) v0.list v1.list v2.list v3.list
{
    kill -9 "${pids[3]}"
    wait "${pids[3]}" || true
} 2> ends.log
mv v3.list v3.first.list
send_some $((half + 1)) $((each - 2))
start 3 v3.list
send_some $((each - 1)) $((each - 1))
send 7 0 $each --close
send 9 1 $each --close
wait_for $wanted v0.list v1.list v2.list v3.list

for list in v1.list v2.list v3.list; do
    cmp -s v0.list $list || fail "v0.list and $list differ"
done
head -c "$(stat -c %s v3.first.list)" v0.list | cmp -s - v3.first.list || fail "v3.first.list is no beginning of v0.list"
[ "$(wc -l < v0.list)" = $wanted ] || fail "v0.list has other than $wanted lines"
echo "four lists of $wanted items are the same, also that of the validator that was killed; $folder"
