#!/bin/sh
# Runs five programs of java/durable, each several times on one image. Each run but the last is killed once it has printed some
# lines, and the next one has to find all that these lines told, and nothing else but what was being done then. No JDK is needed.
#
# usage: examples/durable_programs.sh [--program PROGRAM] [--rounds N]
top=$(dirname "$0")/..
program=$top/autopersist
rounds=6
while [ $# -gt 0 ]; do
    case $1 in
    --program) program=$2 ;;
    --rounds) rounds=$2 ;;
    *) echo "usage: $0 [--program PROGRAM] [--rounds N]" >&2; exit 2 ;;
    esac
    shift 2
done
work=$(mktemp -d)
trap 'rm -rf "$work"' EXIT
failed=0

# Begins a run of a program, and kills it once it has printed so many lines. `told` has those lines and what came before the end.
killed_after() {
    rm -f "$work/pipe" && mkfifo "$work/pipe"
    "$program" run --image "$work/image" --main "$1" "$top/java/durable/classes/$1" >"$work/pipe" 2>"$work/errors" &
    running=$!
    {
        lines=0
        while [ $lines -lt "$2" ] && IFS= read -r line; do
            echo "$line"
            lines=$((lines + 1))
        done
        kill -KILL $running 2>/dev/null
        cat
    } <"$work/pipe" >"$work/told"
    wait $running 2>/dev/null
}

whole_run() {
    "$program" run --image "$work/image" --main "$1" "$top/java/durable/classes/$1" >"$work/told" 2>"$work/errors"
}

fail() {
    echo "$1: $2"
    failed=1
}

# The last number of a kind of line, or what stands for none.
last_of() {
    number=$(sed -n "s/^$1 \([0-9]*\).*/\1/p" "$work/$2" | tail -n 1)
    echo "${number:-$3}"
}

# A number is this one, or the next: what was being done may be done or not.
is_near() {
    [ "$1" -eq "$2" ] || [ "$1" -eq $(($2 + 1)) ]
}

ledger() {
    count=0
    for round in $(seq 1 "$rounds"); do
        killed_after Ledger $((3 * round))
        begins=$(last_of "begins with" told -1)
        is_near "$begins" "$count" || fail Ledger "after $count transfers it begins with $begins"
        grep -q "^begins with .* sum 400.00$" "$work/told" || fail Ledger "the sum isn't 400.00"
        count=$(last_of "made transfer" told "$begins")
    done
    whole_run Ledger || fail Ledger "$(cat "$work/errors")"
    is_near "$(last_of "begins with" told -1)" "$count" || fail Ledger "after $count transfers: $(head -n 1 "$work/told")"
    tail -n 1 "$work/told"
}

jobs_queue() {
    added=0
    did=0
    for round in $(seq 1 "$rounds"); do
        killed_after Jobs $((4 * round))
        check_jobs "$added" "$did"
        added=$(last_of "added job" told "$((waiting + behind))")
        did=$(last_of "did job" told "$behind")
    done
    whole_run Jobs || fail Jobs "$(cat "$work/errors")"
    check_jobs "$added" "$did"
    tail -n 1 "$work/told"
}

check_jobs() {
    waiting=$(sed -n 's/^begins with \([0-9]*\) jobs after .*/\1/p' "$work/told")
    behind=$(sed -n 's/^begins with .* jobs after \([0-9]*\)/\1/p' "$work/told")
    is_near "${behind:--1}" "$2" || fail Jobs "after job $2 was done it begins after job $behind"
    is_near $((waiting + behind)) "$1" || fail Jobs "after job $1 was added its last one is $((waiting + behind))"
}

key_value() {
    killed_after KeyValue 6
    put=$(grep -c '^put ' "$work/told")
    whole_run KeyValue || fail KeyValue "$(cat "$work/errors")"
    is_near "$(last_of "run 1 begins with" told -1)" "$put" || fail KeyValue "after $put keys: $(head -n 1 "$work/told")"
    whole_run KeyValue || fail KeyValue "$(cat "$work/errors")"
    grep -q '^run 2 begins with 11 keys$' "$work/told" || fail KeyValue "the second run: $(head -n 1 "$work/told")"
    tail -n 1 "$work/told"
}

# Each run is killed at some moment of the system's choice. Whatever it was doing, the sum of the accounts is there.
transfers() {
    count=0
    for round in $(seq 1 "$rounds"); do
        killed_after Transfers $((5 * round))
        begins=$(last_of "begins with" told -1)
        is_near "$begins" "$count" || fail Transfers "after $count transfers it begins with $begins"
        grep -q "^begins with .* sum 40000$" "$work/told" || fail Transfers "the sum isn't 40000"
        count=$(last_of "made transfer" told "$begins")
    done
    whole_run Transfers || fail Transfers "$(cat "$work/errors")"
    is_near "$(last_of "begins with" told -1)" "$count" || fail Transfers "after $count transfers: $(head -n 1 "$work/told")"
    tail -n 1 "$work/told"
}

# The same with two threads, each of which counts its own transfers.
tellers() {
    counts="0 0"
    for round in $(seq 1 "$rounds"); do
        killed_after Tellers $((5 * round))
        check_tellers $counts
        counts="$(last_of "teller 0 made transfer" told "$first") $(last_of "teller 1 made transfer" told "$second")"
    done
    whole_run Tellers || fail Tellers "$(cat "$work/errors")"
    check_tellers $counts
    tail -n 1 "$work/told"
}

check_tellers() {
    first=$(sed -n 's/^begins with \([0-9]*\) and .*/\1/p' "$work/told")
    second=$(sed -n 's/^begins with .* and \([0-9]*\) transfers.*/\1/p' "$work/told")
    is_near "${first:--1}" "$1" || fail Tellers "after $1 transfers of teller 0 it begins with ${first:-none}"
    is_near "${second:--1}" "$2" || fail Tellers "after $2 transfers of teller 1 it begins with ${second:-none}"
    grep -q "^begins with .* sum 100000$" "$work/told" || fail Tellers "the sum isn't 100000"
}

"$program" >/dev/null 2>&1
for each in ledger jobs_queue key_value transfers tellers; do
    rm -f "$work/image" && truncate -s 2097152 "$work/image"
    $each
done
exit $failed
