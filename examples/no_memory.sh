#!/bin/sh
# Refuses three programs each growth of their memory in turn, by limits from the least with which the program starts at all, and prints
# a table of what was refused. Where memory was refused, a run ends with 13, prints nothing on standard output, and leaves the image as
# it was but for roots that are null. Else it ends as it does with ample memory. A step of more KB than the C library's smallest growth
# is quicker, and passes some by. It takes minutes.
#
# usage: examples/no_memory.sh [PROGRAM [STEP]]
top=$(dirname "$0")/..
program=${1:-$top/autopersist}
step=${2:-128}
work=$(mktemp -d)
trap 'rm -rf "$work"' EXIT
failed=0

# The classes of a text of the scripts, a file each, in a folder of its name.
classes() {
    sed -n "/^text $2\$/,/^\$/s/^    //p" "$top/crates/script_rows/data/$1" >"$work/$2.lst"
    mkdir "$work/$2"
    for class in $(sed -n 's/^\.class //p' "$work/$2.lst"); do
        "$program" asm --class "$class" "$work/$2.lst" >"$work/$2/$class.class"
    done
}

# What an image holds, but for null roots and how many roots there are.
held() {
    cp "$1" "$work/held"
    "$program" dump "$work/held" | sed -e '/^root .* null$/d' -e 's/^roots [0-9]* //'
}

# A run of a folder's Main on a copy of an image, with so many kilobytes of memory: its status, and what it printed.
run() {
    cp "$work/before" "$work/image"
    (ulimit -v "$2" && exec "$program" run --image "$work/image" --main Main --heap 4096 --acts 4096 "$work/$1") >"$work/out" 2>"$work/err"
    status=$?
}

# Whether what came of the run is allowed.
judge() {
    if [ $status = 13 ]; then
        [ ! -s "$work/out" ] && [ "$(held "$work/image")" = "$before" ]
    else
        [ $status = 0 ] && cmp -s "$work/out" "$work/wanted" && [ "$(held "$work/image")" = "$wanted" ]
    fi
}

# A folder's Main with ever more memory, until three runs in a row were whole.
grow() {
    run "$1" unlimited
    cp "$work/out" "$work/wanted"
    before=$(held "$work/before") wanted=$(held "$work/image")
    refused=0 whole=0 first= limit=$least
    while [ $whole -lt 3 ]; do
        run "$1" "$limit"
        judge || { echo "$1 with $limit KB: status $status, $(cat "$work/err")"; failed=1; }
        if [ $status = 13 ]; then refused=$((refused + 1)) whole=0 first=; else whole=$((whole + 1)) first=${first:-$limit}; fi
        limit=$((limit + step))
    done
    printf '%-8s %8d %8d %8d\n' "$1" $refused $least "$first"
}

least=256
until (ulimit -v $least && "$program" >/dev/null 2>&1; [ $? = 2 ]) 2>/dev/null; do least=$((least + 64)); done
classes texts print_7 && classes texts ring && classes failing.script region
truncate -s 2097152 "$work/before"
printf '%-8s %8s %8s %8s\n' program refused 'from KB' 'whole KB'
grow print_7
grow ring
run region unlimited && cp "$work/image" "$work/before"
grow region
exit $failed
