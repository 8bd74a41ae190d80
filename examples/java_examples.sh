#!/bin/sh
# Runs the examples of java/examples, each on a blank image of 32,768 lines, and compares what they print with what a JDK printed of
# them. With a NAME it prints what that one prints. No JDK is needed.
#
# usage: examples/java_examples.sh [--program PROGRAM] [NAME]
top=$(dirname "$0")/..
program=$top/autopersist
[ "$1" != --program ] || { program=$2; shift 2; }
examples=$top/java/examples
work=$(mktemp -d)
trap 'rm -rf "$work"' EXIT
failed=0

run() {
    rm -f "$work/image" && truncate -s 2097152 "$work/image"
    "$program" run --image "$work/image" --main "$1" "$examples/classes/$1"
}

if [ -n "$1" ]; then
    run "$1"
    exit
fi
"$program" >"$work/usage" 2>&1
for folder in "$examples"/classes/*; do
    name=$(basename "$folder")
    run "$name" >"$work/out" 2>"$work/told"
    status=$?
    if [ $status = 0 ] && cmp "$work/out" "$examples/$name.out"; then
        echo "$name prints what it should"
    else
        echo "$name doesn't: status $status, $(cat "$work/told")"
        failed=1
    fi
done
exit $failed
