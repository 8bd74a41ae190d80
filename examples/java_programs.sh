#!/bin/sh
# Runs the programs of java/programs from their class files, each on a blank image file of 32,768 lines, and compares what they
# print and the status and line with which they end with what is stored beside their sources. Tells those that differ.
#
# usage: examples/java_programs.sh [PROGRAM]
top=$(dirname "$0")/..
program=${1:-$top/autopersist}
. "$top/examples/java_run.sh"
count=0
differ=0

"$program" >"$work/usage" 2>&1
while read -r name class; do
    count=$((count + 1))
    runs_right "$name" "$class" && continue
    differ=$((differ + 1))
    echo "$name differs: it ended with $status $(cat "$work/line")"
    diff "$sources/$name.out" "$work/out" | head -n 4
done <"$data/programs"
echo "$((count - differ)) of $count programs print what they should"
[ $differ = 0 ]
