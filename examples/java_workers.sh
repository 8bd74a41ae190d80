#!/bin/sh
# Runs the programs of java/programs from their class files with 1, 4 and 64 host threads, each so many times on a blank image file of
# 32,768 lines, and compares what they print and the status and line with which they end with what is stored beside their
# sources. Tells those that differ, and how often.
#
# usage: examples/java_workers.sh [PROGRAM [TIMES [NAME ..]]]
top=$(dirname "$0")/..
program=${1:-$top/autopersist}
times=${2:-100}
[ $# -gt 2 ] && shift 2 && only=" $* "
. "$top/examples/java_run.sh"
count=0
differ=0

"$program" >"$work/usage" 2>&1
while read -r name class; do
    [ -n "$only" ] && case $only in *" $name "*) ;; *) continue ;; esac
    count=$((count + 1))
    wrong=
    for workers in 1 4 64; do
        others=0
        for _ in $(seq "$times"); do
            runs_right "$name" "$class" --workers $workers && continue
            others=$((others + 1)) && cp "$work/out" "$work/other" && cp "$work/line" "$work/other_line"
        done
        [ $others = 0 ] && continue
        wrong=1
        echo "$name differs $others of $times times with $workers workers; it ended with $(cat "$work/other_line")"
        diff "$sources/$name.out" "$work/other" | head -n 4
    done
    [ -z "$wrong" ] || differ=$((differ + 1))
done <"$data/programs"
echo "$((count - differ)) of $count programs print the same with 1, 4 and 64 workers, $times times each"
[ $differ = 0 ]
