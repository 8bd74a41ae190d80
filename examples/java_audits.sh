#!/bin/sh
# Runs programs of java/ and audits each run by its history, its output and the images before and behind it: each program of java/programs
# and java/durable on a blank image, those of java/examples and java/collections twice, the second time on the image that the first run
# left. Each run is audited `yes`; with more output than it printed `no output`; and with one store's value changed in its history
# `no act N`, where act N is that store. A program that isn't begun has no acts to audit. Tells those that differ. No JDK is needed.
#
# usage: examples/java_audits.sh [PROGRAM]
top=$(readlink -f "$(dirname "$0")/..")
program=$(readlink -f "${1:-$top/autopersist}")
work=$(mktemp -d)
trap 'rm -rf "$work"' EXIT
cd "$work" || exit 1
runs=0
stores=0
unbegun=0
differ=0

# What an audit says of a history and an output.
audit() {
    "$program" audit --before before --after image --history "$1" --output "$2" --main "$class" "$folder" 2>/dev/null
}

wants() {
    [ "$2" = "$3" ] && return
    differ=$((differ + 1))
    echo "$class, run $run: $1 is audited '$2', not '$3'"
}

# The last store of a history that isn't of null: its act, where its value's lowest byte stands, and that byte changed. A line a word.
cat >last_store <<'END'
NR > 4 {
    if (left == 0) { act = acts++; code = $1; left = $5 + 256 * $6 + 65536 * $7 }
    left--
    if (code == 4 && left == 1) tag = $1
    if (code == 4 && left == 0 && tag != 2) { at = 8 * (NR - 1); byte = ($1 + 1) % 256; store = act }
}
END { if (at) print store, at, byte }
END

# Runs a class once more on the image, and audits the run.
audit_run() {
    rm -f history && cp image before
    "$program" run --image image --main "$class" --history history "$folder" >out 2>/dev/null
    [ "$(od -An -t u4 -j 16 -N 4 history | tr -d ' ')" != 0 ] || { unbegun=$((unbegun + 1)); return; }
    runs=$((runs + 1))
    wants "the run" "$(audit history out)" yes
    { cat out; echo more; } >other
    wants "another output" "$(audit history other)" "no output"
    set -- $(od -An -v -t u1 -w8 history | awk -f last_store)
    [ $# = 3 ] || return
    stores=$((stores + 1))
    printf "\\$(printf %o "$3")" | dd of=history bs=1 seek="$2" conv=notrunc 2>/dev/null
    wants "another store" "$(audit history out)" "no act $1"
}

# Runs a class of a folder so many times, first on a blank image.
audit_class() {
    class=$1
    folder=$2
    rm -f image && truncate -s 2097152 image
    run=0
    while [ $run -lt "$3" ]; do
        run=$((run + 1))
        audit_run
    done
}

while read -r name class; do
    audit_class "$class" "$top/crates/java_rows/data/$name" 1
done <"$top/crates/java_rows/data/programs"
for folder in "$top"/java/examples/classes/*; do
    audit_class "$(basename "$folder")" "$folder" 2
done
for class in BTree DurableList DurableMap RingBuffer; do
    audit_class "$class" "$top/java/collections/classes/$class" 2
done
for class in Counter Inbox Jobs KeyValue Ledger Transfers; do
    audit_class "$class" "$top/java/durable/classes/$class" 1
done
echo "$runs runs, $stores of them with a store: $differ audits differ. $unbegun programs weren't begun"
[ $differ = 0 ]
