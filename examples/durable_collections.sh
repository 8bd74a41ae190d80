#!/bin/sh
# Runs the four collections of java/collections, each several times on one image. A run is killed by SIGKILL behind a line chosen at
# random, and the next one has to find the collection whole, and in it all that the lines told: all changes up to the last one that
# was told, and of the one behind it all or nothing. What the collection holds is compared with a model in awk, and the first run with
# what a JDK printed (NAME.out). No JDK is needed.
#
# usage: examples/durable_collections.sh [--program PROGRAM] [--rounds N]
top=$(dirname "$0")/..
program=$top/autopersist
rounds=6
while [ $# -gt 0 ]; do
    case $1 in
    --program) program=$2 ;;
    --rounds) rounds=$2 ;;
    *) echo "usage: $0 [--program PROGRAM] [--rounds N]" >&2; exit 2 ;;
    esac
    shift 2
done
folder=$top/java/collections
work=$(mktemp -d)
trap 'rm -rf "$work"' EXIT
failed=0

# What a collection holds after so many changes, a word for each item.
cat >"$work/model" <<'END'
BEGIN {
    for (n = 1; n <= changes; n++) {
        if (name == "DurableList") change_list(n)
        else if (name == "RingBuffer") change_ring(n)
        else if (name == "DurableMap") change_map(n)
        else change_tree(n)
    }
    if (name == "DurableList" || name == "RingBuffer") for (i = first + 0; i < first + size; i++) print item[i]
    else if (name == "DurableMap") for (key in value) print "key" key "=value" value[key]
    else for (key = 0; key < 1009; key++) if (key in value) print key "=" value[key]
}
function change_list(n, at, i) {
    if (n % 4 == 0) {
        at = 5 * n % size--
        for (i = at; i < size; i++) item[i] = item[i + 1]
    } else {
        at = n % 4 == 3 ? 7 * n % (size + 1) : size + 0
        for (i = size++; i > at; i--) item[i] = item[i - 1]
        item[at] = n
    }
}
function change_ring(n) {
    if (n % 40 >= 26) { first++; size-- }
    else if (size < 32) item[first + size++] = n
}
function change_map(n) {
    if (n % 4 == 0) delete value[n * (n + 3) % 97]
    else value[n * (n + 7) % 97] = n
}
function change_tree(n) {
    if (n % 4 == 0) delete value[n / 2 * 167 % 1009]
    else value[n * 167 % 1009] = n
}
END

model() {
    awk -v name="$name" -v changes="$1" -f "$work/model"
}

# The items of the first line of a run that tells them, or of the last; a map's stand in no order.
items() {
    sed -n 's/^holds *//p' "$work/told" | $1 -n 1 | tr ' ' '\n' | grep .
}

in_order() {
    if [ "$name" = DurableMap ]; then sort; else cat; fi
}

run() {
    "$program" run --image "$work/image" --main "$name" "$folder/classes/$name" 2>"$work/errors"
}

# A number from 1 to this one.
random() {
    number=$(od -An -N2 -tu2 /dev/urandom)
    echo $((number % $1 + 1))
}

# Begins a run, and kills it once it has printed so many lines. `told` has these lines and what came before the end.
killed_after() {
    rm -f "$work/pipe" && mkfifo "$work/pipe"
    "$program" run --image "$work/image" --main "$name" "$folder/classes/$name" >"$work/pipe" 2>"$work/errors" &
    running=$!
    {
        lines=0
        while [ $lines -lt "$1" ] && IFS= read -r line; do
            echo "$line"
            lines=$((lines + 1))
        done
        kill -KILL $running 2>/dev/null
        cat
    } <"$work/pipe" >"$work/told"
    wait $running 2>/dev/null
    # A line that was cut tells nothing.
    [ -z "$(tail -c 1 "$work/told")" ] || sed -i '$d' "$work/told"
}

fail() {
    echo "$name: $1"
    failed=1
}

# The number in the last line that begins so, or the other one.
number_of() {
    number=$(sed -n "s/^$1 \([0-9]*\) .*/\1/p" "$work/told" | tail -n 1)
    echo "${number:-$2}"
}

# What the collection holds at the first or last telling (head, tail) after so many changes.
check_items() {
    items "$2" | in_order >"$work/items"
    model "$1" | in_order | cmp -s - "$work/items" || fail "after $1 changes it holds $(tr '\n' ' ' <"$work/items")"
}

# The run begins with the changes that were told, or with one more, and is whole.
check_begin() {
    begins=$(number_of "begins after" -1)
    [ "$begins" -eq "$changes" ] || [ "$begins" -eq $((changes + 1)) ] || fail "after $changes changes it begins after $begins"
    grep -q '^begins after [0-9]* whole$' "$work/told" || fail "$(head -n 1 "$work/told")"
    check_items "$begins" head
}

collection() {
    name=$1
    changes=0
    for round in $(seq 1 "$rounds"); do
        killed_after $((1 + $(random 60)))
        check_begin
        changes=$(number_of change "$begins")
    done
    run >"$work/told" || fail "$(cat "$work/errors")"
    check_begin
    grep -q "^ends after $((begins + 60)) whole$" "$work/told" || fail "$(tail -n 2 "$work/told" | head -n 1)"
    check_items $((begins + 60)) tail
    echo "$name: $(sed -n 's/^ends //p' "$work/told"), $(items tail | wc -l) items"
}

first_run() {
    name=$1
    run | cmp -s - "$folder/$name.out" || fail "the first run differs from $name.out: $(cat "$work/errors")"
}

blank() {
    rm -f "$work/image" && truncate -s 2097152 "$work/image"
}

"$program" >/dev/null 2>&1
for each in DurableList DurableMap RingBuffer BTree; do
    blank && first_run $each
    blank && collection $each
done
exit $failed
