#!/bin/sh
# Runs a class that stores 7 in a durable array and prints it, with each of the standard streams closed. The image has to be, byte
# for byte, the one of a run with open streams; the status 0, or 12 where what is printed goes to a closed stream. Then a run that
# is refused, so that its status is told, has to leave that image as it is.
#
# usage: examples/closed_streams.sh [PROGRAM]
top=$(dirname "$0")/..
program=${1:-$top/autopersist}
data=$top/crates/autopersist_main/data
work=$(mktemp -d)
trap 'rm -rf "$work"' EXIT
failed=0

blank() {
    rm -f "$work/image" && truncate -s 2097152 "$work/image"
}

# What is wanted, what came, and where.
same() {
    [ "$1" = "$2" ] || { echo "wanted $1, not $2: $3"; failed=1; }
}

left() {
    cmp -s "$work/image" "$work/whole" && echo whole || echo changed
}

blank
"$program" run --image "$work/image" --main Main "$data/stores" >"$work/out" || exit
cp "$work/image" "$work/whole"

for closed in '0<&-' '1>&-' '2>&-' '0<&- 1>&-' '1>&- 2>&-' '0<&- 2>&-' '0<&- 1>&- 2>&-'; do
    case $closed in *1*) status=12 ;; *) status=0 ;; esac
    blank
    eval '"$program" run --image "$work/image" --main Main "$data/stores" >"$work/out" 2>"$work/told"' "$closed"
    same $status $? "the status of a run with $closed"
    same whole "$(left)" "the image of a run with $closed"
    eval '"$program" run --image "$work/image" --main Another "$data/stores" >"$work/out" 2>"$work/told"' "$closed"
    same 15 $? "the status of a refused run with $closed"
    same whole "$(left)" "the image of a refused run with $closed"
done
# An image that is also a standard stream takes no printed byte.
cp "$work/whole" "$work/image"
"$program" run --image "$work/image" --main Main "$data/stores" 1<>"$work/image" 2>"$work/told"
same 11 $? "the status of a run whose output is its image"
same whole "$(left)" "an image that is standard output"
[ $failed = 0 ] && echo "each run left its image whole"
exit $failed
