#!/bin/sh
# Runs the class Main, which prints 7, of folders that have one more entry each, and on an image that is open elsewhere: what is no
# regular file, or has no name that is text, is a source fault (10), and nothing is waited for.
#
# usage: examples/odd_files.sh [PROGRAM]
top=$(dirname "$0")/..
program=${1:-$top/autopersist}
work=$(mktemp -d)
trap 'rm -rf "$work"' EXIT
truncate -s 2097152 "$work/image"
failed=0

# A new folder with the class.
folder() {
    rm -rf "$work/classes" && mkdir "$work/classes" && cp "$top/crates/autopersist_main/data/classes/Main.class" "$work/classes"
}

# The status and the line that are wanted of a run, and what of.
runs() {
    line=$(timeout 10 "$program" run --image "$work/image" --main Main "$work/classes" 2>&1)
    told="$? $line"
    [ "$told" = "$1" ] || { echo "wanted $1, not $told: $2"; failed=1; }
}

"$program" >"$work/usage" 2>&1
folder
runs "0 7" "the class alone"
mkfifo "$work/classes/x.class"
runs "10 autopersist: source fault" "a pipe"
folder
mkdir "$work/classes/x.class"
runs "10 autopersist: source fault" "a folder"
folder
ln -s /dev/zero "$work/classes/x.class"
runs "10 autopersist: source fault" "a device"
folder
ln -s nothing "$work/classes/x.class"
runs "10 autopersist: source fault" "a link to nothing"
folder
mv "$work/classes/Main.class" "$work/Main" && ln -s ../Main "$work/classes/Main.class"
runs "0 7" "a link to a class file"
folder
: >"$work/classes/$(printf '\377').txt"
runs "0 7" "a name that isn't text"
folder
: >"$work/classes/$(printf '\377').class"
runs "10 autopersist: source fault" "a class file whose name isn't text"
folder
: >"$work/classes/A.class"
: >"$work/classes/$(printf '\377').class"
runs "3 autopersist: class A.class Truncated 0" "a class file before one whose name isn't text"
folder
truncate -s 4294967296 "$work/classes/x.class"
runs "9 autopersist: full FileBytes 4294967296 1048576" "a file of 4 GB"
folder
if command -v flock >/dev/null; then
    flock "$work/image" sleep 5 &
    sleep 1
    runs "11 autopersist: image fault
autopersist: image $work/image: locked by another process" "an image that is open elsewhere"
    kill $! 2>/dev/null
    wait
fi
"$program" "$(printf '\377')" >"$work/usage" 2>&1
[ "$? $(cat "$work/usage")" = "2 autopersist: usage" ] || { echo "a word that isn't text"; failed=1; }
[ $failed = 0 ] && echo "each was told as it should be"
exit $failed
