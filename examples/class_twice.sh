#!/bin/sh
# Runs a folder with two files of one class: status 5, which names it. The image is left as it was.
#
# usage: examples/class_twice.sh [PROGRAM]
top=$(dirname "$0")/..
program=${1:-$top/autopersist}
work=$(mktemp -d)
trap 'rm -rf "$work"' EXIT
truncate -s 2097152 "$work/image"
mkdir "$work/classes"
cp "$top/crates/autopersist_main/data/classes/Main.class" "$work/classes/A.class"
cp "$top/crates/autopersist_main/data/classes/Main.class" "$work/classes/B.class"
"$program" >"$work/usage" 2>&1
line=$("$program" run --image "$work/image" --main Main "$work/classes" 2>&1)
told="$? $line"
[ "$told" = "5 autopersist: refused DuplicateClass Main" ] || { echo "not so: $told"; exit 1; }
[ -z "$(tr -d '\0' <"$work/image")" ] || { echo "the image was written"; exit 1; }
echo "$line"
