#!/bin/sh
# Runs the class Main, which prints 7, on a blank image of 32,768 lines.
set -e
top=$(dirname "$0")/..
image=$(mktemp)
trap 'rm -f "$image"' EXIT
truncate -s 2097152 "$image"
"$top/autopersist" run --image "$image" --main Main "$top/crates/autopersist_main/data/classes"
