#!/bin/sh
# Runs a class that stores 7 in a durable array, and then one that only prints the element, on one image file of 32,768 lines.
set -e
top=$(dirname "$0")/..
image=$(mktemp)
trap 'rm -f "$image"' EXIT
truncate -s 2097152 "$image"
"$top/autopersist" run --image "$image" --main Main "$top/crates/autopersist_main/data/stores"
"$top/autopersist" run --image "$image" --main Main "$top/crates/autopersist_main/data/prints"
