#!/bin/sh
# Runs crates/java_rows on all programs without a proof (`rt try`), and shows where what it prints isn't what it has to print.
#
# usage: java/programs/try.sh
cd "$(dirname "$0")/../../crates/java_rows" || exit
work=$(mktemp -d)
trap 'rm -rf "$work"' EXIT
for file in $(cd data && find . -type f | sed 's:^\./::'); do
    set -- "$@" --data "$file=data/$file"
done
rt try --seconds 200 "$@" >"$work/printed"
diff stdout "$work/printed" && echo "each program prints what it should"
