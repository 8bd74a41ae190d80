#!/bin/sh
# Compiles the collections of this folder into classes/NAME, and writes to NAME.out what a JDK prints of each: the first run on a
# blank image prints the same. Needs javac, java and python3; the collections run without them.
#
# usage: java/collections/make.sh
set -e
cd "$(dirname "$0")"
rm -rf classes
work=$(mktemp -d)
trap 'rm -rf "$work"' EXIT
javac --release 8 -g:none -Xlint:-options -d "$work" ../autopersist/*.java
for source in *.java; do
    name=${source%.java}
    mkdir -p "classes/$name"
    javac --release 8 -g:none -Xlint:-options -sourcepath .. -implicit:none -d "classes/$name" "$source"
    python3 ../check_classes.py "classes/$name"/*.class
    java -Dfile.encoding=UTF-8 -cp "$work:classes/$name" "$name" >"$name.out"
done
