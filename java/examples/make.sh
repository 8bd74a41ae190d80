#!/bin/sh
# Compiles the examples of this folder into classes/NAME, and writes what a JDK prints of them to NAME.out. Needs javac, java and
# python3; the examples run without them.
#
# usage: java/examples/make.sh
set -e
cd "$(dirname "$0")"
rm -rf classes
for source in *.java; do
    name=${source%.java}
    javac --release 8 -g:none -Xlint:-options -sourcepath .. -d "classes/$name" "$source"
    python3 ../check_classes.py "classes/$name"/*.class
    java -Dfile.encoding=UTF-8 -cp "classes/$name" "$name" >"$name.out"
done
