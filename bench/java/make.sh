#!/bin/sh
# Compiles the programs of this folder into classes/NAME. Costs uses the collections of java/collections, whose class files stay
# there. Needs javac and python3.
set -e
cd "$(dirname "$0")"
java=../../java
rm -rf classes
for source in *.java; do
    name=${source%.java}
    javac --release 8 -g:none -Xlint:-options -sourcepath .:$java:$java/collections -implicit:none -d "classes/$name" "$source"
    case $name in
    Timer) ;;
    Costs) python3 $java/check_classes.py "classes/$name"/*.class $java/collections/classes/*/*.class ;;
    *) python3 $java/check_classes.py "classes/$name"/*.class ;;
    esac
done
