#!/bin/sh
# Compiles the programs of this folder, writes what a JDK prints of them to NAME.out, and lays both out as the data of
# crates/java_rows. Needs javac, java and python3.
#
# Beside NAME.java may stand NAME.then, sources that are compiled behind it and over it, as for classes that have changed since
# their users were compiled; NAME.gone, the class files that are taken away then (then/FILE: one of NAME.then); and
# NAME.status, the status and the line with which the run ends where that isn't 0, written by hand. A program of status 3, 5
# or 9 is no matter of the JDK's, which knows no such limits, and under a JDK one of status 14 never ends: its NAME.out is
# written by hand too.
#
# usage: java/programs/make.sh [NAME..]
set -e
cd "$(dirname "$0")"
top=../..
data=$top/crates/java_rows/data
work=$(mktemp -d)
trap 'rm -rf "$work"' EXIT

compile() {
    javac --release 8 -g:none -nowarn -Xlint:none -Xlint:-options -cp "$work/classes" -sourcepath ".." -d "$2" "$1"
}

# The name of the main class of a program.
main_of() {
    package=$(sed -n 's/^package \(.*\);$/\1./p' "$1.java")
    echo "$package$1"
}

status_of() {
    [ -e "$1.status" ] && cut -d ' ' -f 1 "$1.status" || echo 0
}

make() {
    rm -rf "$work"/* && mkdir "$work/classes" "$work/then"
    compile "$1.java" "$work/classes"
    if [ -e "$1.then" ]; then
        cp "$1.then" "$work/Then.java"
        compile "$work/Then.java" "$work/then"
    fi
    [ ! -e "$1.gone" ] || (cd "$work/classes" && sed "s:^then/:../then/:" | xargs rm) <"$1.gone"
    cp -r "$work/then/." "$work/classes"
    status=$(status_of "$1")
    case $status in
        3 | 5 | 9 | 14) ;;
        *)
            java -Xverify:none -Dfile.encoding=UTF-8 -cp "$work/classes" "$(main_of "$1")" >"$1.out" 2>"$work/err" || [ "$status" != 0 ] || {
                cat "$work/err"
                echo "$1: the JDK ends otherwise" >&2
                exit 1
            }
            ;;
    esac
    rm -rf "${data:?}/$1" && mkdir -p "$data/$1"
    find "$work/classes" -name '*.class' -exec cp {} "$data/$1" \;
    python3 ../check_classes.py "$status" "$data/$1"/*.class
}

names=${*:-$(ls *.java | sed 's/\.java$//')}
for name in $names; do
    make "$name"
done
for source in *.java; do
    name=${source%.java}
    echo "$name $(main_of "$name")"
done >"$data/programs"
for source in *.java; do
    name=${source%.java}
    echo "== $name"
    cat "$name.out"
    [ ! -e "$name.status" ] || cat "$name.status"
done >"$data/../stdout"
