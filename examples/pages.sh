#!/bin/sh
# Runs the commands of README.md and docs/GUIDE.md as they stand there, in a folder with the repository's files, and compares what the
# program prints with what the page says behind the `#` (its lines, with `, ` in between). Where there is no javac, the class files of
# java/durable stand in for what it would make. The gate and the longer scripts that pages name are left out.
#
# usage: examples/pages.sh [--program PROGRAM]
top=$(cd "$(dirname "$0")/.." && pwd)
program=$top/autopersist
case $# in
0) ;;
2) [ "$1" = --program ] && program=$(readlink -f "$2") ;;
*) echo "usage: $0 [--program PROGRAM]" >&2; exit 2 ;;
esac
work=$(mktemp -d)
trap 'rm -rf "$work"' EXIT
failed=0

# The blocks of commands of a page, each behind a line with its number in the page.
blocks() {
    awk '
        /^    / { if (!inside) { inside = 1; is_code = /^    (javac|cp|truncate|mkdir|\(cd|cd|python3|sh|\.\/autopersist) / ; if (is_code) print "block " NR }
                  if (is_code) print substr($0, 5); next }
        { inside = 0 }' "$1"
}

# What javac would make of a source of java/durable.
stand_in() {
    cat >"$work/bin/javac" <<END
#!/bin/sh
for word; do source=\$word; done
mkdir -p out && cp "$top/java/durable/classes/\$(basename "\$source" .java)"/*.class out
END
    chmod +x "$work/bin/javac"
}

fail() {
    echo "$1"
    failed=1
}

# Runs one line of a block, and compares its output where the page says it.
line() {
    wanted=$(printf '%s\n' "$2" | sed -n 's/.*[^ ]  *# //p')
    case $2 in
    "sh .ci/run"* | "sh examples/"*) return ;;
    esac
    printf '%s\n' "$2" >"$work/line"
    (cd "$work/here" && PATH=$work/bin:$PATH sh "$work/line") >"$work/told" 2>"$work/errors" </dev/null || fail "$1: $2: status $?: $(cat "$work/errors")"
    [ -z "$wanted" ] || [ "$(paste -sd '|' "$work/told" | sed 's/|/, /g')" = "$wanted" ] || fail "$1: $2: printed $(cat "$work/told")"
}

mkdir "$work/bin"
command -v javac >/dev/null || stand_in
for page in README.md docs/GUIDE.md; do
    rm -rf "$work/here" && mkdir "$work/here" && ln -s "$top/java" "$top/examples" "$top/docs" "$work/here"
    ln -s "$program" "$work/here/autopersist"
    blocks "$top/$page" >"$work/blocks"
    count=0
    while IFS= read -r command; do
        case $command in
        "block "*) at=${command#block } ;;
        *) line "$page:$at" "$command"; count=$((count + 1)) ;;
        esac
    done <"$work/blocks"
    [ $failed -ne 0 ] || echo "$page: $count commands as it says"
done
exit $failed
