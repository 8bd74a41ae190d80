# For scripts that run the programs of java/programs from their class files and compare what they print, and the status and line with
# which they end, with what is stored beside their sources. The script sets `top` to the repository.
sources=$top/java/programs
data=$top/crates/java_rows/data
work=$(mktemp -d)
trap 'rm -rf "$work"' EXIT
: >"$work/none"

# runs_right NAME CLASS [WORD ..]: whether a run on a blank image file of 32,768 lines, with these words too, prints and ends as it should.
# It leaves what it printed in $work/out, its line in $work/line and its status in $status.
runs_right() {
    name=$1 class=$2
    shift 2
    rm -f "$work/image" && truncate -s 2097152 "$work/image"
    "$program" run --image "$work/image" --main "$class" "$@" "$data/$name" >"$work/out" 2>"$work/line"
    status=$?
    [ $status = 0 ] && : >"$work/ended" || echo "$status $(cat "$work/line")" >"$work/ended"
    wanted=$sources/$name.status
    [ -e "$wanted" ] || wanted=$work/none
    cmp -s "$work/out" "$sources/$name.out" && cmp -s "$work/ended" "$wanted"
}
