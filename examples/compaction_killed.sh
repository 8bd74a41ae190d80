#!/bin/sh
# Writes an image anew again and again, each time killed (kill -9) at another moment: the old image keeps its graph, and the new one is
# blank or has all of it.
#
# usage: examples/compaction_killed.sh [PROGRAM [TIMES]]
top=$(dirname "$0")/..
program=$(readlink -f "${1:-$top/autopersist}")
times=${2:-40}
work=$(mktemp -d)
trap 'rm -rf "$work"' EXIT
cd "$work" || exit 1

# A list of 20,000 nodes.
cat >list.lst <<'END'
.class Node
.super java/lang/Object
.field next LNode;
.method <init> (LNode;)V 2 2
aload_0
invokespecial java/lang/Object <init> ()V
aload_0
aload_1
putfield Node next LNode;
return
.end
.class Main
.super java/lang/Object
.field head LNode; static root
.method main ([Ljava/lang/String;)V 4 3 static
aconst_null
astore_1
sipush 20000
istore_2
STEP:
new Node
dup
aload_1
invokespecial Node <init> (LNode;)V
astore_1
iinc 2 -1
iload_2
ifgt STEP
aload_1
putstatic Main head LNode;
return
.end
END
mkdir classes
for class in Node Main; do
    "$program" asm --class "$class" list.lst >"classes/$class.class" || exit 1
done
"$program" run --image old.img --main Main --size 65536 classes || exit 1
"$program" dump old.img >wanted || exit 1
blank="roots 0 nodes 0"
whole=0
none=0
failed=0
number=0

# How many microseconds it takes.
begun=$(date +%s%N)
"$program" compact old.img new.img --size 65536 >/dev/null || exit 1
took=$((($(date +%s%N) - begun) / 1000))

while [ $number -lt "$times" ]; do
    number=$((number + 1))
    rm -f new.img
    "$program" compact old.img new.img --size 65536 >told 2>&1 &
    sleep "$(printf '%d.%06d' $((took * number * 5 / times / 4 / 1000000)) $((took * number * 5 / times / 4 % 1000000)))"
    kill -9 $! 2>/dev/null
    wait $! 2>/dev/null
    "$program" dump old.img | cmp -s - wanted || { echo "try $number: the old image changed"; failed=1; }
    [ -s new.img ] || { none=$((none + 1)); continue; }
    "$program" dump new.img >left
    if cmp -s left wanted; then
        whole=$((whole + 1))
    elif [ "$(head -n 1 left)" = "$blank" ]; then
        none=$((none + 1))
    else
        echo "try $number: the new image is neither blank nor whole"
        failed=1
    fi
done
echo "of $times, $whole were whole and $none blank"
[ $failed = 0 ]
