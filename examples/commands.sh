#!/bin/sh
# The commands on real files: a listing is assembled by `asm`, its class files are run, `check` and `dump` tell what is in the
# image, `compact` writes it anew and `audit` checks a saved run; then words that are no command, listings and images that are refused, and that nothing is printed behind a refusal.
#
# usage: examples/commands.sh [PROGRAM]
top=$(dirname "$0")/..
program=$(readlink -f "${1:-$top/autopersist}")
work=$(mktemp -d)
trap 'rm -rf "$work"' EXIT
cd "$work" || exit 1
failed=0

# The status, and what is printed on both streams, that are wanted of a command.
gives() {
    wanted=$1
    shift
    told=$(timeout 60 "$program" "$@" 2>&1)
    told="$? $told"
    [ "$told" = "$wanted" ] || { echo "$*: wanted $wanted, not $told"; failed=1; }
}

# A ring of three nodes is made where the root is null, and walked where it isn't.
cat >ring.lst <<'END'
.class Node
.super java/lang/Object
.field v I
.field next LNode;
.method <init> (ILNode;)V 2 3
aload_0
invokespecial java/lang/Object <init> ()V
aload_0
iload_1
putfield Node v I
aload_0
aload_2
putfield Node next LNode;
return
.end
.class Main
.super java/lang/Object
.field head LNode; static root
.method main ([Ljava/lang/String;)V 5 4 static
getstatic Main head LNode;
ifnonnull WALK
new Node
dup
iconst_1
aconst_null
invokespecial Node <init> (ILNode;)V
astore_1
new Node
dup
iconst_2
aconst_null
invokespecial Node <init> (ILNode;)V
astore_2
new Node
dup
iconst_3
aconst_null
invokespecial Node <init> (ILNode;)V
astore_3
aload_1
aload_2
putfield Node next LNode;
aload_2
aload_3
putfield Node next LNode;
aload_3
aload_1
putfield Node next LNode;
aload_1
putstatic Main head LNode;
return
WALK:
getstatic Main head LNode;
astore_1
iconst_3
istore_2
STEP:
getstatic java/lang/System out Ljava/io/PrintStream;
aload_1
getfield Node v I
invokevirtual java/io/PrintStream println (I)V
aload_1
getfield Node next LNode;
astore_1
iinc 2 -1
iload_2
ifgt STEP
return
.end
END
mkdir classes
for class in Node Main; do
    "$program" asm --class "$class" ring.lst >"classes/$class.class" || { echo "asm of $class failed"; failed=1; }
done
printf '.class A\n.super java/lang/Object\n' >a.lst
"$program" asm a.lst --class=A | od -An -v -tx1 | tr -d ' \n' >a.hex
wanted=cafebabe000000340005010001410700010100106a6176612f6c616e672f4f626a6563740700030021000200040000000000000000
[ "$(cat a.hex)" = "$wanted" ] || { echo "asm of A: $(cat a.hex)"; failed=1; }
gives "16 autopersist: listing 0 NoClass" asm --class B a.lst
printf '.class A\n.super java/lang/Object\nfrob\n' >bad.lst
gives "16 autopersist: listing 3 UnknownWord" asm --class A bad.lst
gives "10 autopersist: source fault" asm --class A missing.lst

# A blank image, made by the run, and what is in it after each run.
gives "0 " run --main Main classes --image=ring.img --size 32768 --heap 4096 --acts 4096
[ "$(stat -c %s ring.img)" = 2097152 ] || { echo "ring.img: $(stat -c %s ring.img) bytes"; failed=1; }
ring="roots 1 nodes 3
root 0 Main.head #0
node #0 Node 2
v = 1
next = #1
node #1 Node 2
v = 2
next = #2
node #2 Node 2
v = 3
next = #0"
gives "0 version 1 lines 32768 free 20580 roots 1 nodes 3 undone 0" check ring.img
gives "0 $ring" dump ring.img
gives "0 1
2
3" run --image ring.img --main Main classes
gives "0 $ring" dump ring.img
gives "9 autopersist: full Acts 1 0" run --image ring.img --main Main --acts 3 classes

# The graph is written to a new image, which is made with so many lines, and the program goes on there.
gives "0 nodes 3 lines 3" compact ring.img dense.img --size 40000
[ "$(stat -c %s dense.img)" = 2560000 ] || { echo "dense.img: $(stat -c %s dense.img) bytes"; failed=1; }
gives "0 version 1 lines 40000 free 20580 roots 1 nodes 3 undone 0" check dense.img
gives "0 $ring" dump dense.img
gives "0 $ring" dump ring.img
gives "0 1
2
3" run --image dense.img --main Main classes
gives "18 autopersist: new NotBlank" compact ring.img dense.img
gives "0 $ring" dump dense.img
truncate -s 64 small.img
told=$(timeout 60 "$program" compact ring.img small.img 2>&1)
[ "$? $(printf '%s\n' "$told" | head -n 1)" = "18 autopersist: new Size" ] || { echo "compact to small.img: $told"; failed=1; }
timeout 60 "$program" compact missing.img made.img 2>/dev/null
[ $? = 11 ] && [ ! -e made.img ] || { echo "compact of missing.img"; failed=1; }
timeout 60 "$program" compact ring.img ring.img 2>/dev/null
[ $? = 11 ] || { echo "compact of ring.img to itself"; failed=1; }
gives "0 $ring" dump ring.img

# A queue of one element whose image fills up, since lines aren't given back; written anew, it goes on.
cat >queue.lst <<'END'
.class Queue
.super java/lang/Object
.field head [I static root
.method main ([Ljava/lang/String;)V 3 2 static
bipush 90
istore_1
STEP:
sipush 799
newarray int
putstatic Queue head [I
iinc 1 -1
iload_1
ifgt STEP
return
.end
END
mkdir queue
"$program" asm --class Queue queue.lst >queue/Queue.class || { echo "asm of Queue failed"; failed=1; }
gives "0 " run --main Queue queue --image=queue.img --size 32768
gives "9 autopersist: full ImageLines 100 91" run --main Queue queue --image=queue.img
gives "0 nodes 1 lines 100" compact queue.img queue2.img --size 32768
gives "0 " run --main Queue queue --image=queue2.img
gives "0 version 1 lines 32768 free 29677 roots 1 nodes 1 undone 0" check queue2.img

# An image on two files, of which either is enough, with a file of zeros in place of the other.
for half in lost.a lost.b; do
    rm -f lost.a lost.b
    gives "0 " run --main Main classes --image=lost.a --mirror lost.b --size 32768
    gives "0 $ring" dump lost.a --mirror lost.b
    [ "$(stat -c %s lost.a lost.b | tr '\n' ' ')" = "2097216 2097216 " ] || { echo "halves: $(stat -c %s lost.a lost.b)"; failed=1; }
    rm $half && truncate -s 2097216 $half
    gives "0 $ring" dump lost.a --mirror lost.b
    cmp lost.a lost.b || { echo "the halves differ"; failed=1; }
done
truncate -s 2097152 lost.b
told=$(timeout 60 "$program" dump lost.a --mirror lost.b 2>&1)
[ "$? $(printf '%s\n' "$told" | tail -n 1)" = "11 autopersist: mirror: the halves differ in size, or are too small" ] || { echo "halves of two sizes: $told"; failed=1; }

# A run is saved, to a file that is empty, or isn't there, and audited by it, by its output and by the images before and after it.
cp ring.img before.img
"$program" run --image ring.img --main Main --history ring.history classes >ring.out || { echo "no run was saved"; failed=1; }
[ "$(head -c 8 ring.history)" = APHISTOR ] || { echo "ring.history is none"; failed=1; }
for history in ring.img ring.history; do
    told=$(timeout 60 "$program" run --image ring.img --main Main --history $history classes 2>&1)
    case "$? $told" in "12 autopersist: sink fault"*"autopersist: history $history: "*) ;; *) echo "history over $history: $told"; failed=1 ;; esac
done
audit="audit --before before.img --main Main"
gives "0 yes" $audit --after ring.img --history ring.history --output ring.out classes
gives "20 no output
autopersist: refuted" $audit --after ring.img --history ring.history --output ring.lst classes
truncate -s 2097152 blank.img
gives "20 no image
autopersist: refuted" $audit --after blank.img --history ring.history --output ring.out classes
gives "20 no act 2
autopersist: refuted" audit --before blank.img --main Main --after ring.img --history ring.history --output ring.out classes
printf '\101\120\110\111\123\124\117\122' >bad.history
gives "19 autopersist: history 1" $audit --after ring.img --history bad.history --output ring.out classes
gives "10 autopersist: source fault" $audit --after ring.img --history missing --output ring.out classes
gives "15 autopersist: link MissingClass Maine" audit --before before.img --main Maine --after ring.img --history ring.history --output ring.out classes
gives "0 $ring" dump ring.img

# Refusals, behind which nothing is printed.
printf '\001' | dd of=ring.img bs=1 conv=notrunc 2>/dev/null
gives "4 autopersist: image 0 Magic" dump ring.img
gives "4 autopersist: image 0 Magic" check ring.img
for words in "run --image F classes" "run --image F --image F --main C classes" "make --image F 5001" "make --image F 0" \
    "dump F --size 40000" "run --image F --main C --workers 65 classes" "run --image F --main C --heap 1023 classes" "frob"; do
    told=$(timeout 60 "$program" $words 2>&1)
    told="$? $(printf '%s\n' "$told" | head -n 1)"
    [ "$told" = "2 autopersist: usage" ] || { echo "$words: $told"; failed=1; }
done
"$program" --help 2>&1 | grep -q 'Usage: ' || { echo "no help behind the status"; failed=1; }
[ ! -e F ] || { echo "F was made"; failed=1; }
[ $failed = 0 ] && echo "commands: ok"
exit $failed
