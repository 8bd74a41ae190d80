#!/usr/bin/env python3
"""Tells what class files use that the runtime doesn't have: versions, instructions, types, and members of built-in classes.

usage: java/check_classes.py [STATUS] FILE..

With a STATUS past 1, that of a program that is to end so, only members that the library lacks are told of. Else it warns of
objects without a toString() of their own that are printed or appended, as a throwable by `println(e)`: the run ends there, with
status 15. An object's class is guessed from the instructions before. Ends with 1 where something is missing; warnings don't count.
"""
import re
import struct
import sys

TEXT = "Ljava/lang/String;"
OBJECT = "Ljava/lang/Object;"
KINDS = ["I", "J", "C", "Z", TEXT, OBJECT]

# The members of each built-in class, by name and descriptor.
MEMBERS = {
    "java/lang/Object": ["<init>()V", f"equals({OBJECT})Z"],
    "java/lang/String": ["length()I", "charAt(I)C", f"equals({OBJECT})Z"],
    "java/lang/StringBuilder": ["<init>()V", f"<init>({TEXT})V", f"toString(){TEXT}"]
    + [f"append({kind})Ljava/lang/StringBuilder;" for kind in KINDS],
    "java/lang/System": ["outLjava/io/PrintStream;"],
    "java/io/PrintStream": ["println()V"] + [f"{name}({kind})V" for name in ("print", "println") for kind in KINDS],
    "java/lang/Thread": ["<init>()V", "<init>(Ljava/lang/Runnable;)V", "start()V", "run()V", "join()V"],
    "java/lang/Runnable": ["run()V"],
    "java/lang/Cloneable": [],
    "java/io/Serializable": [],
    "autopersist/Region": ["begin()V", "end()V"],
    "java/lang/Throwable": [f"getMessage(){TEXT}"],
}
SUPERS = {name: "java/lang/Object" for name in MEMBERS if name != "java/lang/Object"}
SUPERS.update({"java/lang/Exception": "java/lang/Throwable", "java/lang/Error": "java/lang/Throwable"})
SUPERS.update({f"java/lang/{name}Exception": "java/lang/Exception" for name in ("Runtime", "Interrupted")})
RUNTIME = (
    "Arithmetic ArrayStore ClassCast IllegalArgument IllegalMonitorState IllegalState IndexOutOfBounds NegativeArraySize NullPointer "
    "UnsupportedOperation"
)
SUPERS.update({f"java/lang/{name}Exception": "java/lang/RuntimeException" for name in RUNTIME.split()})
SUPERS["java/lang/IllegalThreadStateException"] = "java/lang/IllegalArgumentException"
for place in ("Array", "String"):
    SUPERS[f"java/lang/{place}IndexOutOfBoundsException"] = "java/lang/IndexOutOfBoundsException"
for name in SUPERS:
    if re.search("Exception|Error|Throwable", name):
        MEMBERS[name] = MEMBERS.get(name, []) + ["<init>()V", f"<init>({TEXT})V"]


def opcodes(text):
    """The numbers of a text such as `1-3 7`."""
    for part in text.split():
        first, _, last = part.partition("-")
        yield from range(int(first), int(last or first) + 1)


# The bytes of each instruction (JVMS 6.5), but for the switches and wide.
SIZES = {}
SIZES.update(dict.fromkeys(opcodes("0-15 26-53 59-131 133-152 172-177 190 191 194 195"), 1))
SIZES.update(dict.fromkeys(opcodes("16 18 21-25 54-58 169 188"), 2))
SIZES.update(dict.fromkeys(opcodes("17 19 20 132 153-168 178-184 187 189 192 193 198 199"), 3))
SIZES.update({197: 4, 185: 5, 186: 5, 200: 5, 201: 5})

# The instructions that the runtime doesn't have.
MISSING = {186: "a lambda or a method reference", 197: "an array of several dimensions made at once"}
MISSING.update(dict.fromkeys((168, 169, 201), "a subroutine"))
FLOATS = "11-15 23 24 34-41 48 49 56 57 67-74 81 82 98 99 102 103 106 107 110 111 114 115 118 119 134 135 137-144 149-152 174 175"
MISSING.update(dict.fromkeys(opcodes(FLOATS), "a float or double"))

MEMBER_OPS = range(178, 186)
CLASS_OPS = (187, 189, 192, 193)
TO_STRING = f"toString(){TEXT}"
WIDE = (OBJECT, "Ljava/lang/Runnable;", "Ljava/lang/Cloneable;", "Ljava/io/Serializable;")
PRINTS = [f"print({OBJECT})V", f"println({OBJECT})V", f"append({OBJECT})Ljava/lang/StringBuilder;"]


def class_of(kind):
    """The class that a type names, an array's being its type; None for a number, and where the type says little."""
    if kind in WIDE or not kind.startswith(("L", "[")):
        return None
    return kind if kind.startswith("[") else kind[1:-1]


class ClassFile:
    """What a class file has, as far as it is looked at here."""

    def __init__(self, path):
        self.path = path
        with open(path, "rb") as file:
            self.bytes = file.read()
        self.version = struct.unpack_from(">HH", self.bytes, 4)
        self.at = 8
        self.pool = self.read_pool()
        self.flags, this, above, count = self.take("HHHH")
        self.name = self.class_name(this)
        self.above = [self.class_name(n) for n in (*self.take("H" * count), above) if n]
        self.descriptors = []
        self.statics = set()
        self.handlers = {}
        self.fields = self.read_members()
        self.methods = self.read_members()

    def kind(self, n):
        """The type of the field that an entry names, or of what its method gives."""
        return self.text(self.pool[self.pool[n][2]][2]).rpartition(")")[2]

    def parameters(self, member):
        """The class of each parameter, by the local that it is in."""
        types = re.findall(r"\[*(?:L[^;]*;|[A-Z])", member[member.index("(") : member.index(")")])
        local = {} if member in self.statics else {0: self.name}
        at = len(local)
        for it in types:
            local[at] = class_of(it)
            at += 2 if it in "JD" else 1
        return local

    def take(self, form):
        got = struct.unpack_from(">" + form, self.bytes, self.at)
        self.at += struct.calcsize(">" + form)
        return got

    def take_bytes(self, size):
        self.at += size
        return self.bytes[self.at - size : self.at]

    def read_pool(self):
        (count,) = self.take("H")
        pool = [None] * count
        n = 1
        while n < count:
            (tag,) = self.take("B")
            if tag == 1:
                pool[n] = (tag, self.take_bytes(*self.take("H")).decode("latin-1"))
            else:
                form = {3: "i", 4: "i", 5: "q", 6: "q", 7: "H", 8: "H", 15: "BH", 16: "H"}.get(tag, "HH")
                pool[n] = (tag, *self.take(form))
            n += 2 if tag in (5, 6) else 1
        return pool

    def text(self, n):
        return self.pool[n][1]

    def class_name(self, n):
        return self.text(self.pool[n][1])

    def member(self, n):
        """The class, and the name with descriptor, that an entry names."""
        _, owner, pair = self.pool[n]
        _, name, descriptor = self.pool[pair]
        return self.class_name(owner), self.text(name) + self.text(descriptor)

    def read_members(self):
        """The names with descriptors, and the code of those that have some."""
        made = {}
        for _ in range(*self.take("H")):
            flags, name, descriptor, attributes = self.take("HHHH")
            member = self.text(name) + self.text(descriptor)
            made[member] = None
            if flags & 8:
                self.statics.add(member)
            self.descriptors.append(self.text(descriptor))
            for _ in range(attributes):
                attribute, size = self.take("HI")
                content = self.take_bytes(size)
                if self.text(attribute) == "Code":
                    end = 8 + struct.unpack_from(">I", content, 4)[0]
                    made[member] = content[8:end]
                    (count,) = struct.unpack_from(">H", content, end)
                    table = struct.iter_unpack(">4H", content[end + 2 : end + 2 + 8 * count])
                    self.handlers[member] = {at: self.class_name(n) if n else "java/lang/Throwable" for _, _, at, n in table}
        return made

    def instructions(self, code):
        """The place, opcode and first operand of each instruction; no operand, at the end, where Java has no such one."""
        at = 0
        while at < len(code):
            opcode = code[at]
            table = at + 4 - at % 4
            if opcode == 170:
                low, high = struct.unpack_from(">ii", code, table + 4)
                size = table + 12 + 4 * (high - low + 1) - at
            elif opcode == 171:
                size = table + 8 + 8 * struct.unpack_from(">i", code, table + 4)[0] - at
            elif opcode == 196:
                size = 6 if code[at + 1] == 132 else 4
            elif opcode in SIZES:
                size = SIZES[opcode]
            else:
                yield at, opcode, None
                return
            operand = code[at + 1 : at + (2 if size == 2 else 3)]
            yield at, opcode, int.from_bytes(operand, "big")
            at += size


class Check:
    """What a set of class files uses that isn't there."""

    def __init__(self, files, is_whole):
        self.files = {file.name: file for file in files}
        self.is_whole = is_whole
        self.told = []

    def has_member(self, name, member):
        """Whether the class, or one above it, has the member."""
        if name in self.files:
            file = self.files[name]
            return member in file.fields or member in file.methods or any(self.has_member(it, member) for it in file.above)
        if member in MEMBERS.get(name, []):
            return True
        return not member.startswith("<init>") and name in SUPERS and self.has_member(SUPERS[name], member)

    def has_class(self, name):
        if name.startswith("["):
            element = name.lstrip("[")
            return element in list("ZBCSIJ") or element.startswith("L") and self.has_class(element[1:-1])
        return name in self.files or name in MEMBERS

    def lacks(self, file, opcode, operand):
        """What an instruction uses that isn't there."""
        if operand is None or opcode in MISSING:
            return f"instruction {opcode}, {MISSING.get(opcode, 'which Java lacks')}" if self.is_whole else None
        if opcode in MEMBER_OPS:
            owner, member = file.member(operand)
            counts = self.is_whole or owner.startswith("java/")
            return f"{owner}.{member}" if counts and not self.has_member(owner, member) else None
        if opcode in CLASS_OPS:
            name = file.class_name(operand)
            counts = self.is_whole or name.startswith("java/")
            return name if counts and not self.has_class(name) else None
        if opcode in (18, 19, 20) and file.pool[operand][0] not in (3, 8, 5):
            return "a constant of another kind"
        return "an array of floats" if opcode == 188 and operand in (6, 7) else None

    def printed(self, file, member, code):
        """Where objects are printed or appended, and the class of each, guessed from the code above, or None."""
        local = file.parameters(member)
        top = array = None
        for at, opcode, operand in file.instructions(code):
            top = file.handlers[member].get(at, top)
            if opcode in MEMBER_OPS and file.member(operand)[1] in PRINTS:
                yield at, top
            if opcode == 58 or 75 <= opcode <= 78:
                local[operand if opcode == 58 else opcode - 75] = top
            elif opcode == 25 or 42 <= opcode <= 45:
                top = local.get(operand if opcode == 25 else opcode - 42)
            elif opcode in MEMBER_OPS:
                owner, used = file.member(operand)
                top = owner if used.startswith("<init>") else class_of(file.kind(operand))
            elif opcode in (187, 192):
                top = file.class_name(operand)
            elif opcode == 189:
                name = file.class_name(operand)
                top = "[" + (name if name.startswith("[") else f"L{name};")
            elif opcode != 89:
                top = class_of(array[1:]) if opcode == 50 and array else None
            array = top if top and top.startswith("[") else array

    def is_below(self, name, above):
        return name == above or name in self.files and any(self.is_below(it, above) for it in self.files[name].above)

    def without_text(self, name):
        """The classes without a toString() that an object may have whose class is said to be this one."""
        below = [it for it, file in self.files.items() if not file.flags & 0x600 and self.is_below(it, name)]
        return [it for it in (below if name in self.files else [name, *below]) if not self.has_member(it, TO_STRING)]

    def warnings(self, file):
        for member, code in file.methods.items():
            for at, name in self.printed(file, member, code or b""):
                lacking = self.without_text(name) if name else []
                if lacking:
                    yield f"warning: {member} at {at}: prints or appends {lacking[0]}, which has no toString(): status 15 there"

    def look_at(self, file):
        if file.version != (0, 52):
            yield f"version {file.version[1]}.{file.version[0]}"
        for descriptor in file.descriptors:
            if any(kind.lstrip("[") in ("F", "D") for kind in re.findall(r"\[*(?:L[^;]*;|[A-Z])", descriptor)):
                yield f"the type {descriptor}"
        for member, code in {**file.fields, **file.methods}.items():
            if code and file.flags & 0x200 and not member.startswith("<clinit>"):
                yield f"{member}: code in an interface"
            told = {None}
            for at, opcode, operand in file.instructions(code or b""):
                lacked = self.lacks(file, opcode, operand)
                if lacked not in told:
                    yield f"{member} at {at}: {lacked}"
                told.add(lacked)
        for name in file.above:
            if self.is_whole and not self.has_class(name):
                yield f"its superclass or superinterface {name}"

    def tell(self):
        told = [f"{file.path}: {line}" for file in self.files.values() for line in self.look_at(file)]
        warned = [f"{file.path}: {line}" for file in self.files.values() if self.is_whole for line in self.warnings(file)]
        for line in told + warned:
            print(line)
        return 1 if told else 0


def main(words):
    is_whole = not (words and words[0].isdigit()) or int(words.pop(0)) <= 1
    if not words:
        print(__doc__)
        return 2
    return Check([ClassFile(path) for path in words], is_whole).tell()


if __name__ == "__main__":
    sys.exit(main(sys.argv[1:]))
