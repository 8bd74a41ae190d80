#!/usr/bin/env python3
"""How long class files take to link that are many, large or hostile.

usage: bench/linking.py [--proved] [CASE..]

Makes the files as Python knows the class file format, copies the crates that linking stands on to a folder of its own with a
program that reads the files of a case, checks their links and links them, and runs that on each case by `rt try`, or with
--proved by `rt run`, which proves all of it first. `rt try` builds with checks of each access, so that its times are several
times those of a proved program.
"""
import argparse
import pathlib
import shutil
import struct
import subprocess
import sys
import tempfile

NAME = "bench_linking"

USES = "class_file class_links class_set"

TOP = pathlib.Path(__file__).resolve().parent.parent

PROGRAM = """\
//! Times the linking of class files that come on standard input, each behind its length in four bytes.
#![tactic(auto)]

ghost use Rattle.std.specs.Prelude.{◌≤◌, length, All, IfOk};
ghost use Rattle.class_file.specs.Classes.{CanBeRead};

use class_file::{ClassFile, read_class};
use class_links::check_links;
use class_set::link;
use std::alloc::{AllocError, Global};
use std::io::{self, Read};
use std::time::Instant;

/// The bytes of the file that begins at a place.
fn file_at(bytes: &[u8], at: usize) -> Option<&[u8]> {
    match bytes.get(at..)? {
        [a, b, c, d, rest @ ..] => rest.get(..u32::from_be_bytes([*a, *b, *c, *d]) as usize),
        _ => None,
    }
}

/// The class files, up to the first that is none, and at most 4,096.
fn files_of(alloc: Global, bytes: &[u8]) -> Result<Vec<ClassFile>, AllocError>
    ensures few { IfOk result (λ files. length files.items ≤ 4096) }
    ensures readable { IfOk result (λ files. All CanBeRead files.items) }
{
    let mut files = Vec::new(alloc);
    let mut at: usize = 0;
    for count in 0..4096 {
        let Some(own) = file_at(bytes, at) else {
            return Ok(files);
        };
        let Ok(file) = read_class(alloc, own) else {
            return Ok(files);
        };
        at = at.saturating_add(own.len()).saturating_add(4);
        files.push(file)?;
    }
    Ok(files)
}

fn main(rt: HostRuntime) -> io::Result<()> {
    let alloc = rt.alloc();
    let mut bytes = Vec::new(alloc);
    rt.stdin().read_to_end(&mut bytes)?;
    let start = Instant::now(&rt)?;
    let files = files_of(alloc, bytes.as_slice())?;
    let read = start.elapsed(&rt)?.as_millis();
    let count = files.len();
    let start = Instant::now(&rt)?;
    let links = check_links(alloc, files.as_slice()).is_ok();
    let checked = start.elapsed(&rt)?.as_millis();
    let start = Instant::now(&rt)?;
    let linked = link(alloc, files).is_ok();
    let all = start.elapsed(&rt)?.as_millis();
    println!(rt; "{count} files, {} bytes: read in {read} ms, links checked in {checked} ms ({links}), linked in {all} ms ({linked})", bytes.len())
}
"""

# how many files are read, and that each can be read
INVARIANT = """\
use Rattle.std.proofs.Common.{◌≡◌, length}
use Rattle.std.specs.Prelude.{All}
use Rattle.class_file.specs.Classes.{CanBeRead}
use Rattle.bench_linking.proofs.files_of.Given as goal

abbrev pub invariant-loop-count : goal.invariant-loop-count
invariant-loop-count l = record { few : length l.files.items ≡ l.count; readable : All CanBeRead l.files.items }
"""


def u16(number):
    return struct.pack(">H", number)


def u32(number):
    return struct.pack(">I", number)


class Pool:
    """A constant pool, in which the entries that `add` gives stand once."""

    def __init__(self):
        self.entries = []
        self.indices = {}

    def more(self, entry):
        self.entries.append(entry)
        return len(self.entries)

    def add(self, entry):
        if entry not in self.indices:
            self.indices[entry] = self.more(entry)
        return self.indices[entry]

    def utf8(self, text):
        return self.add(b"\x01" + u16(len(text)) + text.encode())

    def class_named(self, name):
        return self.add(b"\x07" + u16(self.utf8(name)))

    def spelling(self):
        return u16(len(self.entries) + 1) + b"".join(self.entries)


def class_file(name, superclass="java/lang/Object", interfaces=(), access=0x21, members=lambda pool: ([], [])):
    pool = Pool()
    this_class, super_class = pool.class_named(name), pool.class_named(superclass)
    indices = {interface: u16(pool.class_named(interface)) for interface in dict.fromkeys(interfaces)}
    above = b"".join(indices[interface] for interface in interfaces)
    fields, methods = members(pool)
    rest = u16(access) + u16(this_class) + u16(super_class) + u16(len(interfaces)) + above
    rest += u16(len(fields)) + b"".join(fields) + u16(len(methods)) + b"".join(methods) + u16(0)
    return b"\xca\xfe\xba\xbe" + u16(0) + u16(52) + pool.spelling() + rest


def member(pool, access, name, descriptor, attributes=()):
    head = u16(access) + u16(pool.utf8(name)) + u16(pool.utf8(descriptor))
    return head + u16(len(attributes)) + b"".join(attributes)


def methods_of(pool, instructions):
    """Methods with these instructions of three bytes, which take a reference and leave one."""
    methods = []
    for n, start in enumerate(range(0, len(instructions), 20000)):
        content = b"\x01" + b"".join(instructions[start:start + 20000]) + b"\xb0"
        body = u16(1) + u16(0) + u32(len(content)) + content + u16(0) + u16(0)
        code = u16(pool.utf8("Code")) + u32(len(body)) + body
        methods.append(member(pool, 9, f"m{n}", "()Ljava/lang/Object;", [code]))
    return methods


def many_files(count):
    return [class_file(f"C{n}") for n in range(count)]


def many_members(count):
    return [class_file("Main", members=lambda pool: ([member(pool, 0, f"f{n}", "I") for n in range(count)], []))]


def chain(count):
    return [class_file("C0")] + [class_file(f"C{n}", f"C{n - 1}") for n in range(1, count)]


def circle(count):
    return [class_file(f"C{n}", f"C{(n + 1) % count}") for n in range(count)]


def doubled_interfaces(count, times):
    """Each interface names the next eight, and each of them so many times."""
    def file(n):
        return class_file(f"I{n}", interfaces=[f"I{m}" for m in range(n + 1, min(n + 9, count))] * times, access=0x601)

    return [file(n) for n in range(count)]


def casts(count, size):
    """So many casts to one array type whose name has so many bytes."""
    def members(pool):
        cast = b"\xc0" + u16(pool.class_named("[L" + "a" * size + ";"))
        return [], methods_of(pool, [cast] * count)

    return [class_file("Main", members=members)]


def cast_entries(count, size):
    """So many Class entries of one name, each with a cast to it."""
    def members(pool):
        name = pool.utf8("[L" + "a" * size + ";")
        return [], methods_of(pool, [b"\xc0" + u16(pool.more(b"\x07" + u16(name))) for _ in range(count)])

    return [class_file("Main", members=members)]


def equal_literals(count, size):
    """So many String entries of one text."""
    def members(pool):
        text = pool.utf8("x" * size)
        for _ in range(count):
            pool.more(b"\x08" + u16(text))
        return [], []

    return [class_file("Main", members=members)]


def shared_literals(files, count):
    """Files that have the same literals."""
    def members(pool):
        for n in range(count):
            pool.add(b"\x08" + u16(pool.utf8(f"text {n}")))
        return [], []

    return [class_file(f"C{n}", members=members) for n in range(files)]


CASES = {
    "files": lambda: many_files(4096),
    "members": lambda: many_members(60000),
    "chain": lambda: chain(1024),
    "long_chain": lambda: chain(2048),
    "circle": lambda: circle(4096),
    "doubled_interfaces": lambda: doubled_interfaces(128, 250),
    "more_doubled_interfaces": lambda: doubled_interfaces(256, 250),
    "casts": lambda: casts(200000, 60000),
    "cast_entries": lambda: cast_entries(20000, 20000),
    "equal_literals": lambda: equal_literals(20000, 20000),
    "shared_literals": lambda: shared_literals(1000, 200),
}


def crates_below(lines, name):
    """The crates of the repository that one uses, directly or not."""
    found = {name}
    for base in lines.get(name, "").split():
        if base in lines and base not in found:
            found |= crates_below(lines, base)
    return found


def measure(proved, names):
    lines = dict(line.split(":", 1) for line in (TOP / "crates.txt").read_text().splitlines() if ":" in line and line[0] != "#")
    lines = {name: bases.strip() for name, bases in lines.items()}
    with tempfile.TemporaryDirectory(prefix="bench_linking_") as made:
        made = pathlib.Path(made)
        kept = crates_below(lines | {NAME: USES}, NAME) - {NAME}
        for name in kept:
            shutil.copytree(TOP / "crates" / name, made / "crates" / name, ignore=shutil.ignore_patterns("out", "must-fail"))
        (made / "crates.txt").write_text("".join(f"{name}: {lines[name]}\n" for name in sorted(kept)) + f"{NAME}: {USES}\n")
        crate = made / "crates" / NAME
        (crate / "src").mkdir(parents=True)
        (crate / "src" / "main.rt").write_text(PROGRAM)
        (crate / "proofs" / "files_of").mkdir(parents=True)
        (crate / "proofs" / "files_of" / "Invariants.antt").write_text(INVARIANT)
        (made / "cases").mkdir()
        for name in names:
            (made / "cases" / name).write_bytes(b"".join(u32(len(file)) + file for file in CASES[name]()))
        if not proved:
            return subprocess.run(["rt", "try", "--seconds", "120", "--cases", made / "cases"], cwd=crate).returncode
        for name in names:
            with open(made / "cases" / name, "rb") as files:
                print(name, flush=True)
                if status := subprocess.run(["rt", "run"], cwd=crate, stdin=files).returncode:
                    return status
        return 0


def main():
    parser = argparse.ArgumentParser(description=__doc__, formatter_class=argparse.RawDescriptionHelpFormatter)
    parser.add_argument("--proved", action="store_true")
    parser.add_argument("cases", nargs="*", metavar="CASE", help=", ".join(CASES))
    arguments = parser.parse_args()
    for name in arguments.cases:
        if name not in CASES:
            parser.error(f"no case {name}")
    return measure(arguments.proved, arguments.cases or list(CASES))


if __name__ == "__main__":
    sys.exit(main())
