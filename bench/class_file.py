#!/usr/bin/env python3
"""How fast class files are read: one of a megabyte with 60,000 pool entries, and hostile ones.

usage: bench/class_file.py [--proved]

Makes the files as Python knows the class file format, copies the crates that it measures to a folder of its own with a program
that reads each file and times `read_class`, and runs that by `rt try`, or with --proved by `rt run`, which proves all of it first.
"""
import argparse
import pathlib
import shutil
import struct
import subprocess
import sys
import tempfile

CRATES = {
    "ap_base": "thiserror",
    "const_pool": "byteorder thiserror",
    "code_form": "byteorder thiserror",
    "class_items": "ap_base byteorder const_pool thiserror",
    "annotations": "byteorder class_items const_pool thiserror",
    "code_attribute": "ap_base byteorder class_items code_form const_pool thiserror",
    "class_file": "ap_base annotations byteorder class_items code_attribute code_form const_pool thiserror",
}

NAME = "bench_class_file"

TOP = pathlib.Path(__file__).resolve().parent.parent

PROGRAM = """\
// Times the reading of class files.
#![tactic(auto)]

use class_file::read_class;
use std::fs;
use std::io;
use std::time::Instant;

fn read(rt: HostRuntime, path: &str) -> io::Result<()> {
    let bytes = fs::read(&rt, path)?;
    let start = Instant::now(&rt)?;
    let answer = match read_class(rt.alloc(), &bytes) {
        Ok(_) => "is a class",
        Err(_) => "is refused",
    };
    println!(rt; "{path}, {} bytes, {answer}: {} ms", bytes.len(), start.elapsed(&rt)?.as_millis())
}

fn main(rt: HostRuntime) -> io::Result<()> {
@READS@
    Ok(())
}
"""


def utf8(text):
    return b"\x01" + struct.pack(">H", len(text)) + text


def class_file(entries, members):
    """A class A of these further pool entries, from index 5 on, and these fields, methods and attributes."""
    pool = [utf8(b"A"), b"\x07\0\x01", utf8(b"java/lang/Object"), b"\x07\0\x03"] + entries
    head = b"\xca\xfe\xba\xbe\0\0\0\x34" + struct.pack(">H", len(pool) + 1)
    return head + b"".join(pool) + b"\0\x21\0\x02\0\x04\0\0" + members


def roots(count):
    """Durable roots of so many names, each of a reference type."""
    entries = [utf8(b"RuntimeInvisibleAnnotations"), utf8(b"Lautopersist/DurableRoot;"), utf8(b"[I")]
    entries += [utf8(b"%05d" % n) for n in range(count)]
    annotated = struct.pack(">HHIHHH", 1, 5, 6, 1, 6, 0)
    fields = b"".join(struct.pack(">HHH", 9, 8 + n, 7) + annotated for n in range(count))
    return class_file(entries, struct.pack(">H", count) + fields + b"\0\0\0\0")


def nested(count):
    """An annotation whose arrays of arrays claim more values than there are."""
    entries = [utf8(b"RuntimeVisibleAnnotations"), utf8(b"La;")]
    content = struct.pack(">HHHH", 65535, 6, 65535, 1) + b"[\xff\xff" * count
    field = struct.pack(">HHHHHI", 1, 1, 1, 1, 5, len(content)) + content
    entries += [utf8(b"I")]
    return class_file(entries, b"\0\x01" + field.replace(struct.pack(">HHH", 1, 1, 1), struct.pack(">HHH", 1, 1, 7), 1) + b"\0\0\0\0")


def long_descriptor(count):
    """Methods that all call one member, whose descriptor is long."""
    entries = [utf8(b"Code"), utf8(b"(" + b"I" * 65000 + b")V"), utf8(b"m"), b"\x0c\0\x07\0\x06", b"\x0a\0\x02\0\x08"]
    code = b"\xb8\0\x09" * 20000 + b"\xb1"
    content = struct.pack(">HHI", 0, 0, len(code)) + code + b"\0\0\0\0"
    method = struct.pack(">HHHHHI", 9, 7, 6, 1, 5, len(content)) + content
    return class_file(entries, b"\0\0" + struct.pack(">H", count) + method * count + b"\0\0")


FILES = {
    "pool_of_60000.class": class_file([utf8(b"%014d" % n) for n in range(59_995)], b"\0" * 6),
    "many_roots.class": roots(35_000),
    "nested_annotations.class": nested(300_000),
    "long_descriptor.class": long_descriptor(15),
    "count_of_65535.class": b"\xca\xfe\xba\xbe\0\0\0\x34\xff\xff" + utf8(b"x") * 200_000,
}


def measure(proved):
    with tempfile.TemporaryDirectory(prefix="bench_class_file_") as made:
        made = pathlib.Path(made)
        for name in CRATES:
            shutil.copytree(TOP / "crates" / name, made / "crates" / name, ignore=shutil.ignore_patterns("out", "must-fail"))
        lines = [f"{name}: {bases}\n" for name, bases in CRATES.items()]
        (made / "crates.txt").write_text("".join(lines) + f"{NAME}: class_file\n")
        crate = made / "crates" / NAME
        (crate / "src").mkdir(parents=True)
        reads = [f'    read(rt, "{made / name}")?;' for name in FILES]
        (crate / "src" / "main.rt").write_text(PROGRAM.replace("@READS@", "\n".join(reads)))
        for name, content in FILES.items():
            (made / name).write_bytes(content)
        return subprocess.run(["rt", "run" if proved else "try"], cwd=crate).returncode


def main():
    parser = argparse.ArgumentParser(description=__doc__, formatter_class=argparse.RawDescriptionHelpFormatter)
    parser.add_argument("--proved", action="store_true")
    return measure(parser.parse_args().proved)


if __name__ == "__main__":
    sys.exit(main())
