#!/usr/bin/env python3
"""How fast a line memory attaches, and makes a store durable (store + write_back + fence), over an image in memory.

usage: bench/line_memory.py [--lines N] [--rounds N] [--proved] [--image FILE]

Copies the crates that it measures to a folder of its own, adds a program over them, and runs that by `rt try`, or with
--proved by `rt run`, which proves all of it first. With --image it makes FILE, of as many lines, and opens it as the
repository's program opens its image, and removes it at the end; without it the image is in memory.
"""
import argparse
import pathlib
import shutil
import subprocess
import sys
import tempfile

CRATES = ("ap_base", "line_image", "line_memory")

NAME = "bench_line_memory"

TOP = pathlib.Path(__file__).resolve().parent.parent

PROGRAM = """\
// Times a line memory over an image.
#![tactic(auto)]

ghost use Rattle.std.specs.Prelude.{◌≡◌, ◌<◌};

@MODULES@
use ap_base::Spot;
use line_image::{Image, ImageFailed};
use line_memory::{LineMemory, Touch};
use std::io;
use std::time::Instant;

const LINES: u64 = @LINES@;

const ROUNDS: u32 = @ROUNDS@;

fn keep<I: Image>(memory: &mut LineMemory<I>, line: u32, word: u64) -> Result<(), ImageFailed>
    requires { line < memory.old.size }
    ensures { memory.new.size ≡ memory.old.size }
{
    if memory.touch(line)? == Touch::Again {
        return Ok(());
    }
    memory.store(Spot { line, word: 3 }, word);
    memory.write_back(line)?;
    memory.fence()
}

fn keep_all<I: Image>(memory: &mut LineMemory<I>) -> Result<(), ImageFailed>
    requires { 32767 < memory.old.size }
{
    for round in 0..ROUNDS {
        keep(memory, round % 32_768, u64::from(round))?;
    }
    Ok(())
}

fn main(rt: HostRuntime) -> io::Result<()> {
    let alloc = rt.alloc();
@IMAGE@
    let start = Instant::now(&rt)?;
    let Ok(mut memory) = LineMemory::attach(alloc, image) else {
        println!(rt; "the attach failed")?;
        return Ok(());
    };
    println!(rt; "attach {LINES} lines: {} ms", start.elapsed(&rt)?.as_millis())?;

    let start = Instant::now(&rt)?;
    if keep_all(&mut memory).is_err() {
        println!(rt; "the image failed")?;
    }
    println!(rt; "{ROUNDS} times store, write_back, fence: {} ms", start.elapsed(&rt)?.as_millis())?;
    Ok(())
}
"""

IN_MEMORY = """\
    let fails = Fails {
        calls: Vec::new(alloc),
        since: u64::MAX,
        room: 2 * ROUNDS,
    };
    let start = Instant::now(&rt)?;
    let image = MemoryImage::new(alloc, LINES, fails)?;
    println!(rt; "make {LINES} lines: {} ms", start.elapsed(&rt)?.as_millis())?;
"""

IN_A_FILE = """\
    let image = FileImage::at(&rt, alloc, "@PATH@", None)?;
"""

LINE_BYTES = 64


def program(args):
    """Returns the program's text."""
    if args.image:
        modules, image = "use host_edges::FileImage;", IN_A_FILE.replace("@PATH@", str(args.image))
    else:
        modules, image = "use line_image::{Fails, MemoryImage};", IN_MEMORY
    text = PROGRAM.replace("@MODULES@", modules).replace("@IMAGE@", image)
    return text.replace("@LINES@", str(args.lines)).replace("@ROUNDS@", str(args.rounds))


def write_crate(crates, args):
    """Writes the program's crate."""
    crate = crates / NAME
    (crate / "src").mkdir(parents=True)
    (crate / "src" / "main.rt").write_text(program(args))
    return crate


def measure(args):
    with tempfile.TemporaryDirectory(prefix="bench_line_memory_") as made:
        made = pathlib.Path(made)
        copied = CRATES + (("host_edges",) if args.image else ())
        for name in copied:
            shutil.copytree(TOP / "crates" / name, made / "crates" / name, ignore=shutil.ignore_patterns("out", "must-fail"))
        (made / "crates.txt").write_text(
            "ap_base: thiserror\nline_image: ap_base thiserror\nline_memory: ap_base line_image thiserror\n"
            + ("host_edges: ap_base line_image\n" if args.image else "")
            + f"{NAME}: ap_base {'host_edges ' if args.image else ''}line_image line_memory\n")
        return subprocess.run(["rt", "run" if args.proved else "try"], cwd=write_crate(made / "crates", args)).returncode


def main():
    parser = argparse.ArgumentParser(description=__doc__, formatter_class=argparse.RawDescriptionHelpFormatter)
    parser.add_argument("--lines", type=int, default=262_144, help="32768 to 4194304")
    parser.add_argument("--rounds", type=int, default=100_000, help="at most 2000000000")
    parser.add_argument("--proved", action="store_true")
    parser.add_argument("--image", metavar="FILE", type=lambda name: pathlib.Path(name).resolve())
    args = parser.parse_args()
    if not args.image:
        return measure(args)
    try:
        with args.image.open("xb") as file:
            file.truncate(args.lines * LINE_BYTES)
    except FileExistsError:
        print(f"{args.image} is there already: name a file that can be made", file=sys.stderr)
        return 2
    try:
        return measure(args)
    finally:
        args.image.unlink()


if __name__ == "__main__":
    sys.exit(main())
