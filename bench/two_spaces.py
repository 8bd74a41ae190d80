#!/usr/bin/env python3
"""Reads and stores per second of ordinary, copied and durable objects over the heap of two spaces, and the memory taken.

usage: bench/two_spaces.py [--words N] [--lines N] [--rounds N]

Each read is the step of a request for a field of an int, and each store that of one to it, as a run makes them: over a heap of
so many volatile words and an image in memory of so many lines. A hundred objects of two lines take turns. The program is
proved: it stands on the modules of the crate `space_rows` that make such a world and step in it, copied to a folder of its own
with the crates below them, and with what was proved of these, if anything was.
"""
import argparse
import os
import pathlib
import shutil
import subprocess
import sys
import tempfile

NAME = "bench_two_spaces"

ROWS = "space_rows"

MODULES = ("asks", "begin", "classes", "moves", "steps", "world")

TOP = pathlib.Path(__file__).resolve().parent.parent

PROGRAM = """\
//! Times steps over a heap of two spaces.
#![tactic(auto)]

ghost use Rattle.std.specs.Prelude.{◌≡◌};
ghost use Rattle.class_set.specs.Facts.{facts_of};
ghost use Rattle.plain_model.specs.Duties.{IsInstanceField};
ghost use Rattle.@NAME@.specs.Worlds.{Holds};

mod asks;
mod begin;
mod classes;
mod moves;
mod steps;
mod world;

use crate::begin::begin;
use crate::classes::{Classes, first_class, instance_field, linked};
use crate::world::World;
use ap_base::{Kind, ThreadNo};
use run_types::FieldAt;
use std::alloc::{AllocError, Global};
use std::fs::File;
use std::io::{self, Read};
use std::test::Fail;
use std::time::Instant;
use step_forms::Stepped;

const ROUNDS: u32 = @ROUNDS@;

const OBJECTS: u32 = 100;

// 1 where a step did what it was asked.
fn done(answer: Result<Option<Stepped>, AllocError>) -> u32 {
    match answer {
        Ok(Some(Stepped::Did { .. })) => 1,
        _ => 0,
    }
}

fn make(world: &mut World, classes: &Classes)
    @HOLDS@
{
    for _object in 0..OBJECTS {
        if let Some(class) = first_class(&classes.set) {
            let _done = done(world.new_object(classes, class));
        }
    }
}

fn reads(world: &mut World, classes: &Classes, field: FieldAt) -> u32
    @HOLDS@
    requires field { IsInstanceField (facts_of classes.now.set) field }
{
    let mut count: u32 = 0;
    for round in 0..ROUNDS {
        let one = done(world.get(classes, (round % OBJECTS + 1) as u8, field));
        count = count.saturating_add(one);
    }
    count
}

fn stores(world: &mut World, classes: &Classes, field: FieldAt) -> u32
    @HOLDS@
    requires field { IsInstanceField (facts_of classes.now.set) field }
    requires kind { field.kind ≡ Kind.I }
{
    let mut count: u32 = 0;
    for round in 0..ROUNDS {
        let value = (round % 1024) as i32;
        let one = done(world.put_int(classes, (round % OBJECTS + 1) as u8, field, value));
        count = count.saturating_add(one);
    }
    count
}

// Claims all objects and copies their lines.
fn copy_all(world: &mut World, classes: &Classes) -> u32
    @HOLDS@
{
    let _set = &classes.set;
    let mut count: u32 = 0;
    for place in 1..=OBJECTS {
        let _claimed = world.claim(place as u8, ThreadNo::main());
        let _placed = world.place(place as u8);
        let _first = world.copy(place as u8);
        let last = world.copy(place as u8);
        count = count.saturating_add(u32::from(last.is_some()));
    }
    count
}

// Forwards and seals all objects.
fn seal_all(world: &mut World, classes: &Classes) -> u32
    @HOLDS@
{
    let _set = &classes.set;
    let mut count: u32 = 0;
    for place in 1..=OBJECTS {
        let _forwarded = world.forward(place as u8);
        let sealed = world.seal(place as u8);
        count = count.saturating_add(u32::from(sealed));
    }
    count
}

fn print_rate(rt: &HostRuntime, what: &str, count: u32, start: &Instant) -> io::Result<()> {
    let millis = start.elapsed(rt)?.as_millis().max(1);
    println!(rt; "{what}: {count} in {millis} ms, {} thousand a second", u128::from(count) / millis)
}

// Reads of and stores to objects of one stage.
fn measure(rt: &HostRuntime, world: &mut World, classes: &Classes) -> io::Result<()>
    @HOLDS@
{
    let Some(field) = instance_field(&classes.set, (b"a", b"I")) else {
        return Ok(());
    };
    let Kind::I = field.kind else {
        return Ok(());
    };
    let start = Instant::now(rt)?;
    let stored = stores(world, classes, field);
    print_rate(rt, "    stores", stored, &start)?;
    let start = Instant::now(rt)?;
    let read = reads(world, classes, field);
    print_rate(rt, "    reads", read, &start)
}

// The most memory that the program took so far, as the system tells it.
fn print_memory(rt: &HostRuntime, alloc: Global) -> io::Result<()> {
    let mut bytes = Vec::new(alloc);
    let mut file = File::open(rt, "/proc/self/status")?;
    file.read_to_end(&mut bytes)?;
    for line in bytes.as_slice().split(|byte| *byte == 10) {
        if line.starts_with(b"VmHWM") {
            if let Ok(text) = std::str::from_utf8(line) {
                println!(rt; "{text}")?;
            }
        }
    }
    Ok(())
}

fn measure_all(rt: &HostRuntime, world: &mut World, classes: &Classes) -> io::Result<()>
    @HOLDS@
{
    make(world, classes);
    println!(rt; "ordinary objects")?;
    measure(rt, world, classes)?;
    let copied = copy_all(world, classes);
    println!(rt; "copied objects ({copied})")?;
    measure(rt, world, classes)?;
    let sealed = seal_all(world, classes);
    println!(rt; "durable objects ({sealed})")?;
    measure(rt, world, classes)
}

fn run(rt: &HostRuntime, alloc: Global) -> Result<(), Fail> {
    let classes = linked(alloc)?;
    let mut world = begin(alloc, &classes)?;
    measure_all(rt, &mut world, &classes)?;
    print_memory(rt, alloc)?;
    Ok(())
}

fn main(rt: HostRuntime) -> io::Result<()> {
    let alloc = rt.alloc();
    if run(&rt, alloc).is_err() {
        println!(rt; "no memory, or no world")?;
    }
    Ok(())
}
"""

HOLDS = """\
requires holds { Holds (facts_of classes.now.set) world.old.spaces world.old.rest
        world.old.refs.items world.old.next world.old.acts world.old.entered }
    ensures holds { Holds (facts_of classes.now.set) world.new.spaces world.new.rest
        world.new.refs.items world.new.next world.new.acts world.new.entered }"""

# the function and the variable of each loop
LOOPS = (("make", "_object"), ("reads", "round"), ("stores", "round"), ("copy_all", "place"), ("seal_all", "place"))

INVARIANT = """\
use Rattle.class_set.specs.Facts.{facts_of}
use Rattle.@NAME@.specs.Worlds.{Holds}
use Rattle.@NAME@.proofs.@FUNCTION@.Given as goal

abbrev pub invariant-loop-@LOOP@ : goal.invariant-loop-@LOOP@
invariant-loop-@LOOP@ l = Holds (facts_of l.classes.set) l.world.spaces l.world.rest l.world.refs.items l.world.next
    l.world.acts l.world.entered
"""


def crate_lines():
    """Returns what crates.txt says of each crate."""
    lines = [line for line in (TOP / "crates.txt").read_text().splitlines() if ":" in line and not line.startswith("#")]
    return dict((name.strip(), uses.split()) for name, uses in (line.split(":", 1) for line in lines))


def below(names, lines):
    """Returns these crates of the repository and all on which they stand."""
    found, todo = [], list(names)
    while todo:
        name = todo.pop()
        if name in lines and name not in found:
            found.append(name)
            todo += lines[name]
    return found


def replaced(text, old, new):
    if text.count(old) != 1:
        raise SystemExit(f"{ROWS} has not one {old}")
    return text.replace(old, new)


def write_crate(crate, args):
    """Writes the program's crate: the modules of the rows and their proofs, and a main file over them."""
    rows = TOP / "crates" / ROWS
    for path in sorted(rows.rglob("*")):
        parts = path.relative_to(rows).parts
        if path.suffix not in (".rt", ".antt") or parts[0] == "out" or parts[:2] == ("proofs", "play"):
            continue
        if path.suffix == ".rt" and path.stem not in MODULES:
            continue
        text = path.read_text().replace(f"Rattle.{ROWS}.", f"Rattle.{NAME}.")
        if path.name == "begin.rt":
            text = replaced(text, "const WORDS: u32 = 400;", f"const WORDS: u32 = {args.words};")
            text = replaced(text, "MemoryImage::new(alloc, 32_768,", f"MemoryImage::new(alloc, {args.lines},")
        if path.name == "steps.rt":
            text = replaced(text, "1_000_000;", "4_000_000_000;")
        if path.name == "Stepping.antt":
            text = replaced(text, "acts < 1000000\n", "acts < 4000000000\n")
        target = crate.joinpath(*parts)
        target.parent.mkdir(parents=True, exist_ok=True)
        target.write_text(text)
    program = PROGRAM.replace("@HOLDS@", HOLDS).replace("@NAME@", NAME).replace("@ROUNDS@", str(args.rounds))
    (crate / "src" / "main.rt").write_text(program)
    for function, loop in LOOPS:
        (crate / "proofs" / function).mkdir()
        text = INVARIANT.replace("@NAME@", NAME).replace("@FUNCTION@", function).replace("@LOOP@", loop)
        (crate / "proofs" / function / "Invariants.antt").write_text(text)


def main():
    parser = argparse.ArgumentParser(description=__doc__, formatter_class=argparse.RawDescriptionHelpFormatter)
    parser.add_argument("--words", type=int, default=8_388_608)
    parser.add_argument("--lines", type=int, default=262_144, help="32768 to 4194304")
    parser.add_argument("--rounds", type=int, default=2_000_000, help="of reads, and of stores, in each stage; at most 500000000")
    parser.add_argument("--rt", default="rt", help="the kit's command")
    args = parser.parse_args()
    lines = crate_lines()
    with tempfile.TemporaryDirectory(prefix="bench_two_spaces_") as made:
        made = pathlib.Path(made)
        names = below(lines[ROWS], lines)
        for name in names:
            shutil.copytree(TOP / "crates" / name, made / "crates" / name, ignore=shutil.ignore_patterns("must-fail"),
                            copy_function=os.link)
        listed = [f"{name}: {' '.join(lines[name])}" for name in names] + [f"{NAME}: {' '.join(lines[ROWS])}"]
        (made / "crates.txt").write_text("\n".join(listed) + "\n")
        (made / ".git").mkdir()
        crate = made / "crates" / NAME
        write_crate(crate, args)
        return subprocess.run([args.rt, "run"], cwd=crate).returncode


if __name__ == "__main__":
    sys.exit(main())
