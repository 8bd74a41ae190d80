#!/usr/bin/env python3
"""What a live view costs: a told act, by kind, with publishing; and what a reader asks, over a list of many durable nodes.

usage: bench/live_view.py [--nodes N] [--rounds N]
       bench/live_view.py --write FOLDER [--nodes N] [--rounds N]
       bench/live_view.py --program FILE [--runs N]

Copies the crates that it measures to a folder of its own, adds a program over them, and runs that by `rt try`, which checks much as
it runs. With --write it leaves them in FOLDER for another build, and with --program it runs such a build FILE many times, and prints
the least of each line. One thread does all: no reader is inside while the writer publishes.
"""
import argparse
import pathlib
import re
import shutil
import subprocess
import sys
import tempfile

CRATES = ("ap_base", "run_types", "graph_model", "run_history", "live_heap", "act_book", "live_view")

NAME = "bench_live_view"

TOP = pathlib.Path(__file__).resolve().parent.parent

PROGRAM = """\
// Times a live view over a list of durable nodes.
#![tactic(auto)]

use ap_base::{Bytes, Kind, ListOf, Place, ThreadNo};
use graph_model::{Field, Heap, Obj, Root, Shape, Value};
use live_heap::Live;
use live_view::{LiveReader, LiveWriter};
use run_history::{Act, Op, Watcher};
use std::alloc::{AllocError, Global};
use std::io;
use std::time::{Duration, Instant};

const NODES: u32 = @NODES@;

const ROUNDS: u32 = @ROUNDS@;

const LOOKS: u32 = 20;

fn field(alloc: Global, name: &[u8], kind: Kind) -> Result<Field, AllocError> {
    Ok(Field {
        name: Bytes::copy(alloc, name)?,
        kind,
        kept: true,
    })
}

/// `class Node { int v; Node next; }`, and the durable root `Main.head`, which is null.
fn first(alloc: Global) -> Result<Live, AllocError> {
    let mut fields = Vec::new(alloc);
    fields.push(field(alloc, b"v", Kind::I)?)?;
    fields.push(field(alloc, b"next", Kind::L)?)?;
    let mut shapes = Vec::new(alloc);
    shapes.push(Shape {
        name: Bytes::copy(alloc, b"Node")?,
        fields: ListOf::from_vec(fields),
        element: None,
    })?;
    let mut roots = Vec::new(alloc);
    roots.push(Root {
        name: Bytes::copy(alloc, b"Main.head")?,
        at: 0,
    })?;
    let heap = Heap {
        shapes: ListOf::from_vec(shapes),
        objects: ListOf::from_vec(Vec::<Obj>::new(alloc)),
        statics: ListOf::from_vec(vec![in alloc; Value::Null; 1]?),
        roots: ListOf::from_vec(roots),
    };
    Ok(Live::new(alloc, heap, Vec::new(alloc)))
}

fn act(op: Op) -> Act {
    Act {
        thread: ThreadNo::main(),
        at: 0,
        op,
    }
}

fn slot(object: u32, index: u32) -> Place {
    Place::Slot { object, index }
}

/// Makes the nodes, each with the number before it as `next`.
fn make_all<W: Watcher>(writer: &mut W) {
    for object in 0..NODES {
        writer.saw(
            &act(Op::Alloc {
                object,
                shape: 0,
                length: 2,
            }),
            &[],
        );
        let next = if object == 0 { Value::Null } else { Value::Obj(object - 1) };
        writer.saw(
            &act(Op::Stored {
                place: slot(object, 1),
                value: next,
            }),
            &[],
        );
    }
}

/// Makes the nodes durable, by a store of the last of them into the root.
fn publish_all<W: Watcher>(alloc: Global, writer: &mut W) -> Result<(), AllocError> {
    let named: Vec<u32> = (0..NODES).collect(alloc)?;
    writer.saw(&act(Op::Joined), named.as_slice());
    writer.saw(
        &act(Op::Stored {
            place: Place::Static(0),
            value: Value::Obj(NODES - 1),
        }),
        &[],
    );
    writer.saw(&act(Op::Fenced), &[]);
    Ok(())
}

fn read_all<W: Watcher>(writer: &mut W) {
    for round in 0..ROUNDS {
        writer.saw(
            &act(Op::Read {
                place: slot(round % NODES, 0),
                value: Value::Int(0),
            }),
            &[],
        );
    }
}

/// A store into a durable node and its fence, which publishes both.
fn store_all<W: Watcher>(writer: &mut W) {
    for round in 0..ROUNDS {
        writer.saw(
            &act(Op::Stored {
                place: slot(round % NODES, 0),
                value: Value::Int(7),
            }),
            &[],
        );
        writer.saw(&act(Op::Fenced), &[]);
    }
}

/// Nine reads, then a store into a durable node and its fence.
fn mix_all<W: Watcher>(writer: &mut W) {
    for round in 0..ROUNDS {
        for _read in 0..9u32 {
            writer.saw(
                &act(Op::Read {
                    place: slot(round % NODES, 0),
                    value: Value::Int(0),
                }),
                &[],
            );
        }
        writer.saw(
            &act(Op::Stored {
                place: slot(round % NODES, 0),
                value: Value::Int(8),
            }),
            &[],
        );
        writer.saw(&act(Op::Fenced), &[]);
    }
}

fn each(taken: Duration, times: u64) -> u128 {
    taken.as_nanos() / u128::from(times)
}

fn main(rt: HostRuntime) -> io::Result<()> {
    let alloc = rt.alloc();
    let (mut writer, mut readers) = LiveWriter::over(&rt, alloc, first(alloc)?, first(alloc)?, 1)?;
    let Some(mut reader) = readers.pop() else {
        return Ok(());
    };

    let start = Instant::now(&rt)?;
    make_all(&mut writer);
    let made = start.elapsed(&rt)?;
    let start = Instant::now(&rt)?;
    publish_all(alloc, &mut writer)?;
    let published = start.elapsed(&rt)?;
    println!(rt; "{NODES} objects made and stored to, unpublished: {} ns an act", each(made, 2 * u64::from(NODES)))?;
    println!(rt; "the Joined act that publishes them, and its store: {} us", published.as_micros())?;

    let start = Instant::now(&rt)?;
    read_all(&mut writer);
    println!(rt; "reads, unpublished: {} ns an act", each(start.elapsed(&rt)?, u64::from(ROUNDS)))?;
    let start = Instant::now(&rt)?;
    writer.saw(&act(Op::Fenced), &[]);
    println!(rt; "publishing {ROUNDS} reads: {} us", start.elapsed(&rt)?.as_micros())?;
    let start = Instant::now(&rt)?;
    store_all(&mut writer);
    println!(rt; "durable store and fence: {} ns an act", each(start.elapsed(&rt)?, 2 * u64::from(ROUNDS)))?;
    let start = Instant::now(&rt)?;
    mix_all(&mut writer);
    println!(rt; "nine reads, durable store, fence: {} ns an act", each(start.elapsed(&rt)?, 11 * u64::from(ROUNDS)))?;

    let told = writer.tell();
    reader.learn(&told);
    let mut nodes = 0;
    let start = Instant::now(&rt)?;
    for _look in 0..LOOKS {
        nodes = reader.look(&rt, alloc)?.nodes;
    }
    println!(rt; "a look at {nodes} nodes: {} us", each(start.elapsed(&rt)?, u64::from(LOOKS)) / 1_000)?;
    let start = Instant::now(&rt)?;
    let mut found = 0u64;
    for _path in 0..ROUNDS {
        if matches!(reader.path(&rt, 0, &[1, 1, 0]), live_view::Followed::Found(_)) {
            found += 1;
        }
    }
    println!(rt; "a path of three slots ({found} found): {} ns", each(start.elapsed(&rt)?, u64::from(ROUNDS)))?;
    let start = Instant::now(&rt)?;
    let mut counts = 0u64;
    for _count in 0..ROUNDS {
        counts = reader.count(&rt);
    }
    println!(rt; "a count ({counts} acts): {} ns", each(start.elapsed(&rt)?, u64::from(ROUNDS)))?;
    println!(rt; "frozen: {}", writer.frozen())?;
    Ok(())
}
"""


def lines_of(names):
    """Returns the lines of crates.txt for these crates."""
    wanted = set(names)
    return [line for line in (TOP / "crates.txt").read_text().splitlines() if line.partition(":")[0] in wanted]


def write_tree(made, args):
    """Writes the crates and the program's, and returns the folder of that."""
    for name in CRATES:
        shutil.copytree(TOP / "crates" / name, made / "crates" / name, ignore=shutil.ignore_patterns("out", "must-fail"))
    lines = [*lines_of(CRATES), f"{NAME}: ap_base graph_model live_heap live_view run_history"]
    (made / "crates.txt").write_text("\n".join(lines) + "\n")
    crate = made / "crates" / NAME
    (crate / "src").mkdir(parents=True)
    (crate / "src" / "main.rt").write_text(PROGRAM.replace("@NODES@", str(args.nodes)).replace("@ROUNDS@", str(args.rounds)))
    return crate


def least_of(program, runs):
    """Prints each line that the program prints, with the least of its last numbers."""
    least = {}
    for _ in range(runs):
        for line in subprocess.run([program], check=True, capture_output=True, text=True).stdout.splitlines():
            label, found, cost = line.rpartition(": ")
            number = re.match(r"\d+", cost)
            if found and number:
                least[label] = min(least.get(label, (1 << 64, "")), (int(number[0]), cost))
    for label, (_, cost) in least.items():
        print(f"{label}: {cost}")
    return 0


def main():
    parser = argparse.ArgumentParser(description=__doc__, formatter_class=argparse.RawDescriptionHelpFormatter)
    parser.add_argument("--nodes", type=int, default=100_000, help="1 to 4000000")
    parser.add_argument("--rounds", type=int, default=200_000, help="1 to 4000000")
    parser.add_argument("--write", metavar="FOLDER", type=pathlib.Path)
    parser.add_argument("--program", metavar="FILE", type=lambda name: pathlib.Path(name).resolve())
    parser.add_argument("--runs", type=int, default=20)
    args = parser.parse_args()
    if args.program:
        return least_of(args.program, args.runs)
    if args.write:
        write_tree(args.write, args)
        return 0
    with tempfile.TemporaryDirectory(prefix="bench_live_view_") as made:
        return subprocess.run(["rt", "try"], cwd=write_tree(pathlib.Path(made), args)).returncode


if __name__ == "__main__":
    sys.exit(main())
