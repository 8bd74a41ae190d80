#!/usr/bin/env python3
"""How fast whole programs run: lists of objects, texts, sorted arrays; beside `java -Xint` where there is a JDK, and their acts a second.

usage: bench/programs.py [PROGRAM] [--runs N]

PROGRAM is the built program, or the script `autopersist`. What a run takes that does nothing is left out.
"""
import sys

sys.dont_write_bytecode = True
from java_runs import Runtime, measure, words_of  # noqa: E402

# How many acts the run of each program has, counted by an interpreter apart from this runtime.
PROGRAMS = {
    "Lists": 805_767,
    "Texts": 867_854,
    "Sorts": 850_600,
}


def main():
    words = words_of(__doc__)
    runtime = Runtime(words.program)
    print(f"a run that does nothing: {1e3 * runtime.prepare(words.runs):.0f} ms")
    print(f"{'':10} {'acts':>10} {'ms':>8} {'acts/s':>12} {'java ms':>8} {'ratio':>6}")
    for name, acts in PROGRAMS.items():
        ours, theirs = measure(runtime, name, words.runs)
        line = f"{name:10} {acts:10,} {1e3 * ours:8.0f} {acts / ours:12,.0f}"
        if theirs is not None:
            line += f" {1e3 * theirs:8.1f} {ours / theirs:6.1f}"
        print(line, flush=True)
    return 0


if __name__ == "__main__":
    sys.exit(main())
