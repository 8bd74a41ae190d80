#!/usr/bin/env python3
"""How fast instructions are run: nanoseconds for each, beside those of `java -Xint` where there is a JDK.

usage: bench/interpreter.py [PROGRAM] [--runs N]

PROGRAM is the built program, or the script `autopersist`. The first three programs of bench/java have private instructions
alone; the others have many that ask the heap, and so each their share of acts. What a run takes that does nothing is left out.
"""
import sys

sys.dont_write_bytecode = True
from java_runs import Runtime, measure, words_of  # noqa: E402

# How many instructions each program runs, by its loops, and how many of its acts are more than the end of a turn.
PROGRAMS = {
    # 15 a turn
    "IntLoop": (15 * 4_000_000 + 11, 0),
    # 17 a turn
    "LongLoop": (17 * 3_000_000 + 11, 0),
    # 18,984 in the 1,280 turns after which its states come again
    "Switches": (18_984 * 3_072_000 // 1_280 + 13, 0),
    # a read and a store for each of 313,875 turned lockers, a read for each of 30,000; counted by an interpreter apart from this runtime
    "Lockers": (5_749_208, 657_759),
    # fib(28) = 317,811 calls of 6 instructions, and one fewer of 13
    "Calls": (6 * 317_811 + 13 * 317_810 + 5, 635_629),
    # 23 a turn, of which five make an act
    "Fields": (23 * 180_000 + 30, 900_013),
}


def main():
    words = words_of(__doc__)
    runtime = Runtime(words.program)
    print(f"a run that does nothing: {1e3 * runtime.prepare(words.runs):.0f} ms")
    print(f"{'':10} {'instructions':>12} {'acts':>8} {'ns each':>8} {'java -Xint':>10} {'ratio':>6}")
    for name, (instructions, acts) in PROGRAMS.items():
        ours, theirs = measure(runtime, name, words.runs)
        line = f"{name:10} {instructions:12,} {acts:8,} {1e9 * ours / instructions:8.2f}"
        if theirs is not None:
            line += f" {1e9 * theirs / instructions:10.2f} {ours / theirs:6.1f}"
        print(line, flush=True)
    return 0


if __name__ == "__main__":
    sys.exit(main())
