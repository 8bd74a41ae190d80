#!/usr/bin/env python3
"""How fast objects become durable in one file, and in two of which either may fail.

usage: bench/mirror_inserts.py [PROGRAM] [--runs N] [--folder FOLDER ..]

PROGRAM is the built program, or the script `autopersist`. It runs bench/java/Inserts.java over one file and over two in one
folder (`--mirror`), by turns, so that what else the machine does counts for both. What a run takes that does nothing is left out,
the pairing of the two files too: it is told apart. The least of the runs counts.
"""
import argparse
import os
import pathlib
import sys
import tempfile

sys.dont_write_bytecode = True
from durable_inserts import INSERTS  # noqa: E402
from java_runs import TOP, Runtime  # noqa: E402


def show(program, parent, runs):
    with tempfile.TemporaryDirectory(prefix="mirror_", dir=parent) as folder:
        both = [Runtime(program, pathlib.Path(folder), is_mirrored) for is_mirrored in (False, True)]
        seconds = {"Nothing": ([], []), "Inserts": ([], [])}
        for _ in range(runs):
            for name, taken in seconds.items():
                for runtime, of in zip(both, taken):
                    of.append(runtime.once(name)[0])
        empty, full = (tuple(min(of) for of in seconds[name]) for name in ("Nothing", "Inserts"))
        one, two = (INSERTS / max(all - none, 1e-9) for all, none in zip(full, empty))
        print(f"{parent:12} {one:12,.0f} inserts/s in one file {two:12,.0f} in two {two / one:8.2f} times as many; pairing {1000 * (empty[1] - empty[0]):.0f} ms", flush=True)


def main():
    parser = argparse.ArgumentParser(description=__doc__, formatter_class=argparse.RawDescriptionHelpFormatter)
    parser.add_argument("program", nargs="?", default=str(TOP / "autopersist"))
    parser.add_argument("--runs", type=int, default=5)
    parser.add_argument("--folder", nargs="*", default=[str(TOP / "bench"), "/dev/shm"])
    words = parser.parse_args()
    before = os.getloadavg()[0]
    for parent in words.folder:
        show(words.program, parent, words.runs)
    print(f"{os.cpu_count()} processors, load {before:.1f} before and {os.getloadavg()[0]:.1f} after")
    return 0


if __name__ == "__main__":
    sys.exit(main())
