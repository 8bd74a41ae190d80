#!/usr/bin/env python3
"""How much memory runs take: the most that was resident at once, in MiB, of 2^20 bytes.

usage: bench/memory.py [PROGRAM] [--runs N]

PROGRAM is the built program, or the script `autopersist`. `Nothing` is an empty program; what the others do is told by
bench/interpreter.py and bench/programs.py. `Threads`, of 64 threads, is run once bench/java has its class files.
"""
import argparse
import os
import pathlib
import subprocess
import sys
import tempfile
import time

sys.dont_write_bytecode = True
from java_runs import CLASSES, IMAGE_BYTES, TOP  # noqa: E402

# At the defaults all memory of a run stays below this.
BOUND_MIB = 300

# `Threads` is to have 64 threads at once, each with frames.
PROGRAMS = ("Nothing", "IntLoop", "Calls", "Fields", "Texts", "Threads")


def high_water(status):
    """VmHWM of what the kernel says of a process, in KiB; 0 once it has ended."""
    for line in status.splitlines():
        if line.startswith("VmHWM:"):
            return int(line.split()[1])
    return 0


def resident(program, name, folder):
    """The most KiB that a run had resident at once. A run that doesn't end well ends the benchmark.

    It is looked at each half millisecond: what `wait4` tells counts what this script had when it began the run.
    """
    image = os.path.join(folder, "image")
    with open(image, "wb") as file:
        file.truncate(IMAGE_BYTES)
    words = [program, "run", "--image", image, "--main", name, CLASSES / name]
    most = 0
    with subprocess.Popen(words, stdout=subprocess.DEVNULL) as child:
        status = pathlib.Path(f"/proc/{child.pid}/status")
        while child.poll() is None:
            most = max(most, high_water(status.read_text()))
            time.sleep(0.0005)
    if child.returncode != 0:
        raise SystemExit(f"{name} ended with {child.returncode}")
    return most


def main():
    parser = argparse.ArgumentParser(description=__doc__, formatter_class=argparse.RawDescriptionHelpFormatter)
    parser.add_argument("program", nargs="?", default=str(TOP / "autopersist"))
    parser.add_argument("--runs", type=int, default=3)
    words = parser.parse_args()
    over = False
    with tempfile.TemporaryDirectory(prefix="bench_memory_") as folder:
        for name in PROGRAMS:
            if not (CLASSES / name).is_dir():
                print(f"{name:10} no class files")
                continue
            most = max(resident(words.program, name, folder) for _ in range(words.runs)) / 1024
            print(f"{name:10} {most:7.1f} MiB{'' if most < BOUND_MIB else f', over {BOUND_MIB}'}", flush=True)
            over |= most >= BOUND_MIB
    return int(over)


if __name__ == "__main__":
    sys.exit(main())
