#!/usr/bin/env python3
"""One table of what runs cost: user and wall time of each program of bench/java, beside `java -Xint` where there is a JDK.

usage: bench/table.py [PROGRAM] [--runs N]

PROGRAM is the built program, or the script `autopersist`. Of each the least of several runs is told, less that of a run that does
nothing. What java takes is the wall and processor time of main's own thread, the least of several runs of it in one process. Of
loops a unit is an instruction, of the others an act, with the instructions around it. Durable inserts are those of
bench/durable_inserts.py, on a memory file system and on the disk of this folder; memory is bench/memory.py's.
"""
import os
import pathlib
import resource
import subprocess
import sys
import tempfile
import time

sys.dont_write_bytecode = True
import durable_inserts  # noqa: E402
import interpreter  # noqa: E402
import programs as whole  # noqa: E402
from java_runs import CLASSES, TOP, Runtime, clocked, words_of  # noqa: E402
from memory import resident  # noqa: E402

# What each program shows, and how many units it has.
ROWS = {
    "IntLoop": ("int loop, an instruction", interpreter.PROGRAMS["IntLoop"][0]),
    "LongLoop": ("long loop, an instruction", interpreter.PROGRAMS["LongLoop"][0]),
    "Switches": ("switches, an instruction", interpreter.PROGRAMS["Switches"][0]),
    "Calls": ("static calls, an act", interpreter.PROGRAMS["Calls"][1]),
    "Fields": ("fields and virtual calls, an act", interpreter.PROGRAMS["Fields"][1]),
    "Lockers": ("elements of booleans, an act", interpreter.PROGRAMS["Lockers"][1]),
    "Sorts": ("elements of longs, an act", whole.PROGRAMS["Sorts"]),
    # the call's class, the monitor taken, a read, a store, a read, and the monitor given back
    "Monitors": ("monitors, an act", 6 * 120_000),
    # the object made, and its field stored
    "Objects": ("new objects, an act", 2 * 200_000),
    "Lists": ("lists of objects, an act", whole.PROGRAMS["Lists"]),
    "Texts": ("strings, an act", whole.PROGRAMS["Texts"]),
}


def timed(words):
    """User and wall seconds of a process that ends well, and what it printed."""
    before = resource.getrusage(resource.RUSAGE_CHILDREN)
    begun = time.perf_counter()
    ran = subprocess.run(words, capture_output=True)
    wall = time.perf_counter() - begun
    if ran.returncode != 0:
        raise SystemExit(f"{words} ended with {ran.returncode}: {ran.stderr.decode(errors='replace').strip()}")
    after = resource.getrusage(resource.RUSAGE_CHILDREN)
    return after.ru_utime - before.ru_utime, wall, ran.stdout


def ours(runtime, name, runs):
    """The least user and wall seconds of several runs, and what the last one printed."""
    ran = [timed([runtime.program, "run", "--image", runtime.blank("image"), "--main", name, CLASSES / name]) for _ in range(runs)]
    return min(user for user, _, _ in ran), min(wall for _, wall, _ in ran), ran[-1][2]


def show_programs(runtime, runs):
    empty = ours(runtime, "Nothing", runs)
    print(f"{'':34} {'ns user':>8} {'ns wall':>8} {'java cpu':>10} {'java wall':>10} {'times':>6}")
    for name, (shows, units) in ROWS.items():
        user, wall, printed = ours(runtime, name, runs)
        cost = [1e9 * max(a - b, 1e-9) / units for a, b in ((user, empty[0]), (wall, empty[1]))]
        line = f"{shows:34} {cost[0]:8.2f} {cost[1]:8.2f}"
        least, wanted = clocked(name, runs)
        if least is not None:
            if printed != wanted:
                raise SystemExit(f"{name} prints {printed[:60]!r}, and with a JDK {wanted[:60]!r}")
            line += f" {1e9 * least[1] / units:10.2f} {1e9 * least[0] / units:10.2f} {cost[0] / (1e9 * least[1] / units):6.1f}"
        print(line, flush=True)
    return empty


def show_inserts(program, runs):
    with tempfile.TemporaryDirectory(prefix="inserts_") as build:
        built = durable_inserts.transactions(pathlib.Path(build))
        for parent in ("/dev/shm", str(TOP / "bench")):
            with tempfile.TemporaryDirectory(prefix="inserts_", dir=parent) as folder:
                durable_inserts.show(program, pathlib.Path(folder), built, parent == "/dev/shm", runs)


def main():
    words = words_of(__doc__)
    runtime = Runtime(words.program)
    print(f"load {os.getloadavg()[0]:.1f} of {os.cpu_count()} processors")
    empty = show_programs(runtime, words.runs)
    show_inserts(words.program, words.runs)
    with tempfile.TemporaryDirectory(prefix="memory_") as folder:
        most = max(resident(words.program, "Nothing", folder) for _ in range(words.runs))
    print(f"an empty program: {1e3 * empty[1]:.0f} ms, {most / 1024:.0f} MiB resident at most")
    return 0


if __name__ == "__main__":
    sys.exit(main())
