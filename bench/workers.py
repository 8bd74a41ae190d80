#!/usr/bin/env python3
"""What host threads cost and bring: nanoseconds an act with 2, 4 and 64 workers, beside the rotation of one; of Loners, a bytecode.

usage: bench/workers.py [PROGRAM] [--runs N]

PROGRAM is the built program, or the script `autopersist`. With `--workers 1` one host thread passes over all threads of a
program, without a lock. Fields has one thread; of the others each has four: those of Loners make private instructions alone, those
of Racers share nothing, and those of Turnstile a monitor. The numbers of workers take turns in one run, and the least of each is
told. What a run takes that does nothing is left out. The image is a file, and no program of these stores to it.

Last stands what the machine gives: how many times as much four runs do at once, each with one worker and nothing in common, as
one run alone.
"""
import concurrent.futures
import sys

sys.dont_write_bytecode = True
from java_runs import Runtime, words_of  # noqa: E402

# How many acts each program has, by its loops, but for a few; Loners, bytecodes.
PROGRAMS = {
    # fifteen a turn
    "Loners": 4 * 15 * 6_700_000,
    # two reads, a store, a read and a read of `next` a turn
    "Fields": 5 * 180_000,
    # two reads and two stores a turn
    "Racers": 4 * 4 * 45_000,
    # the gate read, a monitor taken, a read, a store, and the monitor given back
    "Turnstile": 4 * 5 * 30_000,
}

WORKERS = (1, 2, 4, 64)


def once(runtime, name, workers):
    """The seconds of a run with so many workers."""
    return runtime.once(name, "--workers", str(workers))[0]


def together(runtimes, name):
    """The seconds of as many runs at once, each with one worker."""
    with concurrent.futures.ThreadPoolExecutor(len(runtimes)) as pool:
        return max(pool.map(lambda runtime: once(runtime, name, 1), runtimes))


def main():
    words = words_of(__doc__)
    runtimes = [Runtime(words.program) for _ in range(4)]
    runtime = runtimes[0]
    empty = min(once(runtime, "Nothing", 1) for _ in range(words.runs))
    print(f"a run that does nothing: {1e3 * empty:.0f} ms")
    heads = [f"{f'{w} ns':>9}" for w in WORKERS] + [f"{f'{w}/1':>6}" for w in WORKERS[1:]]
    print(f"{'':10} {'units':>11} {' '.join(heads)} {'machine':>8}")
    for name, acts in PROGRAMS.items():
        least = {workers: float("inf") for workers in WORKERS}
        four = float("inf")
        for _ in range(words.runs):
            for workers in WORKERS:
                least[workers] = min(least[workers], once(runtime, name, workers))
            four = min(four, together(runtimes, name))
        costs = [1e9 * max(least[workers] - empty, 1e-9) / acts for workers in WORKERS]
        times = len(runtimes) * (least[1] - empty) / max(four - empty, 1e-9)
        line = f"{name:10} {acts:11,}" + "".join(f" {cost:9.2f}" for cost in costs)
        print(line + "".join(f" {cost / costs[0]:6.2f}" for cost in costs[1:]) + f" {times:8.2f}", flush=True)
    return 0


if __name__ == "__main__":
    sys.exit(main())
