#!/usr/bin/env python3
"""How fast objects become durable: inserts per second of a small key-value store, on a disk and on a memory file system.

usage: bench/durable_inserts.py [PROGRAM] [--runs N] [--folder FOLDER ..]

PROGRAM is the built program, or the script `autopersist`. It runs bench/java/Inserts.java: each insert makes one object and
stores it to an element of a durable array. Beside it stands the same store over libpmemobj, one transaction an insert, where
its header and a C compiler are there. What a run takes that does nothing is left out, and so is making the pool. With strace
the calls of the image are counted: for each insert the object's line is written and fenced, then the element's.
"""
import argparse
import os
import pathlib
import re
import shutil
import subprocess
import sys
import tempfile

sys.dont_write_bytecode = True
from java_runs import CLASSES, IMAGE_BYTES, TOP, Runtime  # noqa: E402

INSERTS = 5_000

TRANSACTIONS = """\
#include <libpmemobj.h>
#include <stdio.h>
#include <time.h>

POBJ_LAYOUT_BEGIN(inserts);
POBJ_LAYOUT_ROOT(inserts, struct table);
POBJ_LAYOUT_TOID(inserts, struct entry);
POBJ_LAYOUT_END(inserts);

struct entry { int key; int value; TOID(struct entry) next; };
struct table { TOID(struct entry) slots[1024]; };

static double now(void) {
    struct timespec time;
    clock_gettime(CLOCK_MONOTONIC, &time);
    return time.tv_sec + time.tv_nsec / 1e9;
}

int main(int count, char **words) {
    (void)count;
    PMEMobjpool *pool = pmemobj_create(words[1], "inserts", 64 << 20, 0666);
    if (pool == NULL) {
        fprintf(stderr, "%s\\n", pmemobj_errormsg());
        return 1;
    }
    TOID(struct table) table = POBJ_ROOT(pool, struct table);
    double begun = now();
    for (long long i = 0; i < INSERTS; i++) {
        int key = (int)(i * 7919 % 1000003);
        TX_BEGIN(pool) {
            TOID(struct entry) entry = TX_NEW(struct entry);
            D_RW(entry)->key = key;
            D_RW(entry)->value = (int)i;
            D_RW(entry)->next = D_RO(table)->slots[key % 1024];
            TX_ADD_FIELD(table, slots[key % 1024]);
            D_RW(table)->slots[key % 1024] = entry;
        } TX_END
    }
    printf("%.9f\\n", now() - begun);
    pmemobj_close(pool);
    return 0;
}
"""


def transactions(folder):
    """The program over libpmemobj, built; none where it can't be."""
    if shutil.which("gcc") is None:
        return None
    source, built = folder / "transactions.c", folder / "transactions"
    source.write_text(TRANSACTIONS)
    words = ["gcc", "-O2", "-w", f"-DINSERTS={INSERTS}", "-o", built, source, "-lpmemobj"]
    return built if subprocess.run(words, capture_output=True).returncode == 0 else None


def transacted(built, folder, is_memory, runs):
    """The least seconds of its inserts. A memory file system counts as persistent memory: no call of the system then makes a fence."""
    least = None
    for _ in range(runs):
        pool = folder / "pool"
        pool.unlink(missing_ok=True)
        environment = dict(os.environ, PMEM_IS_PMEM_FORCE="1" if is_memory else "0")
        ran = subprocess.run([built, pool], capture_output=True, text=True, check=True, env=environment)
        pool.unlink()
        least = min(float(ran.stdout), least or float("inf"))
    return least


def counted(program, folder, name):
    """How many lines a run wrote and how many fences it made, by strace; none where that isn't there."""
    if shutil.which("strace") is None:
        return None
    image, counts = folder / "counted", folder / "counts"
    image.write_bytes(b"")
    os.truncate(image, IMAGE_BYTES)
    words = [program, "run", "--image", image, "--main", name, CLASSES / name]
    subprocess.run(["strace", "-f", "-c", "-o", counts, *words], capture_output=True, check=True)
    calls = {"pwrite64": 0, "fsync": 0, "fdatasync": 0}
    for line in counts.read_text().splitlines():
        found = re.match(r"\s*[\d.]+\s+[\d.]+\s+\d+\s+(\d+)\s+(?:\d+\s+)?(\w+)$", line)
        if found and found[2] in calls:
            calls[found[2]] = int(found[1])
    return calls["pwrite64"], calls["fsync"] + calls["fdatasync"]


def show(program, folder, built, is_memory, runs):
    runtime = Runtime(program, folder)
    runtime.prepare(runs)
    seconds, printed = runtime.least("Inserts", runs)
    line = f"{str(folder):24} {INSERTS / seconds:12,.0f} inserts/s"
    if built is not None:
        theirs = transacted(built, folder, is_memory, runs)
        line += f" {INSERTS / theirs:12,.0f} by libpmemobj {theirs / seconds:8.2f} times as many"
    print(line, flush=True)
    return printed


def main():
    parser = argparse.ArgumentParser(description=__doc__, formatter_class=argparse.RawDescriptionHelpFormatter)
    parser.add_argument("program", nargs="?", default=str(TOP / "autopersist"))
    parser.add_argument("--runs", type=int, default=3)
    parser.add_argument("--folder", nargs="*", default=[str(TOP / "bench"), "/dev/shm"])
    words = parser.parse_args()
    with tempfile.TemporaryDirectory(prefix="inserts_") as build:
        built = transactions(pathlib.Path(build))
        if built is None:
            print("libpmemobj isn't there, or no C compiler: runs without it")
        for parent in words.folder:
            with tempfile.TemporaryDirectory(prefix="inserts_", dir=parent) as folder:
                show(words.program, pathlib.Path(folder), built, parent.startswith("/dev/shm"), words.runs)
        calls = counted(words.program, pathlib.Path(build), "Inserts")
        none = counted(words.program, pathlib.Path(build), "Nothing")
        if calls is not None:
            lines, fences = (a - b for a, b in zip(calls, none))
            print(f"for each insert {lines / INSERTS:.3f} line writes and {fences / INSERTS:.3f} fences, the table and the opening among them")
    return 0


if __name__ == "__main__":
    sys.exit(main())
