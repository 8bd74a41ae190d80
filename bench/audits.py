#!/usr/bin/env python3
"""How much processor time audits of saved runs take, and their memory: the most that was resident at once, in MiB, of 2^20 bytes.

usage: bench/audits.py [PROGRAM] [--runs N]

PROGRAM is the built program, or the script `autopersist`. Each run is saved, from a blank image, and then audited.
"""
import argparse
import os
import pathlib
import resource
import subprocess
import sys
import tempfile
import time

sys.dont_write_bytecode = True
from java_runs import CLASSES, IMAGE_BYTES, TOP  # noqa: E402
from memory import high_water  # noqa: E402
from programs import PROGRAMS  # noqa: E402

# The third word of a history tells its acts.
ACTS_AT = 16


def blank(path):
    with open(path, "wb") as file:
        file.truncate(IMAGE_BYTES)


def acts_in(path):
    with open(path, "rb") as file:
        file.seek(ACTS_AT)
        return int.from_bytes(file.read(8), "little")


def spent():
    """The processor time of all children that have ended."""
    used = resource.getrusage(resource.RUSAGE_CHILDREN)
    return used.ru_utime + used.ru_stime


def audited(words):
    """The processor time of an audit, the most KiB that it had resident, and what it printed."""
    begun = spent()
    most = 0
    with subprocess.Popen(words, stdout=subprocess.PIPE) as child:
        status = pathlib.Path(f"/proc/{child.pid}/status")
        while child.poll() is None:
            most = max(most, high_water(status.read_text()))
            time.sleep(0.001)
        printed = child.stdout.read()
    return spent() - begun, most, printed


def main():
    parser = argparse.ArgumentParser(description=__doc__, formatter_class=argparse.RawDescriptionHelpFormatter)
    parser.add_argument("program", nargs="?", default=str(TOP / "autopersist"))
    parser.add_argument("--runs", type=int, default=3)
    words = parser.parse_args()
    print(f"{'':10} {'acts':>10} {'run s':>8} {'audit s':>8} {'acts/s':>12} {'MiB':>8}")
    with tempfile.TemporaryDirectory(prefix="bench_audits_") as folder:
        before, after, history, output = (os.path.join(folder, name) for name in ("before", "after", "history", "output"))
        for name in (*PROGRAMS, "Inserts"):
            blank(before)
            blank(after)
            open(history, "wb").close()
            begun = spent()
            with open(output, "wb") as file:
                run = [words.program, "run", "--image", after, "--main", name, "--history", history, CLASSES / name]
                subprocess.run(run, stdout=file, check=True)
            ran = spent() - begun
            acts = acts_in(history)
            audit = [words.program, "audit", "--before", before, "--after", after, "--history", history]
            audit += ["--output", output, "--main", name, CLASSES / name]
            each = [audited(audit) for _ in range(words.runs)]
            if any(printed != b"yes\n" for _, _, printed in each):
                raise SystemExit(f"{name}: {each[0][2]!r}")
            least = min(seconds for seconds, _, _ in each)
            most = max(kib for _, kib, _ in each) / 1024
            print(f"{name:10} {acts:10,} {ran:8.2f} {least:8.2f} {acts / least:12,.0f} {most:8.1f}", flush=True)
    return 0


if __name__ == "__main__":
    sys.exit(main())
