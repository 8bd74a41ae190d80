#!/usr/bin/env python3
"""What an operation of each collection of java/collections costs: fences, line writes and acts.

usage: bench/collection_costs.py [PROGRAM]

PROGRAM is the built program, or the script `autopersist`. It runs the programs of bench/java/Costs.java, which make one operation 256
times on collections of 256 items. Calls are counted by strace; acts by how many numbers a run prints then until its acts are
used up. What a run takes that makes no operation is left out. The numbers are means, and the same on every machine.
"""
import os
import pathlib
import re
import shutil
import subprocess
import sys
import tempfile

TOP = pathlib.Path(__file__).resolve().parent.parent
IMAGE_BYTES = 64 * 65_536
COUNT = 256
PRINT_ACTS = 5
CALLS = ("fdatasync", "fsync", "pwrite64")

OPERATIONS = {
    "ListAdd": "list: add at the end",
    "ListInsert": "list: insert at place 8",
    "ListRemove": "list: remove at place 8",
    "ListRead": "list: read at place 8",
    "MapPut": "map: put a new key",
    "MapChange": "map: change a value",
    "MapRemove": "map: remove a key",
    "MapRead": "map: get",
    "RingPut": "ring buffer: put",
    "RingTake": "ring buffer: take",
    "TreePut": "B-tree: put a new key",
    "TreeChange": "B-tree: change a value",
    "TreeRemove": "B-tree: remove a key",
    "TreeRead": "B-tree: get",
}


class Costs:
    """The built program, a folder with all class files, and an image with the collections."""

    def __init__(self, program, folder):
        self.program = program
        self.folder = pathlib.Path(folder)
        self.classes = self.folder / "classes"
        self.classes.mkdir()
        for file in [*TOP.glob("bench/java/classes/Costs/*.class"), *TOP.glob("java/collections/classes/*/*.class")]:
            shutil.copy(file, self.classes)
        self.filled = self.folder / "filled"
        self.filled.write_bytes(b"")
        os.truncate(self.filled, IMAGE_BYTES)
        subprocess.run(self.command(self.filled, "Nothing"), check=True)

    def command(self, image, name):
        return [self.program, "run", "--image", image, "--main", f"Costs${name}", self.classes]

    def run(self, name):
        """The fences, line writes and acts of a run, less those that each run takes to open the image and to use up its acts."""
        image, counts = self.folder / "image", self.folder / "counts"
        shutil.copy(self.filled, image)
        trace = ["strace", "-f", "--seccomp-bpf", "-c", "-e", "trace=" + ",".join(CALLS), "-o", counts]
        ran = subprocess.run([*trace, *self.command(image, name)], capture_output=True, text=True)
        if not ran.stderr.startswith("autopersist: full Acts "):
            raise SystemExit(f"{name} ended with {ran.returncode}: {ran.stderr.strip()}")
        calls = dict.fromkeys(CALLS, 0)
        for line in counts.read_text().splitlines():
            found = re.match(r"\s*[\d.]+\s+[\d.]+\s+\d+\s+(\d+)\s+(?:\d+\s+)?(\w+)$", line)
            if found and found[2] in calls:
                calls[found[2]] = int(found[1])
        return calls["fdatasync"] + calls["fsync"], calls["pwrite64"], -PRINT_ACTS * int(ran.stdout.split()[-1])


def main(words):
    program = words[0] if words else str(TOP / "autopersist")
    if len(words) > 1 or shutil.which("strace") is None:
        print(__doc__ if len(words) > 1 else "strace isn't there, which counts the calls")
        return 2
    memory = "/dev/shm" if os.path.isdir("/dev/shm") else None
    with tempfile.TemporaryDirectory(prefix="costs_", dir=memory) as folder:
        costs = Costs(program, folder)
        none = costs.run("Nothing")
        print(f"{'':26}{'fences':>8}{'line writes':>13}{'acts':>8}")
        for name, said in OPERATIONS.items():
            fences, writes, acts = ((a - b) / COUNT for a, b in zip(costs.run(name), none))
            print(f"{said:26}{fences:8.1f}{writes:13.1f}{acts:8.0f}", flush=True)
    return 0


if __name__ == "__main__":
    sys.exit(main(sys.argv[1:]))
