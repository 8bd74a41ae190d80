"""Runs the programs of bench/java on the built program, and under `java -Xint` where there is a JDK, and times them."""
import argparse
import os
import pathlib
import shutil
import subprocess
import tempfile
import time

TOP = pathlib.Path(__file__).resolve().parent.parent
CLASSES = TOP / "bench" / "java" / "classes"
IMAGE_BYTES = 64 * 32_768


def words_of(usage, runs=5):
    """The words of a benchmark: the program, and how many runs."""
    parser = argparse.ArgumentParser(description=usage, formatter_class=argparse.RawDescriptionHelpFormatter)
    parser.add_argument("program", nargs="?", default=str(TOP / "autopersist"))
    parser.add_argument("--runs", type=int, default=runs)
    return parser.parse_args()


def has_java():
    return shutil.which("java") is not None


class Runtime:
    """The built program, with an image file that is blank for each run, or two as a mirror, which have a line more."""

    def __init__(self, program, parent=None, is_mirrored=False):
        self.program = program
        self.is_mirrored = is_mirrored
        self.folder = tempfile.TemporaryDirectory(prefix="bench_java_", dir=parent)
        self.empty = 0.0

    def blank(self, name):
        """A file of zeros of this name, in place of what an earlier run left."""
        file = pathlib.Path(self.folder.name) / name
        file.write_bytes(b"")
        os.truncate(file, IMAGE_BYTES + 64 * self.is_mirrored)
        return file

    def once(self, name, *more):
        """The seconds of a run, with further words if any, and what it printed. A run that doesn't end well ends the benchmark."""
        words = [self.program, "run", "--image", self.blank("image"), "--main", name, *more, CLASSES / name]
        if self.is_mirrored:
            words[2:2] = ["--mirror", self.blank("mirror")]
        begun = time.perf_counter()
        ran = subprocess.run(words, capture_output=True)
        seconds = time.perf_counter() - begun
        if ran.returncode != 0:
            raise SystemExit(f"{name} ended with {ran.returncode}: {ran.stderr.decode(errors='replace').strip()}")
        return seconds, ran.stdout

    def least(self, name, runs):
        """The least seconds of several runs, less those of a run that does nothing, and what the last one printed."""
        ran = [self.once(name) for _ in range(runs)]
        return max(min(seconds for seconds, _ in ran) - self.empty, 1e-9), ran[-1][1]

    def prepare(self, runs):
        self.empty = 0.0
        self.empty, _ = self.least("Nothing", runs)
        return self.empty


def clocked(name, runs):
    """The least wall and processor seconds of several runs of main within one `java -Xint`, and what one printed; none where there is
    no JDK."""
    if not has_java():
        return None, None
    words = ["java", "-Xint", "-Dfile.encoding=UTF-8", "-cp", f"{CLASSES / 'Timer'}{os.pathsep}{CLASSES / name}", "Timer", name, str(runs)]
    least, _, printed = subprocess.run(words, capture_output=True, check=True).stdout.partition(b"\n")
    return tuple(int(part) / 1e9 for part in least.split()), printed


def interpreted(name, runs):
    """The wall seconds of that alone."""
    least, printed = clocked(name, runs)
    return least and least[0], printed


def measure(runtime, name, runs):
    """The seconds of both. What they print has to be the same."""
    ours, printed = runtime.least(name, runs)
    theirs, wanted = interpreted(name, runs)
    if wanted is not None and printed != wanted:
        raise SystemExit(f"{name} prints {printed[:60]!r}, and with a JDK {wanted[:60]!r}")
    return ours, theirs
