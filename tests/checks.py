"""Counts checks, for the scripts of tests. Each script prints the checks that fail and, as its last line, 'N passed, M failed'."""
import os
import shutil
import subprocess
import sys

HERE = os.path.dirname(os.path.abspath(__file__))


class Checks:
    """Counts checks that hold and that fail. `work` is a folder for the script's files."""

    def __init__(self, work=None):
        self.work, self.passed, self.failed = work, 0, 0

    def check(self, name, holds, said=""):
        """Counts a check. Prints its name and what is said of it if it fails."""
        if holds:
            self.passed += 1
        else:
            self.failed += 1
            print(f"failed: {name} {str(said)[:3000]}", flush=True)

    def end(self):
        """Prints the counts, and ends the script with status 1 if a check failed."""
        print(f"{self.passed} passed, {self.failed} failed")
        sys.exit(1 if self.failed else 0)


def preloaded(work, name="alloc_failures"):
    """Builds a library of `memory/`, which LD_PRELOAD loads before the C library. Returns its file."""
    library = os.path.join(work, f"{name}.so")
    compiler = next(name for name in [os.environ.get("CC", "cc"), "gcc", "clang"] if shutil.which(name))
    source = os.path.join(HERE, "memory", f"{name}.c")
    subprocess.run([compiler, "-shared", "-fPIC", "-O1", "-o", library, source, "-ldl"], check=True)
    return library
