"""Builds the Python package, and runs its tests with numpy and without, with each other interpreter of the machine, and those of the
jobs on Dask.

    python3 bindings/python/tests/package.py crates/datasketches_cli/out/datasketches_cli [ARCHIVE] [--only GROUP]

prints the interpreters and the failed tests, and then 'N passed, M failed'. A GROUP is numpy, plain, others or dask.
"""
import argparse
import os
import re
import subprocess
import tempfile

import interpreters

BINDINGS = os.path.dirname(os.path.dirname(os.path.dirname(os.path.abspath(__file__))))
PYTHON = "/usr/bin/python3"
OF_PACKAGE, OF_JOBS = f"{BINDINGS}/python/tests/run.py", f"{BINDINGS}/dask/tests/run.py"

# What is run with other interpreters: all calls, pickles, subclasses, and the end of an interpreter, but no long tests of threads.
OF_OTHERS = ["test_interpreters", "test_copies", "test_count", "test_filter", "test_frequent", "test_frequent_texts", "test_fields",
             "test_interface", "test_joins", "test_keyed_hash", "test_keys", "test_memory", "test_prefixes", "test_sizes"]


class Runs:
    """The runs of the tests, and the sums of what they print."""

    def __init__(self, words, work):
        self.program = os.path.abspath(words.program)
        self.archive = [words.archive] if words.archive else []
        self.work = work
        self.passed, self.failed = 0, 0

    def build(self, python, **more):
        """Builds the package for an interpreter, and returns its folder."""
        folder = tempfile.mkdtemp(dir=self.work)
        subprocess.run(["bash", f"{BINDINGS}/python/build.sh", folder, *self.archive], check=True,
                       env={**os.environ, "PYTHON": python, **more})
        return folder

    def run(self, name, python, script, path, seconds, most_skipped, tests=()):
        """Runs a script of tests, or of it only some."""
        env = {"PATH": "/usr/bin:/bin", "LANG": "C.UTF-8", "PYTHONDONTWRITEBYTECODE": "1", "PYTHONPATH": path,
               "DATASKETCHES_CLI": self.program}
        ran = subprocess.run([python, script, *tests], env=env, capture_output=True, text=True, timeout=seconds)
        last = ran.stdout.strip().split("\n")[-1]
        counts = re.fullmatch(r"(\d+) passed, (\d+) failed", last)
        passed, failed = (int(counts[1]), int(counts[2])) if counts else (0, 1)
        skipped = len(re.findall("^skipped ", ran.stdout, re.MULTILINE))
        if passed == 0 or failed or ran.returncode or skipped > most_skipped:
            print(f"failed: {name}: {last}\n{ran.stdout[-2000:]}\n{ran.stderr[-4000:]}")
            failed = max(1, failed)
        self.passed, self.failed = self.passed + passed, self.failed + failed


def run_others(runs):
    """Runs the tests of the package with each other interpreter."""
    own = subprocess.run([PYTHON, "-c", "import sys; print('%d.%d' % sys.version_info[:2])"], capture_output=True, text=True, check=True)
    own = own.stdout.strip()
    others = interpreters.found_here(besides=own)
    print(f"tested with Python {own}, and with", ", ".join(f"{whole} ({path})" for path, whole in others.values()) or "no other")
    absent = [version for version in interpreters.TESTED if version not in (own, *others)]
    if absent:
        print("not found here, or without headers: Python", ", ".join(absent))
    for path, whole in others.values():
        runs.run(f"the package with Python {whole}", path, OF_PACKAGE, runs.build(path, CFLAGS="-O1"), 1800, 10, OF_OTHERS)


def main():
    parser = argparse.ArgumentParser()
    parser.add_argument("program")
    parser.add_argument("archive", nargs="?")
    parser.add_argument("--only", choices=["numpy", "plain", "others", "dask"])
    words = parser.parse_args()
    with tempfile.TemporaryDirectory() as work:
        runs = Runs(words, work)
        built, hidden = runs.build(PYTHON) if words.only != "others" else "", os.path.join(work, "hidden")
        os.mkdir(hidden)
        with open(os.path.join(hidden, "numpy.py"), "w", encoding="utf-8") as file:
            file.write('raise ImportError("there is no numpy here")\n')
        groups = {
            "numpy": lambda: runs.run("the package with numpy", PYTHON, OF_PACKAGE, built, 1800, 0),
            "plain": lambda: runs.run("the package without numpy", PYTHON, OF_PACKAGE, f"{hidden}:{built}", 1800, 28),
            "others": lambda: run_others(runs),
            "dask": lambda: runs.run("the jobs on Dask", PYTHON, OF_JOBS, built, 1800, 0),
        }
        for group, run in groups.items():
            if words.only in (None, group):
                run()
        print(f"{runs.passed} passed, {runs.failed} failed")
        return 1 if runs.failed else 0


if __name__ == "__main__":
    raise SystemExit(main())
