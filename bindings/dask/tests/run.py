#!/usr/bin/env python3
"""Runs all tests of the jobs. `PYTHONPATH` is the folder of the built package `datasketches_rattle`."""
import os
import sys
import unittest

sys.dont_write_bytecode = True
HERE = os.path.dirname(os.path.abspath(__file__))
sys.path[:0] = [HERE, os.path.dirname(HERE)]


def main():
    """Runs them, and prints 'N passed, M failed'."""
    result = unittest.TextTestRunner(verbosity=2).run(unittest.defaultTestLoader.discover(HERE))
    failed = len(result.failures) + len(result.errors)
    print(f"{result.testsRun - failed - len(result.skipped)} passed, {failed} failed")
    return 1 if failed else 0


if __name__ == "__main__":
    sys.exit(main())
