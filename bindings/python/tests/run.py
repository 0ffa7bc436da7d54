#!/usr/bin/env python3
"""Runs the tests of the package, or those of the files that are named, as `test_count`, and the examples of its docs. `PYTHONPATH` is the
folder of the built package."""
import doctest
import os
import sys
import unittest

sys.dont_write_bytecode = True

import datasketches_rattle as ds  # noqa: E402

HERE = os.path.dirname(os.path.abspath(__file__))


def examples():
    """Returns the examples in the package's docs and in its README."""
    readme = os.path.join(HERE, "..", "README.md")
    suite = unittest.TestSuite([doctest.DocTestSuite(ds)])
    if os.path.exists(readme):
        suite.addTest(doctest.DocFileSuite(os.path.abspath(readme), module_relative=False))
    return suite


def main():
    """Runs them, and prints 'N passed, M failed'."""
    loader, names = unittest.defaultTestLoader, sys.argv[1:]
    suite = unittest.TestSuite([loader.loadTestsFromNames(names) if names else loader.discover(HERE), examples()])
    result = unittest.TextTestRunner(verbosity=1).run(suite)
    failed = len(result.failures) + len(result.errors)
    for test, reason in result.skipped:
        print(f"skipped {test.id()}: {reason}")
    print(f"{result.testsRun - failed - len(result.skipped)} passed, {failed} failed")
    return 1 if failed else 0


if __name__ == "__main__":
    sys.exit(main())
