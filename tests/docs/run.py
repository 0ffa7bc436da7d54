"""Checks pages beside the sources: examples, errors, links, lists, the manual, times and versions.

    python3 tests/docs/run.py

prints a line for each check that failed, and then 'N passed, M failed'.
"""
import os
import sys

sys.path.append(os.path.dirname(os.path.dirname(os.path.abspath(__file__))))

import checks  # noqa: E402
import examples  # noqa: E402
import faults  # noqa: E402
import links  # noqa: E402
import lists  # noqa: E402
import manual  # noqa: E402
import times  # noqa: E402
import versions  # noqa: E402


def main():
    tests = checks.Checks()
    for page in [examples, faults, links, lists, manual, times, versions]:
        page.check(tests)
    tests.end()


main()
