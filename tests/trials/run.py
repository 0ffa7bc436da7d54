#!/usr/bin/env python3
"""Runs the trials of `crates/sketch_tests`: calls of the libraries, each alone, with known results, and with allocations that are counted
and fail.

The argument is the path of the program. It prints a line for each test that failed and then 'N passed, M failed'.
"""
import os
import sys
import tempfile

sys.path.append(os.path.dirname(os.path.dirname(os.path.abspath(__file__))))

import failing  # noqa: E402
import trials  # noqa: E402


class Tests(failing.Failing):
    def __init__(self, played, work):
        super().__init__(work)
        self.trials = played

    def play(self, words, refused_at):
        """Runs a trial. Returns its lines, and the report on its marked calls."""
        status, out, said, numbers = self.run_with([self.trials, *words], b"", refused_at, REFUSED_MARKED=1)
        where = f"trial {' '.join(words[:1])}, request {refused_at}:"
        self.check(f"{where} it ends", (status, said) == (0, b""), (status, said))
        self.check(f"{where} all memory is given back", numbers[2] == 0, numbers)
        return out.decode().splitlines(), numbers

    def each_call(self):
        """Fails each allocation of each call in its own run. The call returns an error and changes nothing, or it succeeds
        without that allocation."""
        for name, wanted in trials.CALLS.items():
            lines, _ = self.play([name], 0)
            self.check(f"trial {name}", lines == wanted, lines)
            before = wanted[: wanted.index("call")]
            n = 1
            while True:
                lines, numbers = self.play([name], n)
                if numbers[1] == 0:
                    break
                where = f"trial {name}, request {n}:"
                end = lines.index("after") if "after" in lines else len(lines)
                if lines == wanted:
                    n += 1  # the call succeeded with a smaller allocation
                    continue
                self.check(f"{where} it is refused", lines[:end].count(trials.REFUSED) == 1, lines)
                kept = len(lines) == len(wanted) and all(
                    line in (whole, trials.REFUSED) or line == trials.LEFT.get(whole)
                    for line, whole in zip(lines[:end], wanted)
                )
                self.check(f"{where} the other answers are as without it", kept, lines)
                self.check(f"{where} all is as before", lines[end + 1 :] == before or end == len(lines), lines)
                n += 1

    def allocation_free_calls(self):
        """Checks calls that allocate nothing."""
        for name, wanted in trials.ALLOCATION_FREE.items():
            lines, numbers = self.play([name], 0)
            self.check(f"trial {name}", (lines, numbers[0]) == (wanted, 0), (lines, numbers))

    def counted_calls(self):
        """Checks the numbers of allocations and of freed blocks of calls."""
        for name, wanted in trials.COUNTED.items():
            lines, numbers = self.play([name], 0)
            self.check(f"trial {name}, counted", (numbers[0], numbers[3], lines) == wanted, (lines, numbers))

    def limits(self):
        """Checks images under the minimum limit that accepts them: at most twice the limit is allocated. Under a limit of one
        byte less they are rejected, and nothing is allocated."""
        for name, sizes, limit, takes in trials.LIMITS:
            lines, numbers = self.play([f"limit_{name}", str(limit), *sizes], 0)
            where = f"limit of {name} {' '.join(sizes)}"
            self.check(where, lines == [f"takes {takes}"] and 0 < numbers[4] <= 2 * limit, (lines, numbers))
            lines, numbers = self.play([f"limit_{name}", str(limit - 1), *sizes], 0)
            self.check(f"{where}, less 1", (lines, numbers[0]) == (["refused data TableTooLarge"], 0), (lines, numbers))
        for name, slots, takes in trials.TABLES:
            lines, numbers = self.play([f"limit_{name}", str(slots)], 0)
            told = lines == [f"takes {takes}"] and 0 < numbers[4] <= 2 * takes
            self.check(f"limit of {name} of {slots} slots", told, (lines, numbers))

    def results(self):
        """Checks known results, and items that are hard to hash, clone, write or compare."""
        for name, wanted in {**trials.KNOWN, **trials.ITEMS}.items():
            lines, _ = self.play([name], 0)
            self.check(f"trial {name}", lines == wanted, lines)

    def list_of_calls(self, name):
        """Fails each allocation of a list of calls in its own run: the calls of a session's run. Returns the number of
        allocations."""
        lines, _ = self.play([name], 0)
        then = lines.index("then")
        self.check(f"{name}: no want of memory", trials.REFUSED not in lines)
        every = [str(place) for place in range(then)]
        n = 1
        while True:
            lines, numbers = self.play([name], n)
            if numbers[1] == 0:
                return n - 1
            where = f"{name}, request {n}:"
            if lines[0] == f"run {trials.REFUSED}":
                others, _ = self.play([name] + every, 0)
                self.check(f"{where} nothing was done", lines[1:] == others, lines)
            else:
                places = [place for place, line in enumerate(lines[:then]) if line == trials.REFUSED]
                others, _ = self.play([name] + [str(place) for place in places], 0)
                self.check(f"{where} one is refused", len(places) == 1, places)
                accepted = [line for place, line in enumerate(lines) if place not in places]
                self.check(f"{where} the others are as without it", accepted == others, lines)
            n += 1


def main():
    with tempfile.TemporaryDirectory() as work:
        tests = Tests(os.path.abspath(sys.argv[1]), work)
        run = tests.list_of_calls("session")
        tests.each_call()
        tests.allocation_free_calls()
        tests.counted_calls()
        tests.limits()
        tests.results()
        print(f"requests refused in turn: {run} of a run of a session")
        tests.end()


main()
