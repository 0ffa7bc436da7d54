"""Refuses each request for memory in turn, for every kind of argument. A call then raises MemoryError or counts what it should."""
import array
import collections
import ctypes
import sys
import unittest

import arrow
import datasketches_rattle as ds

try:
    import _testcapi
except ImportError:
    _testcapi = None
try:
    import numpy
except ImportError:
    numpy = None

# More requests than a call makes before its last test of an argument.
REQUESTS = 400


class Pairs(dict):
    """A dict with a class of its own."""


class Mapping(collections.UserDict):
    """A mapping that is not a dict."""


class Nullable:
    """A type of integers some of which are missing."""

    def __init__(self, numpy_dtype):
        self.numpy_dtype = numpy_dtype


class Series:
    """A column as those of pandas, which itself crashes if it gets no memory."""

    def __init__(self, dtype, values, gaps=None):
        self._dtype, self.values, self.gaps = dtype, values, gaps

    @property
    def dtype(self):
        return self._dtype

    def to_numpy(self, dtype=None, na_value=None):
        return self.values

    def isna(self):
        return self.gaps

    def __iter__(self):
        return iter(self.values)


class Categories(Series):
    """A column of categories."""

    def __init__(self, codes, categories):
        super().__init__(self, None)
        self.codes = codes
        self._categories = categories

    @property
    def array(self):
        return self

    @property
    def categories(self):
        return self._categories


class Exported:
    """A column that was exported before. Columns of `arrow` need much memory of their own, and ctypes loses some errors."""

    def __init__(self, *column):
        self.made = arrow.Column(*column).__arrow_c_array__()

    def __arrow_c_array__(self, requested_schema=None):
        return self.made


def arguments():
    """Yields names, arguments of `update` that count the items 1, 2 and 3, and the weights that these get."""
    once, weighted = {1: 1, 2: 1, 3: 1}, {1: 10, 2: 20, 3: 30}
    yield "list", ([1, 2, 3],), once
    yield "iterator", (iter([1, 2, 3]),), once
    yield "array", (array.array("q", [1, 2, 3]),), once
    yield "bytes in an array", (array.array("B", [1, 2, 3]),), once
    yield "ctypes", ((ctypes.c_int64 * 3)(1, 2, 3),), once
    yield "dict", ({1: 10, 2: 20, 3: 30},), weighted
    yield "own dict", (Pairs({1: 10, 2: 20, 3: 30}),), weighted
    yield "own mapping", (Mapping({1: 10, 2: 20, 3: 30}),), weighted
    yield "weights in a list", ([1, 2, 3], [10, 20, 30]), weighted
    yield "weights in an array", ([1, 2, 3], array.array("Q", [10, 20, 30])), weighted
    yield "Arrow", (Exported("l", [1, None, 2, 3]),), once
    yield "Arrow's weights", (Exported("l", [1, 2, 3]), Exported("L", [10, 20, 30])), weighted
    if numpy is not None:
        mask = [False, True, False, False]
        yield "numpy", (numpy.array([1, 2, 3]),), once
        yield "bytes in numpy", (numpy.array([1, 2, 3], dtype="u1"),), once
        yield "objects in numpy", (numpy.array([1, 2, 3], dtype=object),), once
        yield "masked", (numpy.ma.array([1, 9, 2, 3], mask=mask),), once
        yield "masked weights", ([1, 9, 2, 3], numpy.ma.array([10, 99, 20, 30], mask=mask)), weighted
        gaps = numpy.array([False, True, False, False])
        numbers, gapped = numpy.array([1, 2, 3]), numpy.array([1, 9, 2, 3])
        objects = numpy.array([1, None, 2, 3], dtype=object)
        yield "Series", (Series(numbers.dtype, numbers),), once
        yield "Series of objects", (Series(objects.dtype, objects, gaps),), once
        yield "Series with missing", (Series(Nullable(numbers.dtype), gapped, gaps),), once
        yield "categories", (Categories(numpy.array([0, 1, 2], dtype="i1"), numbers),), once
        yield "weights in a Series", (Series(numbers.dtype, numbers), Series(numbers.dtype, 10 * numbers)), weighted


@unittest.skipIf(_testcapi is None, "this Python cannot refuse memory")
class RefusedMemory(unittest.TestCase):
    def refused(self, name, call):
        """Calls what `call` returns with fresh objects, each time with the next request refused, and checks what it did."""
        hook = sys.unraisablehook
        self.addCleanup(setattr, sys, "unraisablehook", hook)
        sys.unraisablehook = lambda _: None  # the releases of `arrow` need memory too, and lose columns without it
        self.addCleanup(arrow.live.clear)
        for at in range(1, REQUESTS):
            run, check = call()
            error = None
            _testcapi.set_nomemory(at, at + 1)
            try:
                run()
            except MemoryError:
                error = MemoryError
            except Exception as other:  # kept, since an assertion here would need memory
                error = other
            finally:
                _testcapi.remove_mem_hooks()
            # CPython 3.11 itself loses the error if there is no memory for a frame
            if isinstance(error, SystemError) and "without setting an exception" in str(error):
                error = MemoryError
            self.assertIn(error, (None, MemoryError), (name, at))
            check(error, (name, at))

    def test_updates(self):
        for name in [it[0] for it in arguments()]:
            def call():
                given, expected = next((given, expected) for it, given, expected in arguments() if it == name)
                sketch = ds.FrequentItemsSketch(64)

                def check(error, where):
                    found = {item: lower for item, _, lower, _ in sketch.rows()}
                    # a stream is counted chunk by chunk, and anything else whole or not at all
                    self.assertIn(found, ({}, expected), where)
                    if error is None:
                        self.assertEqual(found, expected, where)

                return (lambda: sketch.update(*given)), check

            self.refused(name, call)

    def test_contains_and_insert(self):
        for many in (lambda: [1, 2, 3], lambda: iter([1, 2, 3]), lambda: array.array("q", [1, 2, 3])):
            def call():
                seen, given = ds.BloomFilter(1024, 5), many()

                def check(error, where):
                    found = seen.contains([1, 2, 3])
                    self.assertIn(found, ([False] * 3, [True] * 3), where)
                    # no error comes after items were inserted
                    self.assertEqual(found == [True] * 3, error is None, where)

                return (lambda: seen.contains_and_insert(given)), check

            self.refused("contains_and_insert", call)

    def test_words(self):
        def call():
            sketch = ds.FrequentItemsSketch(64, item=str)

            def check(error, where):
                self.assertEqual(sketch.total_weight == 4, error is None, where)

            return (lambda: sketch.update_words(b"to be or not")), check

        self.refused("update_words", call)

    def test_fields(self):
        for threads in (1, 2):
            def call():
                sketch = ds.FrequentItemsSketch(64, item=str)

                def check(error, where):
                    self.assertTrue(sketch.total_weight == 11 if error is None else sketch.total_weight in (0, 5), where)

                return (lambda: sketch.update_fields(b'5,"a ""b"""\n6,c\n', 1, weight=0, csv=True, threads=threads)), check

            self.refused("update_fields", call)

    def test_questions(self):
        for many in (lambda: [1, 2, 3], lambda: array.array("q", [1, 2, 3])):
            def call():
                sketch, given, results = ds.FrequentItemsSketch(64), many(), []
                sketch.update([1, 2, 3], 7)

                def check(error, where):
                    self.assertEqual(results, [] if error else [[7, 7, 7]], where)

                return (lambda: results.append(sketch.estimate(given))), check

            self.refused("estimate", call)


if __name__ == "__main__":
    unittest.main()
