"""Arguments with many items: mappings, tables, arrays, streams, buffers that change; and Ctrl-C."""
import array
import collections
import collections.abc
import ctypes
import gc
import itertools
import mmap
import os
import signal
import sys
import threading
import time
import tracemalloc
import types
import unittest
from unittest import mock

import arrow
import datasketches_rattle as ds

try:
    import numpy
except ImportError:
    numpy = None
try:
    import pandas
except ImportError:
    pandas = None

CHUNK = 4096
GREATEST = 2**64 - 1


def sketches():
    """Returns a sketch of each kind that counts str."""
    return ds.CountMinSketch(4, 1 << 14), ds.FrequentItemsSketch(1 << 12, item=str)


def number_sketches():
    """Returns a sketch of each kind that counts int."""
    return (ds.CountMinSketch(4, 1 << 14), ds.CountMinSketch(4, 1 << 14, signed=True), ds.FrequentItemsSketch(1 << 14),
            ds.FrequentItemsSketch(1 << 14, "u64"))


def filled(items=()):
    """Returns a filter with these items."""
    seen = ds.BloomFilter(1 << 16, 5)
    for item in items:
        seen.insert(item)
    return seen


def taken(error):
    """Returns the number of items that a call took before its error, from the error's note."""
    notes = getattr(error, "__notes__", ["items taken before this error: 0"])
    text, _, number = notes[0].rpartition(" ")
    assert (len(notes), text) == (1, "items taken before this error:"), notes
    return int(number)


class Pairs(collections.abc.Mapping):
    """A mapping that is not a dict."""

    def __init__(self, pairs):
        self.pairs = pairs

    def __getitem__(self, key):
        return dict(self.pairs)[key]

    def __iter__(self):
        return (key for key, _ in self.pairs)

    def __len__(self):
        return len(self.pairs)


class Doubled(dict):
    """A dict whose `items` differ from its contents."""

    def items(self):
        return [(key, 2 * value) for key, value in super().items()]


class Mappings(unittest.TestCase):
    def test_values_are_weights(self):
        pairs = [("apple", 5), ("pear", 0), ("Grüße", 2**40)]
        given = (dict(pairs), collections.Counter(dict(pairs)), collections.OrderedDict(pairs), Pairs(pairs),
                 types.MappingProxyType(dict(pairs)), collections.ChainMap(dict(pairs[:1]), dict(pairs)), os_like(pairs))
        for mapping in given:
            for sketch in sketches():
                self.assertIsNone(sketch.update(mapping))
                self.assertEqual([sketch[item] for item in ("apple", "pear", "Grüße", "none")], [5, 0, 2**40, 0], mapping)
                self.assertEqual(sketch.total_weight, 5 + 2**40)
        for sketch in sketches():
            sketch.update(Doubled(pairs))
            self.assertEqual((sketch["apple"], sketch.total_weight), (10, 10 + 2**41))
            sketch.update({})
            self.assertEqual(sketch.total_weight, 10 + 2**41)
        for sketch in number_sketches():
            sketch.update(collections.Counter([7, 7, 8] * 3000))
            self.assertEqual([sketch[item] for item in (7, 8, 9)], [6000, 3000, 0])
        stock = ds.CountMinSketch(4, 1 << 12, signed=True)
        stock.update(collections.Counter(apple=-3, pear=2))
        self.assertEqual((stock["apple"], stock["pear"]), (-3, 2))

    def test_all_or_nothing(self):
        wrong = [({"a": 1, "b": -1}, ValueError), ({"a": 1, "b": 2**64}, ValueError), ({"a": 1, "b": 1.0}, TypeError),
                 ({"a": 1, "b": True}, TypeError), ({"a": 1, (): 1}, TypeError), ({"a": 1, b"b": 1}, TypeError),
                 ({"a": 1, "b": "2"}, TypeError), ({"a": 1, "\ud800": 2}, ValueError), ({"a": 1, "b": None}, TypeError),
                 ({"a": 1, "b": GREATEST}, ds.SketchError)]
        for mapping, error in wrong:
            for sketch in sketches():
                with self.assertRaises(error, msg=mapping):
                    sketch.update(mapping)
                self.assertEqual((sketch["a"], sketch.total_weight), (0, 0))

    def test_no_second_argument(self):
        for sketch in sketches():
            for weights in (1, [1], {"a": 1}):
                with self.assertRaisesRegex(TypeError, "second argument"):
                    sketch.update({"a": 1}, weights)
            self.assertEqual(sketch.total_weight, 0)

    def test_other_calls_say_what_to_write(self):
        seen, load = filled(), ds.CountMinSketch(4, 128)
        for mapping in ({"a": 1}, collections.Counter("a"), Pairs([("a", 1)]), {}):
            for name, call in (("insert", seen.insert), ("contains", seen.contains), ("estimate", load.estimate)):
                with self.assertRaisesRegex(TypeError, rf"{name}\(mapping\.keys\(\)\)"):
                    call(mapping)
        with self.assertRaisesRegex(TypeError, "no iterator"):
            load.update(type("Keyed", (), {"keys": lambda self: ["a"], "__getitem__": lambda self, key: 3})())
        seen.insert({"a": 1}.keys())
        self.assertEqual((seen.contains({"a": 1, "b": 2}.keys()), seen == filled(["a"])), ([True, False], True))

    def test_what_has_no_order_has_no_weights(self):
        for sketch in sketches():
            for weights in ({1, 2}, frozenset((1, 2))):
                with self.assertRaisesRegex(TypeError, "order"):
                    sketch.update(["a", "b"], weights)
            for weights in ({"a": 1, "b": 2}, collections.Counter("ab"), {}):
                with self.assertRaisesRegex(TypeError, "first argument"):
                    sketch.update(["a", "b"], weights)
            for items in ({"a", "b"}, frozenset("ab")):
                with self.assertRaises(TypeError):
                    sketch.update(items, [1, 2])
            self.assertEqual(sketch.total_weight, 0)
            sketch.update({"a", "b"}, 3)
            sketch.update({"a": 1, "b": 2}.keys(), {"a": 1, "b": 2}.values())
            self.assertEqual((sketch["a"], sketch["b"]), (4, 5))


def os_like(pairs):
    """Returns a mapping that only its methods identify, such as a dict of another process."""
    class Remote:
        """An object with a dict's methods."""

        def keys(self):
            return [key for key, _ in pairs]

        def items(self):
            return list(pairs)

        def __getitem__(self, key):
            return dict(pairs)[key]

    return Remote()


class Frame:
    """A stand-in for a table: its iterator yields the names of its columns."""
    columns = ["a", "b"]
    dtypes = [int, int]

    def keys(self):
        return self.columns

    def items(self):
        return [("a", 1)]

    def __iter__(self):
        return iter(self.columns)

    def __getitem__(self, name):
        return name


class Exchanged:
    """A stand-in for a table of a library with the interchange protocol for tables."""

    def __dataframe__(self):
        return None

    def __iter__(self):
        return iter(["a", "b"])


class Column:
    """A stand-in for a Series: it has keys and items, and its values are those of its array."""
    dtype = "any"

    def __init__(self, values):
        self.values = values

    def to_numpy(self):
        return self.values

    def keys(self):
        return range(len(self.values))

    def items(self):
        return enumerate(self.values)

    def __getitem__(self, index):
        return self.values[index]

    def __iter__(self):
        return iter(self.values)


class Tables(unittest.TestCase):
    def refused(self, table):
        """Checks that each call rejects the table with an error that names its columns as valid arguments."""
        seen, load, heavy = filled(), ds.CountMinSketch(4, 128), ds.FrequentItemsSketch(64, item=str)
        for call in (seen.insert, seen.contains, load.update, load.estimate, heavy.update):
            with self.assertRaisesRegex(TypeError, "one of its columns"):
                call(table)
        with self.assertRaisesRegex(TypeError, "one of its columns"):
            load.update(["a", "b"], table)
        self.assertEqual((seen.bits_used, load.total_weight, heavy.total_weight), (0, 0, 0))

    def test_tables_are_rejected(self):
        self.refused(Frame())
        self.refused(Exchanged())

    def test_a_series_counts_its_values(self):
        for values in (array.array("q", [7, 7, 8]), [7, 7, 8]):
            for sketch in number_sketches():
                sketch.update(Column(values))
                sketch.update([9, 9, 9], Column(values))
                self.assertEqual([sketch[item] for item in (7, 8, 9, 0, 1)], [2, 1, 22, 0, 0])
            self.assertEqual(filled([7, 8]).contains(Column(values)), [True, True, True])
        with self.assertRaises(TypeError):
            filled().insert(Column(None))

    def test_pandas(self):
        if pandas is None:
            return  # the stand-ins above have the same methods
        table = pandas.DataFrame({"a": ["x", "y", "x"], "b": [7, 7, 8]}, index=[5, 6, 7])
        self.refused(table)
        for sketch in sketches():
            sketch.update(table["a"])
            sketch.update(table["a"], table["b"])
            sketch.update(table["a"].astype("category"))
            sketch.update(table["a"].astype("string"))
            self.assertEqual((sketch["x"], sketch["y"], sketch.total_weight), (21, 10, 31))
            counts = table["a"].value_counts()
            sketch.update(counts.index, counts)
            sketch.update(counts.to_dict())
            self.assertEqual((sketch["x"], sketch["y"], sketch.total_weight), (25, 12, 37))
        for sketch in number_sketches():
            sketch.update(table["b"])
            sketch.update(table["b"].astype("Int64"))
            sketch.update(table["b"].value_counts())
            self.assertEqual([sketch[item] for item in (7, 8, 2, 1, 0)], [4, 2, 1, 1, 0])
            for wrong in (pandas.Series([7, None]), pandas.Series([True]),
                          pandas.Series(["2020-01-01"], dtype="datetime64[ns]"), pandas.Series([0.5])):
                with self.assertRaises(TypeError):
                    sketch.update(wrong)
                with self.assertRaises(TypeError):
                    sketch.update([7] * len(wrong), wrong)
            self.assertEqual(sketch.total_weight, 8)
        seen = filled(["x"])
        self.assertEqual(list(table[seen.contains(table["a"])]["b"]), [7, 8])


@unittest.skipIf(numpy is None, "no numpy here")
class Masked(unittest.TestCase):
    def test_masked_entries_are_skipped(self):
        masked = numpy.ma.array([7, 8, 9, 7], mask=[False, True, False, False])
        for sketch in number_sketches():
            sketch.update(masked)
            sketch.update(masked, 10)
            sketch.update(numpy.ma.array([7, 8]))
            self.assertEqual([sketch[item] for item in (7, 8, 9)], [23, 1, 11])
            sketch.update(masked[:0])
            sketch.update(numpy.ma.masked_all(3, dtype="i8"))
            self.assertEqual(sketch.total_weight, 35)
        words = numpy.ma.array(["a", "b", "a"], mask=[False, True, False])
        for sketch in sketches():
            sketch.update(words)
            self.assertEqual((sketch["a"], sketch["b"]), (2, 0))
        seen = filled()
        seen.insert(masked)
        self.assertEqual(seen, filled([7, 9]))

    def test_a_masked_weight_skips_its_item(self):
        items, weights = numpy.arange(5), numpy.arange(10, 15)
        masked_items = numpy.ma.array(items, mask=[1, 0, 0, 0, 0])
        masked_weights = numpy.ma.array(weights, mask=[0, 0, 1, 0, 0])
        for sketch in number_sketches():
            sketch.update(masked_items, masked_weights)
            self.assertEqual([sketch[item] for item in range(5)], [0, 11, 0, 13, 14])
            sketch.update(items, masked_weights)
            sketch.update(masked_items, weights)
            self.assertEqual([sketch[item] for item in range(5)], [10, 33, 12, 39, 42])
            sketch.update(masked_items, [1] * 5)
            sketch.update(list(items), masked_weights)
            sketch.update(masked_items, iter([1] * 5))
            self.assertEqual([sketch[item] for item in range(5)], [20, 46, 14, 54, 58])
            total = sketch.total_weight
            for wrong in ((masked_items, weights[:1]), (items[:1], masked_weights), (masked_items.reshape(5, 1), 1),
                          (masked_items.reshape(5, 1), weights.reshape(5, 1))):
                with self.assertRaises(ValueError):
                    sketch.update(*wrong)
            self.assertEqual(sketch.total_weight, total)

    def test_questions_have_an_answer_for_each(self):
        masked = numpy.ma.array([7, 8], mask=[False, True])
        for call in (filled().contains, ds.CountMinSketch(4, 128).estimate):
            with self.assertRaisesRegex(TypeError, "compressed"):
                call(masked)
        with self.assertRaises(TypeError):
            filled().insert(list(masked))


class Types(unittest.TestCase):
    def test_buffers_of_all_widths(self):
        for code in "bhilqBHILQ":
            size = array.array(code).itemsize
            numbers = [0, 1, 77, 2**(8 * size - 1) - 1]
            numbers += [-1, -2**(8 * size - 1)] if code.islower() else [2**(8 * size) - 1]
            given = array.array(code, numbers)
            views = [given] if code == "B" else [given, memoryview(given), memoryview(given)[::-1]]
            for each in views:
                seen = filled()
                seen.insert(each)
                self.assertEqual(seen, filled(numbers), code)
                self.assertEqual(filled(numbers).contains(each), [True] * len(numbers))
                load = ds.CountMinSketch(4, 1 << 14, signed=True)
                load.update(each)
                self.assertEqual([load[number] for number in numbers], [1] * len(numbers))
                heavy = ds.FrequentItemsSketch(64, "i64" if code.islower() else "u64")
                heavy.update(each)
                self.assertEqual(sorted(row[0] for row in heavy.rows()), sorted(numbers))
            self.assertEqual((filled().contains(array.array(code)), filled().insert(array.array(code))), ([], None))
        self.assertEqual(filled().insert((ctypes.c_int16 * 2)(5, -5)), None)

    def test_small_weights(self):
        for code in "bhilqBHILQ":
            for sketch in number_sketches():
                sketch.update([7, 8], array.array(code, [3, 100]))
                sketch.update(array.array("b", [7, 8]), memoryview(array.array("h", [100, 3]))[::-1])
                self.assertEqual((sketch[7], sketch[8]), (6, 200))
        for sketch in (ds.CountMinSketch(4, 128), ds.FrequentItemsSketch(64)):
            for code in "bhiq":
                with self.assertRaises(ValueError):
                    sketch.update([7, 8], array.array(code, [3, -1]))
            self.assertEqual(sketch.total_weight, 0)
        with self.assertRaises(OverflowError):
            ds.FrequentItemsSketch(64, "u64").update(array.array("b", [1, -1]))

    def test_bytes_are_no_numbers(self):
        with mmap.mmap(-1, 8) as mapped:
            for bad in (b"", b"ab", bytearray(2), memoryview(b"ab"), memoryview(array.array("B", b"ab")), mapped,
                        (ctypes.c_char * 2)(), (ctypes.c_double * 2)(), array.array("f"), array.array("u", "ab")):
                for call in (filled().insert, filled().contains, ds.CountMinSketch(4, 128).update,
                             ds.FrequentItemsSketch(64).update):
                    with self.assertRaises(TypeError, msg=repr(bad)):
                        call(bad)
                with self.assertRaises(TypeError, msg=repr(bad)):
                    ds.CountMinSketch(4, 128).update([7] * len(bad), bad)

    @unittest.skipIf(numpy is None, "no numpy here")
    def test_numpy_scalars(self):
        bad = [numpy.float64(1), numpy.float32(1), numpy.bool_(True), numpy.complex128(1), numpy.datetime64(5, "s"),
               numpy.timedelta64(5, "s"), numpy.bytes_(b"a"), numpy.longdouble(1)]
        for each in bad:
            for sketch in (filled(), *number_sketches(), *sketches()):
                for call in (getattr(sketch, "insert", None), getattr(sketch, "update", None), getattr(sketch, "contains", None),
                             getattr(sketch, "estimate", None)):
                    for given in (each, [each]):
                        if call is not None:
                            with self.assertRaises(TypeError, msg=repr(each)):
                                call(given)
            for sketch in number_sketches():
                for given in (each, [each]):
                    with self.assertRaises(TypeError, msg=repr(each)):
                        sketch.update([7], given)
                self.assertEqual(sketch.total_weight, 0)
            with self.assertRaises(TypeError):
                each in filled()
        with self.assertRaisesRegex(TypeError, "str.*int.*not numpy.float64"):
            filled().insert(numpy.float64(1))
        for kind in ("i1", "u1", "i2", "u4", "i8", "u8"):
            self.assertIn(numpy.dtype(kind).type(7), filled([7]))
        self.assertIn(numpy.str_("a"), filled(["a"]))

    @unittest.skipIf(numpy is None, "no numpy here")
    def test_arrays_of_strings(self):
        words = ["apple", "", "Grüße", "\U0001f600", "a b"]
        plain = ["apple", "", "a b"]
        for given, items in ((numpy.array(words), words), (numpy.array(words, dtype=object), words),
                             (numpy.array(words, dtype=">U9"), words), (numpy.array(plain, dtype="S9"), plain),
                             (numpy.array([word.encode() for word in words]), words), (numpy.array(words)[::-1], words)):
            seen = filled()
            seen.insert(given)
            self.assertEqual(seen, filled(items))
            answers = filled(items).contains(given)
            self.assertEqual((type(answers), answers.dtype, list(answers)), (numpy.ndarray, numpy.bool_, [True] * len(items)))
            for sketch in sketches():
                sketch.update(given)
                sketch.update(given, numpy.arange(len(items)) * 0 + 4)
                self.assertEqual([sketch[item] for item in items], [5] * len(items))
        mixed = numpy.array(["a", 7, -1], dtype=object)
        load = ds.CountMinSketch(4, 1 << 12)
        load.update(mixed)
        self.assertEqual(list(load.estimate(mixed)), [1, 1, 1])
        self.assertEqual(filled(["a"]).contains(numpy.array(["a\0", "\0a"])).tolist(), [True, False])

    @unittest.skipIf(numpy is None or pandas is None, "no numpy or pandas here")
    def test_none_in_an_array_is_missing(self):
        """None means the same in an array of objects, a masked one and a Series: a missing item or weight."""
        items, weights = numpy.array(["a", None, "b", "a"], dtype=object), numpy.array([1, 2, None, 4], dtype=object)
        for ways in ((items, weights), (pandas.Series(items), pandas.Series(weights, dtype=object)),
                     (numpy.ma.array(items, mask=False), numpy.ma.array(weights, mask=False))):
            load, heavy = sketches()
            for sketch in (load, heavy):
                sketch.update(ways[0])
                sketch.update(*ways)
                self.assertEqual((sketch["a"], sketch["b"], sketch.total_weight), (2 + 5, 1, 8))
            seen = filled()
            seen.insert(ways[0])
            self.assertEqual(seen.contains(["a", "b"]), [True, True])
            self.assertRaisesRegex((TypeError, ValueError), "missing|masked", seen.contains, ways[0])
        self.assertRaises(TypeError, sketches()[0].update, ["a"], [None])  # a list is no column, whose weights may be missing

    def test_weight_by_name(self):
        for sketch in sketches():
            sketch.update("a", weight=3)
            sketch.update(["a", "b"], weight=[1, 2])
            self.assertEqual((sketch["a"], sketch["b"]), (4, 2))
            for wrong in ({"weights": 3}, {"items": "a"}, {"weight": 1, "more": 2}):
                self.assertRaisesRegex(TypeError, "unexpected keyword argument", sketch.update, "a", **wrong)
            self.assertRaises(TypeError, sketch.update, "a", 1, weight=1)
            self.assertRaises(TypeError, sketch.update, weight=1)

    def test_messages(self):
        """Messages that name what was wrong, and what to write instead."""
        heavy = ds.FrequentItemsSketch(64, item="str")
        cases = [(lambda: heavy.update(memoryview(b"abc")), TypeError, "bytes of a memoryview may be either"),
                 (lambda: heavy.update((ctypes.c_uint8 * 3)()), TypeError, "bytes of a c_ubyte_Array_3 may be either"),
                 (lambda: heavy.update(2**70), OverflowError, "above 2\\*\\*64 - 1"),
                 (lambda: heavy.update(-2**70), OverflowError, "below -2\\*\\*63"),
                 (lambda: heavy.update([2**70]), OverflowError, "above 2\\*\\*64 - 1"),
                 (lambda: heavy.update_words(["to", "be"]), TypeError, "update_words takes a str or a buffer of bytes, not list")]
        if numpy is not None:
            cases += [(lambda: heavy.update(["a"], numpy.array([1.5])), TypeError, "an array of weights has integers, not float64"),
                      (lambda: heavy.update(numpy.array([1.5])), TypeError, "an array of items has integers or strings, not float64"),
                      (lambda: heavy.update([numpy.ma.masked]), TypeError, "an item is a str or an int, not Masked"),
                      (lambda: heavy.update(numpy.array(["2020"], dtype="M8[ns]")), TypeError, "no times .* array.astype\\('int64'\\)")]
        if pandas is not None:
            levels = pandas.MultiIndex.from_tuples([("a", 1), ("b", 2)])
            cases += [(lambda: heavy.update(levels), TypeError, "get_level_values\\(0\\)")]
        for call, error, message in cases:
            with self.assertRaisesRegex(error, message):
                call()
        self.assertEqual(heavy.total_weight, 0)

    @unittest.skipIf(numpy is None, "no numpy here")
    def test_arrays_that_are_rejected(self):
        words = numpy.array(["a", "b"])
        bad = [(numpy.array([1.0]), TypeError), (numpy.array([True]), TypeError), (numpy.array([1j]), TypeError),
               (numpy.array(["2020"], dtype="M8[Y]"), TypeError), (numpy.array([5], dtype="m8[s]"), TypeError),
               (numpy.array([("a", 1)], dtype="U1,i4"), TypeError),
               (numpy.array([b"a", 1.0], dtype=object), TypeError), (numpy.array([b"\xff"]), ValueError),
               (numpy.array(["\ud800"]), ValueError), (numpy.array(5), ValueError), (numpy.array("a"), ValueError),
               (words.reshape(2, 1), ValueError), (numpy.zeros((2, 2), dtype="i4"), ValueError),
               (numpy.zeros((0, 2)), ValueError)]
        for given, error in bad:
            for sketch in (filled(), ds.CountMinSketch(4, 128), ds.FrequentItemsSketch(64), ds.FrequentItemsSketch(64, item=str)):
                calls = [call for call in ("insert", "contains", "update") if hasattr(sketch, call)]
                for call in calls:
                    with self.assertRaises(error, msg=repr(given)):
                        getattr(sketch, call)(given)
                if hasattr(sketch, "total"):
                    self.assertEqual(sketch.total_weight, 0)
        for given in (words, numpy.ones(2), numpy.array([True, True]), numpy.array([1, 2.0], dtype=object)):
            with self.assertRaises(TypeError, msg=repr(given)):
                ds.CountMinSketch(4, 128).update([7, 8], given)

    @unittest.skipIf(numpy is None, "no numpy here")
    def test_arrays_of_numbers(self):
        for order in "<>":
            for kind in ("i1", "u1", "i2", "u2", "i4", "u4", "i8", "u8"):
                dtype = numpy.dtype(order + kind)
                least, most = int(numpy.iinfo(dtype).min), int(numpy.iinfo(dtype).max)
                numbers = [least, 0, 1, 77, most]
                given = numpy.array(numbers, dtype=dtype)
                seen = filled()
                seen.insert(given)
                self.assertEqual(seen, filled(numbers), dtype)
                self.assertEqual(filled(numbers).contains(given[::2]).tolist(), [True] * 3)
                load = ds.CountMinSketch(4, 1 << 12)
                load.update(numpy.arange(3), numpy.array([3, 2, 1], dtype=dtype))
                self.assertEqual(load.estimate(numpy.arange(3, dtype=dtype)).tolist(), [3, 2, 1])
        many = numpy.arange(-2500, 2500, dtype=">i4")
        heavy = ds.FrequentItemsSketch(1 << 14)
        heavy.update(many)
        self.assertEqual(sorted(row[:2] for row in heavy.rows()), [(number, 1) for number in range(-2500, 2500)])

    @unittest.skipIf(numpy is None, "no numpy here")
    def test_empty_arrays(self):
        for kind in ("f8", "U", "S", "O", "i1", "u4", ">i8", "?", "M8[s]"):
            nothing = numpy.array([], dtype=kind)
            for sketch in (*number_sketches(), *sketches()):
                sketch.update(nothing)
                sketch.update(nothing, nothing)
                self.assertEqual(sketch.total_weight, 0)
            seen = filled()
            seen.insert(nothing)
            self.assertEqual((seen.bits_used, len(seen.contains(nothing)), len(ds.CountMinSketch(4, 128).estimate(nothing))),
                             (0, 0, 0))

    def test_the_length_of_an_array_of_answers_is_checked(self):
        class Array(array.array):
            """A stand-in for a numpy array."""

        fake = types.ModuleType("numpy")
        fake.ndarray = Array
        with mock.patch.dict(sys.modules, numpy=fake):
            for length in (0, 2, 4, 400):
                fake.empty = lambda count, kind, length=length: Array("b", bytes(length))
                with self.assertRaisesRegex(ValueError, "for 3 answers"):
                    filled().contains(Array("q", [1, 2, 3]))


def then_fails(count, error):
    """Yields the numbers below `count`, and then raises an error."""
    yield from range(count)
    raise error


class Streams(unittest.TestCase):
    def test_all_lengths(self):
        for length in (0, 1, CHUNK - 1, CHUNK, CHUNK + 1, 3 * CHUNK, 3 * CHUNK + 5):
            for stream in (lambda: (n for n in range(length)), lambda: iter(range(length)), lambda: range(length),
                           lambda: collections.deque(range(length)), lambda: dict.fromkeys(range(length)).keys()):
                for sketch in (ds.CountMinSketch(4, 1 << 16), ds.FrequentItemsSketch(1 << 15)):
                    sketch.update(stream())
                    sketch.update(stream(), 2)
                    self.assertEqual(sketch.total_weight, 3 * length)
                    if length > 0:
                        self.assertEqual([sketch[n] for n in (0, length // 2, length - 1)], [3] * 3)
                seen = ds.BloomFilter(1 << 19, 5)
                seen.insert(stream())
                self.assertEqual(seen.contains(stream()), [True] * length)
                self.assertLess(sum(seen.contains(n for n in range(length, 2 * length))), 20)
        load = ds.CountMinSketch(4, 1 << 17)
        load.update(range(10000), range(10000))
        self.assertEqual(load.estimate(n for n in range(10000)), list(range(10000)))

    def test_strings(self):
        words = [f"wört {number}" for number in range(3 * CHUNK)]
        for sketch in (ds.CountMinSketch(4, 1 << 16), ds.FrequentItemsSketch(1 << 15, item=str)):
            sketch.update(word + "!" for word in words)
            self.assertEqual([sketch[word + "!"] for word in words[::500]], [1] * len(words[::500]))
        seen = ds.BloomFilter(1 << 19, 5)
        seen.insert(word + "!" for word in words)
        self.assertEqual(seen.contains(word + "!" for word in words), [True] * len(words))

    def test_memory_is_bounded(self):
        seen, load, heavy = ds.BloomFilter(1 << 20, 2), ds.CountMinSketch(1, 1 << 10), ds.FrequentItemsSketch(1 << 10)
        for call in (seen.insert, load.update, heavy.update, lambda items: load.update(items, (1 for _ in range(1_000_000)))):
            tracemalloc.start()
            call(number for number in range(1_000_000))
            _, peak = tracemalloc.get_traced_memory()
            tracemalloc.stop()
            self.assertLess(peak, 1 << 20)
        self.assertEqual((load.total_weight, heavy.total_weight), (2_000_000, 1_000_000))

    def test_an_error_says_how_many_were_taken(self):
        for good in (0, 5, CHUNK - 1, CHUNK, CHUNK + 1, 2 * CHUNK + 7):
            whole = good // CHUNK * CHUNK
            for sketch in (ds.CountMinSketch(4, 1 << 14), ds.FrequentItemsSketch(1 << 14)):
                for bad, error in ((b"b", TypeError), (1.5, TypeError), (2**64, OverflowError),
                                   ("\ud800", (ValueError, TypeError))):
                    before = sketch.total_weight
                    with self.assertRaises(error) as raised:
                        sketch.update(itertools.chain(range(good), [bad], range(5)))
                    self.assertEqual((taken(raised.exception), sketch.total_weight - before), (whole, whole))
                with self.assertRaises(KeyError) as raised:
                    sketch.update(then_fails(good, KeyError("own")))
                self.assertEqual((taken(raised.exception), raised.exception.args), (whole, ("own",)))
            seen = filled()
            with self.assertRaises(TypeError) as raised:
                seen.insert(itertools.chain(range(good), [1.5]))
            self.assertEqual((taken(raised.exception), seen == filled(range(whole))), (whole, True))
            with self.assertRaises(ValueError):
                seen.contains(itertools.chain(range(good), [None]))
        for heavy, bad in ((ds.FrequentItemsSketch(1 << 14), 2**63), (ds.FrequentItemsSketch(1 << 14, "u64"), -1),
                           (ds.FrequentItemsSketch(64), "a")):
            with self.assertRaises((OverflowError, TypeError)) as raised:
                heavy.update(itertools.chain(range(CHUNK), [5, bad]))
            self.assertEqual((taken(raised.exception), heavy.total_weight), (CHUNK, CHUNK))

    def test_weights_that_overflow(self):
        for sketch in (ds.CountMinSketch(4, 1 << 16), ds.FrequentItemsSketch(1 << 15)):
            sketch.update(GREATEST // 2 - 1, GREATEST - 2 * CHUNK - 5)
            with self.assertRaises(ds.SketchError) as raised:
                sketch.update(n for n in range(5 * CHUNK))
            self.assertEqual((raised.exception.fault, taken(raised.exception)), ("WeightOverflow", 2 * CHUNK))
            self.assertEqual(sketch.total_weight, GREATEST - 5)

    def test_lists_are_all_or_nothing(self):
        for kind in (list, tuple):
            for sketch in number_sketches():
                with self.assertRaises(TypeError) as raised:
                    sketch.update(kind([*range(3 * CHUNK), 1.5]))
                self.assertEqual((sketch.total_weight, taken(raised.exception)), (0, 0))
        seen = filled()
        for given in ([*range(3 * CHUNK), 1.5], {*range(3 * CHUNK), 1.5}):
            with self.assertRaises(TypeError):
                seen.insert(given)
        self.assertEqual(seen.bits_used, 0)

    def test_weights_of_a_stream(self):
        length = 2 * CHUNK + 3
        kinds = (list, array.array, iter, lambda values: (value for value in values))
        make = lambda kind, values: array.array("q", values) if kind is array.array else kind(values)
        for first, second in itertools.product(kinds, kinds):
            for sketch in number_sketches():
                sketch.update(make(first, range(length)), make(second, range(length)))
                self.assertEqual([sketch[n] for n in (0, 1, CHUNK, length - 1)], [0, 1, CHUNK, length - 1])
                total = sketch.total_weight
                both = kinds.index(first) > 1 and kinds.index(second) > 1
                for less, more in ((length, length + 1), (length + 1, length), (2 * CHUNK, length), (0, 1), (1, 0), (CHUNK, 0)):
                    sketch = type(sketch)(*((4, 1 << 14) if isinstance(sketch, ds.CountMinSketch) else (1 << 14,)))
                    with self.assertRaises(ValueError) as raised:
                        sketch.update(make(first, range(less)), make(second, [1] * more))
                    counted = min(less, more) // CHUNK * CHUNK if both else 0
                    self.assertEqual((sketch.total_weight, taken(raised.exception)), (counted, counted),
                                     (first, second, less, more))
                self.assertEqual(total, sum(range(length)))
        for sketch in number_sketches():
            with self.assertRaises(ValueError):
                sketch.update([1, 2, 3], itertools.repeat(1))
            with self.assertRaises(ValueError):
                sketch.update(itertools.repeat(1), [1, 2, 3])
            self.assertEqual(sketch.total_weight, 0)
            with self.assertRaises(ValueError) as raised:
                sketch.update(itertools.count(), itertools.chain([1] * (CHUNK + 1), [2**64]))
            self.assertEqual((sketch.total_weight, taken(raised.exception)), (CHUNK, CHUNK))

    def test_a_stream_may_use_the_sketch(self):
        seen, load = filled(), ds.CountMinSketch(4, 1 << 16)
        seen.insert(number for number in range(3 * CHUNK) if number not in seen)
        self.assertTrue(all(seen.contains(range(3 * CHUNK))))
        load.update(load.total_weight for _ in range(2 * CHUNK))
        self.assertEqual((load[0], load[CHUNK], load.total_weight), (CHUNK, CHUNK, 2 * CHUNK))

        def closes():
            yield from range(CHUNK + 5)
            load.close()

        with self.assertRaisesRegex(ValueError, "closed") as raised:
            load.update(closes())
        self.assertEqual(taken(raised.exception), CHUNK)

    def test_threads(self):
        load, seen = ds.CountMinSketch(4, 1 << 16), ds.BloomFilter(1 << 20, 3)
        numbers, ended = array.array("q", range(10 * CHUNK)), []

        def run():
            load.update(number for number in numbers)
            load.update(numbers)
            seen.insert(number for number in numbers)
            ended.append(all(seen.contains(number for number in numbers)) and min(load.estimate(iter(numbers))) >= 2)

        threads = [threading.Thread(target=run) for _ in range(4)]
        for thread in threads:
            thread.start()
        for thread in threads:
            thread.join(60)
        self.assertEqual((ended, load.total_weight), ([True] * 4, 8 * len(numbers)))

    def test_a_list_that_changes_under_the_call(self):
        class Clears:
            """A number that clears its list."""

            def __index__(self):
                items.clear()
                return 7

        items = ["a", Clears(), "b"]
        seen = filled()
        seen.insert(items)
        self.assertEqual((seen, items), (filled(["a", 7, "b"]), []))


class Changes(unittest.TestCase):
    """Buffers that another thread changes during the call."""

    def changed(self, call, change, restore, rounds=40):
        """Makes calls while another thread changes and restores the buffer. Returns each call's error, or None."""
        ended, errors = threading.Event(), []

        def changes():
            while not ended.is_set():
                change()
                restore()

        thread = threading.Thread(target=changes)
        thread.start()
        try:
            for _ in range(rounds):
                try:
                    call()
                    errors.append(None)
                except (ValueError, OverflowError, RuntimeError, ds.SketchError) as error:
                    errors.append(error)
        finally:
            ended.set()
            thread.join()
        return errors

    def test_weights(self):
        length = 200_000
        items, weights = array.array("q", [7] * length), array.array("q", [1] * length)
        for make in (lambda: ds.CountMinSketch(4, 1 << 10), lambda: ds.FrequentItemsSketch(64)):
            totals = []

            def call():
                sketch = make()
                try:
                    sketch.update(items, weights)
                finally:
                    totals.append(sketch.total_weight)

            errors = self.changed(call, lambda: weights.__setitem__(-1, -5), lambda: weights.__setitem__(-1, 1))
            for error, total in zip(errors, totals):
                self.assertEqual(total, length if error is None else taken(error))
                self.assertIsInstance(error, (type(None), ValueError, RuntimeError))
                self.assertTrue(error is None or isinstance(error, RuntimeError) or total == 0)

    def test_items(self):
        length = 200_000
        items = array.array("q", [7] * length)
        totals = []

        def call():
            heavy = ds.FrequentItemsSketch(64, "u64")
            try:
                heavy.update(items)
            finally:
                totals.append((heavy.total_weight, heavy[2**64 - 5]))

        errors = self.changed(call, lambda: items.__setitem__(-1, -5), lambda: items.__setitem__(-1, 7))
        for error, (total, wrong) in zip(errors, totals):
            self.assertEqual((total, wrong), (length if error is None else taken(error), 0))
            self.assertIsInstance(error, (type(None), OverflowError, RuntimeError))

    def test_a_change_while_the_call_waits(self):
        busy = array.array("Q", os.urandom(8 << 21))
        cases = (("weights", lambda: ds.CountMinSketch(64, 1 << 10), 0),
                 ("weights", lambda: ds.FrequentItemsSketch(1 << 16, "u64"), 0),
                 ("items", lambda: ds.FrequentItemsSketch(1 << 16, "u64"), 4096))
        for which, make, counted in cases:
            for attempt in range(1, 30):
                sketch, errors = make(), []
                items, weights = array.array("q", [7] * 5000), array.array("q", [1] * 5000)

                def update():
                    try:
                        sketch.update(items, weights)
                    except (RuntimeError, ValueError, OverflowError) as error:
                        errors.append(error)

                first, second = threading.Thread(target=lambda: sketch.update(busy)), threading.Thread(target=update)
                first.start()
                time.sleep(0.01)
                second.start()
                time.sleep(0.005 * attempt)  # until it has checked all items, and waits for the first call
                (items if which == "items" else weights)[4900] = -5
                first.join()
                second.join()
                if errors and isinstance(errors[0], RuntimeError):
                    break
            self.assertEqual([type(error) for error in errors], [RuntimeError], which)
            self.assertEqual((taken(errors[0]), sketch.total_weight), (counted, len(busy) + counted), which)


def raises():
    """Raises an error, as a signal handler or as an item's number."""
    raise KeyError("own")


class Raises:
    """An object whose conversion to a number raises."""

    def __index__(self):
        raises()


KEPT = 1000 if sys.version_info >= (3, 11) else 2000  # bytes that Python itself keeps


class Leaks(unittest.TestCase):
    def calls(self, seen, load, heavy, words):
        """Yields calls that succeed, and calls that are rejected at each step."""
        items, weights, one = ["a", 7], [1, 2], object()
        buffer, mapping = array.array("q", [7, 8]), {"a": 1, "b": 2}
        for first, second in itertools.product(
                (items, tuple(items), set(items), buffer, mapping, iter(items), lambda: (n for n in items * CHUNK),
                 Pairs([("a", 1)]), Column(buffer), Column(one), Frame(), one, [one], iter([one]), [Raises()], {"a": one},
                 {one: 1}, b"ab", {7: 1},
                 memoryview(buffer)[::-1], lambda: then_fails(5, KeyError()), lambda: then_fails(CHUNK + 5, KeyError())),
                (None, 3, weights, buffer, iter(weights), set(weights), mapping, [1], [1, one], [1, -1], [1, GREATEST], one,
                 Raises(), Frame(), lambda: itertools.repeat(1), lambda: then_fails(1, KeyError()))):
            for call in (load.update, heavy.update, words.update):
                given = [each() if callable(each) else each for each in (first, second) if each is not None]
                yield call, given
            if second is None:
                for call in (seen.insert, seen.contains, load.estimate, heavy.estimate, words.bounds):
                    yield call, [first() if callable(first) else first]

    def column_calls(self, seen, load, heavy, words):
        """Yields the same with columns, some of which are malformed, and with words and lines."""
        inner = arrow.described("u", ["a", None, "b"])
        columns = [lambda: arrow.Column("u", ["a", None, "bc" * 9]), lambda: arrow.Column("vu", ["a", None, "bc" * 9]),
                   lambda: arrow.Column("l", [1, None, 3]), lambda: arrow.Column("c", [0, 1, 2], dictionary=inner),
                   lambda: arrow.Column("c", [0, 1, 9], dictionary=inner), lambda: arrow.Column("u", ["a", b"\xff", "b"]),
                   lambda: arrow.Chunked(inner, inner, inner), lambda: arrow.Chunked(inner, inner, fails=1),
                   lambda: arrow.Column("+s"), lambda: arrow.Column("g", []), lambda: arrow.Column("u", ["a"], length=-1),
                   lambda: arrow.Chunked(*[arrow.described("c", [0, None], dictionary=inner)] * 3)]
        for first, second in itertools.product(columns, (None, 3, [1, 2, 3], lambda: arrow.Column("l", [1, None, 3]),
                                                         lambda: arrow.Column("l", [1, -2, 3]), lambda: arrow.Column("u", ["1"] * 3))):
            for call in (load.update, heavy.update, words.update):
                yield call, [each() if callable(each) else each for each in (first, second) if each is not None]
            if second is None:
                for call in (seen.insert, seen.contains, load.estimate, heavy.estimate, words.bounds):
                    yield call, [first()]
        for call in (seen.insert_words, load.update_lines, words.update_words, heavy.update_words):
            for given in ("a b\nc", b"a b\nc", bytearray(b"a b"), b"a \xff", "\ud800", one := object()):
                yield call, [given]
        for call in (heavy.top, words.top):
            yield call, [1 << 70]
            yield lambda k, call=call: call(3), [one]
            yield lambda k, rows=call.__self__.rows: rows(columns=True), [one]

    def array_calls(self, seen, load, heavy, words):
        """Yields the same with numpy arrays. They are long, since numpy itself keeps some bytes."""
        one, word, many = object(), "a" * 50000, numpy.arange(20000)
        mask = many % 2
        for first in (numpy.array([word, "b"]), numpy.array([word.encode(), b"\xff"]), numpy.array([word.encode(), b"b"]),
                      many + 0.5, numpy.ma.array(many, mask=mask), numpy.array([word, one]), numpy.array([]), numpy.array([[1]]),
                      numpy.array(["2020"], dtype="M8[D]"), numpy.ma.array([word, "b"], mask=[0, 1])):
            for second in ([], [1], [[1, 2]], [numpy.ma.array(many, mask=mask)], [numpy.array([1, 2, 3])]):
                for call in (load.update, heavy.update, words.update):
                    yield call, [first, *second]
            for call in (seen.insert, seen.contains, load.estimate):
                yield call, [first]

    def growth(self, calls, least_errors):
        """Returns the number of bytes that twenty rounds of these calls keep."""
        sketches = filled(), ds.CountMinSketch(4, 128), ds.FrequentItemsSketch(64), ds.FrequentItemsSketch(64, item=str)

        def run_all():
            errors = 0
            for call, given in calls(*sketches):
                own = [each for each in given if not isinstance(each, (int, arrow.Chunked))]  # a stream here has cycles
                held = [sys.getrefcount(each) for each in own]
                try:
                    call(*given)
                except (TypeError, ValueError, KeyError, OverflowError, RuntimeError, ds.SketchError):
                    errors += 1
                self.assertEqual([sys.getrefcount(each) for each in own], held)
            self.assertGreater(errors, least_errors)

        run_all()
        tracemalloc.start()
        run_all()
        gc.collect()
        before = tracemalloc.get_traced_memory()[0]
        for _ in range(20):
            run_all()
        gc.collect()
        after = tracemalloc.get_traced_memory()[0]
        tracemalloc.stop()
        return after - before

    def test_nothing_is_kept(self):
        self.assertLess(self.growth(self.calls, 500), KEPT)

    def test_nothing_is_kept_of_columns(self):
        self.assertLess(min(self.growth(self.column_calls, 50) for _ in range(3)), KEPT)
        self.assertEqual((arrow.live, arrow.released_twice), ({}, []))

    @unittest.skipIf(numpy is None, "no numpy here")
    def test_nothing_is_kept_of_arrays(self):
        self.assertLess(self.growth(self.array_calls, 50), 300000)


@unittest.skipUnless(threading.current_thread() is threading.main_thread(), "Ctrl-C is for the main thread")
class Interrupts(unittest.TestCase):
    def setUp(self):
        self.addCleanup(signal.signal, signal.SIGINT, signal.getsignal(signal.SIGINT))

    def interrupted(self, call, after=0.25):
        """Sends this process the signal SIGINT while the call runs."""
        timer = threading.Timer(after, os.kill, (os.getpid(), signal.SIGINT))
        timer.start()
        try:
            call()
        finally:
            timer.cancel()
            timer.join()

    def test_a_batch_ends(self):
        signal.signal(signal.SIGINT, signal.default_int_handler)
        ones = array.array("Q", [1]) * (1 << 23)
        load, seen, words = ds.CountMinSketch(64, 1 << 10), ds.BloomFilter(1 << 16, 300), ["a"] * (1 << 22)
        for arguments, weight in (((ones,), 1), ((ones, 3), 3), ((ones, ones), 1), ((words,), 1)):
            before = load.total_weight
            with self.assertRaises(KeyboardInterrupt) as raised:
                self.interrupted(lambda: load.update(*arguments))
            counted = taken(raised.exception)
            self.assertEqual(load.total_weight - before, counted * weight)
            self.assertTrue(0 < counted < len(arguments[0]), counted)
        for call in (lambda: load.estimate(ones), lambda: load.estimate(words), lambda: seen.insert(ones),
                     lambda: seen.contains(ones), lambda: seen.insert(words), lambda: seen.contains(words)):
            with self.assertRaises(KeyboardInterrupt):
                self.interrupted(call, 0.1)
        seen.insert("still there")
        self.assertIn("still there", seen)

    def test_frequent_items_end(self):
        signal.signal(signal.SIGINT, signal.default_int_handler)
        heavy, many = ds.FrequentItemsSketch(1 << 20), array.array("q", os.urandom(8 << 20)) * 16
        for weight, arguments in ((1, (many,)), (2, (many, 2))):
            before = heavy.total_weight
            with self.assertRaises(KeyboardInterrupt) as raised:
                self.interrupted(lambda: heavy.update(*arguments), 0.15)
            counted = taken(raised.exception)
            self.assertEqual(heavy.total_weight - before, counted * weight)
            self.assertTrue(0 < counted < len(many), counted)

    def test_words_end(self):
        signal.signal(signal.SIGINT, signal.default_int_handler)
        data = b"to be or not to be\n" * (1 << 22)
        for sketch in (ds.BloomFilter(1 << 16, 300), ds.CountMinSketch(64, 1 << 10), ds.FrequentItemsSketch(64, item=str)):
            calls = (sketch.insert_words, sketch.insert_lines) if isinstance(sketch, ds.BloomFilter) else (
                sketch.update_words, sketch.update_lines)
            for call in calls:
                before = 0 if isinstance(sketch, ds.BloomFilter) else sketch.total_weight
                with self.assertRaises(KeyboardInterrupt) as raised:
                    self.interrupted(lambda: call(data), 0.05)
                counted = taken(raised.exception)
                self.assertTrue(0 < counted < len(data), counted)
                if not isinstance(sketch, ds.BloomFilter):
                    self.assertEqual(sketch.total_weight - before, counted)

    def test_a_stream_ends(self):
        signal.signal(signal.SIGINT, signal.default_int_handler)
        for call in (ds.FrequentItemsSketch(64).update, ds.BloomFilter(64, 1).insert, ds.BloomFilter(64, 1).contains):
            with self.assertRaises(KeyboardInterrupt):
                self.interrupted(lambda: call(itertools.repeat(7)))

    def test_a_handler_may_use_the_sketch(self):
        told = []
        load = ds.CountMinSketch(64, 1 << 10)
        numbers = array.array("Q", bytes(8 << 21))
        signal.signal(signal.SIGINT, lambda *_: (told.append(load.total_weight), load.update(5)))
        self.interrupted(lambda: load.update(numbers), 0.1)
        self.assertEqual((len(told), load.total_weight), (1, len(numbers) + 1))
        self.assertTrue(0 < told[0] < len(numbers), told)
        signal.signal(signal.SIGINT, lambda *_: load.close())
        with self.assertRaisesRegex(ValueError, "closed"):
            self.interrupted(lambda: load.update(numbers), 0.1)

    def test_ignored(self):
        load = ds.CountMinSketch(64, 1 << 10)
        numbers = array.array("Q", bytes(8 << 21))
        signal.signal(signal.SIGINT, signal.SIG_IGN)
        self.interrupted(lambda: load.update(numbers), 0.05)
        self.assertEqual(load.total_weight, len(numbers))


if __name__ == "__main__":
    unittest.main()
