"""Columns of Arrow, numpy and pandas: the same rows by every way in, missing values, malformed columns, and releases."""
import array
import collections
import random
import struct
import unittest

import arrow
import datasketches_rattle as ds
from arrow import Chunked, Column, described

try:
    import numpy
except ImportError:
    numpy = None
try:
    import pandas
except ImportError:
    pandas = None

CHUNK = 1024
LONG = "a string of more than twelve bytes, ü"


def words_of(chance, count, missing=0.0):
    """Random strings, some of which are long, empty, not ASCII or None."""
    pool = ["", "a", "b\0c", "Grüße", "\U0001f34e" * 5, LONG, "x" * 100] + [f"w{n}" for n in range(50)]
    return [None if chance.random() < missing else chance.choice(pool) for _ in range(count)]


def sketches(of):
    """A filter, two counts, and frequent items, all empty."""
    return (ds.BloomFilter(1 << 16, 5), ds.CountMinSketch(4, 1 << 10), ds.CountMinSketch(4, 1 << 10, signed=True),
            ds.FrequentItemsSketch(1 << 12, item=of))


def take(sketch, *given):
    """Inserts or updates."""
    return (sketch.insert if isinstance(sketch, ds.BloomFilter) else sketch.update)(*given)


def content(sketch):
    """What a sketch has, in a form that does not depend on the order in which it came."""
    return sorted(sketch.rows(), key=str) if isinstance(sketch, ds.FrequentItemsSketch) else bytes(sketch)


def without_none(values):
    return [value for value in values if value is not None]


def listed(results):
    """The results of a query as a list."""
    if hasattr(results, "to_numpy"):
        results = results.to_numpy()
    return [tuple(each) if getattr(each, "ndim", 0) else each for each in results]


class Released(unittest.TestCase):
    def tearDown(self):
        self.assertEqual((arrow.live, arrow.released_twice, arrow._structs), ({}, [], {}))

    def same(self, column, values, of=None):
        """Checks that a column has the same effect and the same results as a list."""
        of = of or (str if any(isinstance(value, str) for value in values) else int)
        for one, other in zip(sketches(of), sketches(of)):
            take(one, column())
            take(other, without_none(values))
            self.assertEqual(content(one), content(other))
            calls = ("contains",) if isinstance(one, ds.BloomFilter) else ("estimate", "bounds")
            for call in (call for call in calls if hasattr(one, call)):
                if None in values:
                    with self.assertRaisesRegex(ValueError, f"{values.count(None)} of {len(values)} are missing"):
                        getattr(one, call)(column())
                else:
                    self.assertEqual(listed(getattr(one, call)(column())), getattr(one, call)(list(values)))
        if None not in values:
            return
        one, other = sketches(of)[1::2], sketches(of)[1::2]
        for sketch in one:
            take(sketch, column(), 7)
        for sketch in other:
            take(sketch, without_none(values), 7)
        self.assertEqual([content(sketch) for sketch in one], [content(sketch) for sketch in other])

    def unchanged(self, error, column, message="", weights=False):
        """Checks that a column is rejected, and changes nothing."""
        for sketch in sketches(str) + sketches(int):
            before = content(sketch)
            calls = [lambda: take(sketch, column())]
            if not weights:
                calls.append(lambda: getattr(sketch, "contains" if isinstance(sketch, ds.BloomFilter) else "estimate")(column()))
            for call in calls:
                with self.assertRaisesRegex(error, message):
                    call()
            if not isinstance(sketch, ds.BloomFilter):
                with self.assertRaises((TypeError, ValueError)):
                    take(sketch, [1, 2], column())
            self.assertEqual(content(sketch), before)


class Arrow(Released):
    def test_integers(self):
        for kind, code in arrow.WIDTHS.items():
            bits = 8 * struct.calcsize("<" + code)
            least, most = (-(2 ** (bits - 1)), 2 ** (bits - 1) - 1) if code.islower() else (0, 2**bits - 1)
            of = "i64" if code.islower() else "u64"
            values = [least, 0, 1, 77, most, most - 1]
            self.same(lambda: Column(kind, values), values, of)
            for offset in range(len(values) + 1):
                self.same(lambda: Column(kind, values, offset), values[offset:], of)
                gaps = [None if n % 3 == 1 else value for n, value in enumerate(values)] * 3
                self.same(lambda: Column(kind, gaps, offset), gaps[offset:], of)
        self.same(lambda: Column("i", [1, 2, 3]), [1, 2, 3], "u64")
        self.same(lambda: Column("l", [-5, None, 3], 1), [None, 3], "u64")
        for wrong in ([-1], [1, None, -3]):
            with self.assertRaises(OverflowError):
                ds.FrequentItemsSketch(64, "u64").update(Column("s", wrong))
        with self.assertRaises(OverflowError):
            ds.FrequentItemsSketch(64).update(Column("L", [2**63]))

    def test_strings(self):
        chance = random.Random(1)
        for kind in ("u", "U", "vu"):
            for missing in (0, 0.3, 1):
                for count in (0, 1, 50, 3000):
                    values = words_of(chance, count, missing)
                    offset = chance.randrange(count + 1)
                    self.same(lambda: Column(kind, values), values, str)
                    self.same(lambda: Column(kind, values, offset), values[offset:], str)
        values = words_of(chance, 60, 0.3)
        for offset in range(17):
            self.same(lambda: Column("u", values, offset), values[offset:], str)

    def test_buffers_that_are_not_aligned(self):
        chance = random.Random(4)
        for kind in ("u", "U", "vu"):
            for shift in (1, 2, 4, 8):
                for missing in (0, 0.3):
                    values = words_of(chance, 3000, missing)
                    self.same(lambda: Column(kind, values, 5, shift=shift), values[5:], str)

    def test_one_way_or_another(self):
        """The unknown number of nulls, arrays without offsets, and columns of nulls."""
        self.same(lambda: Column("u", ["a", None, "b"], null_count=-1), ["a", None, "b"])
        self.same(lambda: Column("u", ["a", "b"], null_count=-1), ["a", "b"])
        self.same(lambda: Column("l", [1, None, 2], null_count=0), [1, 0, 2])
        self.same(lambda: Column("u", [], buffers=[None, None, None]), [], str)
        self.same(lambda: Column("u", ["", ""], buffers=[None, bytes(12), None]), ["", ""])
        self.same(lambda: Column("n", [None] * 3), [None] * 3, str)
        self.same(lambda: Column("n", [None] * 3), [None] * 3, int)

    def test_streams(self):
        chance = random.Random(2)
        parts = [words_of(chance, count, 0.2) for count in (0, 3, 2000, 1, 0, 700)]
        offsets = [min(1, len(part)) for part in parts]
        values = [value for part, offset in zip(parts, offsets) for value in part[offset:]]
        for kind in ("u", "U", "vu"):
            self.same(lambda: Chunked(*(described(kind, part, offset) for part, offset in zip(parts, offsets))), values)
        numbers = [[1, None, -3] * 500, [], [7] * 1500]
        self.same(lambda: Chunked(*(described("l", part) for part in numbers)), sum(numbers, []))
        self.same(lambda: Chunked(described("u", [])), [], str)
        tiny = words_of(chance, 3000, 0.1)
        self.same(lambda: Chunked(*(described("u", [word]) for word in tiny)), tiny)

    def test_dictionaries(self):
        words = ["a", LONG, None, "Grüße", ""]
        codes = [0, 1, None, 2, 3, 4, 4, 0] * 200
        values = [None if code is None else words[code] for code in codes]
        for index in arrow.WIDTHS:
            for kind in ("u", "U", "vu"):
                inner = described(kind, ["unused", *words], 1)
                self.same(lambda: Column(index, codes, 5, dictionary=inner), values[5:])
        twice = [described("c", codes, dictionary=described("u", words)),
                 described("c", [1, 0], dictionary=described("u", ["b", "c"]))]
        self.same(lambda: Chunked(*twice), values + ["c", "b"])
        for kind in ("u", "U", "vu", "l", "n"):
            self.same(lambda: Column("c", [None, None], dictionary=described(kind, [])), [None, None], int if kind == "l" else str)
            self.same(lambda: Column("c", [], dictionary=described(kind, [])), [], str)
            self.unchanged(ValueError, lambda: Column("c", [0], dictionary=described(kind, [])), "index")
        self.same(lambda: Column("c", [None], dictionary=described("u", [], buffers=[None] * 3)), [None], str)
        self.same(lambda: Column("c", [0, 0], dictionary=described("n", [None])), [None, None], str)
        numbers = [5, -6, None, 2**62]
        self.same(lambda: Column("s", [3, 2, 1, None, 0], dictionary=described("l", numbers)), [2**62, None, -6, None, 5])
        with self.assertRaises(OverflowError):
            ds.FrequentItemsSketch(64, "u64").update(Column("s", [0, 1], dictionary=described("l", numbers)))
        ds.FrequentItemsSketch(64, "u64").update(Column("s", [0, 0], dictionary=described("l", numbers)))

    def test_weights(self):
        """Pairs of which one is missing are dropped, whatever the items and the weights are."""
        items, weights = ["a", None, "b", "c", "a"] * 700, [1, 2, None, 4, 5] * 700
        numbers = [None if item is None else ord(item) for item in items]
        kept = collections.Counter()
        for item, weight in zip(items, weights):
            if item is not None and weight is not None:
                kept[item] += weight
        item_ways = [lambda: Column("u", items), lambda: Chunked(described("U", items[:99]), described("U", items[99:]))]
        number_ways = [lambda: Column("s", numbers)]
        weight_ways = [lambda: Column("c", weights), lambda: Column("L", weights),
                       lambda: Chunked(described("i", weights[:1000]), described("i", weights[1000:]))]
        if numpy is not None:
            masked = numpy.ma.array([weight or 0 for weight in weights], mask=[weight is None for weight in weights])
            item_ways.append(lambda: numpy.ma.array([item or "" for item in items], mask=[item is None for item in items]))
            weight_ways.append(lambda: masked)
        for way in item_ways + number_ways:
            of, key = (str, str) if way not in number_ways else (int, ord)
            for weigh in weight_ways:
                for sketch in sketches(of)[1:]:
                    sketch.update(way(), weigh())
                    self.assertEqual([sketch[key(item)] for item in "abc"], [kept[item] for item in "abc"])
                    self.assertEqual(sketch.total_weight, sum(kept.values()))
            plain = [1 if weight is None else weight for weight in weights]
            expected = sum(weight for item, weight in zip(items, plain) if item is not None)
            for given in (plain, tuple(plain), iter(plain), array.array("Q", plain), array.array("b", plain)):
                sketch = ds.FrequentItemsSketch(64, item=of)
                sketch.update(way(), given)
                self.assertEqual(sketch.total_weight, expected)
        for given in (["a"] * 5, iter(["a"] * 5)):
            sketch = ds.CountMinSketch(4, 128)
            sketch.update(given, Column("c", [1, None, 3, 4, 5]))
            self.assertEqual(sketch["a"], 13)
        sketch = ds.CountMinSketch(4, 128)
        sketch.update(Column("u", ["a", None]), Column("l", [1, -5]))
        for wrong in ([1, -5], [1, 2, 3], [1]):
            with self.assertRaises(ValueError):
                sketch.update(Column("u", ["a", "b"]), Column("l", wrong))
        for kind, wrong in (("u", ["1", "2"]), ("g", [])):
            with self.assertRaises(TypeError):
                sketch.update(["a", "b"], Column(kind, wrong))
        with self.assertRaises(TypeError):
            sketch.update(["a", "b"], Column("c", [0, 0], dictionary=described("l", [1])))
        self.assertEqual(sketch.total_weight, 1)
        sketch.update(["a"], 2**64 - 2)
        with self.assertRaises(ds.SketchError) as raised:
            sketch.update(Column("u", ["a", "b", None]), Column("c", [1, 1, 100]))
        self.assertEqual((raised.exception.fault, sketch["b"]), ("WeightOverflow", 0))

    def test_tables_and_other_types(self):
        self.unchanged(TypeError, lambda: Column("+s"), "one of its columns")
        self.unchanged(TypeError, lambda: Chunked(described("+s", [])), "one of its columns")
        for kind in ("g", "f", "b", "z", "Z", "tdD", "tsu:", "+l", "w:5", "", "ll", "vz"):
            self.unchanged(TypeError, lambda: Column(kind), "format")
        self.unchanged(TypeError, lambda: Column("c", [0], dictionary=described("g", [])), "format")

        class Other:
            def __arrow_c_array__(self):
                return 5

        class Failing:
            def __arrow_c_stream__(self):
                raise KeyError("own")

        self.unchanged(TypeError, Other, "no Arrow column")
        self.assertRaises(KeyError, ds.BloomFilter(64, 1).insert, Failing())

    def test_malformed(self):
        words, offsets = ["a", "bc", "d"], struct.pack("<4i", 0, 1, 3, 4)
        bad = [dict(length=-1), dict(offset=-1), dict(length=2**62), dict(offset=2**62), dict(null_count=-2), dict(null_count=9),
               dict(null_count=1), dict(n_buffers=2), dict(n_buffers=0), dict(n_buffers=-1), dict(n_buffers=4), dict(n_children=1),
               dict(no_buffers=True), dict(buffers=[None, None, b"abcd"]), dict(buffers=[None, offsets, None]),
               dict(buffers=[None, struct.pack("<4i", 0, 3, 1, 4), b"abcd"]),
               dict(buffers=[None, struct.pack("<4i", -1, 1, 3, 4), b"abcd"]),
               dict(buffers=[None, struct.pack("<4i", 4, 3, 2, 1), b"abcd"]), dict(released=1), dict(released=2),
               dict(buffers=[None, offsets, b"a\xff\xffd"]), dict(buffers=[None, struct.pack("<4i", 0, 2, 3, 4), "aüd".encode()]),
               dict(schema_dictionary=described("u", []))]
        for changes in bad:
            self.unchanged((ValueError, TypeError), lambda: Column("u", words, **changes))
            self.unchanged((ValueError, TypeError), lambda: Chunked(described("u", words), described("u", words, **changes))
                           if not {"released", "schema_dictionary"} & set(changes) else Column("u", words, **changes))
        self.unchanged(ValueError, lambda: Column("u", ["a", b"\xed\xa0\x80"]), "utf-8")
        for wrong in (dict(buffers=[None, None]), dict(n_buffers=1), dict(n_buffers=3)):
            self.unchanged(ValueError, lambda: Column("l", [1, 2], **wrong), "malformed", weights=True)
        for codes in ([0, 5], [-1], [3]):
            self.unchanged(ValueError, lambda: Column("l", codes, dictionary=described("u", words)), "index")
        self.unchanged(ValueError, lambda: Column("l", [0], dictionary=described("u", words, length=-5)))
        self.unchanged(ValueError, lambda: Column("l", [0], dictionary=described("u", ["a", b"\xff"])), "utf-8")
        self.unchanged(ValueError, lambda: Column("l", [0], schema_dictionary=described("u", [])), "dictionary")
        self.unchanged((ValueError, TypeError), lambda: Column("u", ["a"], dictionary=described("u", ["a"])))
        nested = described("c", [0], dictionary=described("u", ["a"]))
        self.unchanged((ValueError, TypeError), lambda: Column("c", [0], dictionary=nested))
        self.unchanged(ValueError, lambda: Column(None, []), "format")
        sizes = struct.pack("<qq", 40, 0)
        for view in (struct.pack("<iiii", -1, 0, 0, 0), struct.pack("<iiii", 30, 0, 2, 0), struct.pack("<iiii", 30, 0, -1, 0),
                     struct.pack("<iiii", 30, 0, 0, 20), struct.pack("<iiii", 30, 0, 0, -1), struct.pack("<iiii", 30, 0, 1, 0)):
            buffers = [None, view, b"x" * 40, b"", sizes]
            self.unchanged(ValueError, lambda: Column("vu", ["a"], buffers=buffers, n_buffers=5), "view")
        self.unchanged(ValueError, lambda: Column("vu", ["a"], buffers=[None, bytes(16), b"x", None], n_buffers=4), "malformed")

    def test_malformed_where_null(self):
        """What a null has in its place is not read as a string or an index."""
        views = struct.pack("<iiii", 30, 0, 9, 9) + struct.pack("<i12s", 1, b"a")
        self.same(lambda: Column("vu", [None, "a"], buffers=[b"\x02", views, b""], n_buffers=3), [None, "a"])
        self.same(lambda: Column("u", [None, "a"], buffers=[b"\x02", struct.pack("<3i", 0, 1, 2), b"\xffa"]), [None, "a"])
        for text in ("ba", "\u00fca"):
            size = len(text.encode())
            for kind, offsets in (("u", struct.pack("<3i", 0, size - 1, size)), ("U", struct.pack("<3q", 0, size - 1, size))):
                self.same(lambda: Column(kind, [None, "a"], buffers=[b"\x02", offsets, text.encode()]), [None, "a"])
        long = words_of(random.Random(5), 3000, 0.3)
        hidden = described("u", ["under a null" if word is None else word for word in long])["buffers"]
        hidden[0] = arrow.bitmap([word is not None for word in long])
        self.same(lambda: Column("u", long, buffers=hidden), long)
        hidden[2] = hidden[2].replace(b"under a null", b"under a \xff\xff\xff\xff")
        self.same(lambda: Column("u", long, buffers=hidden), long)
        codes = struct.pack("<bb", 99, 0)
        self.same(lambda: Column("c", [None, 0], dictionary=described("u", ["a"]), buffers=[b"\x02", codes]), [None, "a"])

    def test_streams_that_fail(self):
        for fails in (0, 1):
            sketch = ds.CountMinSketch(4, 128)
            with self.assertRaisesRegex(RuntimeError, "no more of it"):
                sketch.update(Chunked(described("u", ["a"]), described("u", ["b"]), fails=fails))
            self.assertEqual(sketch.total_weight, 0)
        with self.assertRaisesRegex(RuntimeError, "no more of it"):
            ds.BloomFilter(64, 1).insert(Chunked(described("u", ["a"]), no_schema=True))

    def test_a_column_is_taken_once(self):
        class Same:
            def __init__(self):
                self.capsules = Column("u", ["a"]).__arrow_c_array__()

            def __arrow_c_array__(self):
                return self.capsules

        same, seen = Same(), ds.BloomFilter(1 << 10, 3)
        seen.insert(same)
        with self.assertRaisesRegex(ValueError, "released"):
            seen.insert(same)
        self.assertIn("a", seen)

    def test_random_changes(self):
        """A column whose small numbers are random is read or rejected, and released."""
        chance = random.Random(7)
        for _ in range(2000):
            kind = chance.choice(["u", "U", "vu", "l", "C", "n"])
            values = words_of(chance, 5, 0.3) if kind in ("u", "U", "vu") else [chance.choice([None, 1, 2]) for _ in range(5)]
            made = described(kind, values)
            for name in chance.sample(["length", "null_count", "offset", "n_children"], 2):
                made[name] = chance.choice([made[name], made[name], -1, 0, 1, 2])
            made["length"] = min(made["length"], len(values) - max(0, made["offset"]))
            if chance.random() < 0.3:
                made["n_buffers"] = chance.randrange(made["n_buffers"] + 1)
            for sketch in sketches(str if kind in ("u", "U", "vu") else int):
                column = Column(kind)
                column.description = made
                try:
                    take(sketch, column)
                except (ValueError, TypeError):
                    pass


@unittest.skipIf(numpy is None, "no numpy here")
class Numpy(Released):
    def test_strings_of_a_fixed_size(self):
        chance = random.Random(3)
        words = [word.rstrip("\0") for word in words_of(chance, 3000)]
        for values in (words, words[:1], [], ["x" * 3_000_000, "ä" * 700_000, ""]):
            for dtype in ("U", ">U3000000" if len(values) == 3 else ">U100"):
                self.same(lambda: numpy.array(values, dtype=dtype), values, str)
                self.same(lambda: numpy.array(values, dtype=dtype)[::-2], values[::-2], str)
            encoded = [value.encode() for value in values]
            self.same(lambda: numpy.array(encoded, dtype="S" if values else "S1"), values, str)
            self.same(lambda: numpy.array(encoded, dtype="S" if values else "S1")[::-1], values[::-1], str)

    def test_each_code_point(self):
        points = [*range(1, 0x900), *range(0xD7F0, 0xD800), *range(0xE000, 0xE010), *range(0xFFF0, 0x10010), 0x10FFFF]
        values = [chr(code) + "." for code in points]
        self.same(lambda: numpy.array(values), values)
        self.same(lambda: numpy.array([value.encode() for value in values]), values)
        for lead in (b"\xc0\x80", b"\xc1\xbf", b"\xe0\x9f\xbf", b"\xed\xa0\x80", b"\xf0\x8f\xbf\xbf", b"\xf4\x90\x80\x80",
                     b"\xf5\x80\x80\x80", b"\x80", b"\xc3", b"\xe2\x82", b"a\xf0\x9f\x98"):
            with self.assertRaises(UnicodeDecodeError):
                ds.BloomFilter(64, 1).insert(numpy.array([b"a", lead]))
        for wrong in (0xD800, 0xDFFF, 0x110000, 2**32 - 1):
            given = numpy.array(["a", "b"])
            given.view("u4")[1] = wrong
            seen = ds.BloomFilter(64, 1)
            with self.assertRaises((ValueError, SystemError)):
                seen.insert(given)
            self.assertEqual(seen.bits_used, 0)

    def test_random_bytes(self):
        """An array of bytes is accepted if Python decodes each."""
        chance = random.Random(9)
        pieces = [bytes([byte]) for byte in b"a\xc3\xa9\xe2\x82\xac\xf0\x9f\x98\x80\xed\xf4\x90\xe0"]
        accepted = 0
        for _ in range(5000):
            text = b"".join(chance.choices(pieces, k=chance.randrange(1, 6)))
            try:
                text.decode()
                valid = True
            except UnicodeDecodeError:
                valid = False
            try:
                ds.BloomFilter(64, 1).insert(numpy.array([text]))
                self.assertTrue(valid, text)
                accepted += 1
            except UnicodeDecodeError:
                self.assertFalse(valid, text)
        self.assertGreater(accepted, 100)

    def test_masks(self):
        words, mask = ["a", "b", "c", "a"] * 600, [False, True, False, False] * 600
        values = [None if gone else word for word, gone in zip(words, mask)]
        for dtype in ("U", "S", object):
            for sketch, other in zip(sketches(str), sketches(str)):
                take(sketch, numpy.ma.array(numpy.array(words, dtype=dtype), mask=mask) if dtype != "S" else
                     numpy.ma.array(numpy.array([word.encode() for word in words]), mask=mask))
                take(other, without_none(values))
                self.assertEqual(content(sketch), content(other))
        wrong = numpy.ma.array(numpy.array(["a", 0.5, b"x"], dtype=object), mask=[False, True, True])
        sketch = ds.CountMinSketch(4, 128)
        sketch.update(wrong)
        sketch.update(wrong, [1, 2, 3])
        self.assertEqual((sketch["a"], sketch.total_weight), (2, 2))

    def test_many_results(self):
        heavy = ds.FrequentItemsSketch(64, item=str)
        heavy.update(["a", "b", "a"])
        estimates, bounds = heavy.estimate(numpy.array(["a", "c"])), heavy.bounds(numpy.array(["a", "c", "b"]))
        self.assertEqual((estimates.dtype, estimates.tolist()), (numpy.uint64, [2, 0]))
        self.assertEqual((bounds.dtype, bounds.shape, bounds.tolist()), (numpy.uint64, (3, 3), [[2] * 3, [0] * 3, [1] * 3]))
        numbers = ds.FrequentItemsSketch(64)
        numbers.update([7, -7, 7])
        self.assertEqual(numbers.bounds(numpy.array([7, -7])).tolist(), [[2] * 3, [1] * 3])
        self.assertEqual(numbers.bounds(numpy.array([], dtype="i8")).shape, (0, 3))


@unittest.skipIf(pandas is None, "no pandas here")
class Pandas(Released):
    def test_missing_values_are_skipped(self):
        words, numbers = ["a", None, "b", "a"] * 500, [7, None, -8, 7] * 500
        for values, dtypes in ((words, (object, "string", "category")), (numbers, ("Int64", "Int8", "category", object))):
            for dtype in dtypes:
                self.same(lambda: pandas.Series(values, dtype=dtype), values)
                if dtype is not object:
                    self.same(lambda: pandas.Index(pandas.Series(values, dtype=dtype)), values)
                self.same(lambda: pandas.Series(without_none(values), dtype=dtype)[::-1], without_none(values)[::-1])
        big = [2**64 - 1, None, 2**63]
        self.same(lambda: pandas.Series(big, dtype="UInt64"), big, "u64")

    def test_categories_may_be_mixed(self):
        load = ds.CountMinSketch(4, 1 << 10)
        load.update(pandas.Series(["a", 7, None, "a", -3], dtype="category"), [1, 2, 3, 4, 5])
        self.assertEqual(([load[item] for item in ("a", 7, -3)], load.total_weight), ([5, 2, 5], 12))
        only = pandas.Series(["a", 7, "a"], dtype="category")
        heavy = ds.FrequentItemsSketch(64, item=str)
        heavy.update(only[[0, 2]])
        with self.assertRaises(TypeError):
            heavy.update(only)
        self.assertEqual(heavy.rows(), [("a", 2, 2, 2)])
        with self.assertRaises(TypeError):
            heavy.update(pandas.Series([0.5, 1.5], dtype="category"))

    def test_weights(self):
        items, weights = pandas.Series(["a", None, "b", "a"]), pandas.Series([1, 2, None, 4], dtype="Int64")
        for way in (items, items.astype("category"), items.astype("string")):
            for weigh in (weights, weights.astype("category")):
                load = ds.CountMinSketch(4, 1 << 10)
                load.update(way, weigh)
                self.assertEqual((load["a"], load["b"], load.total_weight), (5, 0, 5))
        table = pandas.DataFrame({"word": ["x", "y", "x"], "weight": [1, 2, 3]})
        heavy = ds.FrequentItemsSketch(64, item=str)
        heavy.update(table["word"], table["weight"])
        self.assertEqual(list(pandas.DataFrame(heavy.rows(columns=True))["item"]), ["x", "y"])
        self.assertEqual(type(heavy.estimate(table["word"].astype("category"))), pandas.Series)
        self.assertEqual(table[heavy.estimate(table["word"]) > 2]["weight"].tolist(), [1, 3])

    def test_wrong_types(self):
        for wrong in (pandas.Series([0.5]), pandas.Series([True]), pandas.Series([True, None], dtype="boolean"),
                      pandas.Series([1.5, None], dtype="Float64"), pandas.Series(["2020"], dtype="datetime64[ns]"),
                      pandas.Series(["a", b"b"]), pandas.Series([7, None])):
            for sketch in sketches(str) + sketches(int):
                before = content(sketch)
                with self.assertRaises(TypeError):
                    take(sketch, wrong)
                self.assertEqual(content(sketch), before)


class Lists(unittest.TestCase):
    def test_mixed(self):
        """Strings and numbers in turn, in one call."""
        chance = random.Random(4)
        values = [chance.choice(["a", "b", "", 7, -7, 2**64 - 1]) for _ in range(5000)]
        for given in (values, tuple(values), (value for value in values)):
            for sketch, other in zip(sketches(str)[:3], sketches(str)[:3]):
                take(sketch, given if not hasattr(given, "gi_frame") else iter(values))
                for value in values:
                    take(other, value)
                self.assertEqual(content(sketch), content(other))
                ask = sketch.contains if isinstance(sketch, ds.BloomFilter) else sketch.estimate
                self.assertEqual(ask(values), [ask(value) for value in values])

    def test_weights_of_numbers(self):
        chance = random.Random(5)
        items, weights = [chance.randrange(-9, 9) for _ in range(5000)], [chance.randrange(5) for _ in range(5000)]
        one, other = ds.FrequentItemsSketch(1 << 10), ds.FrequentItemsSketch(1 << 10)
        one.update(items, weights)
        for item, weight in zip(items, weights):
            other.update(item, weight)
        self.assertEqual((content(one), one.estimate(items), one.bounds(iter(items))),
                         (content(other), [other[item] for item in items], [other.bounds(item) for item in items]))

    def test_queries_of_many(self):
        words, numbers = ds.FrequentItemsSketch(64, item=str), ds.FrequentItemsSketch(64, item="u64")
        words.update(["a", "b", "a"])
        numbers.update([5, 5, 2**64 - 1])
        self.assertEqual((words.estimate(["a", "", "b"]), words.estimate([]), words.bounds({"a"})), ([2, 0, 1], [], [(2, 2, 2)]))
        self.assertEqual((numbers.estimate(array.array("q", [5, 0])), numbers.bounds([2**64 - 1])), ([2, 0], [(1, 1, 1)]))
        for sketch, wrong in ((words, [7]), (words, ["a", 7]), (words, array.array("q", [7])), (numbers, ["a"]), (words, [b"a"]),
                              (words, {"a": 1}), (words, None), (words, ["\ud800"])):
            for call in (sketch.estimate, sketch.bounds):
                with self.assertRaises((TypeError, ValueError)):
                    call(wrong)
        for call in (numbers.estimate, numbers.bounds):
            with self.assertRaises(OverflowError):
                call([-1])
            with self.assertRaises(OverflowError):
                call(array.array("q", [5, -1]))
        with self.assertRaises(TypeError):
            words[["a"]]

    def test_rows(self):
        chance = random.Random(6)
        for item, make in ((str, str), (int, int), ("u64", int)):
            heavy = ds.FrequentItemsSketch(1 << 12, item=item)
            heavy.update([make(int(chance.paretovariate(0.7)) % 5000) for _ in range(20000)])
            for no_false in ("negatives", "positives"):
                rows = heavy.rows(no_false=no_false)
                for k in (0, 1, 7, len(rows), 10**6, 2**64 - 1):
                    self.assertEqual(heavy.top(k, no_false), rows[:k])
                columns = heavy.rows(no_false=no_false, columns=True)
                self.assertEqual(list(columns), ["item", "lower_bound", "estimate", "upper_bound"])
                self.assertEqual(list(zip(*columns.values())), rows)
            self.assertEqual(heavy.rows(2**60, columns=True), {name: [] for name in columns})
        for wrong in (-1, 2**64, 1.5, "1"):
            with self.assertRaises((ValueError, TypeError)):
                heavy.top(wrong)
        self.assertRaises(ValueError, heavy.top, 5, "all")
        self.assertRaises(TypeError, heavy.top)
        heavy.close()
        self.assertRaises(ValueError, heavy.top, 5)


if __name__ == "__main__":
    unittest.main()
