"""What users of Python expect: signatures, missing items, named rows, and columns with their labels."""
import array
import ast
import inspect
import os
import pickle
import unittest
import warnings

import datasketches_rattle as ds

try:
    import numpy
except ImportError:
    numpy = None
try:
    import pandas
except ImportError:
    pandas = None

CLASSES = (ds.BloomFilter, ds.CountMinSketch, ds.FrequentItemsSketch)


def heavy_of(items=(), **more):
    """A sketch of strings with room for all."""
    heavy = ds.FrequentItemsSketch(256, item=str, **more)
    heavy.update(items)
    return heavy


def stub_arguments():
    """The arguments of each call in the stub, by class and name: names, which are keywords alone, and which have which default."""
    with open(os.path.join(os.path.dirname(ds.__file__), "__init__.pyi"), encoding="utf-8") as file:
        stub = ast.parse(file.read())
    for tree in (each for each in stub.body if isinstance(each, ast.ClassDef) and hasattr(ds, each.name)):
        for call in (each for each in tree.body if isinstance(each, ast.FunctionDef)):
            if call.name.startswith("_") and call.name != "__new__":
                continue
            if any(getattr(each, "id", "") == "property" for each in call.decorator_list):
                continue
            given = call.args
            names = [each.arg for each in given.posonlyargs + given.args][1:]
            defaults = {each.arg: ast.literal_eval(value) for each, value in
                        zip(reversed(given.posonlyargs + given.args), reversed(given.defaults))}
            for each, value in zip(given.kwonlyargs, given.kw_defaults):
                if value is not None:
                    defaults[each.arg] = ast.literal_eval(value)
            yield getattr(ds, tree.name), call.name, names, sorted(each.arg for each in given.kwonlyargs), defaults


class Signatures(unittest.TestCase):
    def test_each_is_that_of_the_stub(self):
        told = {}
        for cls, name, *arguments in stub_arguments():
            told.setdefault((cls, name), []).append(arguments)
        for (cls, name), overloads in told.items():
            signature = inspect.signature(cls if name == "__new__" else getattr(cls, name))
            given = [each for each in signature.parameters.values() if each.name != "self"]
            names = [each.name for each in given if each.kind != each.KEYWORD_ONLY]
            keywords = sorted(each.name for each in given if each.kind == each.KEYWORD_ONLY)
            defaults = {each.name: each.default for each in given if each.default is not each.empty}
            self.assertIn([names, keywords, defaults], overloads, (cls, name))
        self.assertGreaterEqual(len(told), 50)
        self.assertEqual(list(inspect.signature(ds.keyed_hash).parameters), ["key", "items"])

    def test_threads_have_one_default(self):
        calls = [call for cls in CLASSES for _, call in inspect.getmembers(cls)
                 if "threads" in str(getattr(call, "__text_signature__", ""))]
        self.assertEqual([inspect.signature(call).parameters["threads"].default for call in calls], [1] * 12)

    def test_the_signature_of_a_class(self):
        self.assertEqual(str(inspect.signature(ds.FrequentItemsSketch)), "(max_map_size, item='i64', sample_size=None, key=None)")
        self.assertEqual(repr(ds.FrequentItemsSketch(64, item="i64")), repr(ds.FrequentItemsSketch(64)))


class Missing(unittest.TestCase):
    def ways(self, given):
        yield given
        yield tuple(given)
        yield iter(given)
        if numpy is not None:
            yield numpy.array(given, dtype=object)
        if pandas is not None:
            yield pandas.Series(given, dtype=object)

    def test_updates_skip_none(self):
        for way in range(5):
            for given in (["a", None], [None, "a", None, "a", "b"] * 2000, [None] * 3):
                ways = list(self.ways(given))
                if way >= len(ways):
                    continue
                count = len(given) - given.count(None)
                load, heavy, seen = ds.CountMinSketch(4, 1 << 10), heavy_of(), ds.BloomFilter(1 << 10, 5)
                for sketch in (load, heavy):
                    sketch.update(list(self.ways(given))[way])
                    self.assertEqual((sketch.total_weight, sketch["a"]), (count, given.count("a")))
                seen.insert(list(self.ways(given))[way])
                self.assertEqual(("a" in seen, bytes(seen) == bytes(ds.BloomFilter(1 << 10, 5))), (count > 0, count == 0))

    def test_numbers_and_sets(self):
        heavy = ds.FrequentItemsSketch(64)
        heavy.update([7, None, 7, -1])
        heavy.update({None, 5})
        self.assertEqual(sorted(heavy.rows()), [(-1, 1, 1, 1), (5, 1, 1, 1), (7, 2, 2, 2)])

    def test_weights_of_missing_items(self):
        for of_items in (list, iter):
            for of_weights in (list, iter):
                load = ds.CountMinSketch(4, 1 << 10, signed=True)
                load.update(of_items(["a", None, "c"] * 3000), of_weights([1, 4, -8] * 3000))
                self.assertEqual((load["a"], load["c"], load.total_weight), (3000, -24000, 27000))
                with self.assertRaisesRegex(TypeError, "a weight is an int, not NoneType"):
                    load.update(of_items(["a", "b"]), of_weights([1, None]))
                self.assertEqual(load.total_weight, 27000)
        load = ds.CountMinSketch(4, 1 << 10)
        load.update({"a": 3, "d": 2, None: 5})
        self.assertEqual((load["a"], load["d"], load.total_weight), (3, 2, 5))

    def test_others_are_no_items(self):
        for wrong in (["a", float("nan")], ["a", b"b"], [None, 1.5], [None, True]):
            for way in (list, iter):
                load = ds.CountMinSketch(4, 1 << 10)
                self.assertRaises(TypeError, load.update, way(wrong))
                self.assertEqual(load.total_weight, 0)
        self.assertRaises(TypeError, ds.CountMinSketch(4, 1 << 10).update, None)

    def test_queries_reject_none(self):
        seen, load, heavy = ds.BloomFilter(1 << 10, 5), ds.CountMinSketch(4, 1 << 10), heavy_of("a")
        for ask in (seen.contains, seen.contains_and_insert, load.estimate, heavy.estimate, heavy.bounds):
            for given in self.ways(["a", None, "b"]):
                with self.assertRaisesRegex(ValueError, "takes no missing items, and 1 of 3 are missing: drop them first, or pass their"):
                    ask(given)
        self.assertEqual((seen.bits_used, ds.keyed_hash(bytes(16), ["a"]) != 0), (0, True))
        with self.assertRaisesRegex(ValueError, "1 of 2 are missing: drop them first$"):
            ds.keyed_hash(bytes(16), ["a", None])

    def test_results_of_missing_items(self):
        many = [None, "a", None, "b"] * 3000
        seen, load, heavy = ds.BloomFilter(1 << 12, 5), ds.CountMinSketch(4, 1 << 10, signed=True), heavy_of(list("aab"))
        seen.insert("a")
        load.update(["a", "b"], [3, -4])
        for given in (many, tuple(many), iter(many)):
            self.assertEqual(seen.contains(given, missing=True), [True, True, True, False] * 3000)
        for given in (many, iter(many)):
            self.assertEqual(seen.contains(given, missing=False), [False, True, False, False] * 3000)
        self.assertEqual(load.estimate(many, missing=-7), [-7, 3, -7, -4] * 3000)
        self.assertEqual(heavy.estimate(many, missing=9), [9, 2, 9, 1] * 3000)
        self.assertEqual(heavy.bounds(many[:4], missing=0), [(0, 0, 0), (2, 2, 2), (0, 0, 0), (1, 1, 1)])
        self.assertEqual(seen.contains([None, None], missing=False), [False, False])
        self.assertEqual(seen.contains(["a", "b"], missing=None), [True, False])
        self.assertEqual((seen.contains("a", missing=False), heavy.estimate("a", missing=0)), (True, 2))
        fresh = ds.BloomFilter(1 << 12, 5)
        self.assertEqual(fresh.contains_and_insert(["a", None, "a", None, "b"], missing=True), [False, True, True, True, False])
        twin = ds.BloomFilter(1 << 12, 5)
        twin.insert(["a", "b"])
        self.assertEqual(fresh, twin)

    def test_wrong_results(self):
        seen, load = ds.BloomFilter(1 << 12, 5), ds.CountMinSketch(4, 1 << 10)
        for error, call in [(TypeError, lambda: seen.contains(["a"], missing=0)), (TypeError, lambda: seen.contains(["a"], missing="no")),
                            (TypeError, lambda: load.estimate(["a"], missing=0.0)), (ValueError, lambda: load.estimate(["a"], missing=-1)),
                            (TypeError, lambda: load.estimate(["a"], 0)), (TypeError, lambda: load.estimate()),
                            (TypeError, lambda: load.estimate(["a"], other=0)), (TypeError, lambda: seen.contains(missing=False))]:
            self.assertRaises(error, call)


class Names(unittest.TestCase):
    def test_num_bits(self):
        for bits, found in ((1, 64), (64, 64), (65, 128), (1 << 20, 1 << 20)):
            seen = ds.BloomFilter(num_bits=bits, num_hashes=3)
            self.assertEqual((seen.num_bits, seen.capacity), (found, found))
            self.assertEqual(repr(seen), f"<BloomFilter num_bits={found} num_hashes=3 seed=9001 bits_used=0>")
            self.assertEqual(ds.BloomFilter(num_bits=seen.num_bits, num_hashes=seen.num_hashes, seed=seen.seed), seen)

    def test_items_and_length(self):
        heavy = heavy_of(["to", "be", "to"])
        self.assertEqual(("to" in heavy, "not" in heavy, len(heavy), bool(heavy)), (True, False, 2, True))
        self.assertEqual((len(ds.FrequentItemsSketch(8)), bool(ds.FrequentItemsSketch(8))), (0, False))
        few = ds.FrequentItemsSketch(8)
        few.update(range(7))  # one more than the counters: a purge lets go of all
        self.assertEqual((len(few), few.num_active_items, [n for n in range(7) if n in few]), (0, 0, []))
        few.update(3, 10)
        self.assertEqual((3 in few, 4 in few, len(few)), (True, False, 1))
        self.assertRaises(TypeError, lambda: 3 in heavy)
        self.assertRaises(TypeError, lambda: "a" in few)
        self.assertRaises(TypeError, iter, heavy)
        heavy.close()
        self.assertRaises(ValueError, len, heavy)
        self.assertRaises(ValueError, lambda: "to" in heavy)

    def test_rows(self):
        heavy = heavy_of(["to", "be", "to"])
        row, last = heavy.rows()
        self.assertEqual((row.item, row.lower, row.estimate, row.upper), ("to", 2, 2, 2))
        self.assertEqual((last.item, last.lower_bound, last.estimate, last.upper_bound), ("be", 1, 1, 1))
        self.assertEqual((row, repr(row), len(row), type(row)), (("to", 2, 2, 2), "('to', 2, 2, 2)", 4, ds.Row))
        item, low, estimate, high = row
        self.assertEqual([item, low, estimate, high], list(row))
        self.assertEqual((pickle.loads(pickle.dumps(row)), ds.Row._fields[0]), (row, "item"))
        self.assertEqual(type(pickle.loads(pickle.dumps(row))), ds.Row)
        few = ds.FrequentItemsSketch(8)
        few.update(range(7))
        few.update(3, 10)
        found = few.top(1)[0]
        self.assertEqual((found.lower, found.estimate, found.upper), few.bounds(3))
        self.assertLess(found.lower, found.upper)


class Texts(unittest.TestCase):
    def test_a_path_is_no_text(self):
        here = os.path.abspath(__file__)
        for sketch, call in ((heavy_of(), "update_fields"), (ds.CountMinSketch(4, 128), "update_fields"),
                             (ds.BloomFilter(64, 1), "insert_fields")):
            for path in ("x.csv", "data/X.TSV"):
                with self.assertWarnsRegex(UserWarning, f"the name of a file, which {type(sketch).__name__}.from_file reads"):
                    self.assertEqual(getattr(sketch, call)(path, 0), (1, 0))
            with warnings.catch_warnings():
                warnings.simplefilter("error")
                self.assertRaises(UserWarning, getattr(sketch, call), "x.csv", 0)
                for text in ("x.csv\n", b"x.csv", here, "GET /x.csv", "a,x.csv", ".csv", "", "a\0b.csv"):
                    self.assertEqual(getattr(sketch, call)(text, 0, delimiter=","), (1 if text else 0, 0))
        class Path:
            def __fspath__(self):
                return here

        for call in (heavy_of().update_words, heavy_of().update_lines, lambda text: heavy_of().update_fields(text, 0)):
            self.assertRaisesRegex(TypeError, "takes a str or a buffer of bytes, not Path: from_file takes a path", call, Path())


@unittest.skipIf(numpy is None, "no numpy here")
class Arrays(unittest.TestCase):
    def test_missing(self):
        seen, heavy = ds.BloomFilter(1 << 12, 5), heavy_of(list("aab"))
        seen.insert(["a", 7])
        found = seen.contains(numpy.array(["a", None, "b"], dtype=object), missing=False)
        self.assertEqual((found.dtype, found.tolist()), (numpy.bool_, [True, False, False]))
        masked = numpy.ma.array([7, 8, 9], mask=[False, True, False])
        self.assertEqual(seen.contains(masked, missing=True).tolist(), [True, True, False])
        self.assertRaisesRegex(TypeError, "compressed", seen.contains, masked)
        found = heavy.bounds(numpy.array(["a", None], dtype=object), missing=5)
        self.assertEqual(found.tolist(), [[2, 2, 2], [5, 5, 5]])

    def test_floats_have_a_hint(self):
        for given in (numpy.array([1.0, 2.0]), array.array("d", [1.0])):
            with self.assertRaisesRegex(TypeError, "astype" if isinstance(given, numpy.ndarray) else "integers"):
                ds.CountMinSketch(4, 128).update(given)


@unittest.skipIf(numpy is None or pandas is None, "no numpy or pandas here")
class Columns(unittest.TestCase):
    def test_results_have_the_labels(self):
        words = pandas.Series(["a", "b", "a", None], index=[10, 20, 20, 5], name="word")
        seen, load, heavy = ds.BloomFilter(1 << 12, 5), ds.CountMinSketch(4, 1 << 10), heavy_of(list("aab"))
        seen.insert("a")
        load.update("a", 3)
        pandas.testing.assert_series_equal(seen.contains(words, missing=False),
                                           pandas.Series([True, False, True, False], index=words.index, name="word"))
        pandas.testing.assert_series_equal(load.estimate(words, missing=0), pandas.Series([3, 0, 3, 0], index=words.index, name="word",
                                                                                         dtype="uint64"))
        bounds = heavy.bounds(words.dropna())
        self.assertEqual((list(bounds.columns), list(bounds.index)), (["lower_bound", "estimate", "upper_bound"], [10, 20, 20]))
        self.assertEqual(bounds["estimate"].tolist(), [2, 1, 2])
        table = words.to_frame()
        table["known"] = seen.contains(table["word"], missing=False)
        self.assertEqual(table[table["known"]].index.tolist(), [10, 20])
        self.assertEqual(words[~seen.contains(words, missing=True)].tolist(), ["b"])
        fresh = ds.BloomFilter(1 << 12, 5)
        self.assertEqual(fresh.contains_and_insert(words.dropna()).tolist(), [False, False, True])
        for kind in ("string", "category"):
            found = seen.contains(words.astype(kind), missing=False)
            self.assertEqual((found.tolist(), found.index.tolist()), ([True, False, True, False], [10, 20, 20, 5]))
        hashes = ds.keyed_hash(bytes(16), words.dropna())
        self.assertEqual((hashes.index.tolist(), hashes.iloc[0]), ([10, 20, 20], ds.keyed_hash(bytes(16), "a")))
        self.assertIsInstance(seen.contains(pandas.Index(["a", "b"])), numpy.ndarray)
        self.assertEqual(seen.contains(pandas.Series([], dtype=object)).tolist(), [])

    def test_floats_have_a_hint(self):
        load = ds.CountMinSketch(4, 128)
        column = pandas.Series([1.0, None, 3.0])
        with self.assertRaisesRegex(TypeError, r"not float64: .*series\.astype\('Int64'\)"):
            load.update(column)
        load.update(column.astype("Int64"))
        self.assertEqual((load[1], load[3], load.total_weight), (1, 1, 2))

    def test_counts_are_no_items(self):
        words = pandas.Series(["a", "b", "a", "c"] * 5, name="word")
        numbers = pandas.Series([n * n % 101 for n in range(500)])
        named = pandas.Series([5, 3], index=pandas.Index([7, 8], name="page"), name="count")
        table = pandas.DataFrame({"word": words, "n": range(20)})
        sketches = (ds.CountMinSketch(4, 1 << 10), ds.FrequentItemsSketch(1 << 10), ds.BloomFilter(1 << 10, 3))
        for counts in (words.value_counts(), words.value_counts(sort=False), words.astype("category").value_counts(),
                       table.groupby("word").size(), words.astype("string").value_counts(), numbers.value_counts(), named):
            for sketch in sketches:
                call, right = ("insert", "insert(counts.index)") if sketch is sketches[2] else ("update", "update(counts.index, counts)")
                with self.assertRaises(TypeError) as refused:
                    getattr(sketch, call)(counts)
                self.assertIn(right, str(refused.exception))
                self.assertEqual(bytes(sketch), bytes(type(sketch)(*((4, 1 << 10), (1 << 10,), (1 << 10, 3))[sketches.index(sketch)])))
        load = ds.CountMinSketch(4, 1 << 10)
        load.update(words.value_counts().index, words.value_counts())
        self.assertEqual((load["a"], load.total_weight), (10, 20))
        load.update(numbers.value_counts().to_numpy())

    def test_numbers_with_labels_are_items(self):
        numbers = pandas.Series([n * n % 101 for n in range(500)])
        times = pandas.date_range("2020", periods=500, freq="min")
        for column in (numbers, numbers[numbers > 50], numbers.sort_values(), numbers.sample(frac=1, random_state=1), numbers[:1],
                       numbers.set_axis(times), numbers.iloc[::-1], numbers[::-1][:5].sort_values(ascending=False),
                       pandas.Series([5, 4], index=[9, 3]), pandas.Series([], dtype="int64", index=pandas.Index([], dtype=object)),
                       ds.keyed_hash(bytes(16), pandas.Series(["a", "b"], index=["x", "y"]))):
            load = ds.CountMinSketch(4, 1 << 10)
            load.update(column)
            load.update(column, 1)
            self.assertEqual(load.total_weight, 2 * len(column))
            ds.BloomFilter(1 << 10, 3).insert(column)
        labelled = pandas.Series([200, 404], index=["a.example", "b.example"])
        load.update(labelled, [1, 1])  # weights of their own, so the values are the items
        self.assertEqual(load.estimate(labelled).tolist(), [1, 1])


if __name__ == "__main__":
    unittest.main()
