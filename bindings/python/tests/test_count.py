"""CountMinSketch: weights, merges, decay, errors."""
import array
import collections
import copy
import pickle
import unittest

import datasketches_rattle as ds

GREATEST = 2**64 - 1


def refusal(call):
    """Returns the fault of the error that a call raises, or None."""
    try:
        call()
    except ds.SketchError as error:
        return error.fault


class Weights(unittest.TestCase):
    def test_singles(self):
        load = ds.CountMinSketch(num_hashes=4, num_buckets=1 << 12)
        self.assertIsNone(load.update(7))
        load.update(7, 30)
        load.update(-9, 5)
        load.update(2**64 - 1, 0)
        self.assertEqual([load[7], load[-9], load[8], load[2**63]], [31, 5, 0, 0])
        self.assertEqual(load.estimate(7), 31)
        self.assertGreaterEqual(load.upper_bound(7), 31)

    def test_many(self):
        whole = ds.CountMinSketch(4, 1 << 12)
        for number in range(-2000, 2000):
            whole.update(number)
        for given in (list(range(-2000, 2000)), array.array("q", range(-2000, 2000)), iter(range(-2000, 2000)),
                      memoryview(array.array("q", range(1999, -2001, -1)))[::-1]):
            load = ds.CountMinSketch(4, 1 << 12)
            load.update(given)
            self.assertEqual([load[n] for n in range(-2000, 2000)], [whole[n] for n in range(-2000, 2000)])

    def test_many_with_a_weight(self):
        load = ds.CountMinSketch(4, 1 << 12)
        load.update([1, 2, 3], 5)
        load.update(array.array("Q", [1, 2**64 - 1]), 10)
        self.assertEqual([load[1], load[2], load[-1]], [15, 5, 10])

    def test_many_with_weights_of_their_own(self):
        items, weights = [7, -9, 7, 2**63], [5, 2**40, 6, 0]
        buffers = array.array("Q", weights), array.array("q", weights), memoryview(array.array("q", weights[::-1]))[::-1]
        for given in (weights, tuple(weights), iter(weights), *buffers):
            load = ds.CountMinSketch(4, 1 << 12)
            load.update(items, given)
            self.assertEqual(([load[item] for item in items], load.total_weight), ([11, 2**40, 11, 0], 11 + 2**40))
        load = ds.CountMinSketch(4, 1 << 12)
        load.update(["a", 7, "a", "b"], weights)
        load.update(array.array("Q", [7, 8]), array.array("q", [1, 2]))
        self.assertEqual([load[item] for item in ("a", 7, "b", 8)], [11, 2**40 + 1, 0, 2])
        many = array.array("Q", range(5000))
        load = ds.CountMinSketch(4, 1 << 16)
        load.update(many, many)
        self.assertEqual(load.estimate([1, 1023, 1024, 4999]), [1, 1023, 1024, 4999])
        load.update((), ())
        load.update(iter(()), array.array("q"))
        self.assertEqual(load.total_weight, sum(range(5000)))

    def test_weights_that_are_refused(self):
        load = ds.CountMinSketch(4, 1 << 12)
        for weights in ([1], [1, 2, 3], array.array("q", [1]), [1, -1], [-(2**70), 1], [1, 2**64], array.array("q", [1, -1])):
            with self.assertRaises(ValueError, msg=repr(weights)):
                load.update([7, 8], weights)
        for weights in ([1, 2.0], [1, None], [1, True], ["1", "2"], "12", b"ab", array.array("d", [1, 2]), None, {1.5: 2}):
            with self.assertRaises(TypeError, msg=repr(weights)):
                load.update([7, 8], weights)
        for weights in ([1], array.array("q", [1])):
            with self.assertRaises(TypeError, msg=repr(weights)):
                load.update(7, weights)
        self.assertEqual((load.total_weight, load[7]), (0, 0), "what is refused counts nothing")
        self.assertEqual(refusal(lambda: load.update([7, 8, 9], [5, GREATEST, 5])), "WeightOverflow")
        self.assertEqual((load.total_weight, load.estimate([7, 8, 9])), (0, [0, 0, 0]))

    def test_estimates_are_never_too_low(self):
        load = ds.CountMinSketch(3, 16)
        for number in range(200):
            load.update(number, number)
        for number in range(200):
            self.assertGreaterEqual(load[number], number)
            self.assertGreaterEqual(load.upper_bound(number), load[number])

    def test_halve_and_decay(self):
        load = ds.CountMinSketch(4, 128)
        load.update(7, 100)
        load.decay(99, 100)
        self.assertEqual((load[7], load.upper_bound(7)), (99, 101))
        load.halve()
        self.assertEqual((load[7], load.upper_bound(7)), (49, 50))
        load.decay(1, 1)
        self.assertEqual(load[7], 49)

    def test_more_than_one_call_takes(self):
        many = array.array("Q", range((1 << 20) + 7))
        load = ds.CountMinSketch(1, 1 << 22)
        load.update(many)
        load.update(many[-3:])
        self.assertEqual(load.total_weight, len(many) + 3)
        estimates = load.estimate(many)
        self.assertEqual((len(estimates), estimates[-10:]), (len(many), [load[n] for n in many[-10:]]))
        load.update(1, GREATEST - load.total_weight - (1 << 20) - 2)
        total = load.total_weight
        self.assertEqual((refusal(lambda: load.update(many)), load.total_weight), ("WeightOverflow", total))

    def test_texts(self):
        load = ds.CountMinSketch(4, 1 << 12)
        load.update("Grüße", 3)
        load.update(["Grüße", "b", 7])
        self.assertEqual([load["Grüße"], load["b"], load["c"], load[7]], [4, 1, 0, 1])
        self.assertGreaterEqual(load.upper_bound("b"), 1)

    def test_many_estimates(self):
        load = ds.CountMinSketch(4, 1 << 12)
        asked = array.array("q", range(-2000, 2000))
        load.update(asked)
        load.update("a", 2)
        self.assertEqual(load.estimate(asked), [load[n] for n in asked])
        self.assertEqual(load.estimate(list(asked)), [load[n] for n in asked])
        self.assertEqual(load.estimate(["a", 7, "b"]), [load["a"], load[7], load["b"]])
        self.assertEqual(load.estimate([]), [])
        with self.assertRaises(TypeError):
            load.estimate([1.0])

    def test_numpy(self):
        try:
            import numpy
        except ImportError:
            self.skipTest("no numpy here")
        load = ds.CountMinSketch(4, 1 << 12)
        numbers = numpy.arange(-5, 5)
        load.update(numbers)
        estimates = load.estimate(numbers)
        self.assertEqual((estimates.dtype, list(estimates)), (numpy.uint64, [load[int(n)] for n in numbers]))
        self.assertEqual(len(load.estimate(numbers[:0])), 0)


class Signed(unittest.TestCase):
    def test_weights(self):
        stock = ds.CountMinSketch(4, 1 << 12, signed=True)
        stock.update("apple", 10)
        stock.update("apple", -3)
        stock.update(-7, -5)
        stock.update(2**64 - 1, 2)
        stock.update(["pear", 7, "apple"], [-1, 2**40, 1])
        stock.update([8, 9], -6)
        stock.update(array.array("Q", [10, 11]))
        stock.update(array.array("q", [-10, 11]), array.array("q", [-8, 9]))
        items = ["apple", -7, -1, "pear", 7, 8, 9, 10, 11, -10, "none"]
        exact = [8, -5, 2, -1, 2**40, -6, -6, 1, 10, -8, 0]
        self.assertEqual([stock[item] for item in items], exact)
        self.assertEqual(stock.estimate(items), exact)
        self.assertEqual(stock.estimate(array.array("q", [-7, 8])), [-5, -6])
        self.assertEqual((stock.total_weight, stock.signed, ds.CountMinSketch(4, 8).signed),
                         (10 + 3 + 5 + 2 + 2 + 2**40 + 12 + 2 + 17, True, False))
        margin = int(2.718281828459045 * stock.total_weight / (1 << 12))
        self.assertLessEqual(abs(stock.upper_bound(8) - (margin - 6)), 1)
        self.assertEqual(repr(stock), "<CountMinSketch num_hashes=4 num_buckets=4096 seed=9001 signed=True>")

    def test_refused(self):
        stock = ds.CountMinSketch(4, 128, signed=True)
        for weight in (2**63, -(2**63) - 1, 2**64, -(2**64)):
            for items, weights in ((7, weight), ([7, 8], [1, weight]), ([7], weight)):
                with self.assertRaises(ValueError):
                    stock.update(items, weights)
        with self.assertRaises(ValueError):
            stock.update([7], array.array("Q", [2**63]))
        for call in (stock.halve, lambda: stock.decay(1, 2)):
            with self.assertRaises(TypeError):
                call()
        for call in (lambda: stock + ds.CountMinSketch(4, 128), lambda: ds.CountMinSketch(4, 128) + stock):
            with self.assertRaises(ValueError):
                call()
        stock.update(7, -(2**63) + 1)
        for weight in (1, -1, -(2**63)):
            self.assertEqual(refusal(lambda: stock.update(8, weight)), "WeightOverflow")
        self.assertEqual(refusal(lambda: stock + stock), "WeightOverflow")
        self.assertEqual((stock[7], stock.total_weight), (-(2**63) + 1, 2**63 - 1))
        self.assertEqual(refusal(lambda: ds.CountMinSketch(1, 2, signed=True)), "BadNumBuckets")

    def test_merges_copies_and_images(self):
        a, b = ds.CountMinSketch(4, 128, seed=3, signed=True), ds.CountMinSketch(4, 128, seed=3, signed=True)
        a.update([7, 8], [10, -20])
        b.update(7, -4)
        both = a + b
        self.assertEqual((both[7], both[8], both.total_weight, a[7]), (6, -20, 34, 10))
        a += a
        self.assertEqual((a[7], a.total_weight), (20, 60))
        twins = (ds.CountMinSketch.deserialize(bytes(a), seed=3, signed=True), pickle.loads(pickle.dumps(a)), copy.copy(a))
        for twin in twins:
            self.assertEqual((twin, repr(twin), twin.total_weight, twin[8]), (a, repr(a), 60, -40))
            twin.update(7, -1)
            self.assertNotEqual(twin, a)
        self.assertEqual(refusal(lambda: ds.CountMinSketch.deserialize(bytes(a), seed=3)), "CellAboveTotal")
        self.assertNotEqual(ds.CountMinSketch(4, 128), ds.CountMinSketch(4, 128, signed=True))

    def test_numpy(self):
        try:
            import numpy
        except ImportError:
            self.skipTest("no numpy here")
        stock = ds.CountMinSketch(4, 1 << 12, signed=True)
        items = numpy.arange(-5, 5)
        stock.update(items, items * 3)
        estimates = stock.estimate(items)
        self.assertEqual((estimates.dtype, list(estimates)), (numpy.int64, list(items * 3)))
        stock.update(items[::2], numpy.ones(5, dtype="u8"))
        stock.update(items[:2], numpy.int64(-100))
        self.assertEqual([stock[int(n)] for n in items[:3]], [-114, -112, -8])
        self.assertEqual(stock.estimate(items[:0]).dtype, numpy.int64)
        for wrong in (numpy.ones(10), numpy.ones(9, dtype="i4"), numpy.ones((10, 1), dtype="i8")):
            with self.assertRaises((TypeError, ValueError)):
                stock.update(items, wrong)

    def test_weights_below_0_from_iterators(self):
        ways = {"list": list, "iterator": iter, "deque": collections.deque, "values": lambda given: dict(enumerate(given)).values(),
                "generator": lambda given: (each for each in given)}
        for count in (2, 5000, 9000):
            items, weights = [str(n % 50) for n in range(count)], [(-1) ** (n // 4500) * (n % 7 - 3) for n in range(count)]
            wanted = collections.Counter()
            for item, weight in zip(items, weights):
                wanted[item] += weight
            for of_items in ways.values():
                for of_weights in ways.values():
                    stock = ds.CountMinSketch(4, 1 << 16, signed=True)
                    stock.update(of_items(items), of_weights(weights))
                    self.assertEqual(stock.total_weight, sum(map(abs, weights)))
                    self.assertEqual([stock[item] for item in sorted(wanted)], [wanted[item] for item in sorted(wanted)])
        stock = ds.CountMinSketch(4, 1 << 14, signed=True)
        stock.update(iter("ab"), iter([-1, 2]))
        self.assertEqual((stock["a"], stock["b"], stock.total_weight), (-1, 2, 3))

    def test_weights_out_of_range_from_iterators(self):
        cases = [(False, -1, "a weight is below 0"), (True, 2**63, "a weight is above 2[*][*]63 - 1")]
        for signed, wrong, message in cases:
            for bad_at, counted in ((1, 0), (4095, 0), (4096, 4096), (8191, 4096)):
                for way in (iter, collections.deque):
                    sketch = ds.CountMinSketch(4, 1 << 10, signed=signed)
                    weights = [1] * bad_at + [wrong] + [1] * 1000
                    with self.assertRaisesRegex(ValueError, message) as refused:
                        sketch.update(way(range(len(weights))), way(weights))
                    notes = [f"items taken before this error: {counted}"] if counted else []
                    self.assertEqual((sketch.total_weight, getattr(refused.exception, "__notes__", [])), (counted, notes))
        heavy = ds.FrequentItemsSketch(64)
        with self.assertRaisesRegex(ValueError, "a weight is below 0"):
            heavy.update(iter([1, 2]), iter([1, -2]))
        self.assertEqual(heavy.total_weight, 0)


class Merges(unittest.TestCase):
    def test_merge(self):
        a, b = ds.CountMinSketch(4, 1 << 12), ds.CountMinSketch(4, 1 << 12)
        a.update(7, 10)
        b.update(7, 5)
        total = a + b
        self.assertEqual((total[7], a[7], b[7]), (15, 10, 5))
        same = a
        a += b
        self.assertIs(a, same)
        self.assertEqual(a[7], 15)
        a += a
        self.assertEqual((a[7], (a + a)[7]), (30, 60))

    def test_copies(self):
        a = ds.CountMinSketch(4, 1 << 12, seed=5)
        a.update(7, 10)
        for twin in (copy.copy(a), copy.deepcopy(a)):
            twin.update(7)
            self.assertEqual((twin[7], a[7], repr(twin)), (11, 10, repr(a)))

    def test_mismatch(self):
        a = ds.CountMinSketch(4, 128)
        for b in (ds.CountMinSketch(3, 128), ds.CountMinSketch(4, 127), ds.CountMinSketch(4, 128, seed=1)):
            with self.assertRaises(ds.SketchError) as refused:
                a += b
            self.assertEqual((refused.exception.kind, refused.exception.fault), ("InvalidArgument", "Mismatch"))
        for wrong in (1, None, ds.BloomFilter(64, 1)):
            with self.assertRaises(TypeError):
                a + wrong


class Refusals(unittest.TestCase):
    def refused(self, fault, call, *arguments):
        with self.assertRaises(ds.SketchError) as refused:
            call(*arguments)
        self.assertEqual(refused.exception.fault, fault)

    def test_shapes(self):
        for hashes, buckets, fault in [(0, 3, "BadNumHashes"), (256, 3, "BadNumHashes"), (257, 3, "BadNumHashes"),
                                       (1, 2, "BadNumBuckets"), (1, 2**30, "TableTooLarge"), (1, 2**32, "TableTooLarge"),
                                       (1, 2**32 + 5, "TableTooLarge"), (255, 2**63, "TableTooLarge")]:
            self.refused(fault, ds.CountMinSketch, hashes, buckets)
        for wrong in [(-1, 3), (1, -3), (1, 3, -1), (2**64, 3)]:
            with self.assertRaises(ValueError):
                ds.CountMinSketch(*wrong)
        for wrong in [(1.0, 3), (True, 3), (1,), (1, "3")]:
            with self.assertRaises(TypeError):
                ds.CountMinSketch(*wrong)

    def test_weights(self):
        load = ds.CountMinSketch(4, 128)
        for weight in (-1, 2**64):
            with self.assertRaises(ValueError):
                load.update(7, weight)
        for weight in (1.0, True, None, "1"):
            with self.assertRaises(TypeError):
                load.update(7, weight)
        for arguments in ((), (1, 2, 3)):
            with self.assertRaises(TypeError):
                load.update(*arguments)
        load.update(7, GREATEST)
        self.assertEqual((load[7], load.upper_bound(7)), (GREATEST, GREATEST))
        self.refused("WeightOverflow", load.update, 8)
        self.refused("WeightOverflow", lambda: load + load)
        load.update(8, 0)
        self.assertEqual(load[7], GREATEST)

    def test_a_refused_batch_counts_nothing(self):
        load = ds.CountMinSketch(4, 1 << 16)
        load.update(-1, GREATEST - 1500)
        self.refused("WeightOverflow", load.update, array.array("Q", range(3000)))
        self.assertEqual(([load[0], load[2999]], load.total_weight), ([0, 0], GREATEST - 1500))
        load.update(array.array("Q", range(1500)))
        self.assertEqual(([load[0], load[1499]], load.total_weight), ([1, 1], GREATEST))

    def test_fractions(self):
        load = ds.CountMinSketch(4, 128)
        for numerator, denominator in ((0, 5), (2, 1), (0, 0), (1, 0)):
            self.refused("BadFraction", load.decay, numerator, denominator)
        for wrong in ((1,), (1, 2, 3), (0.5, 1)):
            with self.assertRaises(TypeError):
                load.decay(*wrong)
        with self.assertRaises(ValueError):
            load.decay(-1, 2)

    def test_items(self):
        load = ds.CountMinSketch(4, 128)
        for bad in (1.5, None, True, b"ab", [1, 2.0], array.array("d", [1.0])):
            with self.assertRaises(TypeError, msg=repr(bad)):
                load.update(bad)
        for bad in (1.5, None, True, b"ab", [1]):
            with self.assertRaises(TypeError, msg=repr(bad)):
                load[bad]
        with self.assertRaises(OverflowError):
            load.update(2**64)
        with self.assertRaises(TypeError):
            load[7] = 3


class Ends(unittest.TestCase):
    def test_close(self):
        with ds.CountMinSketch(4, 128) as load:
            load.update(7)
        for call in (lambda: load.update(7), lambda: load.update([7]), lambda: load[7], load.halve, lambda: load.decay(1, 2),
                     lambda: load + ds.CountMinSketch(4, 128), lambda: ds.CountMinSketch(4, 128) + load, lambda: copy.copy(load),
                     lambda: load.num_hashes):
            with self.assertRaises(ValueError):
                call()
        self.assertEqual(repr(load), "<CountMinSketch, closed>")

    def test_fields(self):
        load = ds.CountMinSketch(4, 128, seed=3)
        self.assertEqual((load.num_hashes, load.num_buckets, load.seed), (4, 128, 3))
        with self.assertRaises(AttributeError):
            load.seed = 4


class Images(unittest.TestCase):
    def test_there_and_back(self):
        for seed in (9001, 3):
            load = ds.CountMinSketch(4, 128, seed=seed)
            self.assertEqual(len(bytes(load)), 16)
            load.update(range(1000))
            self.assertEqual(len(bytes(load)), 24 + 8 * 4 * 128)
            twins = (ds.CountMinSketch.deserialize(bytes(load), seed=seed), pickle.loads(pickle.dumps(load)), copy.copy(load))
            for twin in twins:
                self.assertEqual(twin, load)
                self.assertEqual((repr(twin), twin.total_weight), (repr(load), 1000))
                twin.update(7)
                self.assertNotEqual(twin, load)

    def test_refused_images(self):
        load = ds.CountMinSketch(4, 128)
        load.update(range(1000))
        image = bytes(load)
        for place, fault in ((0, "BadPreamble"), (1, "BadVersion"), (2, "BadFamily"), (13, "SeedHashMismatch")):
            altered = bytearray(image)
            altered[place] ^= 0xFF
            with self.assertRaises(ds.SketchError) as refused:
                ds.CountMinSketch.deserialize(altered)
            self.assertEqual((refused.exception.kind, refused.exception.fault), ("InvalidData", fault))
        for length in range(len(image)):
            with self.assertRaises(ds.SketchError):
                ds.CountMinSketch.deserialize(image[:length])
        with self.assertRaises(ds.SketchError) as refused:
            ds.CountMinSketch.deserialize(image, max_bytes=4 * 128 * 8 + 8 * 4 - 1)
        self.assertEqual(refused.exception.fault, "TableTooLarge")
        ds.CountMinSketch.deserialize(image, max_bytes=4 * 128 * 8 + 8 * 4)
        with self.assertRaises(ds.SketchError):
            ds.CountMinSketch.deserialize(image, seed=3)

    def test_comparing(self):
        self.assertEqual(ds.CountMinSketch(4, 128), ds.CountMinSketch(4, 128))
        self.assertNotEqual(ds.CountMinSketch(4, 128), ds.CountMinSketch(4, 128, seed=3))
        self.assertNotEqual(ds.CountMinSketch(4, 128), 7)


if __name__ == "__main__":
    unittest.main()
