"""FrequentItemsSketch: bounds, merges, types of items, errors."""
import array
import copy
import pickle
import random
import unittest
from collections import Counter

import datasketches_rattle as ds

GREATEST = 2**64 - 1


class Weights(unittest.TestCase):
    def test_exact_while_there_is_room(self):
        for kind, numbers in ((int, range(-20, 20)), ("i64", (-2**63, 2**63 - 1)), ("u64", (0, 7, 2**63, GREATEST))):
            heavy = ds.FrequentItemsSketch(64, item=kind)
            for number in numbers:
                heavy.update(number, 5)
            heavy.update(numbers)
            for number in numbers:
                self.assertEqual((heavy[number], heavy.estimate(number), heavy.bounds(number)), (6, 6, (6, 6, 6)))
            self.assertEqual(heavy[21], 0)

    def test_bounds_hold(self):
        chance = random.Random(1)
        numbers = [int(chance.paretovariate(0.7)) % 5000 for _ in range(20000)]
        weights = Counter(numbers)
        for size, sample in ((64, None), (64, 8), (1024, None)):
            heavy = ds.FrequentItemsSketch(size, sample_size=sample)
            heavy.update(array.array("q", numbers))
            for number, weight in weights.items():
                low, estimate, high = heavy.bounds(number)
                self.assertTrue(low <= weight <= high and low <= estimate <= high, (number, weight))

    def test_many(self):
        one, two = ds.FrequentItemsSketch(256), ds.FrequentItemsSketch(256)
        for number in range(3000):
            one.update(number % 91 - 30)
        two.update(array.array("l", [n % 91 - 30 for n in range(3000)]))
        self.assertEqual([one.bounds(n) for n in range(-40, 70)], [two.bounds(n) for n in range(-40, 70)])
        two.update(array.array("Q", [5, 5]), 10)
        # an item that a purge dropped has the estimate 0; when it is added again, its estimate includes the error
        self.assertEqual(two.bounds(5)[0], one.bounds(5)[0] + 20)

    def test_weights_of_their_own(self):
        for kind, items in ((int, [-5, 2**62, -5, 8]), ("u64", [5, 2**64 - 1, 5, 8])):
            for weights in ([1, 2**40, 3, 0], array.array("Q", [1, 2**40, 3, 0]), array.array("q", [1, 2**40, 3, 0])):
                for given in (items, iter(items), array.array("q" if kind is int else "Q", items)):
                    heavy = ds.FrequentItemsSketch(64, item=kind)
                    heavy.update(given, weights)
                    self.assertEqual([heavy[item] for item in items], [4, 2**40, 4, 0])
            for weights in ([1], [1, 2, 3, -4], array.array("q", [1, 2, 3, -4]), array.array("q", [1] * 5)):
                with self.assertRaises(ValueError):
                    heavy.update(items, weights)
            self.assertEqual(heavy.total_weight, 2**40 + 4, "what is refused counts nothing")
        many = array.array("q", range(3000))
        heavy = ds.FrequentItemsSketch(4096)
        heavy.update(many, many)
        self.assertEqual([heavy[n] for n in (0, 1, 1024, 2999)], [0, 1, 1024, 2999])


class Rows(unittest.TestCase):
    def test_rows_are_those_of_the_bounds(self):
        chance = random.Random(2)
        for kind, base in (("i64", -20), ("u64", 2**63)):
            heavy = ds.FrequentItemsSketch(64, item=kind)
            for _ in range(5000):
                heavy.update(base + int(chance.paretovariate(0.5)) % 300, chance.randrange(4))
            for threshold in (0, 10, heavy.maximum_error, 500, GREATEST):
                least = max(threshold, heavy.maximum_error)
                for name, place in (("negatives", 2), ("positives", 0)):
                    rows = heavy.rows(threshold, name)
                    told = {item: tuple(bounds) for item, *bounds in rows}
                    for number in range(base, base + 301):
                        bounds = heavy.bounds(number)
                        self.assertEqual(number in told, bounds[place] > least, (threshold, number))
                        self.assertEqual(told.get(number, bounds), bounds)
                    estimates = [row[2] for row in rows]
                    self.assertEqual(estimates, sorted(estimates, reverse=True))

    def test_refused(self):
        heavy = ds.FrequentItemsSketch(64)
        self.assertEqual(heavy.rows(), [])
        for wrong, error in ((-1, ValueError), (2**64, ValueError), (1.0, TypeError), (None, TypeError)):
            with self.assertRaises(error):
                heavy.rows(wrong)
        for wrong, error in (("both", ValueError), ("", ValueError), (True, TypeError), (None, TypeError)):
            with self.assertRaises(error):
                heavy.rows(no_false=wrong)
        heavy.close()
        with self.assertRaises(ValueError):
            heavy.rows()


class Merges(unittest.TestCase):
    def test_merge(self):
        a, b = ds.FrequentItemsSketch(64), ds.FrequentItemsSketch(128)
        a.update(7, 10)
        b.update([7, 8])
        same = a
        a += b
        self.assertIs(a, same)
        self.assertEqual((a[7], a[8], b[7]), (11, 1, 1))
        self.assertEqual(((a + b)[7], (a + a)[7], a[7], b[7]), (12, 22, 11, 1))

    def test_refused(self):
        a = ds.FrequentItemsSketch(64)
        a.update(7, GREATEST)
        with self.assertRaises(ValueError):
            a += ds.FrequentItemsSketch(64, item="u64")
        with self.assertRaises(TypeError):
            a += 1
        with self.assertRaises(TypeError):
            a + 1
        with self.assertRaises(ValueError):
            a + ds.FrequentItemsSketch(64, item=str)
        b = ds.FrequentItemsSketch(64)
        b.update(8)
        with self.assertRaises(ds.SketchError) as refused:
            b += a
        self.assertEqual(refused.exception.fault, "WeightOverflow")
        self.assertEqual((b[8], b[7]), (1, 0))


class Refusals(unittest.TestCase):
    def test_shapes(self):
        for size, sample, fault in ((12, None, "MapSizeNotPowerOfTwo"), (4, None, "MapSizeTooSmall"), (0, None, None),
                                    (2**31, None, "MapSizeTooLarge"), (8, 3, "BadSampleSize"), (8, 8, "BadSampleSize")):
            with self.assertRaises(ds.SketchError) as refused:
                ds.FrequentItemsSketch(size, sample_size=sample)
            self.assertIn(fault, (refused.exception.fault, None))
        for kind in (bytes, "text", float, None, 7):
            with self.assertRaises(ValueError):
                ds.FrequentItemsSketch(64, item=kind)
        for wrong in ("64", 64.0, True, None):
            with self.assertRaises(TypeError):
                ds.FrequentItemsSketch(wrong)
        with self.assertRaises(ValueError):
            ds.FrequentItemsSketch(-8)

    def test_items(self):
        signed, natural = ds.FrequentItemsSketch(64), ds.FrequentItemsSketch(64, item="u64")
        for heavy in (signed, natural):
            for bad in (1.5, None, True, "a", b"ab", [1, "a"], [2.0], array.array("d", [1.0])):
                with self.assertRaises(TypeError, msg=repr(bad)):
                    heavy.update(bad)
        for heavy, bad in ((signed, 2**63), (signed, [1, 2**63]), (signed, array.array("Q", [1] * 2000 + [2**63])),
                           (natural, -1), (natural, [1, -1]), (natural, array.array("q", [1] * 2000 + [-1])),
                           (natural, 2**64), (signed, -2**63 - 1)):
            with self.assertRaises(OverflowError):
                heavy.update(bad)
            if isinstance(bad, int):
                with self.assertRaises(OverflowError):
                    heavy.bounds(bad)
        self.assertEqual((signed[1], natural[1]), (0, 0), "what is refused counts nothing")

    def test_weights(self):
        heavy = ds.FrequentItemsSketch(64)
        heavy.update(7, GREATEST - 2)
        with self.assertRaises(ds.SketchError) as refused:
            heavy.update([1, 2, 3])
        self.assertEqual((refused.exception.kind, refused.exception.fault), ("InvalidArgument", "WeightOverflow"))
        self.assertEqual([heavy[n] for n in (1, 2, 3, 7)], [0, 0, 0, GREATEST - 2])
        heavy.update([1, 2])
        self.assertEqual(([heavy[n] for n in (1, 2, 3)], heavy.total_weight), ([1, 1, 0], GREATEST))
        for weight, error in ((-1, ValueError), (2**64, ValueError), (1.0, TypeError), (True, TypeError)):
            with self.assertRaises(error):
                heavy.update(7, weight)


class Ends(unittest.TestCase):
    def test_close(self):
        with ds.FrequentItemsSketch(64) as heavy:
            heavy.update(7)
        for call in (lambda: heavy.update(7), lambda: heavy.update([7]), lambda: heavy[7], heavy.__enter__):
            with self.assertRaises(ValueError):
                call()
        self.assertEqual(repr(heavy), "<FrequentItemsSketch, closed>")

    def test_reset(self):
        heavy = ds.FrequentItemsSketch(64, sample_size=4)
        heavy.update(range(200))
        heavy.reset()
        self.assertEqual((heavy.total_weight, heavy.maximum_error, heavy.num_active_items), (0, 0, 0))
        self.assertEqual((heavy.max_map_size, heavy.sample_size), (64, 4))
        self.assertEqual(repr(heavy), "<FrequentItemsSketch max_map_size=64 item=i64 total_weight=0>")


class Images(unittest.TestCase):
    def test_there_and_back(self):
        for kind, numbers in (("i64", range(-500, 500)), ("u64", range(2**63 - 500, 2**63 + 500))):
            heavy = ds.FrequentItemsSketch(128, item=kind)
            self.assertEqual(len(bytes(heavy)), 8)
            for number in numbers:
                heavy.update(number, number % 37)
            self.assertEqual(len(heavy.serialize()), 32 + 16 * heavy.num_active_items)
            twins = (ds.FrequentItemsSketch.deserialize(bytes(heavy), item=kind), pickle.loads(pickle.dumps(heavy)),
                     copy.copy(heavy), copy.deepcopy(heavy))
            for twin in twins:
                self.assertIsNot(twin, heavy)
                self.assertEqual(repr(twin), repr(heavy))
                self.assertEqual([twin.bounds(n) for n in numbers], [heavy.bounds(n) for n in numbers])
                twin.update(numbers[0], 5)
                self.assertNotEqual(twin.total_weight, heavy.total_weight)

    def test_a_sample_size_is_kept(self):
        for kind, items in ((int, range(-200, 200)), ("u64", range(400)), (str, [f"item {number}" for number in range(400)])):
            own = ds.FrequentItemsSketch(64, item=kind, sample_size=4)
            for number, item in enumerate(items):
                own.update(item, number % 31)
            image = bytes(own)
            twins = (copy.copy(own), copy.deepcopy(own), pickle.loads(pickle.dumps(own)),
                     ds.FrequentItemsSketch.deserialize(image, item=kind, sample_size=4))
            for twin in twins:
                self.assertEqual((twin.sample_size, twin.max_map_size, twin.total_weight), (4, 64, own.total_weight))
                self.assertEqual((twin.num_active_items, twin.maximum_error), (own.num_active_items, own.maximum_error))
                self.assertEqual([twin.bounds(item) for item in items], [own.bounds(item) for item in items])
            self.assertEqual(ds.FrequentItemsSketch.deserialize(image, item=kind).sample_size, 48)
            for wrong in (0, 3, 50):
                with self.assertRaises(ds.SketchError) as refused:
                    ds.FrequentItemsSketch.deserialize(image, item=kind, sample_size=wrong)
                self.assertEqual((refused.exception.kind, refused.exception.fault), ("InvalidArgument", "BadSampleSize"))
            self.assertRaises(ValueError, ds.FrequentItemsSketch.deserialize, image, kind, sample_size=-2)

    def test_refused_images(self):
        heavy = ds.FrequentItemsSketch(64)
        heavy.update(range(30))
        image = bytes(heavy)
        for place, fault in ((1, "BadVersion"), (2, "BadFamily"), (3, "LgMaxTooLarge"), (5, "EmptyFlagMismatch")):
            altered = bytearray(image)
            altered[place] ^= 0xFF
            with self.assertRaises(ds.SketchError) as refused:
                ds.FrequentItemsSketch.deserialize(altered, int)
            self.assertEqual((refused.exception.kind, refused.exception.fault), ("InvalidData", fault))
        for length in range(len(image)):
            with self.assertRaises(ds.SketchError):
                ds.FrequentItemsSketch.deserialize(image[:length], int)
        with self.assertRaises(ds.SketchError) as refused:
            ds.FrequentItemsSketch.deserialize(image, int, max_bytes=100)
        self.assertEqual(refused.exception.fault, "TableTooLarge")
        with self.assertRaises(ValueError):
            ds.FrequentItemsSketch.deserialize(image, item="text")

    def test_random_alterations(self):
        chance = random.Random(1)
        heavy = ds.FrequentItemsSketch(64)
        heavy.update(range(30))
        image = bytes(heavy)
        for _ in range(2000):
            altered = bytearray(image)
            for _ in range(chance.randint(1, 3)):
                altered[chance.randrange(len(altered))] = chance.randrange(256)
            try:
                read = ds.FrequentItemsSketch.deserialize(altered, int, max_bytes=1 << 16)
            except (ds.SketchError, MemoryError):
                continue
            self.assertEqual(ds.FrequentItemsSketch.deserialize(bytes(read), int).total_weight, read.total_weight)


if __name__ == "__main__":
    unittest.main()
