"""FrequentItemsSketch of str: bounds, rows, numbers, merges, copies, errors."""
import array
import copy
import pickle
import random
import struct
import unittest
from collections import Counter

import datasketches_rattle as ds

GREATEST = 2**64 - 1


def zipf(chance, length):
    """Returns random words, few of which are frequent."""
    return [f"wört{int(chance.paretovariate(0.8)) % 3000}" for _ in range(length)]


def sketch(words, size=64, **more):
    """Returns a sketch of these words."""
    heavy = ds.FrequentItemsSketch(size, item=str, **more)
    heavy.update(words)
    return heavy


class Weights(unittest.TestCase):
    def test_exact_while_there_is_room(self):
        heavy = ds.FrequentItemsSketch(64, item=str)
        words = ("", "apple", "Grüße", "a\0b", "\0", "\U0001f34e", "x" * 100000)
        for word in words:
            heavy.update(word, 5)
        heavy.update(iter(words))
        for word in words:
            self.assertEqual((heavy[word], heavy.estimate(word), heavy.bounds(word)), (6, 6, (6, 6, 6)))
        self.assertEqual(heavy["a"], 0)
        self.assertEqual((heavy.total_weight, heavy.maximum_error, heavy.num_active_items, heavy.max_map_size, heavy.sample_size),
                         (42, 0, 7, 64, 48))
        self.assertEqual(sorted(heavy.rows()), sorted((word, 6, 6, 6) for word in words))
        self.assertEqual(repr(heavy), "<FrequentItemsSketch max_map_size=64 item=str total_weight=42>")

    def test_bounds_hold(self):
        words = zipf(random.Random(1), 20000)
        weights = Counter(words)
        for size, sample in ((64, None), (64, 8), (1024, None)):
            heavy = sketch(words, size, sample_size=sample)
            self.assertEqual(heavy.total_weight, len(words))
            for word, weight in weights.items():
                low, estimate, high = heavy.bounds(word)
                self.assertTrue(low <= weight <= high and low <= estimate <= high, (word, weight))
                self.assertEqual(high - low, heavy.maximum_error)
            for threshold in (0, 300):
                least = max(threshold, heavy.maximum_error)
                above = {word for word, weight in weights.items() if weight > least}
                self.assertLessEqual(above, {row[0] for row in heavy.rows(threshold)})
                self.assertGreaterEqual(above, {row[0] for row in heavy.rows(threshold, no_false="positives")})

    def test_rows_are_those_of_the_bounds(self):
        chance = random.Random(2)
        words = zipf(chance, 5000)
        heavy = ds.FrequentItemsSketch(64, item=str)
        for word in words:
            heavy.update(word, chance.randrange(4))
        for threshold in (0, 10, heavy.maximum_error, 500, GREATEST):
            least = max(threshold, heavy.maximum_error)
            for name, place in (("negatives", 2), ("positives", 0)):
                rows = heavy.rows(threshold, name)
                told = {item: tuple(bounds) for item, *bounds in rows}
                for word in set(words):
                    bounds = heavy.bounds(word)
                    self.assertEqual(word in told, bounds[place] > least, (threshold, word))
                    self.assertEqual(told.get(word, bounds), bounds)
                estimates = [row[2] for row in rows]
                self.assertEqual(estimates, sorted(estimates, reverse=True))

    def test_weights_of_their_own(self):
        words, weights = ["apple", "pear", "apple", ""], [3, 2**40, 4, 0]
        for given in (weights, iter(weights), array.array("Q", weights), array.array("q", weights)):
            heavy = ds.FrequentItemsSketch(64, item=str)
            heavy.update(words, given)
            self.assertEqual(([heavy[word] for word in words], heavy.total_weight), ([7, 2**40, 7, 0], 7 + 2**40))
        for given in ([1], [1, 2, 3, -4], [1, 2, 3, 2**64]):
            with self.assertRaises(ValueError):
                heavy.update(words, given)
        for given in ([1, 2, 3, 4.0], ["1"] * 4, array.array("d", [1] * 4)):
            with self.assertRaises(TypeError):
                heavy.update(words, given)
        for given in ([1], array.array("q", [1])):
            with self.assertRaises(TypeError):
                heavy.update("apple", given)
        self.assertEqual(heavy.total_weight, 7 + 2**40)

    def test_reset(self):
        heavy = sketch(map(str, range(200)), sample_size=4)
        heavy.reset()
        self.assertEqual((heavy.total_weight, heavy.maximum_error, heavy.num_active_items, heavy.rows()), (0, 0, 0, []))
        self.assertEqual((heavy.max_map_size, heavy.sample_size), (64, 4))
        heavy.update("apple")
        self.assertEqual(heavy["apple"], 1)


class Merges(unittest.TestCase):
    def test_merge(self):
        a, b = sketch(["apple"] * 3 + ["pear"]), sketch(["apple", "plum"], 128)
        both = a + b
        a += b
        for each in (a, both):
            self.assertEqual([each[word] for word in ("apple", "pear", "plum")], [4, 1, 1])
        self.assertEqual((b["apple"], b["pear"], b.total_weight), (1, 0, 2))

    def test_refused(self):
        a, b = sketch(["apple"]), ds.FrequentItemsSketch(64, item=str)
        b.update("pear", GREATEST)
        for other in (ds.FrequentItemsSketch(64), ds.FrequentItemsSketch(64, item="u64")):
            with self.assertRaises(ValueError):
                a += other
        with self.assertRaises(ds.SketchError) as refused:
            a += b
        self.assertEqual((refused.exception.fault, a.rows()), ("WeightOverflow", [("apple", 1, 1, 1)]))


class Images(unittest.TestCase):
    def test_there_and_back(self):
        words = zipf(random.Random(3), 3000)
        heavy = ds.FrequentItemsSketch(128, item=str)
        self.assertEqual(len(bytes(heavy)), 8)
        heavy.update(words)
        length = sum(12 + len(word.encode()) for word, *_ in heavy.rows())
        if len(heavy.rows()) == heavy.num_active_items:
            self.assertEqual(len(bytes(heavy)), 32 + length)
        for twin in (ds.FrequentItemsSketch.deserialize(bytes(heavy), item=str), pickle.loads(pickle.dumps(heavy)),
                     copy.copy(heavy), copy.deepcopy(heavy)):
            self.assertEqual((repr(twin), twin.sample_size), (repr(heavy), 96))
            self.assertEqual(twin.rows(), heavy.rows())
            twin.update("apple", 5)
            self.assertNotEqual(twin.total_weight, heavy.total_weight)

    def test_altered(self):
        chance = random.Random(1)
        image = bytes(sketch(map(str, range(30))))
        for length in range(len(image)):
            with self.assertRaises(ds.SketchError):
                ds.FrequentItemsSketch.deserialize(image[:length], item=str)
        for _ in range(2000):
            altered = bytearray(image)
            for _ in range(chance.randint(1, 3)):
                altered[chance.randrange(len(altered))] = chance.randrange(256)
            try:
                read = ds.FrequentItemsSketch.deserialize(altered, item=str, max_bytes=1 << 16)
            except (ds.SketchError, MemoryError):
                continue
            self.assertEqual([read.bounds(row[0]) for row in read.rows()], [row[1:] for row in read.rows()])


class Refusals(unittest.TestCase):
    def test_items(self):
        heavy = ds.FrequentItemsSketch(64, item=str)
        for bad in (7, -7, None, True, 1.5, b"ab", ["a", 7], ["a", b"b"], array.array("q", [1]), array.array("Q", [1])):
            with self.assertRaises(TypeError, msg=repr(bad)):
                heavy.update(bad)
        for bad in ("\ud800", ["a", "\udfff"]):
            with self.assertRaises(UnicodeEncodeError):
                heavy.update(bad)
        with self.assertRaises(UnicodeEncodeError):
            heavy.bounds("\ud800")
        for call in (heavy.bounds, heavy.estimate, heavy.__getitem__):
            with self.assertRaises(TypeError):
                call(7)
        self.assertEqual((heavy.total_weight, heavy.rows()), (0, []), "what is refused counts nothing")

    def test_weights(self):
        heavy = ds.FrequentItemsSketch(64, item=str)
        heavy.update("d", GREATEST - 2)
        with self.assertRaises(ds.SketchError) as refused:
            heavy.update(["a", "b", "c"])
        self.assertEqual(refused.exception.fault, "WeightOverflow")
        self.assertEqual([heavy[word] for word in "abcd"], [0, 0, 0, GREATEST - 2])
        heavy.update(["a", "b"])
        self.assertEqual((heavy.total_weight, heavy.rows()[0]), (GREATEST, ("d",) + (GREATEST - 2,) * 3))

    def test_close(self):
        with sketch(["apple"]) as heavy:
            pass
        for call in (lambda: heavy.update("a"), lambda: heavy["a"], heavy.rows, lambda: heavy.total_weight, heavy.reset,
                     heavy.serialize, lambda: copy.copy(heavy)):
            with self.assertRaises(ValueError):
                call()
        self.assertEqual(repr(heavy), "<FrequentItemsSketch, closed>")


class Images(unittest.TestCase):
    def test_texts_of_each_length(self):
        texts = ["abcdefghijklmnopqrstuvwxyz0123456789ABCD"[:length] for length in range(41)]
        heavy = ds.FrequentItemsSketch(64, item=str)
        for text in texts:
            heavy.update(text, len(text) + 1)
        image = heavy.serialize()
        self.assertEqual(struct.unpack_from("<I4xQQ", image, 8), (41, sum(range(1, 42)), 0))
        read, at = [], 32 + 8 * 41
        for weight in struct.unpack_from("<41Q", image, 32):
            (length,) = struct.unpack_from("<I", image, at)
            read.append((image[at + 4:at + 4 + length].decode(), weight))
            at += 4 + length
        self.assertEqual(at, len(image))
        self.assertEqual(sorted(read), sorted((text, len(text) + 1) for text in texts))


if __name__ == "__main__":
    unittest.main()
