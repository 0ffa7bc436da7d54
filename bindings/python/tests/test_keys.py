"""Keys of frequent items: given ones, drawn ones, and those of copies, merges and images."""
import array
import copy
import functools
import os
import pickle
import random
import tempfile
import threading
import unittest
from collections import Counter

import datasketches_rattle as ds

try:
    import numpy
except ImportError:
    numpy = None

KEY, OTHER = bytes(range(16)), bytes(range(1, 17))
KINDS = (int, int), ("u64", int), (str, str)


def stream(seed, make=int, length=2000):
    """Returns random items, few of which are frequent."""
    chance = random.Random(seed)
    return [make(int(chance.paretovariate(0.7)) % 300) for _ in range(length)]


def sketch(items, size=32, **more):
    """Returns a sketch of these items. A small table purges counters."""
    heavy = ds.FrequentItemsSketch(size, **more)
    heavy.update(items)
    return heavy


class Keys(unittest.TestCase):
    def holds(self, heavy, items):
        """Checks that the bounds enclose the weights of the items."""
        self.assertEqual(heavy.total_weight, len(items))
        for item, weight in Counter(items).items():
            low, _, high = heavy.bounds(item)
            self.assertTrue(low <= weight <= high, (item, low, weight, high))


class Given(Keys):
    def test_the_same_key_gives_the_same_sketch(self):
        for item, make in KINDS:
            for key in (KEY, OTHER, bytes(16)):
                items = stream(1, make)
                one, two = sketch(items, item=item, key=key), sketch(items, item=item, key=key)
                self.assertGreater(one.maximum_error, 0)
                self.assertEqual((one.rows(), bytes(one)), (two.rows(), bytes(two)))
                self.holds(one, items)
                read = functools.partial(ds.FrequentItemsSketch.deserialize, item=item, sample_size=4)
                three, four = read(bytes(one), key=key), read(bytes(one), key=key)
                more = stream(2, make)
                three.update(more)
                four.update(more)
                self.assertEqual((three.rows(), bytes(three)), (four.rows(), bytes(four)))
                self.holds(three, items + more)

    def test_files(self):
        with tempfile.TemporaryDirectory() as folder:
            path = os.path.join(folder, "words.txt")
            words = stream(3, str)
            with open(path, "w", encoding="utf-8") as file:
                print(*words, file=file)
            one, two = (ds.FrequentItemsSketch.from_file(path, max_map_size=32, key=KEY) for _ in range(2))
            self.assertEqual(bytes(one), bytes(two))
            self.assertEqual(bytes(one), bytes(sketch(words, item=str, key=KEY)))
            self.assertRaisesRegex(ValueError, "the key has 16 bytes, not 0", ds.FrequentItemsSketch.from_file, path, key=b"")

    def test_kinds_of_bytes(self):
        items = stream(4)
        wanted = bytes(sketch(items, key=KEY))
        keys = [bytearray(KEY), memoryview(KEY), memoryview(bytearray(KEY)), array.array("B", KEY)]
        for key in keys + ([numpy.frombuffer(KEY, "u1")] if numpy else []):
            self.assertEqual(bytes(sketch(items, key=key)), wanted)
            self.assertEqual(ds.FrequentItemsSketch.deserialize(wanted, int, key=key).total_weight, len(items))
        self.assertEqual(bytes(ds.FrequentItemsSketch(32, int, None, KEY)), bytes(ds.FrequentItemsSketch(32)))

    def test_other_arguments(self):
        image = bytes(ds.FrequentItemsSketch(64))
        for call in (functools.partial(ds.FrequentItemsSketch, 64), functools.partial(ds.FrequentItemsSketch.deserialize, image, int)):
            for key in (b"", KEY[:15], KEY + b"x"):
                self.assertRaisesRegex(ValueError, f"^the key has 16 bytes, not {len(key)}$", call, key=key)
            for key in ("0123456789abcdef", 7, False, array.array("Q", KEY)):
                self.assertRaisesRegex(TypeError, "^the key is bytes, not ", call, key=key)
            self.assertRaises(BufferError, call, key=memoryview(KEY * 2)[::2])
            self.assertEqual((call(key=None).total_weight, call(key=KEY).total_weight), (0, 0))
        with self.assertRaises(ds.SketchError) as refused:
            ds.FrequentItemsSketch(65, key=KEY)
        self.assertEqual(refused.exception.fault, "MapSizeNotPowerOfTwo")
        with self.assertRaises(ds.SketchError) as refused:
            ds.FrequentItemsSketch.deserialize(image[:-1], int, key=KEY)
        self.assertEqual((refused.exception.kind, refused.exception.fault), ("InvalidData", "InsufficientData"))


class Kept(Keys):
    def test_a_copy_keeps_the_key(self):
        for item, make in KINDS:
            for key in (KEY, None):
                heavy = sketch(stream(5, make), item=item, key=key)
                twins = copy.copy(heavy), copy.deepcopy(heavy)
                for twin in (heavy, *twins):
                    twin.update(stream(6, make))
                    self.assertEqual(bytes(twin), bytes(heavy))

    def test_a_merge_keeps_its_own_key(self):
        for item, make in KINDS:
            first, second, more = stream(7, make), stream(8, make), stream(9, make)
            images = set()
            for other_key in (KEY, OTHER, None):
                other = sketch(["a"] if make is str else [7], item=item, key=other_key)
                joined = sketch(first, item=item, key=KEY) + other
                into, all_into = sketch(first, item=item, key=KEY), sketch(first, item=item, key=KEY)
                into += other
                all_into.merge_all([other])
                for heavy in (joined, into, all_into):
                    heavy.update(more)
                    images.add(bytes(heavy))
            self.assertEqual(len(images), 1)
            one, other = sketch(first, item=item, key=KEY), sketch(second, item=item, key=OTHER)
            self.holds(one + other, first + second)
            self.holds(other + one, first + second)

    def test_images_and_pickles_have_no_key(self):
        for item, make in KINDS:
            items, more = stream(10, make), stream(11, make)
            heavy = sketch(items, item=item, key=KEY)
            for stored in (bytes(heavy), pickle.dumps(heavy)):
                for word in (KEY, KEY[:8], KEY[8:]):
                    self.assertNotIn(word, stored)
            for twin in (pickle.loads(pickle.dumps(heavy)), ds.FrequentItemsSketch.deserialize(bytes(heavy), item=item)):
                self.assertEqual((sorted(twin.rows()), twin.maximum_error), (sorted(heavy.rows()), heavy.maximum_error))
                twin.update(more)
                self.holds(twin, items + more)


class Drawn(Keys):
    def test_bounds_hold(self):
        for item, make in KINDS:
            items = stream(12, make)
            for _ in range(20):
                self.holds(sketch(items, item=item), items)

    def test_each_sketch_has_its_own(self):
        """The order of the items in an image depends on the key. 300 items have the same order under two keys with a probability
        far below 2^-64."""
        for item, make in KINDS:
            items = [make(number) for number in range(300)]
            made = [sketch(items, 1024, item=item, **more) for more in ({}, {}, {"key": KEY}, {"key": OTHER})]
            made += [ds.FrequentItemsSketch.deserialize(bytes(made[2]), item=item), pickle.loads(pickle.dumps(made[2]))]
            self.assertEqual(len({bytes(heavy) for heavy in made}), 6)
            for heavy in made:
                self.assertEqual(sorted(heavy.rows()), sorted((one, 1, 1, 1) for one in items))

    def test_threads(self):
        wrong, items = [], stream(13)

        def create():
            for _ in range(50):
                heavy = ds.FrequentItemsSketch.deserialize(bytes(sketch(items)), int)
                if heavy.total_weight != len(items):
                    wrong.append(heavy)

        threads = [threading.Thread(target=create) for _ in range(8)]
        for thread in threads:
            thread.start()
        for thread in threads:
            thread.join()
        self.assertEqual(wrong, [])

    def test_keys_after_a_fork(self):
        # the order of an image's items depends on the key
        def order():
            sketch = ds.FrequentItemsSketch(1024)
            sketch.update(range(500))
            return sketch.serialize()

        ds.FrequentItemsSketch(8)
        ends = os.pipe()
        child = os.fork()
        if child == 0:
            with os.fdopen(ends[1], "wb") as out:
                out.write(order())
            os._exit(0)
        os.close(ends[1])
        own = order()
        with os.fdopen(ends[0], "rb") as found:
            self.assertNotEqual(found.read(), own)
        self.assertEqual(os.waitpid(child, 0)[1], 0)

    def test_after_a_fork(self):
        ds.FrequentItemsSketch(8)
        child = os.fork()
        if child == 0:
            status = 1
            try:
                items = stream(14)
                self.holds(sketch(items), items)
                status = 0
            finally:
                os._exit(status)
        self.assertEqual(os.waitpid(child, 0)[1], 0)


if __name__ == "__main__":
    unittest.main()
