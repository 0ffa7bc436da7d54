"""Copies by `copy` and `pickle`: of subclasses, of their objects' attributes, and under a limit."""
import copy
import pickle
import sys
import unittest

import datasketches_rattle as ds

PROTOCOLS = range(pickle.HIGHEST_PROTOCOL + 1)


class NamedFilter(ds.BloomFilter):
    """A filter with attributes."""


class NamedCount(ds.CountMinSketch):
    """A Count-Min sketch with attributes."""


class NamedItems(ds.FrequentItemsSketch):
    """Frequent items with attributes."""


class Slotted(ds.BloomFilter):
    """A filter with slots and no `__dict__`."""

    __slots__ = ("name", "unset")


class Stated(ds.FrequentItemsSketch):
    """Frequent items that define the state that is stored."""

    def __getstate__(self):
        return {"stored": self.name}

    def __setstate__(self, state):
        self.name = state["stored"] + " again"


class Raising(ds.BloomFilter):
    """A filter whose state cannot be read."""

    def __getstate__(self):
        raise KeyError("no state")


class Small(ds.BloomFilter):
    """A filter with a low limit for images."""

    unpickle_max_bytes = 128


class SmallCount(ds.CountMinSketch):
    """A Count-Min sketch with a low limit for images."""

    unpickle_max_bytes = 128


class SmallItems(ds.FrequentItemsSketch):
    """Frequent items with a low limit for images."""

    unpickle_max_bytes = 128


class Unlimited(ds.BloomFilter):
    """A filter without a limit for images."""

    unpickle_max_bytes = None


def wholes():
    """Returns an object of each subclass, with an item in it."""
    seen, load, stock = NamedFilter(64, 3, seed=5), NamedCount(2, 64, seed=5), NamedCount(2, 64, seed=5, signed=True)
    numbers, naturals, words = NamedItems(64), NamedItems(64, item="u64", sample_size=4), NamedItems(64, item=str, sample_size=6)
    seen.insert(7)
    load.update(7, 3)
    stock.update(7, -3)
    numbers.update(-7, 3)
    naturals.update(2**64 - 1, 3)
    words.update("a", 3)
    return [(seen, 7), (load, 7), (stock, 7), (numbers, -7), (naturals, 2**64 - 1), (words, "a")]


def twins(whole):
    """Returns copies of a sketch, one of each kind."""
    return [copy.copy(whole), copy.deepcopy(whole)] + [pickle.loads(pickle.dumps(whole, protocol)) for protocol in PROTOCOLS]


def weight(whole, item):
    """Returns whether a filter contains the item, or the item's estimate."""
    return item in whole if isinstance(whole, ds.BloomFilter) else whole[item]


class Subclasses(unittest.TestCase):
    def test_attributes_are_kept(self):
        for whole, item in wholes():
            whole.name, whole.tags = "a name", ["a", "b"]
            for twin in twins(whole):
                self.assertEqual((type(twin), vars(twin)), (type(whole), vars(whole)))
                self.assertEqual((repr(twin), weight(twin, item)), (repr(whole), weight(whole, item)))
                self.assertNotEqual(weight(twin, item), 0)
                twin.name = "another"
                self.assertEqual(whole.name, "a name")

    def test_a_shallow_copy_shares_and_a_deep_one_does_not(self):
        for whole, _ in wholes():
            whole.tags = ["a"]
            self.assertIs(copy.copy(whole).tags, whole.tags)
            for twin in twins(whole)[1:]:
                self.assertEqual(twin.tags, ["a"])
                self.assertIsNot(twin.tags, whole.tags)

    def test_a_state_that_leads_back(self):
        for whole, _ in wholes():
            whole.itself, whole.shared = [whole], (shared := ["a"])
            twin, others = copy.deepcopy([whole, shared])
            self.assertIs(twin.itself[0], twin)
            self.assertIs(twin.shared, others)
            for protocol in PROTOCOLS:
                twin = pickle.loads(pickle.dumps(whole, protocol))
                self.assertIs(twin.itself[0], twin)

    def test_slots(self):
        whole = Slotted(64, 3)
        whole.name = ["a"]
        for twin in [copy.copy(whole), copy.deepcopy(whole)] + [pickle.loads(pickle.dumps(whole, p)) for p in (2, 3, 4, 5)]:
            self.assertEqual((twin.name, hasattr(twin, "unset")), (["a"], False))

    def test_states_of_their_own(self):
        whole = Stated(64)
        whole.name = "a"
        for twin in twins(whole):
            self.assertEqual(vars(twin), {"name": "a again"})
        for call in (copy.copy, copy.deepcopy, pickle.dumps):
            self.assertRaises(KeyError, call, Raising(64, 1))

    def test_none_of_their_own(self):
        for whole, _ in wholes():
            for twin in twins(whole):
                self.assertEqual(vars(twin), {})
        for plain in (ds.BloomFilter(64, 1), ds.CountMinSketch(1, 3), ds.FrequentItemsSketch(8)):
            self.assertEqual(len(plain.__reduce__()), 2)
            for twin in twins(plain):
                self.assertEqual((type(twin), repr(twin)), (type(plain), repr(plain)))
            self.assertEqual(repr(plain.__deepcopy__(None)), repr(plain))

    def test_joins_have_the_class_and_no_attributes(self):
        a, b = NamedFilter(64, 3), NamedFilter(64, 3)
        a.name = "a"
        self.assertEqual((type(a | b), vars(a | b)), (NamedFilter, {}))
        a |= b
        self.assertEqual(vars(a), {"name": "a"})


class Tables(unittest.TestCase):
    def test_a_restored_table_has_the_same_size(self):
        """Also tests tables that purges have left with few items."""
        for item, items in ((int, range(500)), (str, [f"item {number}" for number in range(500)])):
            for sample_size in (48, 4):
                own = ds.FrequentItemsSketch(64, item=item, sample_size=sample_size)
                own.update(items)
                for twin in twins(own):
                    self.assertEqual((sys.getsizeof(twin), twin.sample_size, bytes(twin)[3:5]),
                                     (sys.getsizeof(own), sample_size, b"\6\6"))


class Limits(unittest.TestCase):
    def test_a_class_has_its_own(self):
        for kind in (ds.BloomFilter, ds.CountMinSketch, ds.FrequentItemsSketch):
            self.assertEqual(kind.unpickle_max_bytes, 1 << 30)
        for small, large in ((Small(1024, 1), Small(1025, 1)), (SmallCount(1, 15), SmallCount(1, 16))):
            self.assertEqual(pickle.loads(pickle.dumps(small)), small)
            with self.assertRaises(ds.SketchError) as refused:
                pickle.loads(pickle.dumps(large))
            self.assertEqual((refused.exception.kind, refused.exception.fault), ("InvalidData", "TableTooLarge"))
        items = SmallItems(64)
        with self.assertRaises(ds.SketchError):
            pickle.loads(pickle.dumps(items))

    def test_an_untrusted_image_is_held_to_it(self):
        image = bytearray(bytes(ds.BloomFilter(64, 1)))
        for kind, words in ((ds.BloomFilter, (1 << 27) + 1), (ds.BloomFilter, (1 << 31) - 1), (Small, 17)):
            image[16:20] = words.to_bytes(4, "little")
            stored = pickle.dumps(Forged(kind, bytes(image)))
            with self.assertRaises(ds.SketchError) as refused:
                pickle.loads(stored)
            self.assertEqual(refused.exception.fault, "TableTooLarge")

    def test_none_and_what_is_no_limit(self):
        whole = Unlimited(1 << 20, 3)
        self.assertEqual(pickle.loads(pickle.dumps(whole)), whole)
        for wrong, error in ((-1, ValueError), ("1", TypeError), (1.5, TypeError)):
            Unlimited.unpickle_max_bytes = wrong
            try:
                self.assertRaises(error, pickle.loads, pickle.dumps(whole))
            finally:
                Unlimited.unpickle_max_bytes = None

    def test_copies_have_no_limit(self):
        large = Small(1 << 20, 1)
        self.assertEqual((copy.copy(large), copy.deepcopy(large)), (large, large))

    def test_older_pickles(self):
        for reader, arguments, whole in ((ds.BloomFilter.deserialize, (None,), ds.BloomFilter(64, 1)),
                                         (ds.CountMinSketch.deserialize, (5, None, True),
                                          ds.CountMinSketch(1, 3, seed=5, signed=True))):
            self.assertEqual(reader(bytes(whole), *arguments), whole)

    def test_wrong_arguments(self):
        for kind in (ds.BloomFilter, ds.CountMinSketch, ds.FrequentItemsSketch):
            for wrong in ((), (7,), (b"",) * 9):
                self.assertRaises(TypeError, kind._unpickle, *wrong)


class Forged:
    """An object that pickle stores as a sketch with any image."""

    def __init__(self, kind, image):
        self.kind, self.image = kind, image

    def __reduce__(self):
        return self.kind._unpickle, (self.image,)


if __name__ == "__main__":
    unittest.main()
