"""Images at the front of bytes, by `deserialize_prefix` beside `deserialize`, and the memory that an image takes."""
import array
import functools
import mmap
import random
import unittest

import datasketches_rattle as ds
from test_wholes import in_short_memory

KEY = bytes(range(16))


def filled(items=(), bits=256):
    seen = ds.BloomFilter(bits, 3)
    seen.insert(items)
    return seen


def counted(items=(), signed=False):
    load = ds.CountMinSketch(3, 7, signed=signed)
    load.update(items)
    return load


def frequent(items=(), item=int):
    heavy = ds.FrequentItemsSketch(64, item=item, key=KEY)
    heavy.update(items)
    return heavy


def readers(kind, **more):
    """Returns both readers of a class, under a given key if it has keys: so equal images become sketches with equal images."""
    return functools.partial(kind.deserialize, **more), functools.partial(kind.deserialize_prefix, **more)


FILTERS = readers(ds.BloomFilter)
COUNTS, SIGNED_COUNTS = readers(ds.CountMinSketch), readers(ds.CountMinSketch, signed=True)
NUMBERS, UNSIGNED = readers(ds.FrequentItemsSketch, item=int, key=KEY), readers(ds.FrequentItemsSketch, item="u64", key=KEY)
STRINGS = readers(ds.FrequentItemsSketch, item=str, key=KEY)


def wholes():
    """Returns sketches of each kind, each with both readers and the length of its image by the formula."""
    return [
        (filled(), *FILTERS, 24), (filled(["a", 7]), *FILTERS, 32 + 32),
        (counted(), *COUNTS, 16), (counted([7, 8, 7]), *COUNTS, 24 + 8 * 3 * 7),
        (counted([-1], signed=True), *SIGNED_COUNTS, 24 + 8 * 3 * 7),
        (frequent(), *NUMBERS, 8), (frequent(range(-5, 25)), *NUMBERS, 32 + 16 * 30),
        (frequent([2**64 - 1], item="u64"), *UNSIGNED, 32 + 16),
        (frequent(item=str), *STRINGS, 8), (frequent(["", "apple", "é€"], item=str), *STRINGS, 32 + 3 * 12 + 5 + 5),
    ]


def outcome(read, given, **more):
    """Returns the image of the sketch that is read, and how many bytes it took if that is returned, or the error's fault."""
    try:
        whole = read(given, **more)
    except ds.SketchError as error:
        return error.kind, error.fault
    return (bytes(whole[0]), whole[1]) if isinstance(whole, tuple) else bytes(whole)


class Prefixes(unittest.TestCase):
    def test_one_after_another(self):
        whole = b"".join(bytes(it[0]) for it in wholes())
        mapping = mmap.mmap(-1, len(whole))
        mapping[:] = whole
        for given in (whole, bytearray(whole), array.array("B", whole), mapping):
            with memoryview(given) as view:
                at = 0
                for sketch, read, read_prefix, length in wholes():
                    with view[at:] as rest:
                        read_one, used = read_prefix(rest)
                    self.assertEqual(used, length)
                    self.assertIs(type(read_one), type(sketch))
                    self.assertEqual(repr(read_one), repr(sketch))
                    self.assertEqual(bytes(read_one), bytes(read(bytes(sketch))))
                    at += used
                self.assertEqual(at, len(whole))

    def test_each_length(self):
        for sketch, _, read_prefix, length in wholes():
            image = bytes(sketch)
            self.assertEqual(len(image), length)
            for cut in range(length):
                self.assertEqual(outcome(read_prefix, image[:cut]), ("InvalidData", "InsufficientData"))
            for more in (0, 1, 1000):
                self.assertEqual(read_prefix(image + bytes(more))[1], length)

    def test_random_alterations(self):
        """Both readers accept the same bytes. What is accepted needs each byte that it is said to take, and no other."""
        chance = random.Random(5)
        accepted = 0
        for sketch, read, read_prefix, _ in wholes():
            image = bytes(sketch)
            for _ in range(500):
                altered = bytearray(image + chance.randbytes(chance.choice((0, 3, 40))))
                for _ in range(chance.randrange(3)):
                    altered[chance.randrange(len(image))] = chance.choice((0, 1, 255, chance.randrange(256)))
                limit = chance.choice((100, 1000, 1 << 16))
                told = outcome(read_prefix, bytes(altered), max_bytes=limit)
                alone = outcome(read, bytes(altered), max_bytes=limit)
                if isinstance(alone, tuple):
                    self.assertEqual(told, alone)
                    continue
                self.assertEqual(told[0], alone)
                accepted += 1
                used = told[1]
                self.assertEqual(outcome(read_prefix, altered[:used], max_bytes=limit), told)
                self.assertEqual(outcome(read, bytes(altered[:used - 1]), max_bytes=limit), ("InvalidData", "InsufficientData"))
        self.assertGreater(accepted, 1000)

    def test_limits(self):
        """The limit does not count what follows an image."""
        for sketch, read, read_prefix, length in wholes():
            image = bytes(sketch)
            least = next(limit for limit in range(5000) if outcome(read_prefix, image, max_bytes=limit)[1] != "TableTooLarge")
            for after in (b"", bytes(9), 50 * image):
                self.assertEqual(read_prefix(image + after, max_bytes=least)[1], length)
                self.assertEqual(outcome(read, image + after, max_bytes=least - 1)[1], "TableTooLarge")
                self.assertEqual(outcome(read_prefix, image + after, max_bytes=least - 1)[1], "TableTooLarge")
            self.assertEqual(read_prefix(image, max_bytes=None)[1], length)

    def test_limit_of_strings(self):
        """A limit counts the strings up to the first that cannot be read."""
        image = bytes(frequent(["abc", "def"], item=str))
        # Each string takes seven bytes with its length. The second one gets a wrong last byte, or a length beyond the end.
        for damaged, fault in ((image[:-1] + b"\xff", "InvalidUtf8"), (image[:-7] + b"\xff" * 4 + image[-3:], "InsufficientData")):
            for after in (b"", 50 * image):
                for read in STRINGS:
                    self.assertEqual(outcome(read, damaged + after, max_bytes=8 * 44 + 7), ("InvalidData", fault))
                    self.assertEqual(outcome(read, damaged + after, max_bytes=8 * 44 + 6)[1], "TableTooLarge")

    def test_arguments(self):
        load = ds.CountMinSketch(3, 7, seed=5)
        load.update(7)
        image = bytes(load) + b"more"
        read, used = ds.CountMinSketch.deserialize_prefix(image, 5, None, False)
        self.assertEqual((read, used), (load, len(image) - 4))
        self.assertEqual(outcome(ds.CountMinSketch.deserialize_prefix, image), ("InvalidData", "SeedHashMismatch"))
        image = bytes(frequent(["a"] * 5, item=str)) + b"more"
        call = functools.partial(ds.FrequentItemsSketch.deserialize_prefix, image)
        for read, used in (call(str, None, 4, KEY), call(item=str, max_bytes=1 << 10, sample_size=4), call(str, sample_size=None)):
            self.assertEqual((read["a"], used), (5, len(image) - 4))
        self.assertEqual((call(str, sample_size=4)[0].sample_size, call(str)[0].sample_size), (4, 48))
        self.assertEqual(outcome(call, str, sample_size=3), ("InvalidArgument", "BadSampleSize"))
        self.assertRaisesRegex(ValueError, "the key has 16 bytes, not 3", call, item=str, key=b"abc")
        self.assertRaisesRegex(ValueError, "item is int", call, item=bytes)
        for kind, more in ((ds.BloomFilter, {}), (ds.CountMinSketch, {}), (ds.FrequentItemsSketch, {"item": int})):
            self.assertRaisesRegex(TypeError, "deserialize_prefix", kind.deserialize_prefix)
            self.assertRaises(TypeError, kind.deserialize_prefix, "text", **more)
            self.assertRaises(TypeError, kind.deserialize_prefix, b"", max_bytes="1", **more)
            self.assertRaises(ValueError, kind.deserialize_prefix, b"", max_bytes=-1, **more)
            self.assertEqual(outcome(functools.partial(kind.deserialize_prefix, **more), b""), ("InvalidData", "InsufficientData"))
        # an image does not state the type of its items
        self.assertRaisesRegex(TypeError, "item", ds.FrequentItemsSketch.deserialize, image)

    def test_keys(self):
        """Without a key each sketch gets its own. So 48 items are in another order, but with a probability far below 2^-64."""
        for item, items in ((int, range(48)), (str, map(str, range(48)))):
            image = bytes(frequent(items, item=item))
            drawn = [ds.FrequentItemsSketch.deserialize_prefix(image, item)[0] for _ in range(3)]
            self.assertEqual(len({bytes(heavy) for heavy in drawn}), 3)
            given = [ds.FrequentItemsSketch.deserialize_prefix(image, item, key=KEY)[0] for _ in range(3)]
            self.assertEqual(len({bytes(heavy) for heavy in given}), 1)
            for heavy in drawn + given:
                self.assertEqual((heavy.total_weight, heavy.num_active_items), (48, 48))

    def test_subclasses(self):
        class Mine(ds.BloomFilter):
            """A filter of a subclass."""

        read, used = Mine.deserialize_prefix(bytes(filled(["a"])) + b"more")
        self.assertIs(type(read), Mine)
        self.assertEqual((read, used), (filled(["a"]), 64))

    def test_a_view_is_given_back(self):
        for sketch, _, read_prefix, _ in wholes():
            image = bytearray(bytes(sketch))
            read_prefix(image)
            for wrong in ({"max_bytes": -1}, {"max_bytes": 0}):
                self.assertRaises((ValueError, ds.SketchError), read_prefix, image, **wrong)
            image.append(0)


class Lengths(unittest.TestCase):
    def test_memory(self):
        """An image of frequent items takes its own memory and no more: here 100 MiB of strings in less than 116 MiB."""
        ran = in_short_memory("""
            heavy = ds.FrequentItemsSketch(64, item=str)
            for number in range(10):
                heavy.update(str(number) * (10 << 20))
            """, 116, """
            print(len(bytes(heavy)))
            """)
        self.assertEqual(ran, [str(32 + 10 * (12 + (10 << 20)))])


if __name__ == "__main__":
    unittest.main()
