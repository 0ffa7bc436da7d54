"""BloomFilter: items, set operations, images, copies, closing."""
import array
import copy
import pickle
import random
import sys
import types
import unittest
from unittest import mock

import datasketches_rattle as ds


def made(items=(), bits=1 << 14, hashes=5, **more):
    """Returns a filter with these items."""
    result = ds.BloomFilter(bits, hashes, **more)
    result.insert(list(items))
    return result


class Colour(int):
    """A number of a subclass of int."""


class Indexed:
    """An object that is not a number but can be converted to one."""

    def __index__(self):
        return -5


class Items(unittest.TestCase):
    def test_singles(self):
        seen = made()
        for item in ["", "apple", "Grüße", "a\0b", "\U0001f600", 0, 1, -1, 2**63 - 1, 2**63, 2**64 - 1, -2**63]:
            seen.insert(item)
            self.assertIn(item, seen)
        self.assertNotIn("pear", seen)
        self.assertNotIn(77, seen)
        self.assertIs(seen.contains("apple"), True)
        self.assertIs(seen.contains("pear"), False)

    def test_same_bytes_are_the_same_item(self):
        alone = made([7, -7])
        self.assertEqual(alone, made(array.array("q", [7, -7])))
        self.assertEqual(made([7]), made(array.array("Q", [7])))
        self.assertEqual(made([-1]), made([2**64 - 1]))
        self.assertNotEqual(made(["7"]), made([7]))

    def test_numbers_of_other_classes(self):
        self.assertEqual(made([Colour(7), Indexed()]), made([7, -5]))
        seen = made()
        seen.insert(Indexed())
        self.assertIn(-5, seen)

    def test_iterables(self):
        whole = made(range(100))
        for given in (list(range(100)), tuple(range(100)), set(range(100)), iter(range(100)), dict.fromkeys(range(100)).keys()):
            seen = made()
            seen.insert(given)
            self.assertEqual(seen, whole)

    def test_buffers(self):
        numbers = list(range(-3000, 3000))
        whole = made(numbers)
        for code in "ql":
            seen = made()
            seen.insert(array.array(code, numbers))
            self.assertEqual(seen, whole)
        naturals = made([n + 2**63 for n in numbers])
        for code in "QL":
            seen = made()
            seen.insert(memoryview(array.array(code, [n + 2**63 for n in numbers])))
            self.assertEqual(seen, naturals)

    def test_strided_and_unaligned_buffers(self):
        numbers = array.array("q", range(5000))
        seen = made()
        seen.insert(memoryview(numbers)[::-3])
        self.assertEqual(seen, made(list(numbers)[::-3]))
        shifted = memoryview(bytearray(b"x" + numbers.tobytes()))[1:].cast("q")
        seen = made()
        seen.insert(shifted)
        self.assertEqual(seen, made(numbers))

    def test_mixed_lists(self):
        seen = made()
        seen.insert(["a", 1, -1, "b"])
        self.assertEqual(seen.contains(["a", 1, -1, "b", "c", 2]), [True] * 4 + [False] * 2)

    def test_nothing(self):
        seen = made()
        for none in ([], (), "".split(), array.array("q"), array.array("Q")):
            seen.insert(none)
            self.assertEqual(seen.contains(none), [])
        self.assertEqual(seen.bits_used, 0)

    def test_many_answers(self):
        seen = made(range(3000), bits=1 << 17)
        asked = array.array("q", range(-3000, 6000))
        answers = seen.contains(asked)
        self.assertEqual(answers, [number in seen for number in asked])
        self.assertTrue(all(answers[3000:6000]))
        self.assertLess(sum(answers), 3100)

    def test_contains_and_insert(self):
        for items in ([1, 2, 1, 3, 2], ["a", "b", "a"], [1, "a", "a", 1, -1, 2**64 - 1], [], list(range(3000)) * 2,
                      [str(number % 700) for number in range(5000)]):
            one, many, by_iterator, plain = made(bits=1 << 10), made(bits=1 << 10), made(bits=1 << 10), made(bits=1 << 10)
            expected = []
            for item in items:
                expected.append(item in plain)
                plain.insert(item)
            self.assertEqual([one.contains_and_insert(item) for item in items], expected)
            self.assertEqual(many.contains_and_insert(items), expected)
            self.assertEqual(by_iterator.contains_and_insert(iter(items)), expected)
            self.assertEqual((one, many, by_iterator), (plain,) * 3)
        seen = made()
        self.assertEqual(seen.contains_and_insert(array.array("i", [7, -7, 7])), [False, False, True])
        self.assertIs(seen.contains_and_insert(-7), True)
        self.assertIs(seen.contains_and_insert(8), False)

    def test_errors_of_contains_and_insert(self):
        seen = made()
        for bad, error in ((1.5, TypeError), ([1, 2.5], TypeError), ({1: 2}, TypeError), (2**64, OverflowError),
                           ("\ud800", UnicodeEncodeError), ([1, None], ValueError)):
            with self.assertRaises(error):
                seen.contains_and_insert(bad)
        self.assertEqual(seen, made())
        with self.assertRaisesRegex(ValueError, "1 of 905 are missing") as raised:
            seen.contains_and_insert(iter([*range(5000), None]))
        self.assertEqual(raised.exception.__notes__, ["items taken before this error: 4096"])
        self.assertEqual(seen, made(range(4096)))
        with self.assertRaises(ValueError) as raised:
            seen.contains(iter([*range(5000), None]))
        self.assertFalse(hasattr(raised.exception, "__notes__"))

    def test_numpy_is_answered_by_an_array(self):
        class Array(array.array):
            """A stand-in for a numpy array."""

        numpy = types.ModuleType("numpy")
        numpy.ndarray = Array
        numpy.empty = lambda count, kind: Array("b", bytes(count)) if kind == "?" else None
        with mock.patch.dict(sys.modules, numpy=numpy):
            seen = made([1, 3])
            self.assertEqual(seen.contains(Array("q", [1, 2, 3])), Array("b", [1, 0, 1]))
            self.assertEqual(seen.contains(Array("q")), Array("b"))
            self.assertEqual(seen.contains(array.array("q", [1, 2, 3])), [True, False, True])

    def test_numpy(self):
        try:
            import numpy
        except ImportError:
            self.skipTest("no numpy here")
        seen = made(range(50))
        answers = seen.contains(numpy.arange(100, dtype=numpy.int64))
        self.assertEqual(answers.dtype, numpy.bool_)
        self.assertTrue(answers[:50].all())
        self.assertIn(numpy.int64(7), seen)
        told = seen.contains_and_insert(numpy.array([7, 100, 100]))
        self.assertEqual((told.dtype, told.tolist()), (numpy.bool_, [True, False, True]))
        with self.assertRaisesRegex(TypeError, "contains_and_insert takes no masked array"):
            seen.contains_and_insert(numpy.ma.array([1, 2], mask=[True, False]))


class Refusals(unittest.TestCase):
    def test_items(self):
        seen = made()
        for bad in (1.5, None, True, b"ab", bytearray(8), object(), [1, 2.0], [True], [["a"]], [None, 1.5],
                    array.array("d", [1.0]), memoryview(bytes(8))):
            for call in (seen.insert, seen.contains):
                with self.assertRaises(TypeError, msg=repr(bad)):
                    call(bad)
        for bad in (1.5, None, False, b"ab", [1], ("a",)):
            with self.assertRaises(TypeError, msg=repr(bad)):
                bad in seen
        for bad in (2**64, -2**63 - 1, [1, 2**64]):
            with self.assertRaises(OverflowError):
                seen.insert(bad)
        for bad in ("\ud800", ["a", "\udfff"]):
            with self.assertRaises(ValueError):
                seen.insert(bad)
        with self.assertRaises(ValueError):
            seen.insert(memoryview(array.array("q", range(4))).cast("B").cast("q", (2, 2)))
        self.assertEqual(seen.bits_used, 0, "what is refused inserts nothing")

    def test_shapes(self):
        rows = [(0, 7, "BadNumBits"), (137438953153, 7, "BadNumBits"), (64, 0, "BadNumHashes"), (64, 32768, "BadNumHashes"),
                (64, 65536, "BadNumHashes"), (64, 65537, "BadNumHashes"), (64, 2**64 - 1, "BadNumHashes")]
        for bits, hashes, fault in rows:
            with self.assertRaises(ds.SketchError) as refused:
                ds.BloomFilter(bits, hashes)
            self.assertEqual((refused.exception.kind, refused.exception.fault), ("InvalidArgument", fault))
        for bits, hashes, seed in [(-1, 7, 1), (64, -1, 1), (64, 1, -1), (2**64, 1, 1), (64, 1, 2**64)]:
            with self.assertRaises(ValueError):
                ds.BloomFilter(bits, hashes, seed)
        for wrong in [(64.0, 1), (64, True), ("64", 1), (None, 1), (64,), ()]:
            with self.assertRaises(TypeError):
                ds.BloomFilter(*wrong)
        self.assertEqual(ds.BloomFilter(num_hashes=1, num_bits=65).capacity, 128)

    def test_mismatch(self):
        filters = [made(), made(bits=1 << 15), made(hashes=6), made(seed=1)]
        for other in filters[1:]:
            for call in (lambda a, b: a | b, lambda a, b: a & b, lambda a, b: a - b):
                with self.assertRaises(ds.SketchError) as refused:
                    call(filters[0], other)
                self.assertEqual(refused.exception.fault, "Mismatch")
        for wrong in (1, None, set(), ds.CountMinSketch(1, 3)):
            with self.assertRaises(TypeError):
                filters[0] | wrong
        self.assertFalse(issubclass(ds.SketchError, ValueError))
        self.assertIsNone(ds.SketchError.fault)


class Sets(unittest.TestCase):
    def test_operations(self):
        a, b = made(range(100)), made(range(50, 150))
        both, common, rest = a | b, a & b, a - b
        self.assertEqual(both, made(range(150)))
        self.assertTrue(all(common.contains(range(50, 100))))
        self.assertFalse(any(rest.contains(range(50, 150))))
        self.assertEqual((a, b), (made(range(100)), made(range(50, 150))))
        same = a
        a |= b
        self.assertIs(a, same)
        self.assertEqual(a, both)
        a &= b
        self.assertEqual(a, b)
        a -= b
        self.assertEqual(a, made())

    def test_with_itself(self):
        a = made(range(100))
        self.assertEqual(a | a, a)
        self.assertEqual(a & a, a)
        self.assertEqual((a - a).bits_used, 0)
        a |= a
        a &= a
        self.assertEqual(a, made(range(100)))
        a -= a
        self.assertEqual(a.bits_used, 0)


class Images(unittest.TestCase):
    def test_there_and_back(self):
        for seen in (made(), made(["a"]), made(range(1000), bits=65, hashes=3, seed=2**64 - 1)):
            image = seen.serialize()
            self.assertEqual(len(image), 24 if seen.bits_used == 0 else 32 + seen.capacity // 8)
            self.assertEqual(bytes(seen), image)
            for given in (image, bytearray(image), memoryview(image)):
                back = ds.BloomFilter.deserialize(given)
                self.assertEqual(back, seen)
                self.assertEqual(repr(back), repr(seen))

    def test_limits(self):
        image = bytes(made(["a"], bits=1024))
        ds.BloomFilter.deserialize(image, max_bytes=128)
        ds.BloomFilter.deserialize(image, max_bytes=None)
        with self.assertRaises(ds.SketchError) as refused:
            ds.BloomFilter.deserialize(image, max_bytes=127)
        self.assertEqual((refused.exception.kind, refused.exception.fault), ("InvalidData", "TableTooLarge"))
        empty = bytearray(bytes(made()))
        empty[16:20] = b"\xff\xff\xff\x7f"
        with self.assertRaises(ds.SketchError):
            ds.BloomFilter.deserialize(empty)
        for wrong, error in ((-1, ValueError), (1.0, TypeError), ("1", TypeError)):
            with self.assertRaises(error):
                ds.BloomFilter.deserialize(image, max_bytes=wrong)

    def test_altered_images(self):
        image = bytes(made(["a", "b"], bits=128, hashes=3))
        rows = [(0, "BadPreamble"), (1, "BadVersion"), (2, "BadFamily"), (24, "BadBitCount"), (5, "BadNumHashes")]
        for place, fault in rows:
            altered = bytearray(image)
            altered[place] ^= 0xFF
            with self.assertRaises(ds.SketchError) as refused:
                ds.BloomFilter.deserialize(altered)
            self.assertEqual((refused.exception.kind, refused.exception.fault), ("InvalidData", fault))
        for length in range(len(image)):
            with self.assertRaises(ds.SketchError) as refused:
                ds.BloomFilter.deserialize(image[:length])
            self.assertEqual(refused.exception.fault, "InsufficientData")
        for wrong in ("text", 7, None):
            with self.assertRaises(TypeError):
                ds.BloomFilter.deserialize(wrong)

    def test_random_alterations(self):
        chance = random.Random(1)
        image = bytes(made(["a", "b"], bits=256, hashes=3))
        for _ in range(2000):
            altered = bytearray(image)
            for _ in range(chance.randint(1, 3)):
                altered[chance.randrange(len(altered))] = chance.randrange(256)
            try:
                read = ds.BloomFilter.deserialize(altered, max_bytes=4096)
            except (ds.SketchError, MemoryError):
                continue
            self.assertEqual(ds.BloomFilter.deserialize(bytes(read)), read)


class Copies(unittest.TestCase):
    def test_copies(self):
        seen = made(range(100), seed=5)
        for twin in (copy.copy(seen), copy.deepcopy(seen), copy.deepcopy([seen])[0], pickle.loads(pickle.dumps(seen)),
                     pickle.loads(pickle.dumps(seen, 0))):
            self.assertIsNot(twin, seen)
            self.assertEqual(twin, seen)
            twin.insert("more")
            self.assertNotEqual(twin, seen)

    def test_errors_are_pickled(self):
        try:
            ds.BloomFilter(0, 1)
        except ds.SketchError as error:
            twin = pickle.loads(pickle.dumps(error))
            self.assertEqual((twin.kind, twin.fault, str(twin)), (error.kind, error.fault, str(error)))

    def test_subclasses(self):
        class Mine(ds.BloomFilter):
            """A filter of a subclass."""

        seen = Mine(64, 1)
        seen.insert("a")
        for twin in (copy.copy(seen), seen | seen, Mine.deserialize(bytes(seen))):
            self.assertIs(type(twin), Mine)
            self.assertEqual(twin, seen)

    def test_comparing(self):
        self.assertNotEqual(made(), 7)
        self.assertFalse(made() == made(seed=1))
        with self.assertRaises(TypeError):
            made() < made()
        with self.assertRaises(TypeError):
            hash(made())


class Ends(unittest.TestCase):
    def test_close(self):
        with made(["a"]) as seen:
            self.assertIn("a", seen)
        calls = [lambda: seen.insert("a"), lambda: seen.insert([1]), lambda: "a" in seen, lambda: seen.contains([1]),
                 seen.reset, lambda: bytes(seen), lambda: seen | made(), lambda: made() | seen, lambda: copy.copy(seen),
                 lambda: seen == made(), lambda: seen.capacity, lambda: pickle.dumps(seen), seen.__enter__]
        for call in calls:
            with self.assertRaises(ValueError):
                call()
        self.assertEqual(repr(seen), "<BloomFilter, closed>")
        seen.close()

    def test_reset(self):
        seen = made(range(100))
        seen.reset()
        self.assertEqual(seen, made())
        self.assertEqual(repr(seen), "<BloomFilter num_bits=16384 num_hashes=5 seed=9001 bits_used=0>")

    def test_errors_within_close(self):
        with self.assertRaises(KeyError):
            with made():
                raise KeyError


if __name__ == "__main__":
    unittest.main()
