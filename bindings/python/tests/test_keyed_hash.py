"""The keyed hash, compared with the published description in Python and with the hash of CPython itself."""
import array
import mmap
import random
import struct
import subprocess
import sys
import threading
import unittest

import arrow
import datasketches_rattle as ds
from arrow import Chunked, Column, described

try:
    import numpy
except ImportError:
    numpy = None

KEY = bytes(range(16))
COUNTING = bytes(number % 256 for number in range(600))
TOP = 2**64 - 1

# The hashes of the bytes 0, 1, .. of each length from 0 to 8 under the key of the bytes 0 to 15: published vectors.
VECTORS = [0xABAC0158050FC4DC, 0xC9F49BF37D57CA93, 0x82CB9B024DC7D44D, 0x8BF80AB8E7DDF7FB, 0xCF75576088D38328,
           0xDEF9D52F49533B67, 0xC50D2B50C59F22A7, 0xD3927D989BB11140, 0x369095118D299A8E]

HASHES_OF_PYTHON = """
import sys
data = bytes.fromhex(sys.argv[1])
print(*[hash(data[first:first + length]) % 2**64 for length in range(1, 70) for first in (0, 7)])
"""


def rotated(word, bits):
    return (word << bits | word >> 64 - bits) & TOP


def sip_round(v):
    v[0] = (v[0] + v[1]) & TOP
    v[2] = (v[2] + v[3]) & TOP
    v[1] = rotated(v[1], 13) ^ v[0]
    v[3] = rotated(v[3], 16) ^ v[2]
    v[0] = rotated(v[0], 32)
    v[2] = (v[2] + v[1]) & TOP
    v[0] = (v[0] + v[3]) & TOP
    v[1] = rotated(v[1], 17) ^ v[2]
    v[3] = rotated(v[3], 21) ^ v[0]
    v[2] = rotated(v[2], 32)


def sip_hash(key, item, rounds=1, last_rounds=3):
    k0, k1 = struct.unpack("<QQ", key)
    v = [k0 ^ 0x736F6D6570736575, k1 ^ 0x646F72616E646F6D, k0 ^ 0x6C7967656E657261, k1 ^ 0x7465646279746573]
    padded = item + bytes(7 - len(item) % 8) + bytes([len(item) % 256])
    for (word,) in struct.iter_unpack("<Q", padded):
        v[3] ^= word
        for _ in range(rounds):
            sip_round(v)
        v[0] ^= word
    v[2] ^= 0xFF
    for _ in range(last_rounds):
        sip_round(v)
    return v[0] ^ v[1] ^ v[2] ^ v[3]


def key_of_seed(seed):
    """Returns the key that CPython derives from PYTHONHASHSEED."""
    key = bytearray()
    while len(key) < 16:
        seed = (seed * 214013 + 2531011) % 2**32
        key.append(seed >> 16 & 255)
    return bytes(key)


class KeyedHash(unittest.TestCase):
    def test_known_hashes(self):
        self.assertEqual(sip_hash(KEY, COUNTING[:15], 2, 4), 0xA129CA6149BE45E5)
        self.assertEqual([ds.keyed_hash(KEY, COUNTING[:length]) for length in range(9)], VECTORS)

    def test_each_length(self):
        chance = random.Random(1)
        for length in range(600):
            key, item = chance.randbytes(16), chance.randbytes(length)
            self.assertEqual(ds.keyed_hash(key, item), sip_hash(key, item))
            self.assertEqual(ds.keyed_hash(KEY, COUNTING[:length]), sip_hash(KEY, COUNTING[:length]))

    @unittest.skipIf(sys.hash_info.algorithm != "siphash13" or sys.hash_info.cutoff, "this Python has another hash")
    def test_beside_python(self):
        for seed in (1, 12345, 2**32 - 1):
            done = subprocess.run([sys.executable, "-c", HASHES_OF_PYTHON, COUNTING[:80].hex()], capture_output=True, text=True,
                                  env={"PYTHONHASHSEED": str(seed)}, check=True)
            key = key_of_seed(seed)
            pieces = [COUNTING[first:first + length] for length in range(1, 70) for first in (0, 7)]
            self.assertEqual([int(word) for word in done.stdout.split()], [ds.keyed_hash(key, piece) for piece in pieces])

    def test_kinds_of_bytes(self):
        wanted = ds.keyed_hash(KEY, "häßlich €")
        item = "häßlich €".encode()
        self.assertEqual(wanted, sip_hash(KEY, item))
        for same in (item, bytearray(item), memoryview(item), memoryview(bytearray(item)), array.array("B", item)):
            self.assertEqual(ds.keyed_hash(KEY, same), wanted)
        for key in (bytearray(KEY), memoryview(KEY), array.array("B", KEY)):
            self.assertEqual(ds.keyed_hash(key, item), wanted)
        with mmap.mmap(-1, len(item)) as mapped:
            mapped[:] = item
            self.assertEqual(ds.keyed_hash(KEY, mapped), wanted)
        for none in ("", b"", bytearray(), memoryview(b"")):
            self.assertEqual(ds.keyed_hash(KEY, none), VECTORS[0])
        for same in [numpy.frombuffer(item, "u1"), numpy.bytes_(item)] if numpy else []:
            self.assertEqual(ds.keyed_hash(KEY, same), wanted)

    def test_other_arguments(self):
        for key in (b"", KEY[:15], KEY + b"x"):
            with self.assertRaisesRegex(ValueError, f"the key has 16 bytes, not {len(key)}"):
                ds.keyed_hash(key, "a")
        for key in ("0123456789abcdef", 7, None, array.array("Q", KEY)):
            with self.assertRaisesRegex(TypeError, "the key is bytes, not "):
                ds.keyed_hash(key, "a")
        for item in (7, None, 1.5, array.array("Q", KEY), *([numpy.arange(3)] if numpy else [])):
            with self.assertRaisesRegex(TypeError, "an item is a str or bytes, not "):
                ds.keyed_hash(KEY, item)
        with self.assertRaises(UnicodeEncodeError):
            ds.keyed_hash(KEY, "\ud800")
        with self.assertRaises(BufferError):
            ds.keyed_hash(KEY, memoryview(COUNTING)[::2])
        for arguments in ((), (KEY,), (KEY, "a", "b")):
            with self.assertRaises(TypeError):
                ds.keyed_hash(*arguments)

    def test_many_strings(self):
        strings = ["", "a", "häßlich €", *(f"user{number}" * (number % 9) for number in range(9000))]
        hashes = [ds.keyed_hash(KEY, string) for string in strings]
        for many in (strings, tuple(strings), iter(strings)):
            self.assertEqual(ds.keyed_hash(KEY, many), hashes)
        self.assertEqual((ds.keyed_hash(KEY, []), ds.keyed_hash(KEY, {"a": 1}.keys())), ([], [hashes[1]]))
        for many in [numpy.array(strings), numpy.array(strings, object), numpy.char.encode(strings, "utf-8")] if numpy else []:
            found = ds.keyed_hash(KEY, many)
            self.assertEqual((found.dtype, found.tolist()), (numpy.dtype("u8"), hashes))

    def test_columns(self):
        words = ["a", "häßlich €", "", "a"]
        hashes = [ds.keyed_hash(KEY, word) for word in words]
        codes = Column("c", [0, 1, 2, 0], dictionary=described("u", words))
        for column in (Column("u", words), Column("U", words), codes, Chunked(described("u", words[:1]), described("u", words[1:]))):
            self.assertEqual(ds.keyed_hash(KEY, column), hashes)
        with self.assertRaisesRegex(ValueError, "1 of 2 are missing"):
            ds.keyed_hash(KEY, Column("u", ["a", None]))
        for numbers in (Column("l", [1, 2]), Column("c", [0, 0], dictionary=described("l", [7]))):
            with self.assertRaisesRegex(TypeError, "strings, not numbers"):
                ds.keyed_hash(KEY, numbers)
        self.assertEqual((arrow.live, arrow.released_twice, arrow._structs), ({}, [], {}))

    def test_many_of_other_kinds(self):
        for many in ([1], ["a", 1], [b"a"], (number for number in range(3)), {"a": 1}):
            with self.assertRaises(TypeError):
                ds.keyed_hash(KEY, many)
        for many in [numpy.array(["a", 1], object), numpy.ma.masked_array(["a", "b"], [0, 1])] if numpy else []:
            with self.assertRaises(TypeError):
                ds.keyed_hash(KEY, many)
        self.assertRaisesRegex(ValueError, "1 of 1 are missing", ds.keyed_hash, KEY, [None])
        with self.assertRaises(UnicodeEncodeError):
            ds.keyed_hash(KEY, ["a", "\ud800"])

    def test_in_place_of_items(self):
        users = [f"user{number}" for number in range(100)]
        hashes = ds.keyed_hash(KEY, users)
        seen, load = ds.BloomFilter(num_bits=1 << 16, num_hashes=7), ds.CountMinSketch(num_hashes=4, num_buckets=1 << 10)
        heavy = ds.FrequentItemsSketch(1024, item="u64")
        for sketch in (load, heavy):
            sketch.update(hashes)
        seen.insert(hashes)
        self.assertTrue(all(seen.contains(hashes)))
        self.assertEqual(sorted(row[0] for row in heavy.rows()), sorted(hashes))
        self.assertGreaterEqual(min(load.estimate(hashes)), 1)

    def test_long_items_in_threads(self):
        items = [bytes([number]) * (1 << 17) for number in range(4)]
        found = {}
        threads = [threading.Thread(target=lambda item=item: found.update({item[0]: ds.keyed_hash(KEY, bytearray(item))}))
                   for item in items]
        for thread in threads:
            thread.start()
        for thread in threads:
            thread.join()
        self.assertEqual(found, {item[0]: ds.keyed_hash(KEY, item) for item in items})
        self.assertEqual(found[3], sip_hash(KEY, items[3]))


if __name__ == "__main__":
    unittest.main()
