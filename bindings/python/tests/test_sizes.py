"""Suggested sizes, compared with the published formulas as `decimal` computes them."""
import decimal
import math
import random
import unittest

import datasketches_rattle as ds

decimal.getcontext().prec = 60
E = decimal.Decimal(1).exp()
LN2 = decimal.Decimal(2).ln()


def rounded_up(number):
    return int(number.to_integral_value(decimal.ROUND_CEILING))


class Sizes(unittest.TestCase):
    def refused(self, fault, call, *sizes):
        with self.assertRaises(ds.SketchError) as caught:
            call(*sizes)
        self.assertEqual((caught.exception.kind, caught.exception.fault), ("InvalidArgument", fault))

    def test_frequent_items(self):
        powers = [1 << power for power in range(3, 31)]
        for parts in range(513):
            wanted = next(size for size in powers if min(1024, size // 4 * 3) // 2 >= parts)
            self.assertEqual(ds.FrequentItemsSketch.suggest_max_map_size(parts), wanted)
        for parts in [513, 1024, 2**64 - 1]:
            self.refused("MapSizeTooLarge", ds.FrequentItemsSketch.suggest_max_map_size, parts)

    def test_buckets(self):
        drawn = [random.Random(1).randrange(2, 395007541) for _ in range(300)]
        for parts in [2, 3, 10, 100, 1000, 10000, 395007541, *drawn]:
            self.assertEqual(ds.CountMinSketch.suggest_num_buckets(parts), rounded_up(E * parts))
        self.refused("BadNumBuckets", ds.CountMinSketch.suggest_num_buckets, 0)
        self.refused("TableTooLarge", ds.CountMinSketch.suggest_num_buckets, 395007542)

    def test_hashes_of_counts(self):
        edges = [int(E**power) + more for power in range(1, 45) for more in (0, 1)]
        for questions in [2, 50, 1000, 2**64 - 1, *edges]:
            if questions < 2**64:
                self.assertEqual(ds.CountMinSketch.suggest_num_hashes(questions), rounded_up(decimal.Decimal(questions).ln()))
        self.refused("BadNumHashes", ds.CountMinSketch.suggest_num_hashes, 0)
        self.refused("BadNumHashes", ds.CountMinSketch.suggest_num_hashes, 1)

    def test_bits(self):
        drawn = random.Random(2)
        rows = [(drawn.randrange(1, 10**9), drawn.randrange(2, 2 ** drawn.randrange(2, 64))) for _ in range(300)]
        for items, questions in [(1, 2), (1000, 10), (1000, 100), (10**9, 10**6), (1, 2**64 - 1), *rows]:
            bits = ds.BloomFilter.suggest_num_bits(items, questions)
            logarithm = (questions**64 - 1).bit_length()  # the binary logarithm in 64ths, rounded up
            self.assertEqual(bits, rounded_up(decimal.Decimal(items * logarithm) / 64 / LN2))
            self.assertGreaterEqual(bits, items * decimal.Decimal(questions).ln() / LN2**2)
        for items, questions in [(0, 2), (1, 0), (1, 1), (2**64 - 1, 2), (10**11, 2)]:
            self.refused("BadNumBits", ds.BloomFilter.suggest_num_bits, items, questions)

    def test_least_bits(self):
        drawn = random.Random(4)
        rows = [(drawn.randrange(1, 10**9), drawn.randrange(2, 10**9)) for _ in range(300)]
        for items, questions in [(0, 2), (1, 1), (1, 1000), (100, 10**4), (2**35, 2**33), *rows]:
            square = 16 * items * questions
            bits = math.isqrt(square)
            self.assertEqual(ds.BloomFilter.min_num_bits(items, questions), bits + (bits * bits < square))
        for items, questions in [(2**36, 2**36), (2**64 - 1, 2**64 - 1), (2**62, 2**62)]:
            self.refused("BadNumBits", ds.BloomFilter.min_num_bits, items, questions)

    def test_hashes_of_filters(self):
        drawn = random.Random(3)
        for _ in range(300):
            items = drawn.randrange(1, 10**9)
            bits = min(items * drawn.randrange(1, 200), 137438953152)
            self.assertEqual(ds.BloomFilter.suggest_num_hashes(bits, items), rounded_up(bits * LN2 / items))
        for bits, items, fault in [(0, 1, "BadNumBits"), (137438953153, 1, "BadNumBits"), (64, 0, "BadNumHashes")]:
            self.refused(fault, ds.BloomFilter.suggest_num_hashes, bits, items)
        self.refused("BadNumHashes", ds.BloomFilter.suggest_num_hashes, 1 << 20, 1)

    def test_sizes_are_those_that_sketches_take(self):
        seen = ds.BloomFilter(ds.BloomFilter.suggest_num_bits(100, 50), ds.BloomFilter.suggest_num_hashes(600, 100))
        load = ds.CountMinSketch(ds.CountMinSketch.suggest_num_hashes(questions=100),
                                 ds.CountMinSketch.suggest_num_buckets(parts=100))
        heavy = ds.FrequentItemsSketch(ds.FrequentItemsSketch.suggest_max_map_size(parts=100))
        self.assertEqual((load.num_hashes, load.num_buckets, heavy.max_map_size), (5, math.ceil(math.e * 100), 512))
        self.assertGreaterEqual(seen.capacity, 800)

    def test_arguments(self):
        for call in [ds.CountMinSketch.suggest_num_buckets, ds.CountMinSketch.suggest_num_hashes,
                     ds.FrequentItemsSketch.suggest_max_map_size]:
            self.assertRaises(TypeError, call)
            self.assertRaises(TypeError, call, 1.5)
            self.assertRaises(ValueError, call, -1)
        self.assertRaises(TypeError, ds.BloomFilter.suggest_num_bits, 1)
        self.assertRaises(ValueError, ds.BloomFilter.suggest_num_hashes, 64, -1)


if __name__ == "__main__":
    unittest.main()
