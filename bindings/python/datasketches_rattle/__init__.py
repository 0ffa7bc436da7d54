"""Sketches of long streams: filters, counts and frequent items, over a proved library.

>>> import datasketches_rattle as ds
>>> seen = ds.BloomFilter(num_bits=1 << 20, num_hashes=7)
>>> seen.insert(["apple", "pear"])
>>> "apple" in seen, "plum" in seen
(True, False)
"""
from ._rows import Row
from ._sketches import BloomFilter, CountMinSketch, FrequentItemsSketch, SketchError, __version__, keyed_hash

__all__ = ["BloomFilter", "CountMinSketch", "FrequentItemsSketch", "Row", "SketchError", "keyed_hash"]
