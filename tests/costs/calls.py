"""Makes calls of the Python package that read input, on an input of size n and of 10 n: calls.py MARKS. `run.py` runs it."""
import array
import ctypes
import os
import pickle
import random
import sys
import tempfile

import datasketches_rattle as ds

TOP = os.path.dirname(os.path.dirname(os.path.dirname(os.path.abspath(__file__))))
sys.path.insert(0, f"{TOP}/bindings/python/tests")

import arrow  # noqa: E402

marks = ctypes.CDLL(sys.argv[1])
SIZES = (1000, 10000)


def cost(name, prepare, call):
    for n in SIZES:
        prepared = prepare(n)
        marks.marks_begin()
        call(prepared)
        marks.marks_end(f"Python, {name} {n}".encode())


def numbers(n):
    rng = random.Random(n)
    return [rng.randrange(2**64) for _ in range(n)]


def strings(n):
    return [f"w{i:06}" for i in range(n)]


def words(n):
    return " ".join(strings(n)).encode()


def sketch_of(n, item="u64"):
    sketch = ds.FrequentItemsSketch(16384, item=item)
    sketch.update(numbers(n) if item == "u64" else strings(n))
    return sketch


def filter_of(n):
    seen = ds.BloomFilter(num_bits=64 * n, num_hashes=7)
    seen.insert(1)
    return seen


def count_of(n):
    count = ds.CountMinSketch(num_hashes=4, num_buckets=n)
    count.update(1)
    return count


def file_of(text):
    path = os.path.join(tempfile.mkdtemp(dir=os.path.dirname(sys.argv[1])), "text")
    with open(path, "wb") as file:
        file.write(text)
    return path


def new_numbers():
    return ds.FrequentItemsSketch(16384, item="u64")


def new_strings():
    return ds.FrequentItemsSketch(16384, item=str)


def read_images(images):
    while images:
        _, used = ds.FrequentItemsSketch.deserialize_prefix(images, item=str)
        images = images[used:]


def main():
    seen, count = ds.BloomFilter(num_bits=1 << 20, num_hashes=7), ds.CountMinSketch(num_hashes=4, num_buckets=4096)
    kinds = {"a list of numbers": numbers, "an array": lambda n: array.array("Q", numbers(n)), "a list of strings": strings}
    for kind, of in kinds.items():
        cost(f"filter.insert of {kind}", of, seen.insert)
        cost(f"filter.contains of {kind}", of, seen.contains)
        cost(f"count.update of {kind}", of, count.update)
        cost(f"count.estimate of {kind}", of, count.estimate)
    cost("frequent.update of a list of numbers", numbers, lambda items: new_numbers().update(items))
    cost("frequent.update of a list of strings", strings, lambda items: new_strings().update(items))
    cost("frequent.update with weights", strings, lambda items: new_strings().update(items, [1] * len(items)))
    cost("frequent.update of a dict", lambda n: dict.fromkeys(strings(n), 3), lambda items: new_strings().update(items))
    cost("frequent.update of an iterator", lambda n: iter(strings(n)), lambda items: new_strings().update(items))
    cost("frequent.update of an Arrow column", lambda n: arrow.Column("u", strings(n)), lambda items: new_strings().update(items))
    cost("frequent.update of an Arrow column with nulls", lambda n: arrow.Column("u", [*strings(n), None, ""]),
         lambda items: new_strings().update(items))
    cost("frequent.merge_all", lambda n: n * [ds.FrequentItemsSketch(8, item=str)] + [sketch_of(n, str)], new_strings().merge_all)
    cost("count.merge_all", lambda n: [count_of(3) for _ in range(n)], ds.CountMinSketch(num_hashes=4, num_buckets=3).merge_all)
    cost("filter.union_all", lambda n: [filter_of(1) for _ in range(n)], ds.BloomFilter(num_bits=64, num_hashes=7).union_all)
    cost("frequent.update_words", words, lambda text: new_strings().update_words(text))
    cost("frequent.update_lines", lambda n: words(n).replace(b" ", b"\n"), lambda text: new_strings().update_lines(text))
    cost("frequent.update_words of one word", lambda n: 8 * n * b"a", lambda text: new_strings().update_words(text))
    ds.FrequentItemsSketch.from_file(file_of(b"a"), progress=False)  # its imports are not counted below
    cost("from_file", lambda n: file_of(words(n)), lambda path: ds.FrequentItemsSketch.from_file(path, progress=False))
    cost("deserialize of numbers", lambda n: sketch_of(n).serialize(),
         lambda image: ds.FrequentItemsSketch.deserialize(image, item="u64"))
    cost("deserialize of strings", lambda n: sketch_of(n, str).serialize(),
         lambda image: ds.FrequentItemsSketch.deserialize(image, item=str))
    cost("deserialize of a filter", lambda n: filter_of(n).serialize(), ds.BloomFilter.deserialize)
    cost("deserialize of Count-Min", lambda n: count_of(n).serialize(), ds.CountMinSketch.deserialize)
    cost("deserialize_prefix of each image", lambda n: memoryview(n * sketch_of(1, str).serialize()), read_images)
    cost("a pickle", lambda n: pickle.dumps(sketch_of(n)), pickle.loads)
    print("all calls made")


main()
