"""The package's names, types and docs, and its behaviour with little memory."""
import ast
import os
import subprocess
import sys
import unittest

import datasketches_rattle as ds

FOLDER = os.path.dirname(ds.__file__)
TOP = os.path.dirname(os.path.dirname(os.path.dirname(os.path.dirname(os.path.abspath(__file__)))))
sys.path.append(f"{TOP}/tests")

import tables  # noqa: E402

# Numbers of sketches that are no attributes.
LEFT_OUT = {
    "kind": "the class, `signed`, and the type of items that `repr` has",
    "maximum_map_capacity": "three quarters of `max_map_size`",
    "current_map_capacity": "changes with the growth of the table alone",
}

SHORT_OF_MEMORY = """
import copy, resource
import datasketches_rattle as ds
kept = ds.BloomFilter(1 << 28, 3)
kept.insert("a")
resource.setrlimit(resource.RLIMIT_AS, (1 << 28, 1 << 28))
calls = [lambda: ds.BloomFilter(1 << 33, 3), lambda: ds.CountMinSketch(4, 1 << 27), lambda: ds.CountMinSketch(4, 1 << 25)]
image = bytearray(bytes(ds.BloomFilter(64, 3)))
image[16:20] = (1 << 27).to_bytes(4, "little")
calls.append(lambda: ds.BloomFilter.deserialize(image, max_bytes=None))
twins = []
calls.append(lambda: [twins.append(copy.copy(kept)) for _ in range(100)])
for call in calls:
    try:
        call()
    except MemoryError:
        print("MemoryError")
twins.clear()
print("a" in kept, "b" in kept)
"""

COUNTED_SO_FAR = """
import array, resource
import datasketches_rattle as ds
items = array.array("q", range(4000000))
heavy = ds.FrequentItemsSketch(1 << 26)
resource.setrlimit(resource.RLIMIT_AS, (1 << 28, 1 << 28))
try:
    heavy.update(items)
except MemoryError as error:
    print(str(error) == f"memory ended when {heavy.total_weight} of 4000000 items were counted", 0 < heavy.total_weight < 4000000)
"""

COUNTED_WEIGHTS = """
import array, resource
import datasketches_rattle as ds
weights = array.array("Q", [0, 0, 3, 1, 0]) * 400000
for item, items in ((int, array.array("q", range(2000000))), (str, [str(number) for number in range(2000000)])):
    heavy = ds.FrequentItemsSketch(1 << 26, item=item)
    before = resource.getrlimit(resource.RLIMIT_AS)
    with open("/proc/self/statm") as file:
        size = int(file.read().split()[0]) * resource.getpagesize()
    resource.setrlimit(resource.RLIMIT_AS, (size + (1 << 26), before[1]))
    try:
        heavy.update(items, weights)
    except MemoryError as error:
        count = int(str(error).split()[3])
        print(str(error), count < 2000000, sum(weights[:count]) == heavy.total_weight, weights[count] > 0)
    resource.setrlimit(resource.RLIMIT_AS, before)
"""

GIVEN_BACK = """
import array, copy, pickle, resource
import datasketches_rattle as ds
many, few = array.array("q", bytes(1 << 21)), array.array("q", bytes(80))
minus = array.array("q", bytes((1 << 21) - 8) + b"\\xff" * 8)
listed = list(minus)
resource.setrlimit(resource.RLIMIT_AS, (1 << 28, 1 << 28))
for round in range(60):
    seen = ds.BloomFilter(1 << 26, 3)
    seen.insert(["a", 1])
    seen |= copy.copy(seen)
    load = ds.CountMinSketch(4, 1 << 18)
    load.update(range(10))
    load = ds.CountMinSketch.deserialize(bytes(load + load))
    load, used = ds.CountMinSketch.deserialize_prefix(bytearray(bytes(load) + b"more"))
    load.update(many, many)
    load.estimate(many)
    for weights in (few, minus, listed, array.array("d", bytes(1 << 21))):
        try:
            load.update(many, weights)
        except (TypeError, ValueError):
            pass
    heavy = ds.FrequentItemsSketch(1 << 16)
    heavy.update(range(100))
    heavy = pickle.loads(pickle.dumps(heavy))
    words = ds.FrequentItemsSketch(1 << 10, item=str)
    words.update(str(number) + "x" * 10000 for number in range(500))
    words = pickle.loads(pickle.dumps(copy.copy(words) + words))
    words.rows(), words.total_weight
    words.update_words(b"to be " * 300000)
    words.update_lines("to be\\n" * 100000)
    words.update(words.rows(columns=True)["item"])
    words.top(5), words.bounds(["to"] * 100000)
    words.reset()
    for wrong in ([1, 2.0], ["a", None], 1.5):
        try:
            seen.insert(wrong)
        except TypeError:
            pass
    try:
        seen |= ds.BloomFilter(64, 1)
    except ds.SketchError:
        pass
print("all given back")
"""


def run(script):
    """Runs a script. Returns its exit status, the lines that it prints, and its error output."""
    done = subprocess.run([sys.executable, "-c", script], capture_output=True, text=True, timeout=120, check=False,
                          cwd=os.path.dirname(FOLDER))
    return done.returncode, done.stdout.split("\n")[:-1], done.stderr


class Package(unittest.TestCase):
    def test_types_are_those_of_the_classes(self):
        with open(os.path.join(FOLDER, "__init__.pyi"), encoding="utf-8") as file:
            stub = ast.parse(file.read())
        classes = {each.name: each for each in stub.body if isinstance(each, ast.ClassDef) and not each.name.startswith("_")}
        functions = {each.name for each in stub.body if isinstance(each, ast.FunctionDef)}
        self.assertEqual(sorted([*classes, *functions]), sorted(ds.__all__))
        for name, tree in classes.items():
            told = {each.name for each in tree.body if isinstance(each, ast.FunctionDef)}
            told |= {each.target.id for each in tree.body if isinstance(each, ast.AnnAssign)}
            there = {each for each in vars(getattr(ds, name)) if not each.startswith("_")} | set(getattr(getattr(ds, name), "_fields", ()))
            self.assertEqual({each for each in told if not each.startswith("_")}, there)
            for each in told:
                self.assertTrue(hasattr(getattr(ds, name), each), f"{name}.{each}")
        self.assertTrue(os.path.exists(os.path.join(FOLDER, "py.typed")))

    def test_numbers(self):
        attributes = {name for each in (ds.BloomFilter, ds.CountMinSketch, ds.FrequentItemsSketch) for name in vars(each)}
        shown = {member for _, _, _, member, _ in tables.numbers() if member in attributes}
        tables.check_shown(lambda name, holds, said="": self.assertTrue(holds, f"{name} {said}"), shown, LEFT_OUT)

    def test_version(self):
        with open(f"{TOP}/VERSION", encoding="utf-8") as file:
            self.assertEqual(ds.__version__, file.read().strip())

    def test_each_call_has_an_example(self):
        for name in ds.__all__:
            each = getattr(ds, name)
            self.assertIn(">>>", each.__doc__)
            self.assertEqual(each.__module__, "datasketches_rattle")
            for call, value in getattr(each, "__dict__", {}).items():
                if not call.startswith("_") and callable(value) and call != "close":
                    self.assertIn(">>>", value.__doc__, f"{name}.{call}")

    @unittest.skipIf("asan" in os.environ.get("LD_PRELOAD", ""), "the limit on memory is too low for this run")
    def test_memory_refused(self):
        self.assertEqual(run(SHORT_OF_MEMORY), (0, ["MemoryError"] * 5 + ["True False"], ""))

    @unittest.skipIf("asan" in os.environ.get("LD_PRELOAD", ""), "the limit on memory is too low for this run")
    def test_memory_that_ends_in_a_batch(self):
        self.assertEqual(run(COUNTED_SO_FAR), (0, ["True True"], ""))

    @unittest.skipIf("asan" in os.environ.get("LD_PRELOAD", ""), "the limit on memory is too low for this run")
    def test_memory_that_ends_among_weights(self):
        status, lines, errors = run(COUNTED_WEIGHTS)
        self.assertEqual((status, [line.split()[-3:] for line in lines], errors), (0, [["True"] * 3] * 2, ""))

    @unittest.skipIf("asan" in os.environ.get("LD_PRELOAD", ""), "the limit on memory is too low for this run")
    def test_memory_given_back(self):
        self.assertEqual(run(GIVEN_BACK), (0, ["all given back"], ""))


if __name__ == "__main__":
    unittest.main()
