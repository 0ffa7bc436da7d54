"""What depends on the version of Python: the life of the classes, the end of an interpreter, and other interpreters of a process."""
import os
import re
import subprocess
import sys
import unittest

import datasketches_rattle as ds
import interpreters

FOLDER = os.path.dirname(os.path.abspath(__file__))

# Makes, uses, pickles, derives from and drops each class.
LIVES = """
import copy, gc, pickle
import datasketches_rattle as ds

class Filter(ds.BloomFilter):
    pass

class Counts(ds.CountMinSketch):
    __slots__ = ("name",)

class Heavy(ds.FrequentItemsSketch):
    unpickle_max_bytes = None

for classes in ((ds.BloomFilter, ds.CountMinSketch, ds.FrequentItemsSketch), (Filter, Counts, Heavy)):
    seen, load, heavy = classes[0](64, 1), classes[1](4, 1024), classes[2](64, item=str)
    seen.insert(["a", 7])
    load.update(["a", "a", 7], [1, 2, 3])
    heavy.update(["a", "b", "a"])
    if classes[1] is Counts:
        seen.me, load.name, heavy.me = seen, "counts", heavy
    for way in (copy.copy, copy.deepcopy, lambda each: pickle.loads(pickle.dumps(each))):
        again, counted, items = way(seen), way(load), way(heavy)
        print(type(again).__name__, "a" in again, 7 in again, counted["a"], counted[7], items.rows(), getattr(counted, "name", None))
    print(seen == again, load == counted, repr(load))
    print(type(seen).unpickle_max_bytes, type(load).unpickle_max_bytes, type(heavy).unpickle_max_bytes)
    del seen, load, heavy, again, counted, items
    gc.collect()
try:
    ds.BloomFilter.unpickle_max_bytes = 1
except TypeError as error:
    print("unchanged")
print(sorted(name for name in vars(ds.BloomFilter) if name.startswith("un")))
"""

LIVED = """
{0} True True 3 3 [('a', 2, 2, 2), ('b', 1, 1, 1)] {1}
{0} True True 3 3 [('a', 2, 2, 2), ('b', 1, 1, 1)] {1}
{0} True True 3 3 [('a', 2, 2, 2), ('b', 1, 1, 1)] {1}
True True <CountMinSketch num_hashes=4 num_buckets=1024 seed=9001>
1073741824 1073741824 {2}"""

# Ends while sketches are in globals, in a cycle and in use by other threads.
ENDS = """
import datasketches_rattle as ds, threading, time

class Load(ds.CountMinSketch):
    pass

load = Load(4, 1 << 16)
load.me = load
text = b"to be or not to be " * 1_000_000
started = threading.Barrier(5)

def work(number):
    started.wait()
    while True:
        (lambda: load.update_words(text), lambda: load.update(range(100_000)), lambda: load.estimate(range(100_000)),
         lambda: load.update_words(text, threads=2))[number]()

for number in range(4):
    threading.Thread(target=work, args=(number,), daemon=True).start()
started.wait()
time.sleep(0.3)
print("ends")
"""

BY_THREADS = """
import datasketches_rattle as ds, threading

load, heavy = ds.CountMinSketch(4, 1 << 12), ds.FrequentItemsSketch(1 << 12)

def work():
    for _ in range(20):
        load.update(range(5000))
        heavy.update(list(range(1000)))
        heavy.rows(), load.estimate([1, 2, 3]), load[4]

threads = [threading.Thread(target=work) for _ in range(4)]
for thread in threads: thread.start()
for thread in threads: thread.join()
print(load.total_weight, heavy.total_weight, heavy[999])
"""

# Imports the package in another interpreter of the process: one that shares the lock, or one with a lock of its own.
AMONG_INTERPRETERS = """
import sys
try:
    import _interpreters as interpreters
except ImportError:
    import _xxsubinterpreters as interpreters

CODE = '''
import sys
sys.path[:] = {path!r}
try:
    import datasketches_rattle as ds
    sketch = ds.FrequentItemsSketch(64, item=str)
    sketch.update(["a", "b", "a"])
    print(sketch["a"], flush=True)
except ImportError as error:
    print(error, flush=True)
'''
if {isolated} and sys.version_info < (3, 13):
    made = interpreters.create(isolated=True)
elif {isolated}:
    made = interpreters.create("isolated")
elif sys.version_info < (3, 13):
    made = interpreters.create(isolated=False)
else:
    made = interpreters.create("legacy")
interpreters.run_string(made, CODE.format(path=sys.path))
interpreters.destroy(made)
if {again}:
    import datasketches_rattle as ds
    print(ds.BloomFilter(64, 1).num_hashes)
"""


def run(script):
    """Runs a script with this interpreter. Returns its status, its output and its error output."""
    env = {**os.environ, "PYTHONPATH": os.path.dirname(os.path.dirname(ds.__file__))}
    done = subprocess.run([sys.executable, "-c", script], capture_output=True, text=True, timeout=120, check=False, env=env)
    return done.returncode, done.stdout, done.stderr


class Interpreter(unittest.TestCase):
    def test_import_and_end(self):
        self.assertEqual(run("import datasketches_rattle"), (0, "", ""))
        self.assertEqual(run("import datasketches_rattle as ds; kept = ds.BloomFilter(64, 1)"), (0, "", ""))

    def test_lives_of_the_classes(self):
        wanted = LIVED.format("BloomFilter", None, 1073741824) + LIVED.format("Filter", "counts", None)
        wanted += "\nunchanged\n['union_all', 'unpickle_max_bytes']\n"
        self.assertEqual(run(LIVES), (0, wanted.lstrip("\n"), ""))

    def test_threads(self):
        self.assertEqual(run(BY_THREADS), (0, "400000 80000 80\n", ""))

    def test_end_during_calls(self):
        self.assertEqual(run(ENDS), (0, "ends\n", ""))

    def test_an_interpreter_that_shares_the_lock(self):
        for again in (False, True):
            script = AMONG_INTERPRETERS.replace("{isolated}", "False").replace("{again}", str(again))
            self.assertEqual(run(script), (0, "2\n" + "1\n" * again, ""))

    if sys.version_info >= (3, 12):  # the first with such interpreters

        def test_an_interpreter_with_a_lock_of_its_own(self):
            script = AMONG_INTERPRETERS.replace("{isolated}", "True").replace("{again}", "True")
            said = "module datasketches_rattle._sketches does not support loading in subinterpreters\n"
            self.assertEqual(run(script), (0, said + "1\n", ""))

    def test_the_page_names_the_tested_versions(self):
        with open(os.path.join(FOLDER, "..", "README.md"), encoding="utf-8") as file:
            names = re.findall(r"\b3\.1\d\b", file.read())
        with open(os.path.join(FOLDER, "..", "pyproject.toml"), encoding="utf-8") as file:
            classifiers = re.findall(r'"Programming Language :: Python :: (3\.\d+)"', file.read())
        self.assertEqual(set(names), set(interpreters.TESTED))
        self.assertEqual(classifiers, list(interpreters.TESTED))


if __name__ == "__main__":
    unittest.main()
