"""Calls on one or two whole sketches: their results, other threads meanwhile, and closed sketches."""
import array
import copy
import functools
import gc
import itertools
import mmap
import operator
import os
import random
import subprocess
import sys
import threading
import time
import unittest

import datasketches_rattle as ds

GREATEST = 2**64 - 1
LARGE = array.array("q", range(100_000))
WORDS = [f"word {number}" for number in range(50_000)]
TRIES = 100


def filled(bits=1 << 27, items=LARGE, **more):
    """Returns a filter, of 16 MiB by default."""
    seen = ds.BloomFilter(bits, 3, **more)
    seen.insert(items)
    return seen


def counted(buckets=1 << 19, items=LARGE, **more):
    """Returns a Count-Min sketch, of 16 MiB by default."""
    load = ds.CountMinSketch(4, buckets, **more)
    load.update(items)
    return load


def frequent(items=LARGE, size=1 << 18, **more):
    """Returns a sketch of frequent items with a counter for each of these items."""
    heavy = ds.FrequentItemsSketch(size, **more)
    heavy.update(items)
    return heavy


def lets_others_run(call):
    """Returns whether another thread ever runs within a call. Meanwhile a thread loses the interpreter's lock only by releasing
    it. So this is False for a call that keeps the lock, however often it is made."""
    ticks, seen = [0], []

    def work():
        for _ in range(TRIES):
            before = ticks[0]
            call()
            if ticks[0] != before:
                seen.append(True)
                return

    interval = sys.getswitchinterval()
    sys.setswitchinterval(1000)
    try:
        worker = threading.Thread(target=work)
        worker.start()
        while worker.is_alive():
            time.sleep(0.0001)
            ticks[0] += 1
        worker.join()
    finally:
        sys.setswitchinterval(interval)
    return bool(seen)


def answers_within(heavy, item, switch):
    """Returns the number of another thread's queries that end within a call of `rows`. One of them may have begun before. Between
    the three calls of `map` no Python code runs, so no thread takes the interpreter's lock if they do not release it."""
    answered, done = itertools.count(), threading.Event()

    def ask():
        while not done.is_set():
            next(answered)
            heavy[item]

    interval = sys.getswitchinterval()
    sys.setswitchinterval(switch)
    asker = threading.Thread(target=ask)
    asker.start()
    try:
        first, _, last = list(map(operator.methodcaller("__call__"), (answered.__next__, heavy.rows, answered.__next__)))
    finally:
        done.set()
        asker.join()
        sys.setswitchinterval(interval)
    return last - first - 1


class OthersRun(unittest.TestCase):
    def each(self, **calls):
        for name, call in calls.items():
            with self.subTest(name):
                self.assertTrue(lets_others_run(call))

    def test_the_measure(self):
        numbers = list(range(200_000))
        self.assertFalse(lets_others_run(lambda: sum(numbers)))

    def test_filters(self):
        a, b = filled(), filled(items=[1, 2])
        twin, image = copy.copy(a), bytes(a)
        shared = bytearray(image)
        self.each(
            creation=lambda: ds.BloomFilter(1 << 27, 3), image=lambda: bytes(a), read=lambda: ds.BloomFilter.deserialize(image),
            read_shared=lambda: ds.BloomFilter.deserialize(shared), read_prefix=lambda: ds.BloomFilter.deserialize_prefix(image),
            copy=lambda: copy.copy(a), deepcopy=lambda: copy.deepcopy(a),
            equal=lambda: a == twin, unequal=lambda: a != twin, union=lambda: a | b, intersection=lambda: a & b,
            difference=lambda: a - b, union_into=lambda: a.__ior__(b), intersection_into=lambda: twin.__iand__(a),
            difference_into=lambda: twin.__isub__(b), with_itself=lambda: a.__iand__(a), union_all=lambda: a.union_all([b, twin]),
            reset=b.reset)

    def test_counts(self):
        for signed in (False, True):
            a, b = counted(signed=signed), counted(items=[1, 2], signed=signed)
            twin, image = copy.copy(a), bytes(a)
            shared = bytearray(image)
            self.each(
                creation=lambda signed=signed: ds.CountMinSketch(4, 1 << 19, signed=signed), image=lambda a=a: bytes(a),
                read=lambda image=image, signed=signed: ds.CountMinSketch.deserialize(image, signed=signed),
                read_shared=lambda shared=shared, signed=signed: ds.CountMinSketch.deserialize(shared, signed=signed),
                copy=lambda a=a: copy.copy(a), equal=lambda a=a, twin=twin: a == twin, sum=lambda a=a, b=b: a + b,
                sum_into=lambda twin=twin, b=b: twin.__iadd__(b), sum_of_all=lambda twin=twin, b=b: twin.merge_all([b, b]))
        load = counted()
        self.each(halve=load.halve, decay=lambda: load.decay(99, 100))

    def test_frequent_items(self):
        for items, item in ((LARGE, int), (WORDS, str)):
            heavy, few = frequent(items, item=item), frequent(items[:1], item=item)
            twin, image = copy.copy(heavy), bytes(heavy)
            shared = bytearray(image)
            self.each(
                image=lambda heavy=heavy: bytes(heavy), copy=lambda heavy=heavy: copy.copy(heavy),
                read=lambda image=image, item=item: ds.FrequentItemsSketch.deserialize(image, item=item),
                read_shared=lambda shared=shared, item=item: ds.FrequentItemsSketch.deserialize(shared, item=item),
                sum=lambda heavy=heavy, few=few: heavy + few, sum_into=lambda heavy=heavy, twin=twin: heavy.__iadd__(twin),
                sum_of_all=lambda heavy=heavy, twin=twin: heavy.merge_all([twin]),
                no_rows=lambda heavy=heavy: heavy.rows(GREATEST), rows=lambda heavy=heavy: heavy.rows())
        self.each(size=lambda: sys.getsizeof(heavy))

    def test_copies_of_images(self):
        """Bytes that are not an image are copied too, before the library reads them."""
        nothing = bytearray(1 << 24)

        def read():
            with self.assertRaises(ds.SketchError):
                ds.BloomFilter.deserialize(nothing)

        self.each(copy_of_an_image=read)

    def test_lists_of_rows(self):
        """A query of another thread waits while the library uses the sketch. It runs while the list of rows is created."""
        for heavy, item in ((frequent(), 7), (frequent(WORDS, item=str), "word 7")):
            self.assertTrue(any(answers_within(heavy, item, 0.001) > 1 for _ in range(20 * TRIES)))

    def test_rows_of_strings_are_sorted(self):
        """Strings with long common prefixes are sorted slowly, and meanwhile many queries run."""
        heavy = frequent(["a" * 50_000 + word for word in WORDS[:1000]], item=str)
        self.assertTrue(any(answers_within(heavy, "b", 1e-5) > 40_000 for _ in range(5)))

    def test_ends(self):
        filters = [filled() for _ in range(8)]
        self.assertTrue(lets_others_run(lambda: filters and filters.pop().close()))
        texts = [frequent(WORDS, item=str) for _ in range(8)]
        self.assertTrue(lets_others_run(lambda: texts and texts.pop().reset()))


def at_once(*calls):
    """Runs each call in its own thread, all at once, and returns their errors."""
    errors, gate = [], threading.Barrier(len(calls))

    def begin(call):
        gate.wait()
        try:
            call()
        except Exception as error:  # pylint: disable=broad-except
            errors.append(error)

    threads = [threading.Thread(target=begin, args=(call,), daemon=True) for call in calls]
    for thread in threads:
        thread.start()
    for thread in threads:
        thread.join(120)
    if any(thread.is_alive() for thread in threads):
        raise AssertionError("a thread hangs")
    return errors


class NoneWaitsForever(unittest.TestCase):
    def test_two_sketches_in_both_orders(self):
        for a, b in ((filled(1 << 18), filled(1 << 18)), (counted(1 << 12), counted(1 << 12)),
                     (frequent(LARGE[:500]), frequent()),
                     (frequent(WORDS[:500], item=str), frequent(WORDS[500:999], item=str))):
            join = "__ior__" if isinstance(a, ds.BloomFilter) else "__iadd__"
            joined = "__or__" if isinstance(a, ds.BloomFilter) else "__add__"
            item = "a" if isinstance(a, ds.FrequentItemsSketch) and "str" in repr(a) else 7
            calls = []
            for one, other in ((a, b), (b, a)):
                calls += [lambda one=one, other=other: [getattr(one, join)(other) for _ in range(10)],
                          lambda one=one, other=other: [getattr(one, joined)(other) for _ in range(10)],
                          lambda one=one, other=other: [one == other for _ in range(50)],
                          lambda one=one, item=item: [one.insert([item]) if join == "__ior__" else one.update(item)
                                                      for _ in range(500)],
                          lambda one=one: [(copy.copy(one), bytes(one), repr(one), sys.getsizeof(one)) for _ in range(10)]]
            calls.append(lambda a=a: [getattr(a, join)(a) for _ in range(3)])
            self.assertEqual(at_once(*calls), [])

    def test_single_items_wait_for_calls_of_two(self):
        for a, b, call in ((filled(), filled(), lambda a, b: (a | b, a.__ior__(b), a == b)),
                           (counted(), counted(), lambda a, b: (a + b, a.__iadd__(b), a == b)),
                           (frequent(), frequent(), lambda a, b: (a + b, a.__iadd__(b)))):
            done, asked = threading.Event(), []

            def ask(a=a, b=b, done=done, asked=asked):
                while not done.is_set():
                    for one in (a, b):
                        asked.append(7 in one if isinstance(one, ds.BloomFilter) else one[7] > 0)

            def join(a=a, b=b, call=call, done=done):
                try:
                    for _ in range(3):
                        call(a, b)
                finally:
                    done.set()

            self.assertEqual(at_once(ask, join), [])
            self.assertTrue(all(asked))

    def test_closed_while_others_read(self):
        for _ in range(10):
            a, b = filled(1 << 22), filled(1 << 22)
            errors = at_once(lambda: [a | b for _ in range(9)], lambda: [b == a for _ in range(9)],
                             lambda: [bytes(a) for _ in range(9)], lambda: [a.__iand__(a) for _ in range(9)], a.close,
                             lambda: [5 in a for _ in range(999)])
            self.assertLessEqual({repr(error) for error in errors}, {repr(ValueError("the sketch is closed"))})

    def test_python_code_within_a_call(self):
        """The garbage collector may run Python code wherever an object is created."""
        heavy, words, seen, load = frequent(LARGE[:2000]), frequent(WORDS[:2000], item=str), filled(1 << 12), counted(64)
        asked = []

        def look(*_):
            asked.append((heavy[7], words["word 1"], 7 in seen, load[7], seen.capacity, heavy == heavy))

        def calls():
            for _ in range(3):
                heavy.rows(), words.rows(), bytes(heavy), bytes(words), copy.copy(words), copy.deepcopy(Named(64, 1))
                seen | seen, load + load, load == load, seen == seen, heavy + heavy, sys.getsizeof(words)
                seen.union_all([seen]), load.merge_all([copy.copy(load)]), words.merge_all([]), heavy.merge_all([heavy, heavy])
                for call in (lambda: load + counted(63), lambda: ds.BloomFilter.deserialize(b""), lambda: seen & filled(64)):
                    self.assertRaises(ds.SketchError, call)

        threshold = gc.get_threshold()
        gc.callbacks.append(look)
        gc.set_threshold(1)
        try:
            errors = at_once(calls)
        finally:
            gc.set_threshold(*threshold)
            gc.callbacks.remove(look)
        self.assertEqual((errors, len(asked) > 100), ([], True))

    def test_joins_with_itself_lose_nothing(self):
        seen, numbers = ds.BloomFilter(1 << 20, 1), array.array("q", range(3000))
        done = threading.Event()

        def join():
            nonlocal seen
            while not done.is_set():
                seen &= seen

        def insert():
            for number in numbers:
                seen.insert(number)
            done.set()

        self.assertEqual(at_once(insert, join), [])
        self.assertTrue(all(seen.contains(numbers)), "an item that came while a filter was joined with itself is there")


class Equal(unittest.TestCase):
    def test_filters(self):
        a = filled(1 << 10, [1, 2])
        for other in (filled(1 << 11, [1, 2]), filled(1 << 10, [1, 2], seed=3), filled(1 << 10, [1]), ds.BloomFilter(1 << 10, 4)):
            self.assertEqual((a == other, a != other, other == a), (False, True, False))
        for other in (a, copy.copy(a), filled(1 << 10, [2, 1])):
            self.assertEqual((a == other, a != other, other == a), (True, False, True))

    def test_counts(self):
        for signed in (False, True):
            a = counted(64, [1, 2], signed=signed)
            more = counted(64, [1, 2], signed=signed)
            more.update(1, 0)
            for other in (counted(63, [1, 2], signed=signed), counted(64, [1, 2], signed=signed, seed=3),
                          counted(64, [1], signed=signed), counted(64, [1, 3], signed=signed),
                          counted(64, [1, 2], signed=not signed)):
                self.assertEqual((a == other, a != other, other == a), (False, True, False))
            for other in (a, copy.copy(a), more):
                self.assertEqual((a == other, a != other, other == a), (True, False, True))
        self.assertNotEqual(ds.CountMinSketch(1, 64), ds.CountMinSketch(1, 64, signed=True))

    def test_frequent_items(self):
        a = frequent([1, 2])
        for other in (copy.copy(a), frequent([1, 2]), frequent(["a"], item=str)):
            self.assertEqual((a == other, a != other), (False, True))
        self.assertEqual((a == a, a != a, len({a, a, frequent([1, 2])})), (True, False, 2))

    def test_others(self):
        for one in (filled(64, []), counted(64, []), frequent([])):
            for other in (None, 7, "", filled(64, []).__class__, object()):
                self.assertEqual((one == other, one != other), (False, True))
            self.assertIs(one.__eq__(7), NotImplemented)
            for call in (lambda one=one: one < one, lambda one=one: one >= one):
                self.assertRaises(TypeError, call)
        self.assertNotEqual(filled(64, []), counted(64, []))

    def test_no_image_is_written(self):
        """Two filters of 256 MiB are compared with too little memory for an image of one."""
        ran = in_short_memory("""
            a, b = ds.BloomFilter(1 << 31, 3), ds.BloomFilter(1 << 31, 3)
            a.insert(7), b.insert(7)
            """, 64, """
            print(a == b, a != b, a == a)
            b.insert(8)
            print(a == b, a != b)
            """)
        self.assertEqual(ran, ["True False True", "False True"])


def in_short_memory(before, megabytes, then):
    """Runs a script whose second part may use at most this much more memory. Returns the lines that it prints, or its error."""
    script = "import mmap, resource\nimport datasketches_rattle as ds\n" + unindented(before) + f"""
pages = int(open("/proc/self/statm").read().split()[0])
resource.setrlimit(resource.RLIMIT_AS, (pages * resource.getpagesize() + ({megabytes} << 20),) * 2)
""" + unindented(then)
    done = subprocess.run([sys.executable, "-c", script], capture_output=True, text=True, timeout=120, check=False,
                          cwd=os.path.dirname(os.path.dirname(ds.__file__)))
    return done.stdout.split("\n")[:-1] if done.returncode == 0 else done.stderr


def unindented(text):
    lines = text.strip("\n").split("\n")
    indent = len(lines[0]) - len(lines[0].lstrip())
    return "\n".join(line[indent:] for line in lines) + "\n"


def outcome(read, given, limit):
    """Returns the image of the sketch that is read, or the error's fault."""
    try:
        return bytes(read(given, max_bytes=limit))
    except ds.SketchError as error:
        return error.fault


class Shared(unittest.TestCase):
    def test_each_buffer_is_read_alike(self):
        chance = random.Random(1)
        mapping = mmap.mmap(-1, 4096)
        of_numbers = functools.partial(ds.FrequentItemsSketch.deserialize, item=int, key=bytes(16))
        of_strings = functools.partial(of_numbers, item=str)
        for whole, read in ((filled(128, [1, 2]), ds.BloomFilter.deserialize), (counted(3, [1, 2]), ds.CountMinSketch.deserialize),
                            (frequent([1, 2], 16), of_numbers),
                            (frequent(["a", "bcd"], 16, item=str), of_strings)):
            image = bytes(whole)
            for _ in range(3000):
                altered = bytearray(image + bytes(chance.choice((0, 0, 8, 1000))))
                for _ in range(chance.randrange(3)):
                    altered[chance.randrange(min(len(altered), len(image)))] = chance.choice((0, 1, 255, chance.randrange(256)))
                if chance.random() < 0.3:
                    del altered[chance.randrange(len(altered)):]
                limit = chance.choice((0, 8, 16, 100, 200, 1000, 1 << 16))
                plain = bytes(altered)
                told = outcome(read, plain, limit)
                self.assertEqual(outcome(read, memoryview(plain), limit), told)
                mapping[:len(plain)] = plain
                with memoryview(mapping)[:len(plain)] as view:
                    for given in (altered, memoryview(altered), memoryview(altered).toreadonly(), array.array("B", plain), view):
                        self.assertEqual(outcome(read, given, limit), told, (plain, limit))

    def test_a_copy_keeps_to_the_limit(self):
        """An image of 512 MiB in a shared mapping is rejected under a limit of 1 MiB, with less than 64 MiB of new memory."""
        ran = in_short_memory("""
            seen = ds.BloomFilter(1 << 32, 3)
            seen.insert(7)
            image = mmap.mmap(-1, (1 << 29) + 32)
            image[:32] = bytes(seen)[:32]
            seen.close()
            """, 64, """
            for limit in (1 << 20, (1 << 29) - 1):
                try:
                    ds.BloomFilter.deserialize(image, max_bytes=limit)
                except ds.SketchError as error:
                    print(error.fault)
                except MemoryError:
                    print("MemoryError")
            """)
        self.assertEqual(ran, ["TableTooLarge", "MemoryError"])

    def test_weights_that_change(self):
        """The library reads weights twice: to add them up, and to count them. Here another thread keeps changing one."""
        image = bytes(frequent(LARGE[:20_000], 1 << 15))
        mapping = mmap.mmap(-1, len(image))
        mapping[:] = image
        done, totals = threading.Event(), set()

        def change():
            while not done.is_set():
                mapping[80_032:80_040] = b"\xff" * 8
                mapping[80_032:80_040] = image[32:40]

        interval = sys.getswitchinterval()
        sys.setswitchinterval(1e-6)
        changer = threading.Thread(target=change)
        changer.start()
        try:
            for _ in range(100):
                try:
                    heavy = ds.FrequentItemsSketch.deserialize(mapping, int)
                except ds.SketchError as error:
                    self.assertEqual(error.fault, "WeightsExceedTotal")
                else:
                    totals.add((sum(row[1] for row in heavy.rows()), heavy.total_weight))
        finally:
            done.set()
            changer.join()
            sys.setswitchinterval(interval)
        self.assertEqual(totals, {(20_000, 20_000)})

    def test_a_view_is_given_back(self):
        image = bytearray(bytes(filled(64, [1])))
        ds.BloomFilter.deserialize(image)
        for wrong in ({"max_bytes": -1}, {"max_bytes": 0}):
            self.assertRaises((ValueError, ds.SketchError), ds.BloomFilter.deserialize, image, **wrong)
        image.append(0)


class WithItself(unittest.TestCase):
    def test_filters(self):
        for operation, left in (("__ior__", True), ("__iand__", True), ("__isub__", False)):
            seen = filled(1 << 12, [7, 8])
            self.assertIs(getattr(seen, operation)(seen), seen)
            self.assertEqual((7 in seen, 8 in seen), (left, left))

    def test_weights_are_doubled(self):
        for item, whole in ((7, counted(64, [7, 7])), (7, counted(64, [7, 7], signed=True)), (7, frequent([7, 7], 16)),
                            (7, frequent([7, 7], 16, item="u64")), ("a", frequent(["a", "a"], 16, item=str))):
            same = whole
            whole += whole
            self.assertIs(whole, same)
            self.assertEqual((whole[item], whole.total_weight, (whole + whole)[item], whole[item]), (4, 4, 8, 4))

    def test_all_or_nothing(self):
        for weight, item, whole in ((2**63, 7, counted(64, [])), (2**62, 7, counted(64, [], signed=True)),
                                    (2**63, 7, frequent([], 16)), (2**63, 7, frequent([], 16, item="u64")),
                                    (2**63, "a", frequent([], 16, item=str))):
            whole.update(item, weight)
            with self.assertRaises(ds.SketchError) as refused:
                whole += whole
            self.assertEqual((refused.exception.fault, whole[item], whole.total_weight), ("WeightOverflow", weight, weight))

    def test_purged_weights(self):
        heavy = ds.FrequentItemsSketch(64)
        heavy.update(array.array("q", [n % 91 for n in range(5000)]))
        low, total = {n: heavy.bounds(n)[0] for n in range(91)}, heavy.total_weight
        heavy += heavy
        self.assertEqual(heavy.total_weight, 2 * total)
        for number in range(91):
            self.assertLessEqual(heavy.bounds(number)[0], 2 * (5000 // 91 + 1))
            self.assertGreaterEqual(heavy.bounds(number)[2], 2 * low[number])


class Size(unittest.TestCase):
    def test_tables(self):
        self.assertEqual(round(sys.getsizeof(ds.BloomFilter(1 << 23, 3)) / 2**20, 2), 1)
        self.assertEqual(round(sys.getsizeof(ds.CountMinSketch(4, 1 << 15)) / 2**20, 2), 1)
        self.assertLess(sys.getsizeof(ds.BloomFilter(64, 3)), 500)
        heavy = ds.FrequentItemsSketch(1 << 18)
        self.assertLess(sys.getsizeof(heavy), 1000)
        heavy.update(LARGE)
        self.assertGreater(sys.getsizeof(heavy), 16 * len(LARGE))

    def test_strings_count(self):
        words = ds.FrequentItemsSketch(64, item=str)
        before = sys.getsizeof(words)
        for number in range(10):
            words.update(str(number) * 100_000)
        self.assertTrue(1_000_000 <= sys.getsizeof(words) - before < 2_100_000)

    def test_of_subclasses(self):
        self.assertGreater(sys.getsizeof(Named(1 << 23, 3)), 1 << 20)

    def test_closed(self):
        for whole in (filled(1 << 20), counted(1 << 12), frequent(), frequent(WORDS, item=str)):
            whole.close()
            self.assertEqual(whole.__sizeof__(), object.__sizeof__(whole))
            self.assertLess(sys.getsizeof(whole), 200)


class Named(ds.BloomFilter):
    """A filter with attributes."""


FIELDS = {ds.BloomFilter: ["capacity", "num_hashes", "seed", "bits_used"],
          ds.CountMinSketch: ["num_hashes", "num_buckets", "seed", "signed", "total_weight"],
          ds.FrequentItemsSketch: ["total_weight", "maximum_error", "num_active_items", "max_map_size", "sample_size"]}
OF_A_CLASS = {"deserialize", "deserialize_prefix", "suggest_num_bits", "min_num_bits", "suggest_num_hashes", "suggest_num_buckets",
              "suggest_max_map_size", "unpickle_max_bytes", "from_file"}


class Closed(unittest.TestCase):
    def wholes(self):
        """Returns pairs of open sketches of one class, each with an item of the first."""
        return [(filled(64, [7]), filled(64, [7]), 7), (counted(64, [7]), counted(64, [7], seed=3), 7),
                (counted(64, [7], signed=True), counted(64, [7]), 7), (frequent([7], 16), frequent([7], 16), 7),
                (frequent(["a"], 16, item=str), frequent([7], 16), "a")]

    def test_every_attribute(self):
        for whole, other, item in self.wholes():
            whole.close()
            kind = type(whole)
            calls = {name: (lambda whole=whole, name=name: getattr(whole, name)) for name in FIELDS[kind]}
            takes = {"decay": [1, 2], "top": [1], "merge_all": [[other]], "union_all": [[other]],
                     "insert_fields": [item, 0], "update_fields": [item, 0]}
            takes |= dict.fromkeys(("insert", "contains", "contains_and_insert", "update", "estimate", "upper_bound", "bounds",
                                    "insert_words", "insert_lines", "update_words", "update_lines"), [item])
            names = {name for name in vars(kind) if not name.startswith("_")} - OF_A_CLASS
            self.assertLessEqual(set(FIELDS[kind]), names)
            for name in names - set(FIELDS[kind]):
                if name != "close":
                    calls[name] = lambda whole=whole, name=name: getattr(whole, name)(*takes.get(name, []))
            calls |= {"bytes": lambda: bytes(whole), "copy": lambda: copy.copy(whole), "deepcopy": lambda: copy.deepcopy(whole),
                      "reduce": lambda: whole.__reduce__(), "with": whole.__enter__, "equal": lambda: whole == other,
                      "equal to it": lambda: other == whole, "unequal": lambda: whole != other, "itself": lambda: whole == whole,
                      "many": lambda: getattr(whole, "insert" if kind is ds.BloomFilter else "update")([item])}
            for name in ("or", "and", "sub", "add", "ior", "iand", "isub", "iadd"):
                if f"__{name}__" in vars(kind):
                    calls[name] = lambda name=name: getattr(whole, f"__{name}__")(other)
                    calls[f"{name} of it"] = lambda name=name: getattr(other, f"__{name}__")(whole)
                    calls[f"{name} itself"] = lambda name=name: getattr(whole, f"__{name}__")(whole)
            join_all = "union_all" if kind is ds.BloomFilter else "merge_all"
            calls["all of it"] = lambda: getattr(other, join_all)([other, whole])
            if kind is ds.BloomFilter:
                calls["in"] = lambda: item in whole
            else:
                calls["item"] = lambda: whole[item]
            for name, call in calls.items():
                with self.subTest(f"{kind.__name__}: {name}"), self.assertRaisesRegex(ValueError, "^the sketch is closed$"):
                    call()

    def test_what_is_left(self):
        for whole, other, _ in self.wholes():
            with whole:
                whole.close()
            whole.close()
            self.assertEqual(repr(whole), f"<{type(whole).__name__}, closed>")
            self.assertEqual((whole == 7, whole == None, None != whole), (False, False, True))  # noqa: E711
            self.assertEqual([whole].index(whole), 0)
            self.assertEqual(repr(other)[0], "<")


if __name__ == "__main__":
    unittest.main()
