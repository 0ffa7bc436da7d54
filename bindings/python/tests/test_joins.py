"""Many sketches combined into one in one call: compared with one after another and with exact counts, in threads, and errors."""
import collections
import copy
import random
import threading
import unittest

import datasketches_rattle as ds

CLOSED = "^the sketch is closed$"


def filled(items=(), bits=1 << 12, **more):
    seen = ds.BloomFilter(bits, 3, **more)
    seen.insert(list(items))
    return seen


def counted(items=(), buckets=64, **more):
    load = ds.CountMinSketch(3, buckets, **more)
    load.update(list(items))
    return load


def frequent(items=(), size=64, **more):
    heavy = ds.FrequentItemsSketch(size, **more)
    heavy.update(list(items))
    return heavy


def join_all(whole, others):
    (whole.union_all if isinstance(whole, ds.BloomFilter) else whole.merge_all)(others)


def state(whole):
    """Returns what calls can tell of a sketch with the items 0 to 39 or the strings of these numbers."""
    if isinstance(whole, ds.FrequentItemsSketch):
        return sorted(whole.rows()), whole.total_weight, whole.maximum_error, whole.max_map_size, whole.sample_size
    return bytes(whole)


def samples(chance, others=0):
    """Yields for each kind of sketch its name and this number of sketches of it, and one more, all with random items."""
    def items():
        return [chance.randrange(40) for _ in range(chance.randrange(30))]

    makers = {"filter": filled, "count": counted, "signed": lambda items: counted(items, signed=True), "i64": frequent,
              "u64": lambda items: frequent(items, item="u64"),
              "str": lambda items: frequent(map(str, items), item=str)}
    for name, maker in makers.items():
        yield name, [maker(items()) for _ in range(others + 1)]


class InTurn(unittest.TestCase):
    def test_one_after_another(self):
        chance = random.Random(5)
        for _ in range(20):
            for name, (whole, *others) in samples(chance, chance.randrange(9)):
                with self.subTest(name):
                    given = [chance.choice(others) for _ in range(chance.randrange(12))] if others else []
                    single, before = copy.copy(whole), [state(other) for other in others]
                    for other in given:
                        if name == "filter":
                            single |= other
                        else:
                            single += other
                    join_all(whole, given)
                    self.assertEqual(state(whole), state(single))
                    self.assertEqual([state(other) for other in others], before)

    def test_the_sketch_itself(self):
        """It counts as it was before the call, wherever it is in the list."""
        chance = random.Random(6)
        for name, (whole, a, b) in samples(chance, 2):
            for given in ([whole], [whole, whole], [a, whole, b], [a, a, whole, whole, b]):
                with self.subTest(name):
                    one, was = copy.copy(whole), copy.copy(whole)
                    joined = [one if other is whole else other for other in given]
                    join_all(one, joined)
                    join_all(was, [copy.copy(other) for other in given])
                    self.assertEqual(state(one), state(was))

    def test_bounds_of_purged_sketches(self):
        chance = random.Random(7)
        for item in (int, "u64", str):
            for size in (8, 16):
                exact, others, whole = collections.Counter(), [], ds.FrequentItemsSketch(size, item=item)
                for _ in range(20):
                    items = [int(chance.paretovariate(0.7)) % 50 for _ in range(200)]
                    items = list(map(str, items)) if item is str else items
                    exact.update(items)
                    others.append(frequent(items, 32, item=item))
                whole.merge_all(others)
                self.assertEqual((whole.total_weight, whole.max_map_size), (4000, size))
                for one, weight in exact.items():
                    low, _, high = whole.bounds(one)
                    self.assertTrue(low <= weight <= high, (one, low, weight, high))

    def test_what_is_taken(self):
        class Days(ds.CountMinSketch):
            pass

        days = [counted([n]) for n in range(3)] + [Days(3, 64)]
        for given in (days, tuple(days), iter(days), (day for day in days), collections.deque(days)):
            week = counted()
            self.assertIsNone(week.merge_all(given))
            self.assertEqual(week.total_weight, 3)
        self.assertIsNone(counted().merge_all([]))
        week = counted()

        def busy():
            for day in days:
                week.update(7)
                week.merge_all([day])
                yield day

        week.merge_all(busy())
        self.assertEqual(week.total_weight, 3 + 4 + 3)


class Refused(unittest.TestCase):
    def same(self, error, whole, others, pattern="", fault=None):
        """Checks that the call raises the error, and leaves all sketches as they were."""
        sketches = [whole] + [other for other in others if hasattr(other, "close") and "closed" not in repr(other)]
        before = [state(one) for one in sketches]
        with self.assertRaisesRegex(error, pattern) as raised:
            join_all(whole, others)
        if fault is not None:
            self.assertEqual(raised.exception.fault, fault)
        self.assertEqual([state(one) for one in sketches], before)

    def test_what_is_no_sketch(self):
        for whole in (filled([7]), counted([7]), frequent([7]), frequent(["a"], item=str)):
            for given in (None, 7, whole, object()):
                with self.assertRaises(TypeError):
                    join_all(whole, given)
            for other in (None, 7, "a", filled() if isinstance(whole, ds.FrequentItemsSketch) else frequent(), bytes(whole)):
                self.same(TypeError, whole, [copy.copy(whole), other], "takes an iterable of datasketches_rattle")
            with self.assertRaises(ZeroDivisionError):
                join_all(whole, (1 // n for n in range(3)))

    def test_other_kinds(self):
        self.same(ValueError, counted([7]), [counted([7]), counted([8], signed=True)], "signed weights")
        self.same(ValueError, counted([7], signed=True), [counted([7])], "signed weights")
        for item, other in ((int, "u64"), ("u64", str), (str, int)):
            self.same(ValueError, frequent(item=item), [frequent(item=item), frequent(item=other)], "items of different types")

    def test_shapes(self):
        for other in (filled([8], 1 << 13), filled([8], seed=3)):
            self.same(ds.SketchError, filled([7]), [filled([9]), other], fault="Mismatch")
        for signed in (False, True):
            for other in (counted([8], 65, signed=signed), counted([8], seed=3, signed=signed)):
                self.same(ds.SketchError, counted([7], signed=signed), [counted([9], signed=signed), other], fault="Mismatch")

    def test_totals(self):
        for item, top, whole in ((7, 2**64 - 1, counted([7])), (7, 2**63 - 1, counted([7], signed=True)),
                                 (7, 2**64 - 1, frequent([7])), (7, 2**64 - 1, frequent([7], item="u64")),
                                 ("a", 2**64 - 1, frequent(["a"], item=str))):
            half = copy.copy(whole)
            half.update(item, top // 2 - 1)
            self.same(ds.SketchError, whole, [half, half, whole], fault="WeightOverflow")
            join_all(whole, [half])
            self.assertEqual(whole.total_weight, top // 2 + 1)

    def test_closed(self):
        for whole in (filled([7]), counted([7]), frequent([7]), frequent(["a"], item=str)):
            closed = copy.copy(whole)
            closed.close()
            self.same(ValueError, whole, [copy.copy(whole), closed], CLOSED)
            for given in ([], [whole], [closed], [7]):
                with self.assertRaisesRegex(ValueError, CLOSED):
                    join_all(closed, given)

            def closing(whole=whole):
                yield whole
                whole.close()

            with self.assertRaisesRegex(ValueError, CLOSED):
                join_all(whole, closing())


def at_once(*calls):
    """Runs each call in its own thread, all at once, and returns their errors."""
    errors, gate = [], threading.Barrier(len(calls))

    def begin(call):
        gate.wait()
        try:
            call()
        except Exception as error:  # pylint: disable=broad-except
            errors.append(error)

    threads = [threading.Thread(target=begin, args=(call,), daemon=True) for call in calls]
    for thread in threads:
        thread.start()
    for thread in threads:
        thread.join(120)
    if any(thread.is_alive() for thread in threads):
        raise AssertionError("a thread hangs")
    return errors


class Threads(unittest.TestCase):
    def test_in_all_orders(self):
        """Threads that combine the same sketches, each into another one, do not wait for each other forever."""
        chance = random.Random(8)
        for name, sketches in samples(chance, 4):
            item = "7" if name == "str" else 7
            calls = [lambda n=n, sketches=sketches: [join_all(sketches[n], sketches[n:] + sketches[:n]) for _ in range(4)]
                     for n in range(5)]
            calls += [lambda n=n, sketches=sketches, name=name, item=item:
                      [sketches[n].insert(item) if name == "filter" else sketches[n].update(item) for _ in range(300)]
                      for n in range(5)]
            with self.subTest(name):
                self.assertEqual(at_once(*calls), [])

    def test_nothing_is_lost(self):
        """Items that come while sketches are combined are there in the end."""
        week, days = counted(), [counted() for _ in range(4)]
        others = [frequent(item=str) for _ in range(4)]
        done = threading.Event()

        def add():
            for _ in range(2000):
                for day, other in zip(days, others):
                    day.update(7)
                    other.update("a")
            done.set()

        def join():
            while not done.is_set():
                counted().merge_all(days)
                frequent(item=str).merge_all(others)
                filled().union_all([])

        self.assertEqual(at_once(add, join, join), [])
        week.merge_all(days)
        self.assertEqual((week[7], week.total_weight), (8000, 8000))
        self.assertEqual([other["a"] for other in others], [2000] * 4)

    def test_closed_meanwhile(self):
        for _ in range(20):
            whole, others = filled(range(9), 1 << 20), [filled([n], 1 << 20) for n in range(8)]
            errors = at_once(lambda: [whole.union_all(others) for _ in range(20)],
                             lambda: [whole.union_all(others[::-1]) for _ in range(20)],
                             lambda: [other.close() for other in others[4:]], lambda: [5 in others[0] for _ in range(99)])
            self.assertLessEqual({repr(error) for error in errors}, {repr(ValueError("the sketch is closed"))})
            self.assertTrue(all(n in whole for n in range(9)) and all(n in others[n] for n in range(4)))


if __name__ == "__main__":
    unittest.main()
