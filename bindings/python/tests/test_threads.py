"""Many threads on one sketch, and on two in both orders."""
import array
import copy
import ctypes
import os
import resource
import sys
import threading
import time
import unittest

import arrow
import datasketches_rattle as ds


def run(*calls):
    """Runs each call in its own thread, all at once, and returns their errors."""
    errors = []
    gate = threading.Barrier(len(calls))

    def begin(call):
        gate.wait()
        try:
            call()
        except Exception as error:  # pylint: disable=broad-except
            errors.append(error)

    threads = [threading.Thread(target=begin, args=(call,)) for call in calls]
    for thread in threads:
        thread.start()
    for thread in threads:
        thread.join(60)
    if any(thread.is_alive() for thread in threads):
        raise AssertionError("a thread hangs")
    return errors


class Threads(unittest.TestCase):
    def test_one_filter(self):
        seen = ds.BloomFilter(1 << 20, 5)
        parts = [array.array("q", range(n * 20000, (n + 1) * 20000)) for n in range(8)]

        def fill(part):
            seen.insert(part)
            seen.insert(list(part[:100]))
            for number in part[:1000]:
                self.assertIn(number, seen)

        self.assertEqual(run(*(lambda part=part: fill(part) for part in parts)), [])
        whole = ds.BloomFilter(1 << 20, 5)
        whole.insert(range(160000))
        self.assertEqual(seen, whole)

    def test_one_count(self):
        load = ds.CountMinSketch(4, 1 << 16)
        numbers = array.array("Q", range(1000))

        def fill():
            for _ in range(50):
                load.update(numbers)
                load.update(5)

        self.assertEqual(run(*[fill] * 8), [])
        self.assertEqual((load[5], load[6]), (800, 400))

    def test_singles_beside_batches(self):
        load, heavy, seen = ds.CountMinSketch(4, 1 << 10), ds.FrequentItemsSketch(64), ds.BloomFilter(1 << 12, 3)
        many = array.array("q", [5]) * 20000

        def batches():
            for _ in range(30):
                load.update(many)
                heavy.update(many)
                seen.insert(many)
                load.estimate(many)
                seen.contains(many)

        def singles():
            for _ in range(3000):
                load.update(5)
                heavy.update(5)
                seen.insert(5)
                self.assertTrue(5 in seen and heavy[5] > 0 and load[5] > 0)

        self.assertEqual(run(batches, singles, batches, singles, singles), [])
        self.assertEqual((load[5], load.total_weight, heavy[5], heavy.total_weight), (1_209_000,) * 4)

    def test_closed_under_singles(self):
        for _ in range(20):
            load, numbers = ds.CountMinSketch(4, 1 << 10), array.array("q", range(100000))

            def singles():
                for number in range(10000):
                    load.update(number)

            errors = run(lambda: load.update(numbers), singles, load.close, singles)
            self.assertTrue(all(isinstance(error, ValueError) for error in errors), errors)

    def test_two_in_both_orders(self):
        a, b = ds.BloomFilter(1 << 16, 5), ds.BloomFilter(1 << 16, 5)
        numbers = array.array("q", range(50000))

        def forth():
            nonlocal a
            for _ in range(50):
                a |= b
                b.insert(numbers)

        def back():
            nonlocal b
            for _ in range(50):
                b |= a
                a.contains(numbers)

        self.assertEqual(run(forth, back, forth, back), [])
        self.assertEqual(a | b, b | a)

    def test_closed_under_a_batch(self):
        for _ in range(20):
            seen = ds.BloomFilter(1 << 20, 5)
            numbers = array.array("q", range(100000))
            errors = run(lambda: seen.insert(numbers), seen.close, lambda: seen.contains(numbers))
            self.assertTrue(all(isinstance(error, ValueError) for error in errors), errors)

    def test_others_run_beside_a_batch(self):
        seen = ds.BloomFilter(1 << 26, 20)
        numbers = array.array("q", range(1_000_000))
        ended = threading.Event()
        worker = threading.Thread(target=lambda: (seen.insert(numbers), ended.set()))
        worker.start()
        steps = 0
        while not ended.is_set():
            steps += 1
        worker.join()
        self.assertGreater(steps, 0)


def resident():
    """Returns the bytes of memory that the process has."""
    with open("/proc/self/statm", encoding="ascii") as file:
        return int(file.read().split()[1]) * resource.getpagesize()


class Readers(unittest.TestCase):
    def while_reading(self, seen, call):
        """Returns how often a call was done while a thread read the filter in one call."""
        numbers = array.array("q", range(1_000_000))
        began, ended = threading.Event(), threading.Event()
        worker = threading.Thread(target=lambda: (began.set(), seen.contains(numbers), ended.set()))
        worker.start()
        began.wait()
        steps = 0
        while not ended.is_set():
            call()
            steps += 1
        worker.join()
        return steps

    def test_two_read_at_once(self):
        seen, same, few = ds.BloomFilter(1 << 26, 20), ds.BloomFilter(1 << 26, 20), array.array("q", range(100))
        seen.insert(range(1_000_000))
        for call in (lambda: seen.contains(few), lambda: seen.contains(few[:10]), lambda: 5 in seen, lambda: seen.bits_used,
                     lambda: sys.getsizeof(seen)):
            self.assertGreater(self.while_reading(seen, call), 10)
        self.assertGreater(self.while_reading(seen, lambda: same.union_all([seen])), 1)

    def test_a_reader_sees_all_of_a_change_or_nothing(self):
        seen, load, heavy = ds.BloomFilter(1 << 22, 20), ds.CountMinSketch(4, 1 << 10), ds.FrequentItemsSketch(1 << 15)
        parts = [array.array("q", range(n * 2000, (n + 1) * 2000)) for n in range(30)]
        ended = threading.Event()

        def write():
            try:
                for part in parts:
                    seen.insert(part)
                    load.update(part)
                    heavy.update(part[:500])
                    self.assertTrue(all(seen.contains(part)))
            finally:
                ended.set()

        def read():
            found = 0
            while not ended.is_set():
                counts = [sum(seen.contains(part)) for part in parts[found:]]
                self.assertLessEqual(set(counts), {0, 2000})
                self.assertEqual(counts, sorted(counts, reverse=True))
                found += sum(count > 0 for count in counts)
                whole = copy.copy(seen)
                self.assertTrue(all(all(whole.contains(part)) for part in parts[:found]))
                self.assertIn(ds.CountMinSketch.deserialize(bytes(load)).total_weight, range(0, 60001, 2000))
                self.assertEqual(len(heavy.rows()) % 500, 0)

        self.assertEqual(run(write, read, read, read), [])
        self.assertEqual(sum(sum(seen.contains(part)) for part in parts), 60000)
        self.assertEqual((load.total_weight, heavy.total_weight), (60000, 15000))

    def test_a_writer_has_its_turn(self):
        seen, numbers = ds.BloomFilter(1 << 20, 10), array.array("q", range(100_000))
        ended = threading.Event()

        def read():
            while not ended.is_set():
                seen.contains(numbers)

        def write():
            try:
                for number in range(20):
                    seen.insert(number)
                    seen.insert(numbers[:5])
                    seen.insert(numbers[:100])
                    seen.contains_and_insert(numbers[:100])
            finally:
                ended.set()

        self.assertEqual(run(write, read, read, read), [])
        self.assertEqual(sum(seen.contains(range(100))), 100)

    def test_a_reader_has_its_turn(self):
        seen, numbers = ds.BloomFilter(1 << 20, 10), array.array("q", range(100_000))
        ended = threading.Event()

        def write():
            while not ended.is_set():
                seen.insert(numbers)

        def read():
            try:
                for _ in range(10):
                    seen.contains(numbers[:100])
                    self.assertEqual(len(seen.contains(numbers[:5])), 5)
                    self.assertIn(seen.contains(5), (False, True))
            finally:
                ended.set()

        self.assertEqual(run(write, write, read), [])

    def order_of_ends(self):
        """Returns the order in which a long change ends, and a long and a short read that begin soon after it."""
        seen, numbers, ended, workers = ds.BloomFilter(1 << 26, 32767), array.array("q", range(2000)), [], []
        for name, call in [("write", lambda: seen.insert(numbers)), ("long", lambda: seen.contains(numbers)),
                           ("short", lambda: seen.contains(numbers[:20]))]:
            began = threading.Event()
            workers.append(threading.Thread(target=lambda name=name, call=call, began=began: (began.set(), call(), ended.append(name))))
            workers[-1].start()
            began.wait()
            time.sleep(0.02)
        for worker in workers:
            worker.join()
        return ended

    def test_readers_behind_a_writer_read_at_once(self):
        # A busy machine may begin a read too late.
        self.assertTrue(any(self.order_of_ends() == ["write", "short", "long"] for _ in range(5)))

    def test_changes_between_reads(self):
        for whole, change, look in [
            (ds.BloomFilter(1 << 10, 3), lambda whole: whole.insert(7), lambda whole: whole.contains([7] * 99)),
            (ds.CountMinSketch(3, 64), lambda whole: whole.update(7), lambda whole: whole.estimate([7] * 99)),
            (ds.CountMinSketch(3, 64, signed=True), lambda whole: whole.update(7, -1), lambda whole: whole.estimate([7] * 99)),
            (ds.FrequentItemsSketch(8), lambda whole: whole.update(7), lambda whole: whole.rows()),
            (ds.FrequentItemsSketch(8, item="u64"), lambda whole: whole.update(7), lambda whole: whole.rows()),
            (ds.FrequentItemsSketch(8, item=str), lambda whole: whole.update("7"), lambda whole: whole.rows()),
            (ds.FrequentItemsSketch(8), lambda whole: whole.update([7, 8]), lambda whole: whole.bounds([7] * 99)),
            (ds.FrequentItemsSketch(8, item=str), lambda whole: whole.update(["7", "8"]), lambda whole: whole.bounds(["7"] * 99)),
        ]:
            with self.subTest(repr(whole)):
                plain = type(whole)._unpickle(*whole.__reduce__()[1])
                for _ in range(3):
                    change(plain)
                answers = []
                for _ in range(3):
                    change(whole)
                    answers.append(look(whole))
                    answers.append(look(copy.copy(whole)))
                    bytes(whole)
                    sys.getsizeof(whole)
                self.assertEqual(answers[-2:], [look(plain)] * 2)
                self.assertEqual(answers[:2], answers[:1] * 2)
                if not isinstance(whole, ds.BloomFilter):
                    self.assertNotEqual(answers[0], answers[-1])

    def test_errors_end_the_use(self):
        seen, load, heavy = ds.BloomFilter(1 << 10, 3), ds.CountMinSketch(3, 64), ds.FrequentItemsSketch(8, item=str)

        def raising():
            yield from range(10000)
            raise KeyError("of the iterator")

        for call, error in [
            (lambda: seen.contains([1, 2.5]), TypeError), (lambda: seen.contains(raising()), KeyError),
            (lambda: seen.contains_and_insert(raising()), KeyError), (lambda: load.estimate(raising()), KeyError),
            (lambda: heavy.bounds(["a", 1]), TypeError), (lambda: heavy.bounds(raising()), TypeError),
            (lambda: seen.union_all([ds.BloomFilter(1 << 10, 3), ds.BloomFilter(1 << 11, 3)]), ds.SketchError),
            (lambda: seen.__ior__(ds.BloomFilter(1 << 11, 3)), ds.SketchError),
            (lambda: seen | ds.BloomFilter(1 << 11, 3), ds.SketchError),
            (lambda: load.update([1, 2], [1 << 63, 1 << 63]), ds.SketchError),
            (lambda: load.decay(3, 2), ds.SketchError),
        ]:
            with self.assertRaises(error):
                call()

        def use():
            seen.insert(1)
            seen.insert([1])
            load.update(1)
            load.update([1])
            heavy.update("a")
            heavy.update(["a"])
            seen.reset()
            load.halve()
            heavy.reset()

        self.assertEqual(run(use), [])

    @unittest.skipIf("asan" in os.environ.get("LD_PRELOAD", ""), "freed memory stays in this run")
    def test_nothing_is_left(self):
        seen, other, few = ds.BloomFilter(1 << 10, 3), ds.BloomFilter(1 << 10, 3), array.array("q", [7] * 100)

        def use(times):
            for _ in range(times):
                seen.contains(few)
                seen.insert(7)
                other.union_all([seen, seen, other])
                self.assertEqual(other == seen, True)

        use(1000)
        before = resident()
        use(100_000)
        for _ in range(50):
            large = ds.BloomFilter(1 << 25, 3)
            large.insert(range(10_000))
            large.contains(few)
            copy.copy(large).contains(few)
            large.close()
        self.assertLess(resident() - before, 6 << 20)

    def test_closed_under_readers(self):
        for _ in range(20):
            seen, numbers = ds.BloomFilter(1 << 20, 5), array.array("q", range(100_000))
            calls = [lambda: seen.contains(numbers), lambda: bytes(seen), lambda: copy.copy(seen), lambda: seen == seen]
            errors = run(*calls, seen.close, *calls)
            self.assertTrue(all(isinstance(error, ValueError) for error in errors), errors)
            self.assertLess(sys.getsizeof(seen), 1000)


class Exported:
    """A column of Arrow whose buffers the test changes."""

    def __init__(self, *column):
        self.capsules = arrow.Column(*column).__arrow_c_array__()
        [self.array] = [each for each in arrow.live.values() if isinstance(each, arrow.Array)]

    def __arrow_c_array__(self, requested_schema=None):
        return self.capsules

    def change(self, buffer, at, byte):
        ctypes.memset(self.array.buffers[buffer] + at, byte, 1)


class Changes(unittest.TestCase):
    def test_a_column_that_changes_while_the_call_waits(self):
        """Offsets and strings are checked before the call waits for the sketch, and again when it counts them."""
        busy = array.array("Q", os.urandom(8 << 21))
        for kind, buffer, at in (("u", 1, 4 * 4900 + 1), ("U", 1, 8 * 4900 + 1), ("u", 2, 4900)):
            for attempt in range(1, 30):
                load, column, errors = ds.CountMinSketch(64, 1 << 10), Exported(kind, ["a"] * 5000), []

                def update():
                    try:
                        load.update(column)
                    except (RuntimeError, ValueError) as error:
                        errors.append(error)

                first, second = threading.Thread(target=lambda: load.update(busy)), threading.Thread(target=update)
                first.start()
                time.sleep(0.01)
                second.start()
                time.sleep(0.005 * attempt)  # until it has checked all strings, and waits for the first call
                column.change(buffer, at, 0xFF)
                first.join()
                second.join()
                self.assertEqual(arrow.live, {})
                if errors and isinstance(errors[0], RuntimeError):
                    break
            self.assertEqual([str(error) for error in errors], ["another thread changed a buffer during the call"], kind)
            self.assertEqual(errors[0].__notes__, ["items taken before this error: 4096"])
            self.assertEqual(load.total_weight, len(busy) + 4096)


if __name__ == "__main__":
    unittest.main()
