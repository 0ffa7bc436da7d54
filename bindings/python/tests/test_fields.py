"""Fields of records as items, with weights in other fields: compared with Python's own splits and csv, whole and by threads."""
import collections
import csv
import io
import os
import random
import re
import signal
import subprocess
import sys
import threading
import time
import unittest

import datasketches_rattle as ds

try:
    import _testcapi
except ImportError:
    _testcapi = None

COUNTS = {"num_hashes": 4, "num_buckets": 1 << 12}


def heavy():
    return ds.FrequentItemsSketch(1 << 12, item=str)


def lines_of(data):
    """The lines of bytes."""
    *lines, last = data.split(b"\n")
    return [line.removesuffix(b"\r") for line in lines] + ([last] if last else [])


def fields_of(line, delimiter):
    """The fields of a line, or its words."""
    return [word for word in re.split(rb"[ \t\n\f\r]+", line) if word] if delimiter is None else line.split(delimiter.encode())


def wanted_of(rows, item, weight):
    """The weights of items in rows of fields, and how many rows are left out."""
    weights = collections.Counter()
    taken = [row for row in rows if len(row) > item]
    for row in taken:
        weights[row[item]] += 1 if weight is None else int(row[weight])
    return weights, (len(rows), len(rows) - len(taken))


def weights_in(sketch):
    """The exact weights in a sketch with room for all."""
    assert sketch.maximum_error == 0
    return {item: estimate for item, _, estimate, _ in sketch.rows()}


class Formats(unittest.TestCase):
    def taken(self, data, wanted, numbers, item, weight, **more):
        """Compares what each class takes of the bytes with exact weights."""
        for text in (data, bytearray(data), data.decode()):
            sketch = heavy()
            self.assertEqual(sketch.update_fields(text, item, weight=weight, **more), numbers)
            self.assertEqual(weights_in(sketch), {item: count for item, count in wanted.items() if count > 0})
        for threads in (2, None):
            sketch = heavy()
            self.assertEqual(sketch.update_fields(data, item, weight=weight, threads=threads, **more), numbers)
            self.assertEqual(weights_in(sketch), {item: count for item, count in wanted.items() if count > 0})
        load, exact = ds.CountMinSketch(**COUNTS), ds.CountMinSketch(**COUNTS)
        self.assertEqual(load.update_fields(data, item, weight=weight, **more), numbers)
        exact.update(wanted)
        self.assertEqual(bytes(load), bytes(exact))
        seen, filled = ds.BloomFilter(1 << 14, 5), ds.BloomFilter(1 << 14, 5)
        self.assertEqual(seen.insert_fields(data, item, **more), numbers)
        filled.insert(list(wanted))
        self.assertEqual(bytes(seen), bytes(filled))

    def test_lines(self):
        chance = random.Random(1)
        for attempt in range(300):
            delimiter = chance.choice([None, ",", ":", "\t", " "])
            between = [" ", "  ", "\t", "\f"] if delimiter is None else [delimiter]
            rows = []
            for _ in range(chance.randrange(30)):
                words = [chance.choice(["a", "bc", "ä", "\x0b", "x" * 30]) for _ in range(chance.randrange(4))]
                rows.append(chance.choice(between).join([str(chance.randrange(100)), *words]))
            data = "".join(row + chance.choice(["\n", "\r\n"]) for row in rows).encode().removesuffix(chance.choice([b"", b"\n"]))
            split = [[field.decode() for field in fields_of(line, delimiter)] for line in lines_of(data)]
            for item in (1, 2):
                wanted, numbers = wanted_of(split, item, None)
                self.taken(data, wanted, numbers, item, None, delimiter=delimiter)
                wanted, numbers = wanted_of(split, item, 0)
                self.taken(data, wanted, numbers, item, 0, delimiter=delimiter)

    def test_whole_lines(self):
        data = b"3 a\n4 b\r\n3 a\n2 c"
        self.taken(data, {"3 a": 6, "4 b": 4, "2 c": 2}, (4, 0), None, 0)
        self.taken(data, {"3 a": 2, "4 b": 1, "2 c": 1}, (4, 0), None, None)
        self.taken(b"a,b\n\n,c\n", {"a": 1, "": 2}, (3, 0), 0, None, delimiter=",")

    def test_csv(self):
        chance = random.Random(2)
        for attempt in range(300):
            delimiter = chance.choice([",", ";", "\t", None])
            rows = [[str(chance.randrange(9)), *(("".join(chance.choices(["a", "ä", '"', "\n", "\r\n", ",", ";", " "], k=chance.randrange(5))))
                                                 for _ in range(chance.randrange(1, 3)))] for _ in range(chance.randrange(20))]
            out = io.StringIO()
            writer = csv.writer(out, delimiter=delimiter or ",", quoting=chance.choice([csv.QUOTE_MINIMAL, csv.QUOTE_ALL]),
                                lineterminator=chance.choice(["\n", "\r\n"]))
            writer.writerows(rows)
            for item in (1, 2):
                wanted, numbers = wanted_of(rows, item, 0)
                self.taken(out.getvalue().encode(), wanted, numbers, item, 0, delimiter=delimiter, csv=True)

    def test_pieces_of_threads(self):
        rows = [[str(number % 7), f'a\n"{number % 1000}"' if number % 3 else f"b{number % 500}"] for number in range(500_000)]
        out = io.StringIO()
        csv.writer(out, lineterminator="\n").writerows(rows)
        data = out.getvalue().encode()
        self.assertGreater(len(data), 4 << 20)
        wanted, numbers = wanted_of(rows, 1, 0)
        for threads in (1, 2, 5):
            sketch = heavy()
            self.assertEqual(sketch.update_fields(data, 1, weight=0, csv=True, threads=threads), numbers)
            self.assertEqual(weights_in(sketch), dict(wanted))
        whole = b'"' + b"a\n" * (2 << 20) + b'",1\nb,2\n'  # a field longer than several pieces
        sketch = heavy()
        self.assertEqual(sketch.update_fields(whole, 1, csv=True, threads=3), (2, 0))
        self.assertEqual(weights_in(sketch), {"1": 1, "2": 1})

    def test_signs(self):
        load = ds.CountMinSketch(4, 1 << 10, signed=True)
        self.assertEqual(load.update_fields("a -7\nb 5\na 3\n", 0, weight=1), (3, 0))
        self.assertEqual((load["a"], load["b"], load.total_weight), (-4, 5, 15))


class Errors(unittest.TestCase):
    def test_records(self):
        table = [(b"a 1\nb\n", {"weight": 1}, "BadWeight", 4), (b"a 1\nb +1\n", {"weight": 1}, "BadWeight", 4),
                 (b"a -1\n", {"weight": 1}, "BadWeight", 0), (b"a 18446744073709551616\n", {"weight": 1}, "BadWeight", 0),
                 (b"a\n\xff\n", {}, "InvalidUtf8", 2), (b"a\n\xc3", {}, "InvalidUtf8", 2),
                 (b'"a\nb",1\n"c",x\n', {"weight": 1, "csv": True}, "BadWeight", 8)]
        for data, more, fault, byte in table:
            for threads in (1, 2):
                for sketch in (heavy(), ds.CountMinSketch(**COUNTS)):
                    with self.assertRaises(ds.SketchError) as refused:
                        sketch.update_fields(data, 0, threads=threads, **more)
                    self.assertEqual((refused.exception.fault, refused.exception.byte, sketch.total_weight), (fault, byte, 0))
        many = b"a 1\n" * 400_000 + b"b x\n" + b"a 1\n" * 400_000
        for threads in (1, 4):
            sketch = heavy()
            with self.assertRaises(ds.SketchError) as refused:
                sketch.update_fields(many, 0, weight=1, threads=threads)
            self.assertEqual((refused.exception.byte, sketch.total_weight), (1_600_000, 0))
        full = heavy()
        full.update("a", 2**64 - 1)
        with self.assertRaises(ds.SketchError) as refused:
            full.update_fields("a\n", 0)
        self.assertEqual((refused.exception.fault, full.total_weight), ("WeightOverflow", 2**64 - 1))
        self.assertEqual(heavy().update_fields(b"a \xff\n", 0), (1, 0))  # only the fields that are taken must be UTF-8

    def test_arguments(self):
        sketch, seen = heavy(), ds.BloomFilter(1 << 10, 3)
        for error, call in [
            (TypeError, lambda: sketch.update_fields("a")), (TypeError, lambda: sketch.update_fields(7, 0)),
            (TypeError, lambda: sketch.update_fields("a", "0")), (TypeError, lambda: sketch.update_fields("a", 0, delimiter=7)),
            (TypeError, lambda: sketch.update_fields("a", 0, delimiter=b",")), (TypeError, lambda: sketch.update_fields("a", 0, weight="x")),
            (ValueError, lambda: sketch.update_fields("a", -1)), (ValueError, lambda: sketch.update_fields("a", 2**32 - 1)),
            (ValueError, lambda: sketch.update_fields("a", 0, weight=2**32 - 1)),
            *((ValueError, lambda text=text: sketch.update_fields("a", 0, delimiter=text)) for text in ("", "ab", "ä")),
            *((ValueError, lambda text=text: sketch.update_fields("a", 0, delimiter=text, csv=True)) for text in ('"', "ä", "\n", "\r")),
            (ValueError, lambda: sketch.update_fields("a", None, csv=True)), (ValueError, lambda: sketch.update_fields("a", 0, threads=0)),
            (TypeError, lambda: seen.insert_fields("a", 0, weight=1)), (TypeError, lambda: ds.FrequentItemsSketch(64).update_fields("a", 0)),
        ]:
            self.assertRaises(error, call)
        self.assertEqual((sketch.total_weight, sketch.update_fields("", 0), sketch.update_fields('a"b\n', 0, delimiter='"')), (0, (0, 0), (1, 0)))


# Counts the fields of 60 MB of text, and prints how many MiB the process took more than before at most.
MEMORY = """
import datasketches_rattle as ds
text = b"GET /page 200 17\\n" * 3_500_000

def peak():
    with open("/proc/self/status") as file:
        return int(next(line for line in file if line.startswith("VmHWM:")).split()[1])

heavy = ds.FrequentItemsSketch(64, item=str)
before = peak()
print(heavy.update_fields(text, 1, weight=3, threads=1), heavy.rows(), peak() - before < 12 << 10, peak() - before)
"""


class Pieces(unittest.TestCase):
    """A text of several pieces: one rule for errors, whatever the number of threads, and a bound on memory and time."""

    @unittest.skipIf("asan" in os.environ.get("LD_PRELOAD", ""), "freed memory stays in this run")
    def test_memory_is_bounded(self):
        path = os.path.dirname(os.path.dirname(ds.__file__))
        ran = subprocess.run([sys.executable, "-c", MEMORY], capture_output=True, text=True, timeout=120,
                             env={**os.environ, "PYTHONPATH": path})
        wanted = "(3500000, 0) [('/page', 59500000, 59500000, 59500000)] True"
        self.assertEqual((ran.stdout.rsplit(" ", 1)[0], ran.stderr), (wanted, ""), ran.stdout)

    def test_errors_leave_all_as_it_was(self):
        good = b"a 1\n" * 400_000
        for bad, fault in ((b"b x\n", "BadWeight"), (b"\xff 1\n", "InvalidUtf8")):
            for size in (1, 400_000, 1_000_000):
                data = (good * 3)[: 4 * size] + bad
                for threads in (1, 2, None):
                    for sketch in (heavy(), ds.CountMinSketch(**COUNTS), ds.BloomFilter(1 << 14, 5)):
                        (sketch.insert if isinstance(sketch, ds.BloomFilter) else sketch.update)(["before"])
                        before = bytes(sketch)
                        if isinstance(sketch, ds.BloomFilter) and fault == "BadWeight":
                            continue
                        with self.assertRaises(ds.SketchError) as refused:
                            if isinstance(sketch, ds.BloomFilter):
                                sketch.insert_fields(data, 0, threads=threads)
                            else:
                                sketch.update_fields(data, 0, weight=1, threads=threads)
                        error = refused.exception
                        self.assertEqual((error.fault, error.byte, getattr(error, "__notes__", [])), (fault, 4 * size, []))
                        self.assertEqual(bytes(sketch), before)

    def test_the_total_has_no_room(self):
        for size in (1, 600_000):
            for threads in (1, 2):
                full = heavy()
                full.update("a", 2**64 - 2)
                self.assertEqual(full.update_fields("a\n", 0, threads=threads), (1, 0))
                with self.assertRaises(ds.SketchError) as refused:
                    full.update_fields(b"a\n" * size, 0, threads=threads)
                self.assertEqual((refused.exception.fault, full.total_weight), ("WeightOverflow", 2**64 - 1))

    @unittest.skipIf(_testcapi is None, "this Python cannot refuse memory")
    def test_memory_error_has_the_number(self):
        data = b"".join(b"item%d 3\n" % number for number in range(500)) + b"alone\n" * 300
        for weight, scale in ((None, 1), (1, 3)):
            text = data if weight is None else data[: data.index(b"alone")] + b"\n" * 300
            numbers = (800, 0) if weight is None else (800, 300)
            for at in range(1, 40):
                sketch, error, result = ds.FrequentItemsSketch(1 << 12, item=str), None, None
                _testcapi.set_nomemory(at, at + 1)
                try:
                    result = sketch.update_fields(text, 0, weight=weight)
                except MemoryError as raised:
                    error = raised
                finally:
                    _testcapi.remove_mem_hooks()
                said = re.findall(r"(\d+) items were counted$|a total weight of (\d+) was counted$", str(error))
                if error is None:
                    self.assertEqual((result, sketch.total_weight), (numbers, 800 if weight is None else 1500))
                elif sketch.total_weight > 0:
                    self.assertEqual([int(a or b) for a, b in said], [sketch.total_weight], (at, str(error)))
            self.assertIsNone(error, "more requests than this test refuses")


@unittest.skipUnless(threading.current_thread() is threading.main_thread(), "Ctrl-C is for the main thread")
class Interrupts(unittest.TestCase):
    def test_one_thread_ends_soon(self):
        self.addCleanup(signal.signal, signal.SIGINT, signal.getsignal(signal.SIGINT))
        signal.signal(signal.SIGINT, signal.default_int_handler)
        lines, table = b"GET /page 200 17\n" * 6_000_000, b'"GET, x",/page,17\n' * 5_000_000
        for data, more in ((lines, {"weight": 3}), (table, {"csv": True, "weight": 2})):
            for sketch in (heavy(), ds.CountMinSketch(100, 1 << 10)):
                sent = []
                timer = threading.Timer(0.1, lambda: (sent.append(time.process_time()), os.kill(os.getpid(), signal.SIGINT)))
                timer.start()
                self.assertRaises(KeyboardInterrupt, sketch.update_fields, data, 1, **more)
                ended = time.process_time()
                timer.join()
                self.assertLess(ended - sent[0], 1.5)
                self.assertEqual(sketch.total_weight, 0)


if __name__ == "__main__":
    unittest.main()
