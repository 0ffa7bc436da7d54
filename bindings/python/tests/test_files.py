"""Fields of files, compared with Python's own splits and csv, and files that do not block."""
import collections
import csv
import io
import os
import random
import signal
import tempfile
import threading
import time
import unittest
import warnings

import datasketches_rattle as ds

PIECE = 1 << 20


def weights_in(sketch):
    """The exact weights in a sketch with room for all."""
    assert sketch.maximum_error == 0
    return {item: estimate for item, _, estimate, _ in sketch.rows()}


def table_of(rows, names=("page", "bytes", "agent"), **more):
    """CSV with a header."""
    out = io.StringIO()
    writer = csv.writer(out, lineterminator="\n", **more)
    if names:
        writer.writerow(names)
    writer.writerows(rows)
    return out.getvalue().encode()


def random_rows(chance, count):
    pages = ["/", "/tea, green", '/a "b"', "/ä", "/two\nlines", "", "/long" * 20]
    return [[chance.choice(pages) + str(chance.randrange(20)), str(chance.randrange(1000)), "x"] for _ in range(count)]


def sums_of(rows, item=0, weight=1):
    sums = collections.Counter()
    for row in rows:
        sums[row[item]] += 1 if weight is None else int(row[weight])
    return {item: count for item, count in sums.items() if count > 0}


class Folder(unittest.TestCase):
    def setUp(self):
        folder = tempfile.TemporaryDirectory()
        self.addCleanup(folder.cleanup)
        self.path = os.path.join(folder.name, "table.csv")

    def write(self, data):
        with open(self.path, "wb") as file:
            file.write(data)
        return self.path

    def heavy(self, data, **more):
        return ds.FrequentItemsSketch.from_file(self.write(data), max_map_size=1 << 16, **more)


class Fields(Folder):
    def test_names_of_columns(self):
        chance = random.Random(1)
        for count in (0, 1, 50, 60_000):
            rows = random_rows(chance, count)
            data = table_of(rows)
            for threads in (1, 3, None):
                heavy = self.heavy(data, csv=True, item="page", weight="bytes", threads=threads)
                self.assertEqual(weights_in(heavy), sums_of(rows))
                self.assertEqual(weights_in(self.heavy(data, csv=True, item="page", threads=threads)), sums_of(rows, weight=None))
            load = ds.CountMinSketch.from_file(self.path, csv=True, item="page", weight="bytes", num_hashes=4, num_buckets=1 << 12)
            exact = ds.CountMinSketch(4, 1 << 12)
            exact.update(sums_of(rows))
            self.assertEqual(load, exact)
            seen = ds.BloomFilter.from_file(self.path, csv=True, item="page", num_bits=1 << 16, num_hashes=4)
            filled = ds.BloomFilter(1 << 16, 4)
            filled.insert({row[0] for row in rows})
            self.assertEqual(seen, filled)
        self.assertGreater(len(data), 1 << 20)

    def test_headers(self):
        rows = [["a", "1", "x"], ["b", "2", "y"]]
        cases = [
            (table_of(rows), {"item": "agent"}, {"x": 1, "y": 1}), (table_of(rows), {"item": 2}, {"x": 1, "y": 1}),
            (table_of(rows), {"item": 0, "weight": "bytes"}, {"a": 1, "b": 2}),
            (table_of(rows, None), {"item": 0, "weight": 1, "header": False}, {"a": 1, "b": 2}),
            (b"\xef\xbb\xbf" + table_of(rows), {"item": "page"}, {"a": 1, "b": 1}),
            (b'\xef\xbb\xbf"page",n\na,1\n', {"item": "page"}, {"a": 1}),
            (b'\xef\xbb\xbf"a\nb",1\n', {"item": 0, "header": False}, {"a\nb": 1}),
            (b'"two\nlines","a ""b"""\r\n1,2\r\n', {"item": 'a "b"'}, {"2": 1}),
            (b'"two\nlines",n\n1,2\n', {"item": "two\nlines"}, {"1": 1}),
            ("grün,n\nä,1\n".encode(), {"item": "grün"}, {"ä": 1}), (b"a;b\n1;2\n", {"item": "b", "delimiter": ";"}, {"2": 1}),
            (b"a,a\n1,2\n", {"item": "a"}, {"1": 1}), (b"page,n", {"item": "page"}, {}), (b"page\n", {"item": "page"}, {}),
            (b"page," + b"n" * 70_000 + b",last\n1,2,3\n", {"item": "last"}, {"3": 1}),
        ]
        for data, more, wanted in cases:
            for threads in (1, 2):
                self.assertEqual(weights_in(self.heavy(data, csv=True, threads=threads, **more)), wanted, (data[:40], more))

    def test_lines(self):
        chance = random.Random(2)
        rows = [[f"page{chance.randrange(50)}", str(chance.randrange(9))] for _ in range(200_000)]
        for delimiter in (None, ":"):
            data = "\n".join((delimiter or " ").join(row) for row in rows).encode()
            for threads in (1, 4):
                heavy = self.heavy(data, item=0, weight=1, delimiter=delimiter, threads=threads)
                self.assertEqual(weights_in(heavy), sums_of(rows))
        self.assertEqual(weights_in(self.heavy(b"3 a\n4 b\r\n", split="lines", weight=0)), {"3 a": 3, "4 b": 4})
        self.assertEqual(weights_in(self.heavy(b"\xef\xbb\xbfa\nb\n", item=0)), {"a": 1, "b": 1})

    def test_pipes(self):
        rows = random_rows(random.Random(3), 60_000)
        data = table_of(rows)
        os.mkfifo(self.path)
        for threads in (1, 3):
            def write():
                with open(self.path, "wb", buffering=0) as file:
                    for at in range(0, len(data), 55_555):
                        file.write(data[at : at + 55_555])

            writer = threading.Thread(target=write)
            writer.start()
            heavy = ds.FrequentItemsSketch.from_file(self.path, max_map_size=4096, csv=True, item="page", weight="bytes", threads=threads)
            writer.join()
            self.assertEqual(weights_in(heavy), sums_of(rows))

    def test_records_without_the_field(self):
        data = b"page,n\na,1\n\nb,2\nc\n"
        for more, absent, wanted in (({"item": "n"}, 2, {"1": 1, "2": 1}), ({"item": 5}, 4, {})):
            with self.assertWarnsRegex(UserWarning, rf"{absent} of 4 records have no field {more['item']!r}, and are left out") as warned:
                self.assertEqual(weights_in(self.heavy(data, csv=True, **more)), wanted)
            self.assertEqual(os.path.basename(warned.filename), "test_files.py")
        with warnings.catch_warnings():
            warnings.simplefilter("error")
            self.heavy(b"a 1\nb 2\n", item=1)

    def test_errors(self):
        data = b"page,n\na,1\nb,x\n"
        for threads in (1, 2):
            with self.assertRaises(ds.SketchError) as refused:
                self.heavy(data, csv=True, item="page", weight="n", threads=threads)
            error = refused.exception
            message = f"{self.path}: weight missing or no number in range at byte 11"
            self.assertEqual((error.fault, error.byte, str(error)), ("BadWeight", 11, message))
            far = b"a,1\n" * 700_000 + b"\xff,1\n"
            with self.assertRaises(ds.SketchError) as refused:
                self.heavy(b"page,n\n" + far, csv=True, item="page", threads=threads)
            self.assertEqual((refused.exception.fault, refused.exception.byte), ("InvalidUtf8", 7 + 2_800_000))
        for words in ({"csv": True, "item": "no"}, {"csv": True}, {"item": "page"}, {"csv": True, "item": "page", "header": False},
                      {"weight": 1}, {"delimiter": ","}, {"delimiter": ",", "split": "lines"}, {"item": 0, "split": "lines"},
                      {"item": 0, "delimiter": "ab"},
                      {"csv": True, "item": "page", "delimiter": '"'}, {"csv": True, "item": "page", "delimiter": "ab"}, {"item": -1},
                      {"csv": True, "item": "page", "weight": "no"}, {"csv": True, "item": 0, "weight": 2**32}):
            self.assertRaises(ValueError, self.heavy, data, **words)
        self.assertRaisesRegex(ValueError, "no column 'no' in the header: it has 'page', 'n'$", self.heavy, data, csv=True, item="no")
        self.assertRaises(TypeError, self.heavy, data, item=1.5)
        self.assertRaises(TypeError, ds.BloomFilter.from_file, self.path, item=0, weight=1, num_bits=64, num_hashes=1)
        self.assertRaisesRegex(ValueError, "header has more than 1048576 bytes", self.heavy, b"a" * (3 * PIECE), csv=True, item="a")
        self.assertRaisesRegex(ValueError, "the header is no record", self.heavy, b'"' + b"a\n" * PIECE, csv=True, item="a")


class Blocking(unittest.TestCase):
    """Pipes that do not block, whose writer is slow."""

    def pipe(self, data, piece, pause):
        """The reading end of a pipe that does not block, into which a thread writes."""
        reader, writer = os.pipe()
        os.set_blocking(reader, False)

        def write():
            time.sleep(pause)
            with open(writer, "wb", buffering=0) as file:
                for at in range(0, len(data), piece):
                    file.write(data[at : at + piece])
                    time.sleep(pause)

        thread = threading.Thread(target=write)
        thread.start()
        self.addCleanup(thread.join)
        return reader

    def test_nothing_is_lost(self):
        data = b"to be or not to be\n" * 20_000
        for threads in (1, 2, None):
            words = {"to": 40_000, "be": 40_000, "or": 20_000, "not": 20_000}
            for split, wanted in (("words", words), ("lines", {"to be or not to be": 20_000})):
                heavy = ds.FrequentItemsSketch.from_file(self.pipe(data, 150_000, 0.05), split, threads=threads)
                self.assertEqual(weights_in(heavy), wanted)
            for more, wanted in (({"item": 3}, {"not": 20_000}), ({"item": "be", "csv": True, "delimiter": " "}, {"be": 19_999})):
                heavy = ds.FrequentItemsSketch.from_file(self.pipe(data, 150_000, 0.05), threads=threads, **more)
                self.assertEqual(weights_in(heavy), wanted)

    def test_an_empty_pipe(self):
        for threads in (1, 2):
            self.assertEqual(weights_in(ds.FrequentItemsSketch.from_file(self.pipe(b"", 1, 0.1), threads=threads)), {})
            self.assertEqual(weights_in(ds.FrequentItemsSketch.from_file(self.pipe(b"ab", 1, 0.1), threads=threads)), {"ab": 1})

    @unittest.skipUnless(threading.current_thread() is threading.main_thread(), "Ctrl-C is for the main thread")
    def test_a_silent_pipe_can_be_interrupted(self):
        self.addCleanup(signal.signal, signal.SIGINT, signal.getsignal(signal.SIGINT))
        signal.signal(signal.SIGINT, signal.default_int_handler)
        for more in ({}, {"item": 0}, {"item": "a", "csv": True}):
            reader, writer = os.pipe()
            os.set_blocking(reader, False)
            os.write(writer, b"to be")
            timer = threading.Timer(0.2, os.kill, (os.getpid(), signal.SIGINT))
            timer.start()
            began = time.monotonic()
            self.assertRaises(KeyboardInterrupt, ds.FrequentItemsSketch.from_file, reader, threads=1, **more)
            self.assertLess(time.monotonic() - began, 60)
            timer.join()
            os.close(writer)


if __name__ == "__main__":
    unittest.main()
