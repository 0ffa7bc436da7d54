"""Words and lines of strings and of buffers: against Python's own split, cut at every place, and rejected."""
import array
import collections
import contextlib
import io
import mmap
import os
import pathlib
import random
import re
import sys
import tempfile
import threading
import time
import types
import unittest

import datasketches_rattle as ds

SPACE = b" \t\n\f\r"
PIECE = 1 << 20


def split(data):
    """The words of bytes: their longest runs without space, tab, LF, FF and CR."""
    return [word.decode() for word in re.split(rb"[ \t\n\f\r]+", data) if word]


def counted(*given, size=1 << 16, **more):
    """A sketch of the words of some strings or buffers."""
    sketch = ds.FrequentItemsSketch(size, item=str, **more)
    for each in given:
        sketch.update_words(each)
    return sketch


def weights(sketch):
    """The exact weights of a sketch's items, if its error is 0."""
    assert sketch.maximum_error == 0
    return {word: estimate for word, _, estimate, _ in sketch.rows()}


def error_of(call):
    """The error that a call raises."""
    try:
        call()
    except Exception as error:
        return error
    raise AssertionError("no error")


class Words(unittest.TestCase):
    def test_some(self):
        for data in (b"", b" ", b"\r\n\t\f ", b"a", b" a", b"a ", b"to be or not to be", "ä ö\u00a0ü\u2003x\n".encode(), b"a\x00b \x00 c\x0bd",
                     b"\x1ca\x1d b\x85".replace(b"\x85", b"")):
            self.assertEqual(weights(counted(data)), collections.Counter(split(data)), data)
            self.assertEqual(weights(counted(data.decode())), collections.Counter(split(data)), data)

    def test_random(self):
        chance = random.Random(54)
        letters = [bytes([byte]) for byte in SPACE + b"abc\x00\x0b\x7f"] + ["ä".encode(), "€".encode(), "😀".encode()]
        for _ in range(300):
            data = b"".join(chance.choices(letters, k=chance.randrange(60)))
            self.assertEqual(weights(counted(data)), collections.Counter(split(data)), data)

    def test_pieces(self):
        """Words that cross the ends of pieces, at every place of a word, and words longer than a piece."""
        for shift in range(12):
            data = b" " * (PIECE - 6 + shift) + b"across " + b"b" * (PIECE - 13) + b" c " + b"d" * (2 * PIECE + 5) + b" across"
            for given in (data, bytearray(data), memoryview(data), data.decode()):
                self.assertEqual(weights(counted(given)), collections.Counter(split(data)), shift)

    def test_buffers(self):
        data = b"to be or not to be " * 100_000
        wanted = collections.Counter(split(data))
        with tempfile.TemporaryFile() as file:
            file.write(data)
            file.flush()
            with mmap.mmap(file.fileno(), 0, access=mmap.ACCESS_READ) as mapped:
                self.assertEqual(weights(counted(mapped)), wanted)
                self.assertEqual(weights(counted(memoryview(mapped)[:40])), collections.Counter(split(data[:40])))
        self.assertEqual(weights(counted(bytearray(data), memoryview(data))), {word: 2 * weight for word, weight in wanted.items()})

    def test_purges(self):
        """With more words than counters, the bounds still enclose the weights."""
        chance = random.Random(1)
        words = [f"word{int(chance.paretovariate(0.8))}" for _ in range(50_000)]
        sketch, exact = counted(" ".join(words), size=256), collections.Counter(words)
        self.assertEqual(sketch.total_weight, len(words))
        self.assertGreater(sketch.maximum_error, 0)
        for word, weight in exact.items():
            low, _, high = sketch.bounds(word)
            self.assertTrue(low <= weight <= high, word)

    def test_as_update(self):
        data = b"the cat saw the dog and the dog saw the cat run to the pond"
        other = ds.FrequentItemsSketch(1 << 16, item=str, key=bytes(16))
        other.update(split(data))
        self.assertEqual(bytes(counted(data, key=bytes(16))), bytes(other))


def lines(data):
    """The lines of bytes: each ends with LF or CR LF, but for a last one that is not empty."""
    found = data.decode().split("\n")
    return [line.removesuffix("\r") for line in found[:-1]] + ([found[-1]] if found[-1] else [])


def sketches():
    """A filter, two counts, and frequent items, all empty, with their calls for words and for lines."""
    seen = ds.BloomFilter(1 << 14, 5)
    made = [(seen, seen.insert_words, seen.insert_lines)]
    for each in (ds.CountMinSketch(4, 1 << 10), ds.CountMinSketch(4, 1 << 10, signed=True),
                 ds.FrequentItemsSketch(1 << 12, item=str)):
        made.append((each, each.update_words, each.update_lines))
    return made


def content(sketch):
    """What a sketch has."""
    return weights(sketch) if isinstance(sketch, ds.FrequentItemsSketch) else bytes(sketch)


def as_listed(items):
    """What each of the sketches has after these items."""
    made = sketches()
    for sketch, *_ in made:
        (sketch.insert if isinstance(sketch, ds.BloomFilter) else sketch.update)(items)
    return [content(sketch) for sketch, *_ in made]


class Sketches(unittest.TestCase):
    """All sketches take words and lines, whole or in chunks."""

    def test_whole(self):
        chance = random.Random(55)
        letters = [bytes([byte]) for byte in SPACE + b"\n\n\rabc\x00\x0b\x7f"] + ["ä".encode(), "€".encode(), "😀".encode()]
        some = [b"", b"\n", b"\r\n", b"\r", b"a\r", b"a\r\r\n", b"\n\n", b"a\nb"]
        for data in some + [b"".join(chance.choices(letters, k=40)) for _ in range(100)]:
            for of_lines, items in ((0, split(data)), (1, lines(data))):
                for given in (data, bytearray(data), memoryview(data), data.decode()):
                    made = sketches()
                    self.assertEqual([calls[of_lines](given) for _, *calls in made], [len(given)] * 4)
                    self.assertEqual([content(sketch) for sketch, *_ in made], as_listed(items), data)

    def test_cut_at_every_place(self):
        data = "to be\r\nor \tnot\n\nünd 😀 \x0bso on\r\n last\r".encode()
        for of_lines, items in ((0, split(data)), (1, lines(data))):
            wanted = as_listed(items)
            for place in range(len(data) + 1):
                made = sketches()
                for _, *calls in made:
                    used = calls[of_lines](data[:place], final=False)
                    self.assertLessEqual(used, place)
                    self.assertTrue(used == 0 or data[used - 1] in (b"\n" if of_lines else SPACE))
                    self.assertFalse(set(data[used:place]) & set(b"\n" if of_lines else SPACE))
                    self.assertEqual(calls[of_lines](data[used:]), len(data) - used)
                self.assertEqual([content(sketch) for sketch, *_ in made], wanted, place)

    def test_the_rest_of_a_str(self):
        text = "ünd 😀 só\nweiter€"
        for _, words_call, lines_call in sketches():
            self.assertEqual((text[words_call(text, final=False):], text[lines_call(text, final=False):]), ("weiter€", "weiter€"))
            self.assertEqual((words_call("€", final=False), words_call("€"), lines_call("", final=False)), (0, 1, 0))

    def test_pieces(self):
        line = "zwölf Boxkämpfer jagen\n".encode()
        data = line * (2 * PIECE // len(line)) + b"x" * (PIECE + 7) + b"\n" + line + b"end"
        for of_lines, items in ((0, split(data)), (1, lines(data))):
            made, wanted = sketches(), as_listed(items)
            for _, *calls in made:
                self.assertEqual(calls[of_lines](data), len(data))
            self.assertEqual([content(sketch) for sketch, *_ in made], wanted)

    def test_invalid_utf8(self):
        line = b"one two\n"
        front = line * (PIECE // len(line) + 3)
        for bad, at in ((b"a \xff", 2), (b"caf\xc3", 3), (b"\xed\xa0\x80 x", 0)):
            for of_lines in (0, 1):
                for data, place, taken in ((b"ok\n" + bad, 3 + at, 0), (front + bad, len(front) + at, 1)):
                    for given in (data, bytearray(data)):
                        for sketch, *calls in sketches():
                            error = error_of(lambda: calls[of_lines](given))
                            self.assertEqual((type(error), error.fault, error.byte), (ds.SketchError, "InvalidUtf8", place))
                            self.assertIn(f"at byte {place}", str(error))
                            counted = (PIECE // len(line) + of_lines if of_lines else 2 * (PIECE // len(line)) + 1) * taken
                            notes = [f"items taken before this error: {counted}"] if taken else []
                            self.assertEqual(getattr(error, "__notes__", []), notes)
                            if not isinstance(sketch, ds.BloomFilter):
                                self.assertEqual(sketch.total_weight, counted)

    def test_arguments(self):
        for sketch, *calls in sketches():
            for call in calls:
                for given in (7, None, ["a"], memoryview(bytes(8)).cast("Q"), memoryview(b"a b c")[::2], array.array("i", [1])):
                    self.assertIsInstance(error_of(lambda: call(given)), (TypeError, BufferError), given)
                self.assertRaises(UnicodeEncodeError, call, "a \ud800")
                self.assertRaises(TypeError, call, b"a", False)
                self.assertRaises(TypeError, call, text=b"a")
            sketch.close()
            for call in calls:
                self.assertRaises(ValueError, call, b"a")
        self.assertRaises(TypeError, ds.FrequentItemsSketch(8).update_lines, b"a")


class Files(unittest.TestCase):
    """Sketches of files."""

    def setUp(self):
        folder = tempfile.TemporaryDirectory()
        self.addCleanup(folder.cleanup)
        self.path = os.path.join(folder.name, "book.txt")

    def write(self, data):
        with open(self.path, "wb") as file:
            file.write(data)
        return self.path

    def test_words_and_lines(self):
        chance = random.Random(56)
        pieces = [b"to", b"be", b" ", b"\n", b"\r\n", "ä".encode(), b"\x0b", b"\t"]
        for data in [b"", b"\n", b"no end", b"".join(chance.choices(pieces, k=400_000))]:
            self.write(data)
            for path in (self.path, pathlib.Path(self.path), self.path.encode()):
                heavy = ds.FrequentItemsSketch.from_file(path, max_map_size=1 << 16)
                self.assertEqual(weights(heavy), collections.Counter(split(data)))
            heavy = ds.FrequentItemsSketch.from_file(self.path, "lines", 1 << 18, sample_size=8, progress=False)
            self.assertEqual((weights(heavy), heavy.sample_size, heavy.max_map_size), (collections.Counter(lines(data)), 8, 1 << 18))

        class Own(ds.FrequentItemsSketch):
            pass

        self.assertIs(type(Own.from_file(self.path)), Own)

    def test_a_mark_at_the_front(self):
        heavy = ds.FrequentItemsSketch.from_file(self.write("\ufeffa b \ufeffa".encode()))
        self.assertEqual(weights(heavy), {"a": 1, "b": 1, "\ufeffa": 1})

    def test_long_words(self):
        """A long word takes time in proportion to its length."""
        took = []
        for size in (5 << 20, 20 << 20):
            self.write(b"a " + b"b" * size + b" c")
            began = time.process_time()
            for kind in ("words", "lines"):
                heavy = ds.FrequentItemsSketch.from_file(self.path, kind)
                self.assertEqual(heavy.total_weight, 3 if kind == "words" else 1)
            took.append(time.process_time() - began)
            self.assertEqual(ds.FrequentItemsSketch.from_file(self.path)["b" * size], 1)
        self.assertLess(took[1], 12 * took[0] + 0.2)

    def test_pipe(self):
        os.mkfifo(self.path)
        data = b"to be or not to be\n" * 20_000

        def write():
            with open(self.path, "wb", buffering=0) as file:
                for at in range(0, len(data), 777):
                    file.write(data[at : at + 777])

        writer = threading.Thread(target=write)
        writer.start()
        heavy = ds.FrequentItemsSketch.from_file(self.path)
        writer.join()
        self.assertEqual(weights(heavy), collections.Counter(split(data)))

    def test_rejected(self):
        front = b"ab " * 700_000
        for data, byte in ((front + b"c\xff d", len(front) + 1), ("\ufeff".encode() + b"a \xc3", 5), (b"\xff", 0),
                           (front + b"\xe2\x82", len(front))):
            for kind in ("words", "lines"):
                error = error_of(lambda: ds.FrequentItemsSketch.from_file(self.write(data), kind))
                self.assertEqual((type(error), error.fault, error.kind), (ds.SketchError, "InvalidUtf8", "InvalidArgument"))
                self.assertEqual((error.byte, str(error)), (byte, f"{self.path}: invalid UTF-8 at byte {byte}"))
        self.assertRaises(ValueError, ds.FrequentItemsSketch.from_file, self.path, "chars")
        self.assertRaises(ds.SketchError, ds.FrequentItemsSketch.from_file, self.path, max_map_size=9)
        self.assertRaises(OSError, ds.FrequentItemsSketch.from_file, self.path + "x")
        self.assertRaises(TypeError, ds.FrequentItemsSketch.from_file)
        self.assertRaises(TypeError, ds.FrequentItemsSketch.from_file, None)

    def test_progress(self):
        """Only progress=True needs tqdm. By default nothing is written where there is no terminal."""
        self.write(b"a b c " * 1000)
        for there, progress, shown in ((False, None, False), (False, False, False), (True, None, False), (True, True, True)):
            told = io.StringIO()
            with contextlib.redirect_stderr(told), fake_tqdm(there):
                ds.FrequentItemsSketch.from_file(self.path, progress=progress)
            self.assertEqual("6000" in told.getvalue(), shown, progress)
        with fake_tqdm(False), self.assertRaisesRegex(ImportError, "tqdm"):
            ds.FrequentItemsSketch.from_file(self.path, progress=True)


@contextlib.contextmanager
def fake_tqdm(there):
    """A stand-in for tqdm, or no tqdm."""
    class Bar:
        def __init__(self, total, unit, unit_scale, delay, disable):
            self.disable = not sys.stderr.isatty() if disable is None else disable
            self.done, self.total = 0, total

        def __enter__(self):
            return self

        def __exit__(self, *_):
            if not self.disable and self.done == self.total:
                print(self.done, file=sys.stderr)

        def update(self, count):
            self.done += count

    module = types.ModuleType("tqdm")
    module.tqdm = Bar
    before = sys.modules.get("tqdm")
    sys.modules["tqdm"] = module if there else None
    try:
        yield
    finally:
        del sys.modules["tqdm"]
        if before is not None:
            sys.modules["tqdm"] = before


class Rejected(unittest.TestCase):
    def test_invalid_utf8(self):
        for bad in (b"\xff", b"a \xc3", b"a \xed\xa0\x80 b", b"good \xf4\x90\x80\x80"):
            sketch = counted(b"one")
            for given in (bad, bytearray(bad)):
                error = error_of(lambda: sketch.update_words(given))
                self.assertEqual((type(error), error.fault), (ds.SketchError, "InvalidUtf8"))
                self.assertEqual((weights(sketch), getattr(error, "__notes__", [])), ({"one": 1}, []))

    def test_invalid_in_a_later_piece(self):
        data = b"ab " * (PIECE // 3 + 1) + b"c \xff d"
        sketch = counted()
        error = error_of(lambda: sketch.update_words(data))
        self.assertEqual(error.fault, "InvalidUtf8")
        self.assertEqual(error.__notes__, [f"items taken before this error: {sketch.total_weight}"])
        self.assertEqual(weights(sketch), {"ab": sketch.total_weight})
        self.assertGreater(sketch.total_weight, PIECE // 3 - 2)

    def test_overflow(self):
        sketch = counted()
        sketch.update("heavy", 2**64 - 3)
        error = error_of(lambda: sketch.update_words(b"a b c d"))
        self.assertEqual((error.fault, error.__notes__), ("WeightOverflow", ["items taken before this error: 2"]))
        self.assertEqual(weights(sketch), {"heavy": 2**64 - 3, "a": 1, "b": 1})

    def test_arguments(self):
        sketch = counted()
        for given in (7, None, ["a"], memoryview(bytes(8)).cast("Q"), memoryview(b"a b c")[::2]):
            self.assertIsInstance(error_of(lambda: sketch.update_words(given)), (TypeError, BufferError), given)
        self.assertRaises(UnicodeEncodeError, sketch.update_words, "a \ud800")
        self.assertRaises(TypeError, ds.FrequentItemsSketch(8).update_words, b"a")
        self.assertRaises(TypeError, sketch.update_words)
        self.assertEqual(sketch.total_weight, 0)
        sketch.close()
        self.assertRaises(ValueError, sketch.update_words, b"a")
