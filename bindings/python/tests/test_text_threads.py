"""Words and lines by several threads, of strings, buffers and files, compared with one thread and with exact counts."""
import collections
import mmap
import os
import random
import re
import resource
import signal
import subprocess
import sys
import tempfile
import threading
import time
import unittest

import datasketches_rattle as ds

PIECE = 1 << 20
THREADS = (2, 3, 4, 1024, None)
KINDS = {  # the arguments of small sketches
    "filter": (ds.BloomFilter, {"num_bits": 1 << 16, "num_hashes": 5, "seed": 7}),
    "counts": (ds.CountMinSketch, {"num_hashes": 4, "num_buckets": 1 << 10, "seed": 7}),
    "signed": (ds.CountMinSketch, {"num_hashes": 3, "num_buckets": 1 << 9, "signed": True}),
    "frequent": (ds.FrequentItemsSketch, {"max_map_size": 1 << 16}),
}


def items_of(data, split):
    """The words or the lines of bytes."""
    if split == "words":
        return [word.decode() for word in re.split(rb"[ \t\n\f\r]+", data) if word]
    found = data.decode().split("\n")
    return [line.removesuffix("\r") for line in found[:-1]] + ([found[-1]] if found[-1] else [])


def new(kind, **more):
    """An empty sketch of strings."""
    make, sizes = KINDS[kind]
    return make(**sizes, **more, **({"item": str} if kind == "frequent" else {}))


def take(sketch, split, text, **more):
    """Counts or inserts the words or lines of a text."""
    return getattr(sketch, ("insert_" if isinstance(sketch, ds.BloomFilter) else "update_") + split)(text, **more)


def content(sketch):
    """What a sketch has: exact weights, for frequent items with room for all."""
    if isinstance(sketch, ds.FrequentItemsSketch):
        assert sketch.maximum_error == 0
        return {item: estimate for item, _, estimate, _ in sketch.rows()}
    return bytes(sketch)


def text_of(size, seed=1, letters=("to", "be", " ", "  ", "\n", "\r\n", "ä", "\x0b", "\t", "😀", "\f", "xyz")):
    """Random bytes with words and lines of several lengths."""
    chance = random.Random(seed)
    block = "".join(chance.choices(letters, k=40_000)).encode()
    return (block * (size // len(block) + 1))[: size - 1] + b"e" if size else b""


def valid(data):
    """The bytes, without a part of a character at the end."""
    return data.decode(errors="ignore").encode()


def error_of(call):
    """The error that a call raises."""
    try:
        call()
    except Exception as error:
        return error
    raise AssertionError("no error")


def long_items():
    """Words and lines that are longer than one, two and three pieces, and that end where pieces end."""
    for shift in (-2, -1, 0, 1, 2):
        yield b"a" * (PIECE + shift) + b" \n" + b"b" * (3 * PIECE) + b"\n" + b"c d " * 10 + b"\r\ne" * PIECE
        yield b" " * (PIECE + shift) + b"word" + b"\n" * (PIECE - 4 - shift) + b"next\n" + b"f" * 7
        yield b"x\n" * ((PIECE + shift) // 2) + b"yy" + b"\n" * PIECE


class Texts(unittest.TestCase):
    def check(self, data, threads=THREADS, given=None, kinds=tuple(KINDS)):
        for split in ("words", "lines"):
            for kind in kinds:
                one = new(kind)
                take(one, split, data)
                if kind == "frequent":
                    self.assertEqual(content(one), collections.Counter(items_of(data, split)))
                for number in threads:
                    many = new(kind)
                    self.assertEqual(take(many, split, data if given is None else given, threads=number), len(given or data))
                    self.assertEqual(content(many), content(one), (kind, split, number))

    def test_as_one_thread(self):
        for size in (0, 1, 5000, PIECE + 1, 4 * PIECE + 77):
            self.check(valid(text_of(size)), THREADS if size < PIECE else (4, None))

    def test_long_items(self):
        for data in long_items():
            self.check(data, (4,), kinds=("counts",))

    def test_all_buffers(self):
        data = valid(text_of(3 * PIECE + 5))
        with tempfile.TemporaryFile() as file:
            file.write(data)
            file.flush()
            with mmap.mmap(file.fileno(), 0, access=mmap.ACCESS_READ) as mapped:
                for given in (bytearray(data), memoryview(data), mapped):
                    self.check(data, (3,), given)
        text = data.decode()
        many, one = new("counts"), new("counts")
        self.assertEqual(many.update_words(text, threads=3), len(text))
        one.update_words(text)
        self.assertEqual(many, one)

    def test_the_rest(self):
        for tail in ("", "rest", "ü€😀"):
            text = "line of words\n" * 200_000 + tail
            for kind in KINDS:
                for split in ("words", "lines"):
                    for given in (text, text.encode()):
                        sketch = new(kind)
                        used = take(sketch, split, given, final=False, threads=4)
                        self.assertEqual(given[used:], tail if given is text else tail.encode())
                        self.assertEqual(content(sketch), content(self.of(kind, split, "line of words\n" * 200_000)))

    def of(self, kind, split, text):
        sketch = new(kind)
        take(sketch, split, text)
        return sketch

    def test_what_was_there_stays(self):
        data = b"to be or not to be\n" * 200_000
        for kind in KINDS:
            one, many = new(kind), new(kind)
            for sketch, threads in ((one, 1), (many, 4)):
                (sketch.insert if kind == "filter" else sketch.update)(["first", "be"])
                for _ in range(2):
                    take(sketch, "words", data, threads=threads)
            self.assertEqual(content(one), content(many), kind)

    def test_bounds(self):
        """With more words than counters: the total, the bounds, and the bound of the error."""
        chance = random.Random(1)
        words = [f"word{int(chance.paretovariate(0.9))}" for _ in range(600_000)]
        data, exact = " ".join(words).encode(), collections.Counter(words)
        for threads in (2, 4):
            for size in (64, 1024):
                sketch = ds.FrequentItemsSketch(size, item=str)
                sketch.update_words(data, threads=threads)
                self.assertEqual(sketch.total_weight, len(words))
                self.assertGreater(sketch.maximum_error, 0)
                bounds = sketch.bounds(list(exact))
                self.assertTrue(all(low <= weight <= high for (low, _, high), weight in zip(bounds, exact.values())))
                budget, ranked = sketch.sample_size // 2, sorted(exact.values(), reverse=True)
                for top in range(budget):
                    self.assertLessEqual((budget - top) * sketch.maximum_error, sum(ranked[top:]))

    def test_sizes_seed_and_key_stay(self):
        data, key = b"a b c " * 400_000, bytes(range(16))
        heavy = ds.FrequentItemsSketch(1 << 10, item=str, sample_size=8, key=key)
        heavy.update_words(data, threads=3)
        one = ds.FrequentItemsSketch(1 << 10, item=str, sample_size=8, key=key)
        one.update_words(data)
        self.assertEqual((heavy.max_map_size, heavy.sample_size, content(heavy)), (1 << 10, 8, content(one)))
        for kind in ("filter", "counts"):
            sketch = self.of(kind, "words", data)
            before = repr(sketch)
            take(sketch, "words", data, threads=3)
            self.assertEqual(repr(sketch), before)

    def test_number_of_threads(self):
        for kind in KINDS:
            sketch = new(kind)
            for threads in (0, -1, 1025, 1 << 80, -(1 << 80)):
                self.assertIsInstance(error_of(lambda: take(sketch, "words", b"a", threads=threads)), ValueError)
            for threads in ("2", 1.5, True, [2]):
                self.assertIsInstance(error_of(lambda: take(sketch, "lines", b"a", threads=threads)), TypeError)
            self.assertEqual(content(sketch), content(new(kind)))
            for threads in (1, 2, 1024, None):
                used = [take(sketch, "words", b"", threads=threads), take(sketch, "lines", b"a b", threads=threads)]
                self.assertEqual(used, [0, 3])
        self.assertRaises(TypeError, ds.FrequentItemsSketch(8).update_words, b"a", threads=2)
        sketch = new("counts")
        sketch.close()
        self.assertRaisesRegex(ValueError, "closed", sketch.update_words, b"a", threads=2)


class Errors(unittest.TestCase):
    """After an error the sketch is as it was."""

    def test_invalid_utf8(self):
        line = "ein Wört\n".encode()
        front = line * (3 * PIECE // len(line))
        for kind in KINDS:
            for bad, at in ((b"a \xff", 2), (b"caf\xc3 x", 3), (b"\xed\xa0\x80 x", 0), (b"caf\xc3", 3)):
                for data, place in ((bad, at), (front + bad, len(front) + at), (front + bad + b"\n" + front + bad, len(front) + at),
                                    (bad + b"\n" + front + bad, at)):
                    for given in (data, bytearray(data)):
                        sketch = new(kind)
                        take(sketch, "words", b"there before")
                        before = content(sketch)
                        for threads in (2, 4, None):
                            error = error_of(lambda: take(sketch, "words", given, threads=threads))
                            self.assertEqual((type(error), error.fault, error.byte), (ds.SketchError, "InvalidUtf8", place))
                            self.assertEqual((getattr(error, "__notes__", []), content(sketch)), ([], before))

    def test_the_first_error_is_raised(self):
        line = b"some words and lines\n"
        data = bytearray(line * (9 * PIECE // len(line)))
        for place in range(PIECE // 2, len(data), PIECE // 2):
            data[place] = 0xFF
        for first in range(PIECE // 2, len(data), PIECE):
            for _ in range(3):
                error = error_of(lambda: new("counts").update_words(bytes(data), threads=4))
                self.assertEqual(error.byte, first)
            for place in range(first, first + PIECE, PIECE // 2):
                data[place : place + 1] = b"x"

    def test_overflow(self):
        data = b"a b c d\n" * 300_000
        for kind, most in (("counts", 2**64 - 1), ("frequent", 2**64 - 1), ("signed", 2**63 - 1)):
            for room, fails in ((1_199_999, True), (1_200_000, False)):
                sketch = new(kind)
                sketch.update("heavy", most - room)
                before = content(sketch)
                if not fails:
                    sketch.update_words(data, threads=4)
                    self.assertEqual(sketch.total_weight, most)
                    continue
                for given in (data, data[:-9] + b" a b c d"):
                    error = error_of(lambda: sketch.update_words(given, threads=4))
                    self.assertEqual((error.fault, getattr(error, "__notes__", [])), ("WeightOverflow", []))
                    self.assertEqual(content(sketch), before)

    @unittest.skipIf("asan" in os.environ.get("LD_PRELOAD", ""), "the limit on memory is too low for this run")
    def test_memory(self):
        script = """
import resource
import datasketches_rattle as ds
load, seen = ds.CountMinSketch(4, 1 << 21), ds.BloomFilter(1 << 29, 5)
heavy = ds.FrequentItemsSketch(1 << 24, item=str)
load.update("a"), seen.insert("a")
data = b"to be or not to be " * 300000
many = b" ".join(b"word%d" % number for number in range(2000000))
with open("/proc/self/statm") as file:
    size = int(file.read().split()[0]) * resource.getpagesize()
resource.setrlimit(resource.RLIMIT_AS, (size + (1 << 27), size + (1 << 27)))
for call, text in ((load.update_words, data), (seen.insert_words, data), (heavy.update_words, many)):
    for _ in range(3):
        try:
            call(text, threads=4)
            print("no error")
        except (MemoryError, RuntimeError) as error:
            print(type(error).__name__, getattr(error, "__notes__", []))
print(load.total_weight, load["a"], seen.bits_used, heavy.total_weight)
"""
        done = subprocess.run([sys.executable, "-c", script], capture_output=True, text=True, timeout=120, check=False,
                              cwd=os.path.dirname(os.path.dirname(ds.__file__)))
        self.assertEqual((done.returncode, done.stderr), (0, ""))
        self.assertEqual(done.stdout.split("\n"), ["MemoryError []"] * 9 + ["1 1 5 0", ""])


class Others(unittest.TestCase):
    """Other Python threads during a call."""

    def test_the_sketch_can_be_used_meanwhile(self):
        data, load = b"to be or not to be\n" * 2_000_000, new("counts")
        worker = threading.Thread(target=lambda: load.update_words(data, threads=2))
        worker.start()
        steps = 0
        while worker.is_alive():
            load.update("mine")
            self.assertIn(load.total_weight - steps - 1, (0, 12_000_000))
            steps += 1
        worker.join()
        self.assertEqual(load.total_weight, 12_000_000 + steps)
        self.assertGreater(steps, 10)

    def test_closed_meanwhile(self):
        data = b"to be or not to be\n" * 500_000
        for kind in KINDS:
            sketch, errors = new(kind), []

            def fill():
                try:
                    take(sketch, "words", data, threads=3)
                except ValueError as error:
                    errors.append(str(error))

            worker = threading.Thread(target=fill)
            worker.start()
            time.sleep(0.005)
            sketch.close()
            worker.join()
            self.assertIn(errors, ([], ["the sketch is closed"]))

    def test_one_sketch_by_many_calls(self):
        data, load = b"to be or not to be\n" * 100_000, new("counts")
        workers = [threading.Thread(target=lambda: load.update_words(data, threads=3)) for _ in range(6)]
        for worker in workers:
            worker.start()
        for worker in workers:
            worker.join()
        self.assertEqual((load.total_weight, load["not"]), (3_600_000, 600_000))

    def test_a_buffer_that_changes(self):
        data, ended = bytearray(b"to be or not to be\n" * 300_000), threading.Event()

        def change():
            chance = random.Random(3)
            while not ended.is_set():
                at = chance.randrange(len(data))
                data[at] = 32 if data[at] != 32 else 120

        changer = threading.Thread(target=change)
        changer.start()
        try:
            for _ in range(5):
                for split in ("words", "lines"):
                    take(new("counts"), split, data, threads=4)
        finally:
            ended.set()
            changer.join()

    @unittest.skipIf("asan" in os.environ.get("LD_PRELOAD", ""), "freed memory stays in this run")
    def test_nothing_is_left(self):
        def use(times):
            for _ in range(times):
                for kind in KINDS:
                    take(sketches[kind], "words", data, threads=3)
                    error_of(lambda kind=kind: take(sketches[kind], "words", bad, threads=3))

        def resident():
            with open("/proc/self/statm", encoding="ascii") as file:
                return int(file.read().split()[1]) * resource.getpagesize()

        data = b"to be or not to be\n" * 60_000
        bad, sketches = bytearray(data) + b"\xff", {kind: new(kind) for kind in KINDS}
        use(4)
        before, threads = resident(), len(os.listdir("/proc/self/task"))
        use(12)
        self.assertLess(resident() - before, 8 << 20)
        self.assertEqual(len(os.listdir("/proc/self/task")), threads)


class Files(unittest.TestCase):
    def setUp(self):
        folder = tempfile.TemporaryDirectory()
        self.addCleanup(folder.cleanup)
        self.path = os.path.join(folder.name, "book.txt")

    def write(self, data):
        with open(self.path, "wb") as file:
            file.write(data)
        return self.path

    def from_file(self, kind, path, split, **more):
        make, sizes = KINDS[kind]
        return make.from_file(path, split, **sizes, **more)

    def check(self, data, threads=(1, 2, 4, None), kinds=tuple(KINDS)):
        self.write(data)
        for split in ("words", "lines"):
            for kind in kinds:
                one = new(kind)
                take(one, split, data.removeprefix(b"\xef\xbb\xbf"))
                for number in threads:
                    sketch = self.from_file(kind, self.path, split, threads=number, progress=False)
                    self.assertEqual(content(sketch), content(one), (kind, split, number))
                    self.assertEqual(repr(sketch), repr(one))

    def test_as_one_thread(self):
        for size in (0, 1, 4096, PIECE - 1, PIECE, PIECE + 1, 4 * PIECE + 9):
            self.check(valid(text_of(size)), (1, 2, None) if size < PIECE else (4,))
        for data in (b"\n", b" ", b"\r\n", b"\xef\xbb\xbf", b"\xef\xbb\xbfa \xef\xbb\xbfb\n"):
            self.check(data)
        self.check(b"\xef\xbb\xbf" + b"a b\n" * (PIECE // 2), (1, 3))

    def test_long_items(self):
        for data in long_items():
            self.check(data, (4,), kinds=("counts",))

    def test_items_end_where_pieces_end(self):
        for shift in range(-3, 4):
            self.check(b"a" * (PIECE - 5 + shift) + b" bcd efg\nh\r\n" + b"z" * (PIECE - 7) + b"\n" + b"y", (2,))

    def test_pipes(self):
        os.mkfifo(self.path)
        for data in (b"", b"a", valid(text_of(3 * PIECE + 4)), b"long" * PIECE + b" x\n" + b"y" * 9, b"\xef\xbb\xbfa b"):
            for split in ("words", "lines"):
                for threads, piece in ((1, 77777), (4, 77777), (None, 1 << 20)):
                    def write():
                        with open(self.path, "wb", buffering=0) as file:
                            for at in range(0, len(data), piece):
                                file.write(data[at : at + piece])

                    writer = threading.Thread(target=write)
                    writer.start()
                    load = ds.CountMinSketch.from_file(self.path, split, num_hashes=4, num_buckets=1 << 10, threads=threads)
                    writer.join()
                    one = ds.CountMinSketch(4, 1 << 10)
                    take(one, split, data.removeprefix(b"\xef\xbb\xbf"))
                    self.assertEqual(load, one, (split, threads))

    def test_other_files(self):
        """Files without a size, devices, and descriptors with a position."""
        for path in ("/proc/self/limits", "/dev/null"):
            with open(path, "rb") as file:
                words = collections.Counter(items_of(file.read(), "words"))
            self.assertEqual(content(ds.FrequentItemsSketch.from_file(path, threads=4)), words)
        self.write(b"skipped " + b"to be " * 500_000)
        file = os.open(self.path, os.O_RDONLY)
        twin = os.dup(file)
        os.lseek(file, 8, os.SEEK_SET)
        self.assertEqual(content(ds.FrequentItemsSketch.from_file(file, threads=4)), {"to": 500_000, "be": 500_000})
        self.assertEqual(os.read(twin, 5), b"", "the file was read to its end")
        os.close(twin)
        self.assertRaises(IsADirectoryError, ds.FrequentItemsSketch.from_file, os.path.dirname(self.path), threads=2)
        self.assertRaises(FileNotFoundError, ds.FrequentItemsSketch.from_file, self.path + "x", threads=2)
        error = error_of(lambda: ds.FrequentItemsSketch.from_file("/proc/self/mem", threads=2))
        self.assertIsInstance(error, OSError)

    def test_invalid_utf8(self):
        front = "Wört und\n".encode() * (2 * PIECE // 10)
        for data, byte in ((front + b"c\xff d " + front + b"\xff", len(front) + 1), ("\ufeff".encode() + b"a \xc3", 5),
                           (b"\xff", 0), (front + b"\xe2\x82", len(front)), (b"\xef\xbb", 0),
                           (front + b"x" * PIECE + b"\xc3\n", len(front) + PIECE)):
            self.write(data)
            for split in ("words", "lines"):
                for threads in (1, 2, 4, None):
                    for kind in KINDS:
                        error = error_of(lambda: self.from_file(kind, self.path, split, threads=threads))
                        self.assertEqual((type(error), error.fault, error.byte, str(error), getattr(error, "__notes__", [])), (
                            ds.SketchError, "InvalidUtf8", byte, f"{self.path}: invalid UTF-8 at byte {byte}", []))

    def test_invalid_utf8_in_a_pipe(self):
        for data, byte in ((b"ab " * PIECE + b"c\xff", 3 * PIECE + 1), (b"\xef\xbb\xbf\xff", 3)):
            reader, writer = os.pipe()

            def write():
                with open(writer, "wb") as file:
                    try:
                        file.write(data + b" x" * PIECE)
                    except BrokenPipeError:
                        pass

            thread = threading.Thread(target=write)
            thread.start()
            error = error_of(lambda: ds.FrequentItemsSketch.from_file(reader, threads=4))
            thread.join()
            self.assertEqual((error.fault, error.byte), ("InvalidUtf8", byte))

    def test_a_file_that_shrinks(self):
        """A file that is truncated while it is read is counted in part."""
        data = b"to be or not to be\n" * 400_000
        for threads in (1, 2, 4):
            for delay in (0, 0.002, 0.01):
                self.write(data)
                cutter = threading.Timer(delay, os.truncate, (self.path, 1000))
                cutter.start()
                heavy = ds.FrequentItemsSketch.from_file(self.path, threads=threads)
                cutter.join()
                self.assertLessEqual(heavy.total_weight, 6 * 400_000)
                self.assertLessEqual({word for word, *_ in heavy.rows(heavy.total_weight // 100)}, {"to", "be", "or", "not"})

    def test_a_key_is_for_one_thread(self):
        chance = random.Random(2)
        self.write(" ".join(f"w{int(chance.paretovariate(0.7))}" for _ in range(400_000)).encode())
        key = bytes(range(16))
        images = {bytes(ds.FrequentItemsSketch.from_file(self.path, max_map_size=64, key=key)) for _ in range(4)}
        one = ds.FrequentItemsSketch.from_file(self.path, max_map_size=64, key=key, threads=1)
        self.assertEqual(images, {bytes(one)})
        many = ds.FrequentItemsSketch.from_file(self.path, max_map_size=64, key=key, threads=3)
        self.assertEqual(many.total_weight, one.total_weight)

    def test_arguments(self):
        self.write(b"a b")

        class Own(ds.BloomFilter):
            pass

        self.assertIs(type(Own.from_file(self.path, num_bits=64, num_hashes=1)), Own)
        for threads in (0, -1, 1025, "2", 1.5, True):
            for kind in KINDS:
                self.assertIsInstance(error_of(lambda: self.from_file(kind, self.path, "words", threads=threads)),
                                      (TypeError, ValueError))
        self.assertRaises(ValueError, ds.CountMinSketch.from_file, self.path, "chars", num_hashes=1, num_buckets=3)
        self.assertRaises(ds.SketchError, ds.BloomFilter.from_file, self.path, num_bits=0, num_hashes=1)
        with self.assertRaisesRegex(TypeError, r"BloomFilter\.from_file"):
            ds.BloomFilter.from_file(self.path)
        with self.assertRaises(TypeError):
            ds.CountMinSketch.from_file(self.path, "words", 4, 1024)

    def test_the_default_limits_memory(self):
        from datasketches_rattle import _sketches
        usable = len(os.sched_getaffinity(0))
        for sketch, most in ((ds.BloomFilter(1 << 31, 1), 3), (ds.BloomFilter(1 << 10, 1), 1024),
                             (ds.CountMinSketch(4, 1 << 20), 31), (ds.FrequentItemsSketch(1 << 23, item=str), 2),
                             (ds.FrequentItemsSketch(1 << 30, item=str), 1)):
            self.assertEqual(_sketches._threads(sketch, None), min(usable, most), sketch)
            self.assertEqual(_sketches._threads(sketch, 1024), 1024)

    def test_wrong_calls_of_the_module(self):
        from datasketches_rattle import _sketches
        self.write(b"a b")
        for sketch in (7, ds.FrequentItemsSketch(8)):
            self.assertRaises(TypeError, _sketches._threads, sketch, None)
        with open(self.path, "rb") as file:
            for sketch in (7, ds.FrequentItemsSketch(8)):
                self.assertRaises(TypeError, _sketches._take_file, sketch, file.fileno(), False, 2, print)
        self.assertRaises(OSError, _sketches._take_file, ds.BloomFilter(64, 1), -1, False, 2, print)


@unittest.skipUnless(threading.current_thread() is threading.main_thread(), "Ctrl-C is for the main thread")
class Interrupts(unittest.TestCase):
    def setUp(self):
        self.addCleanup(signal.signal, signal.SIGINT, signal.getsignal(signal.SIGINT))
        signal.signal(signal.SIGINT, signal.default_int_handler)

    def interrupted(self, call, after=0.05):
        """Sends this process SIGINT while the call runs. Returns the processor time that its threads take from then to the call's end, in
        seconds, since the time by the clock is also that of all that runs beside these tests."""
        sent = []
        timer = threading.Timer(after, lambda: (sent.append(time.process_time()), os.kill(os.getpid(), signal.SIGINT)))
        timer.start()
        with self.assertRaises(KeyboardInterrupt):
            call()
        ended = time.process_time()
        timer.join()
        return ended - sent[0]

    def test_texts(self):
        data = b"to be or not to be\n" * (1 << 22)
        for sketch in (ds.BloomFilter(1 << 16, 300), ds.CountMinSketch(100, 1 << 10),
                       ds.CountMinSketch(100, 1 << 10, signed=True)):
            take(sketch, "words", b"there before")
            before = bytes(sketch)
            for given in (data, bytearray(data)):
                self.assertLess(self.interrupted(lambda: take(sketch, "words", given, threads=4)), 5)
                self.assertEqual(bytes(sketch), before)

    def test_files(self):
        with tempfile.NamedTemporaryFile() as file:
            file.write(b"to be or not to be\n" * (1 << 22))
            file.flush()
            self.interrupted(lambda: ds.BloomFilter.from_file(file.name, num_bits=1 << 16, num_hashes=300, threads=4))

    def test_a_silent_pipe(self):
        reader, writer = os.pipe()
        os.write(writer, b"to be")
        self.assertLess(self.interrupted(lambda: ds.FrequentItemsSketch.from_file(reader, threads=3), 0.2), 5)
        os.close(writer)

    def test_progress_that_raises(self):
        def fail(count):
            raise KeyError(count)

        from datasketches_rattle import _sketches
        sketch = new("counts")
        with tempfile.TemporaryFile() as file:
            file.write(b"a b\n" * PIECE)
            file.flush()
            file.seek(0)
            self.assertRaises(KeyError, _sketches._take_file, sketch, file.fileno(), False, 2, fail)
        self.assertEqual(sketch.total_weight, 0)


if __name__ == "__main__":
    unittest.main()
