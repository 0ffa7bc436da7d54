"""Files that are cut into parts, and the items of a part."""
import bz2
import collections
import dataclasses
import functools
import gzip
import lzma
import os
import pickle
import random
import re
import signal
import subprocess
import sys
import tempfile
import tracemalloc
import unittest
from unittest import mock

import heavy
import sketch_engine as engine
import sketch_parts
import zstandard
from common import write
from sketch_parts import BadInput, Columns, Field, batches, cut, whole

COMPRESSORS = {".gz": gzip.compress, ".bz2": bz2.compress, ".xz": functools.partial(lzma.compress, preset=0),
               ".zst": zstandard.compress}


def items_of(parts):
    """Yields the items of some parts, with their weights."""
    for part in parts:
        for batch in batches(part):
            yield from zip(batch.items, batch.weights or [1] * len(batch.items))


class InFolder(unittest.TestCase):
    def setUp(self):
        folder = tempfile.TemporaryDirectory()
        self.addCleanup(folder.cleanup)
        self.folder = folder.name

    def refused(self, parts):
        """Returns the reason and the byte of the error that parts raise when they are read, or when a function cuts them."""
        with self.assertRaises(BadInput) as refused:
            list(items_of(parts() if callable(parts) else parts))
        path, reason, byte = refused.exception.args
        self.assertEqual(str(refused.exception), path + ("" if byte is None else f", line at byte {byte}") + f": {reason}")
        self.assertEqual(str(pickle.loads(pickle.dumps(refused.exception))), str(refused.exception))
        return reason, byte


class Parts(InFolder):
    def bad(self, text, **more):
        """Returns the byte and the reason of the error in a file. Checks that they are the same for each size of a part."""
        path = write(self.folder, "bad", text)
        told = {self.refused(cut(whole(path, **more), most)) for most in (1, 7, 1 << 20)}
        self.assertEqual(len(told), 1, told)
        return told.pop()[::-1]

    def test_each_line_is_in_one_part(self):
        chance = random.Random(1)
        for _ in range(20):
            lines = ["".join(chance.choice("aé🍎\u2028\x85 ") for _ in range(chance.choice((0, 1, 5, 40)))) for _ in range(30)]
            text = "".join(line + chance.choice(("\n", "\r\n")) for line in lines) + chance.choice(("", "end", "end\r"))
            path = write(self.folder, "text", text)
            wanted = [line for line in lines + (["end"] if "end" in text else []) if line]
            for most in (1, 3, 17, 100, len(text.encode()), 1 << 20):
                with mock.patch.object(sketch_parts, "BLOCK", chance.choice((1, 10, 1 << 20))):
                    self.assertEqual([item for item, _ in items_of(cut(whole(path), most))], wanted)
                    words = [item for item, _ in items_of(cut(whole(path, words=True), most))]
                self.assertEqual(words, [word for line in wanted for word in re.split("[ \t\f\r]+", line) if word])

    def test_how_many_parts(self):
        path = write(self.folder, "text", "x\n" * 600)
        for count in (1, 2, 3, 7, 12, 100):
            parts = engine.cut_files([path], count)
            self.assertEqual((len(parts), parts[0].begin, parts[-1].end), (count, 0, 1200))
            self.assertEqual([part.begin for part in parts[1:]], [part.end for part in parts[:-1]])
        self.assertEqual(len(engine.cut_files([path, path], 4)), 4)
        self.assertEqual(len(engine.cut_files([path], None)), 1)

    def test_nothing_in_a_part(self):
        for text in ("", "\n\r\n\n"):
            path = write(self.folder, "empty", text)
            self.assertEqual(list(items_of(engine.cut_files([path], 3))), [])
        path = write(self.folder, "empty.csv", "")
        self.assertEqual(list(items_of(engine.cut_files([path, path], 3, column="page", weight="bytes"))), [])
        path = write(self.folder, "head.csv", "page,bytes")
        self.assertEqual(list(items_of(engine.cut_files([path], 3, column="page", weight="bytes"))), [])
        path = write(self.folder, "long", "one\n" + "x" * 5000 + "\nlast")
        parts = engine.cut_files([path], 12)
        self.assertEqual(len([part for part in parts if not list(items_of([part]))]), 10)
        self.assertEqual([item for item, _ in items_of(parts)], ["one", "x" * 5000, "last"])

    def test_a_mark_of_utf_8(self):
        path = write(self.folder, "text", b"\xef\xbb\xbfa,b\n1,2\n")
        self.assertEqual([item for item, _ in items_of(cut(whole(path), 3))], ["a,b", "1,2"])
        self.assertEqual(list(items_of(engine.cut_files([path], 1, column="a", weight="b"))), [("1", 2)])

    def test_columns(self):
        rows = 'page,host,bytes\r\n"a, b",x,10\r\n\r\n"say ""hi""",y,020\r\né,z,0'
        path = write(self.folder, "rows.csv", rows)
        for parts in (1, 3, 40):
            found = engine.cut_files([path], parts, column="page", weight="bytes")
            self.assertEqual(list(items_of(found)), [("a, b", 10), ('say "hi"', 20), ("é", 0)])
            found = engine.cut_files([path], parts, column="host")
            self.assertEqual([item for item, _ in items_of(found)], ["x", "y", "z"])
        path = write(self.folder, "rows.tsv", "a\t5\nb\t7\n")
        for told in ("\t", r"\t"):
            words = heavy.words_of([path, "--column", "1", "--weight", "2", "--no-header", "--delimiter", told])
            found = engine.cut_files(words.files, 2, **engine.items_of(words))
            self.assertEqual(list(items_of(found)), [("a", 5), ("b", 7)])

    def test_columns_that_are_not_there(self):
        path = write(self.folder, "rows.csv", "page,host,host\na,b,c\n")
        for name, reason in (("size", "no columns have the name 'size'; there are: page, host, host"),
                             ("host", "2 columns have the name 'host'; there are: page, host, host")):
            self.assertEqual(self.refused(lambda: engine.cut_files([path], 1, column=name)), (reason, 0))
        for more in ({"weight": "host"}, {"no_header": True},
                     {"column": "x", "no_header": True}, {"column": "0", "no_header": True},
                     {"column": "page", "words": True}, {"column": "page", "delimiter": ""},
                     {"column": "page", "delimiter": "\n"}, {"column": "page", "delimiter": '"'}):
            with self.assertRaises(ValueError):
                engine.cut_files([path], 1, **more)
        with self.assertRaises(FileNotFoundError) as refused:
            engine.cut_files([path, os.path.join(self.folder, "missing")], 1)
        self.assertEqual(refused.exception.filename, os.path.join(self.folder, "missing"))

    def test_a_header_of_two_lines(self):
        for head in ('"page\nsize",bytes\na,1\n', 'page,"bytes\n"\n', 'page,"bytes'):
            path = write(self.folder, "rows.csv", head)
            self.assertEqual(self.refused(lambda: engine.cut_files([path], 1, column="page")),
                             ("the header cannot be read: a quoted field goes on in the next line", 0))

    def test_lines_that_are_refused(self):
        self.assertEqual(self.bad(b"good\n\nb\xc3\xa4d\nb\xe4d\n"), (11, "not UTF-8"))
        self.assertEqual(self.bad(b"good\ncut \xc3"), (5, "not UTF-8"))
        columns = Columns(0, 1)
        for text, said in (("x", "'x'"), ("", "''"), ("1.5", "'1.5'"), ("-1", "'-1'"), ("1_0", "'1_0'"), ("٣", "'٣'"),
                           (str(2**64), "'18446744073709551616'"), ("9" * 9000, repr("9" * 9000))):
            byte, reason = self.bad(f"a,1\n\nb,2\r\nc,{text}\nd,4\n", columns=columns)
            self.assertEqual((byte, reason), (10, f"the weight {said} is no whole number from 0 to 18446744073709551615"))
        self.assertEqual(self.bad("a,1\nb\n", columns=columns), (4, "there are 1 columns, and column 2 is asked for"))
        self.assertEqual(self.bad("a,1\nb,2\n", columns=Columns(5))[0], 0)

    def test_a_line_is_named_by_no_second_reading(self):
        path = write(self.folder, "text", b"good\n" * 1000 + b"b\xe4d\n")
        *_, part = cut(whole(path), 1000)
        with mock.patch.object(sketch_parts, "open", side_effect=open, create=True) as opened, \
                mock.patch.object(sketch_parts, "BLOCK", 100):
            self.assertEqual(self.refused([part]), ("not UTF-8", 5000))
        self.assertEqual(opened.call_count, 1)

    def test_weights_with_a_sign(self):
        path = write(self.folder, "rows.csv", "a,-5\nb, +7 \n")
        part = whole(path, columns=Columns(0, 1))
        self.assertEqual([batch.weights for batch in batches(part, -(2**63) + 1, 2**63 - 1)], [[-5, 7]])

    def test_quotes_that_go_on_in_the_next_line(self):
        for text in ('a,1\nb,2\n"c\nd",3\ne,4\n', 'a,1\nb,2\n"c\nd'):
            self.assertEqual(self.bad(text, columns=Columns(0, 1)), (8, "a quoted field goes on in the next line"))

    def test_a_line_that_is_too_long(self):
        path = write(self.folder, "text", b"a\n" + b"x" * 1000)
        with mock.patch.object(sketch_parts, "LONGEST_LINE", 100), mock.patch.object(sketch_parts, "BLOCK", 100):
            self.assertEqual(self.refused([whole(path)]), ("longer than 100 bytes", 2))
            self.assertEqual(self.refused(cut(whole(path), 400)[1:]), ("longer than 100 bytes", 334))


class Fields(InFolder):
    """The fields of lines are those that regular expressions split."""

    def lines(self, text):
        """Returns the lines of a string that are not blank, without LF and a CR before it."""
        return [line for ended in re.findall("[^\n]*\n|[^\n]+", text) if (line := re.sub(r"\r?\n\Z", "", ended))]

    def fields(self, line, delimiter):
        """Returns the fields of a line, between delimiters or runs of white space."""
        return re.findall("[^ \t\f\r]+", line) if delimiter is None else re.split(re.escape(delimiter), line)

    def test_random_lines(self):
        chance, found_any, ended_in_cr = random.Random(4), 0, 0
        for _ in range(300):
            delimiter = chance.choice((None, None, ",", "\t", ";", '"', "\r", " "))
            pieces = ["a", "b", "ä", "🍎", "\u2028", "\x85", "\xa0", "\v", "\0", "\x1c", '"', " ", " ", "\t", "\f", ",", ",",
                      ";", "\n", "\n", "\r\n", "\r"]
            text = "".join(chance.choices(pieces, k=chance.randrange(80)))
            path = write(self.folder, "text", text)
            for number in (1, 2, 3):
                rows = [(line, self.fields(line, delimiter)) for line in self.lines(text)]
                lines = [line for line, fields in rows if len(fields) >= number]
                wanted = [fields[number - 1] for _, fields in rows if len(fields) >= number]
                for parts in (1, 4, 100):
                    cut_parts = engine.cut_files([path], parts, field=number, delimiter=delimiter)
                    with mock.patch.object(sketch_parts, "BLOCK", chance.choice((1, 10, 1 << 20))):
                        found = [batch for part in cut_parts for batch in batches(part)]
                        sketch = sketch_parts.Heavy(1024)
                        rows_of_sketch = sketch.read(sketch_parts.merge_images(
                            sketch, [sketch_parts.sketch_part(sketch, part) for part in cut_parts])).rows()
                        self.assertEqual(sum(map(sketch_parts.count_part, cut_parts)), len(wanted))
                    self.assertEqual([item for batch in found for item in batch.items], wanted, text)
                    self.assertEqual([line for batch in found for line in batch.lines], lines, text)
                    self.assertEqual(sum(batch.missing for batch in found), len(rows) - len(lines))
                    self.assertEqual({row[0]: row[1:] for row in rows_of_sketch},
                                     {item: (n, n, n) for item, n in collections.Counter(wanted).items()}, text)
                found_any += len(wanted)
                ended_in_cr += sum(item.endswith("\r") for item in wanted)
        self.assertTrue(found_any > 1000 and ended_in_cr > 50, (found_any, ended_in_cr))

    def test_what_a_field_is(self):
        text = 'a b\n\n \t \nc\n  d\t\fe \r\n"f g" h\ni\vj k\r\nl,m,,"n,o"\r\nlast one'
        path = write(self.folder, "text", text)
        for number, delimiter, wanted in ((1, None, ["a", "c", "d", '"f', "i\vj", 'l,m,,"n,o"', "last"]),
                                          (2, None, ["b", "e", 'g"', "k", "one"]), (3, None, ["h"]), (4, None, []),
                                          (2, ",", ["m"]), (3, ",", [""]), (4, ",", ['"n']), (5, ",", ['o"']), (6, ",", []),
                                          (2**32 - 1, ",", []), (2**32 - 1, None, [])):
            for parts in (1, 5):
                found = engine.cut_files([path], parts, field=number, delimiter=delimiter)
                self.assertEqual([item for item, _ in items_of(found)], wanted)
        path = write(self.folder, "marked.gz", gzip.compress(b"\xef\xbb\xbfa,b\r"))
        self.assertEqual(list(items_of(engine.cut_files([path], 2, field=1, delimiter=","))), [("a", 1)])
        self.assertEqual(list(items_of(engine.cut_files([path], 2, field=2, delimiter=","))), [("b\r", 1)])

    def test_lines_that_are_refused(self):
        path = write(self.folder, "text", b"a b\n\nc \xe4\n")
        for number in (1, 2, 3):
            for part in engine.cut_files([path], 1, field=number):
                self.assertEqual(self.refused([part]), ("not UTF-8", 5))
                for work in (sketch_parts.count_part, functools.partial(sketch_parts.sketch_part, sketch_parts.Heavy(64))):
                    with self.assertRaisesRegex(BadInput, "text, line at byte 5: not UTF-8"):
                        work(part)
        path = write(self.folder, "text", b"a\n" + b"x " * 500)
        with mock.patch.object(sketch_parts, "LONGEST_LINE", 100), mock.patch.object(sketch_parts, "BLOCK", 100):
            self.assertEqual(self.refused(engine.cut_files([path], 1, field=1)), ("longer than 100 bytes", 2))
        for more in ({"delimiter": ""}, {"delimiter": "ab"}, {"delimiter": "é"}, {"delimiter": "\udcff"}, {"words": True},
                     {"column": "a"}, {"weight": "a"}, {"no_header": True}):
            with self.assertRaises(ValueError):
                engine.cut_files([path], 1, field=1, **more)

    def test_options(self):
        for words, field in ((["-f", "2"], Field(1)), (["--field", "1", "-d", ";"], Field(0, b";")),
                             (["-d", r"\t", "-f", "9"], Field(8, b"\t"))):
            path = write(self.folder, "text", "a\n")
            told = heavy.words_of([path, *words])
            part, = engine.cut_files(told.files, 1, **engine.items_of(told))
            self.assertEqual((part.field, part.columns, part.words), (field, None, False))


class Versions(InFolder):
    """A part must be of the file that was cut."""

    def changed(self, path, part, change, during=False):
        """Changes a file before or while a part is read, and checks that the error has both versions. After a change before the
        read, nothing is read."""
        before = os.stat(path)
        reading = batches(part)
        if during:
            next(reading)
        change()
        with self.assertRaises(BadInput) as refused:
            list(reading) if during else next(reading)
        after = os.stat(path)
        self.assertIn("the file changed", str(refused.exception))
        for status in (before, after):
            self.assertIn(f"{status.st_size} bytes", str(refused.exception))
            self.assertIn(f".{status.st_mtime_ns % 10**9:09} UTC, inode {status.st_ino} on ", str(refused.exception))

    def test_a_file_that_changes(self):
        def append():
            with open(path, "a", encoding="utf-8") as file:
                file.write("more\n")

        def replace():
            at = os.stat(path).st_mtime_ns
            os.utime(write(self.folder, "other", "b\n" * 500), ns=(at, at))
            os.replace(os.path.join(self.folder, "other"), path)

        def touch():
            os.utime(path, ns=(0, 1))

        for change in (append, replace, touch, lambda: os.truncate(path, 10)):
            for during in (False, True):
                path = write(self.folder, "text", "a\n" * 500)
                with mock.patch.object(sketch_parts, "BLOCK", 100):
                    self.changed(path, whole(path), change, during)

    def test_a_copy_on_another_host(self):
        path = write(self.folder, "text", "a\n" * 500)
        other = dataclasses.replace(whole(path).version, inode=1, host="elsewhere")
        self.assertEqual(len(list(items_of([dataclasses.replace(whole(path), version=other)]))), 500)
        for more in ({"size": 400}, {"modified": 5}, {"host": whole(path).version.host}):
            part = dataclasses.replace(whole(path), version=dataclasses.replace(other, **more))
            self.assertIn("the file changed", self.refused([part])[0])

    def test_a_file_that_is_shorter_than_its_size(self):
        path = write(self.folder, "text", "a\n" * 50000)
        reading = batches(whole(path))
        with mock.patch.object(sketch_parts, "BLOCK", 100), mock.patch.object(sketch_parts.Part, "check"):
            next(reading)
            os.truncate(path, 400)
            with self.assertRaisesRegex(BadInput, "ends at byte [0-9]+, and not at 100000$"):
                list(reading)

    def test_what_is_no_regular_file(self):
        for path in ("/dev/stdin", "/dev/fd/0", "/proc/self/fd/0"):
            self.assertEqual(self.refused(lambda: engine.cut_files([path], 1))[0],
                             "belongs to this process, and workers cannot read it; write its text to a file")
        self.assertEqual(self.refused(lambda: engine.cut_files(["/dev/null"], 1))[0],
                         "is no regular file; write its text to a file")
        with self.assertRaises(IsADirectoryError):
            engine.cut_files([self.folder], 1)
        pipe = os.path.join(self.folder, "pipe")
        os.mkfifo(pipe)
        done = subprocess.run([sys.executable, heavy.__file__, pipe], capture_output=True, text=True, timeout=60, check=False)
        self.assertEqual((done.returncode, done.stdout, done.stderr),
                         (1, "", f"heavy.py: {pipe}: is no regular file; write its text to a file\n"))

    def test_a_pipe_where_a_part_was(self):
        path = write(self.folder, "text", "a\n")
        part = whole(path)
        os.remove(path)
        os.mkfifo(path)
        self.addCleanup(signal.alarm, signal.alarm(60))  # ends the tests if they wait for a pipe
        self.assertEqual(self.refused([part])[0], "is no regular file; write its text to a file")


class Compressed(InFolder):
    def test_the_same_items(self):
        chance = random.Random(2)
        lines = [f"zeile{chance.randrange(5000)},{n}" for n in range(30000)]
        text = "wort,zahl\n" + "\n".join(lines)
        wanted = [tuple(line.split(",")) for line in lines]
        for suffix, compress in COMPRESSORS.items():
            half = len(text) // 2
            for name, data in (("one", compress(text.encode())),
                               ("two", compress(text[:half].encode()) + compress(text[half:].encode()))):
                path = write(self.folder, name + suffix, data)
                parts = engine.cut_files([path], 12, column="wort", weight="zahl")
                self.assertEqual(len(parts), 1)
                self.assertEqual([(item, str(weight)) for item, weight in items_of(parts)], wanted)
                with mock.patch.object(sketch_parts, "BLOCK", 100):
                    self.assertEqual([item for item, _ in items_of(engine.cut_files([path], 12))], text.split("\n"))

    def test_what_is_damaged(self):
        for suffix, compress in COMPRESSORS.items():
            whole_file = compress(b"line\n" * 100000)
            for data in (b"", b"no such format", whole_file[:-1], whole_file[:len(whole_file) // 2], whole_file + b"more"):
                path = write(self.folder, "bad" + suffix, data)
                self.assertTrue(self.refused(lambda: engine.cut_files([path], 1))[0].startswith("cannot be unpacked: "))
        path = write(self.folder, "rows.csv.gz", gzip.compress(b"a,b\nx,1\ny,z\n"))
        self.assertEqual(self.refused(engine.cut_files([path], 1, column="a", weight="b")),
                         ("the weight 'z' is no whole number from 0 to 18446744073709551615", 8))

    def test_a_small_file_of_much_text(self):
        for suffix, compress in COMPRESSORS.items():
            path = write(self.folder, "much" + suffix, compress(bytes(1 << 27)))
            tracemalloc.start()
            self.assertEqual(self.refused(lambda: engine.cut_files([path], 1)), ("longer than 16777216 bytes", 0))
            most = tracemalloc.get_traced_memory()[1]
            tracemalloc.stop()
            self.assertLess(most, 3 << 25)

    def test_memory_that_a_file_asks_for(self):
        packer = zstandard.ZstdCompressor().compressobj()
        for suffix, data, reason in ((".xz", lzma.compress(b"line\n"), "Memory usage limit exceeded"),
                                     (".zst", packer.compress(b"line\n") + packer.flush(), "too much memory")):
            path = write(self.folder, "text" + suffix, data)
            self.assertEqual(list(items_of(engine.cut_files([path], 1))), [("line", 1)])
            with mock.patch.object(sketch_parts, "MAX_WINDOW", 1 << 20):
                self.assertRegex(self.refused(lambda: engine.cut_files([path], 1))[0], f"^cannot be unpacked: .*{reason}")

    def test_a_package_that_is_not_there(self):
        path = write(self.folder, "text.zst", zstandard.compress(b"line\n"))
        with mock.patch.dict(sys.modules, {"zstandard": None}), self.assertRaises(ImportError) as refused:
            engine.cut_files([path], 1)
        self.assertEqual(str(refused.exception), f"{path} needs the package python3-zstandard")


class Bytes(unittest.TestCase):
    """The lines, columns and fields that the library splits itself are those that Python splits."""

    def test_random_lines(self):
        chance = random.Random(3)
        for attempt in range(1000):
            data = "".join(chance.choices(["a", "b", "ä", "\n", "\n", "\r\n", " ", "x" * 5, "\r"], k=chance.randrange(40))).encode()
            lines = sketch_parts.full_lines(data)
            wanted = sketch_parts.lines_of("block", 0, data)
            one, other = sketch_parts.Heavy(1024).empty(), sketch_parts.Heavy(1024).empty()
            one.update_lines(lines)
            other.update(wanted)
            self.assertEqual(one.rows(), other.rows(), data)
            self.assertEqual(lines.count(b"\n") + (lines != b"" and not lines.endswith(b"\n")), len(wanted))

    def taken(self, shape, part, data, add):
        """What a sketch has after the items of a block, or the error."""
        sketch = shape.empty()
        try:
            add(shape, sketch, part, data)
        except BadInput as error:
            return error.args
        return sketch.rows() if isinstance(shape, sketch_parts.Heavy) else bytes(sketch)

    def by_python(self, shape, sketch, part, data):
        shape.add(sketch, sketch_parts.batch_of(part, 0, data, shape.least, shape.most))

    def by_library(self, shape, sketch, part, data):
        sketch_parts.add_records(shape, sketch, part, 0, data)

    def test_random_records(self):
        chance, plain, errors = random.Random(4), 0, 0
        for attempt in range(6000):
            delimiter = chance.choice([",", ";", "\t"])
            pieces = ["a", "ä", "7", "12", delimiter, delimiter, "\n", "\n", "\r\n"]
            if attempt % 3 == 0:
                pieces += ['"', '"', f'"a{delimiter}b"', '""']
            if attempt % 5 == 0:
                pieces += ["\r", "\0", " ", "\x0b", "-3"]
            data = "".join(chance.choices(pieces, k=chance.randrange(30))).encode()
            item, weight = chance.randrange(3), chance.choice([None, None, 0, 1])
            parts = [{"columns": Columns(item, weight, delimiter)},
                     {"field": sketch_parts.Field(chance.choice([item, None]), chance.choice([delimiter.encode(), None]), weight)}]
            for chosen in parts:
                part = sketch_parts.Part("block", 0, len(data), None, **chosen)
                shapes = [sketch_parts.Heavy(1024), sketch_parts.Traffic(3, 100), sketch_parts.Traffic(3, 100, signed=True)]
                if weight is None:
                    shapes.append(sketch_parts.Seen(1024, 3))
                for shape in shapes:
                    found = self.taken(shape, part, data, self.by_library)
                    self.assertEqual(found, self.taken(shape, part, data, self.by_python), (data, part, shape))
                errors += isinstance(found, tuple)
                plain += part.columns is not None and sketch_parts.takes_fields(part.columns, sketch_parts.full_lines(data))
        self.assertGreater(plain, 3000)
        self.assertGreater(errors, 1000)

    def test_quotes_in_place(self):
        columns = Columns(0, None, ",")
        for data, takes in ((b'"a",b\n', True), (b'"a,""b""",c\n', True), (b'a,"b"\r\n"c","d"', True), (b"a,b\n", True),
                            (b'"a"b,c\n', False), (b'a"b,c\n', False), (b'"a\n', False), (b'a,b "c"\n', False), (b"a\rb\n", False)):
            self.assertEqual(sketch_parts.takes_fields(columns, data), takes, data)

    def test_another_column_is_checked_too(self):
        with tempfile.TemporaryDirectory() as folder:
            path = write(folder, "bad", b"a,b\nc,\xff\n")
            for item in (0, 1):
                with self.assertRaisesRegex(BadInput, "line at byte 4: not UTF-8"):
                    sketch_parts.sketch_part(sketch_parts.Heavy(64), whole(path, columns=Columns(item)))


if __name__ == "__main__":
    unittest.main()
