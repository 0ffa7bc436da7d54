"""Runs `sketches` with `--csv` over generated files, and compares what it prints with exact sets and sums by Python's `csv`. Checks
`--progress`, too.

    python3 tests/sketches/sketch_csv.py crates/sketches/out/sketches

prints a line for each check that failed, and then 'N passed, M failed'.
"""
import collections
import contextlib
import csv
import io
import json
import os
import random
import re
import subprocess
import sys
import tempfile
import time

from columns import made_of_row
from texts import text_of as text_of_records

sys.path.append(os.path.dirname(os.path.dirname(os.path.abspath(__file__))))

import checks  # noqa: E402

BLOCK = 1 << 18
LAST = 2**64 - 1

# Bytes that a reader can get wrong. A carriage return outside of quotes comes before a line feed only.
PIECES = [b'"', b'"', b'"', b'""', b",", b",", b",", b"\n", b"\n", b"\r\n", b"a", b"b", b"7", b" ", b"\t", b"\\", b"\0", b"\xff", b"\xc3",
          "é".encode(), b'"a,b"', b'"c\nd"', b'"e""f"', b'"12"', b'x"y', b'"g"h']


def records_of(data, delimiter=","):
    """Returns the records of an input: lists of bytes."""
    csv.field_size_limit(1 << 30)
    reader = csv.reader(io.StringIO(data.decode("latin-1"), newline=""), delimiter=delimiter)
    return [[field.encode("latin-1") for field in row] for row in reader]


def raws_of(data, delimiter=","):
    """Returns the records of an input with their bytes: the lines that Python's reader took for each."""
    csv.field_size_limit(1 << 30)
    lines = [line + "\n" for line in data.decode("latin-1").split("\n")]
    lines[-1] = lines[-1][:-1]
    lines = lines if lines[-1] else lines[:-1]
    reader = csv.reader(iter(lines), delimiter=delimiter)
    found, at = [], 0
    for row in reader:
        raw = "".join(lines[at:reader.line_num]).encode("latin-1")
        found.append((raw, [field.encode("latin-1") for field in row]))
        at = reader.line_num
    return found


def split(inputs, header):
    """Returns the header of the first input, and the records of all inputs after their headers."""
    found = [raws_of(data) for data in inputs]
    first = found[0][0][0] if header and found and found[0] else b""
    return first if first.endswith(b"\n") or not first else first + b"\n", [pair for each in found for pair in each[header:]]


def unseen(inputs, field, header=False, repeated=False):
    """Returns what `uniq` prints."""
    out, rows = split(inputs, header)
    seen, raws = set(), []
    for raw, row in rows:
        item = row[field - 1] if len(row) >= field else None
        if (item in seen) == repeated:
            raws.append(raw)
        if item is not None:
            seen.add(item)
    return out + text_of_records(raws)


def joined(keys, inputs, keys_field, field, header=False, wanted=True):
    """Returns what `join` prints."""
    items = {row[keys_field - 1] for _, row in raws_of(keys)[header:] if len(row) >= keys_field}
    out, rows = split(inputs, header)
    return out + text_of_records([raw for raw, row in rows if (len(row) >= field and row[field - 1] in items) == wanted])


def weighed(keys, inputs, keys_field, field, weight=None, header=False):
    """Returns what `weigh` prints if no number exceeds its weight."""
    sums = collections.Counter()
    for _, row in split(inputs, header)[1]:
        if len(row) >= field:
            sums[row[field - 1]] += int(row[weight - 1]) if weight else 1
    found = [row[keys_field - 1] for _, row in raws_of(keys)[header:] if len(row) >= keys_field]
    return b"# total %d\n" % sums.total() + b"".join(b"%d\t%s\n" % (sums[key], shown(key)) for key in found)


def text_of(item):
    """Returns an item with U+FFFD for what is not UTF-8."""
    return item.decode("utf-8", "replace").encode()


def shown(item):
    """Returns an item as a report shows it."""
    return item.replace(b"\\", b"\\\\").replace(b"\t", b"\\t").replace(b"\n", b"\\n").replace(b"\r", b"\\r")


def is_utf8(data):
    try:
        data.decode()
    except UnicodeDecodeError:
        return False
    return True


def counts_of(inputs, field, weight=None, header=False, delimiter=","):
    """Returns the weight of each item, or the number of the first record with an item and a bad weight."""
    counts = collections.Counter()
    for data in inputs:
        for number, row in enumerate(records_of(data, delimiter)[header:], 1):
            if len(row) < field:
                continue
            amount = 1
            if weight is not None:
                text = row[weight - 1] if len(row) >= weight else b""
                amount = int(text) if re.fullmatch(rb"[0-9]+", text) else LAST + 1
                if amount > LAST:
                    return number
            if amount:
                counts[text_of(row[field - 1])] += amount
    return counts


class Tests(checks.Checks):
    def __init__(self, program, work):
        super().__init__(work)
        self.program = os.path.abspath(program)

    def file(self, name, data):
        with open(os.path.join(self.work, name), "wb") as file:
            file.write(data)
        return name

    def run(self, *words, data=b""):
        """Runs the program. Returns its status and both outputs."""
        command = [self.program, *[str(word) for word in words]]
        env = {"PATH": "/usr/bin:/bin", "DATASKETCHES_TABLE_KEY": "plain"}
        ran = subprocess.run(command, input=data, capture_output=True, env=env, cwd=self.work, timeout=120)
        return ran.returncode, ran.stdout, ran.stderr

    def is_exact(self, name, ran, counts, rows, status=0, said=b""):
        """Checks a whole report, of so few items that the error is 0."""
        self.check(f"{name}: status and messages", (ran[0], ran[2]) == (status, said), ran)
        header, *lines = ran[1].split(b"\n")[:-1] or [b""]
        self.check(f"{name}: header", header == b"# error 0 of %d" % counts.total(), (header, counts.total()))
        found = [tuple(line.split(b"\t", 2)) for line in lines]
        self.check(f"{name}: number of rows", len(found) == min(rows, len(counts)), (len(found), len(counts)))
        weights = {shown(item): weight for item, weight in counts.items()}
        self.check(f"{name}: injective", len(weights) == len(counts))
        exact = [row for row in found if len(row) == 3 and int(row[0]) == int(row[1]) == weights.get(row[2])]
        self.check(f"{name}: exact", exact == found, [row for row in found if row not in exact])

    def worked(self):
        """Checks reports that were written down by hand."""
        table = b'name,n\n"tea, green",2\nmilk,1\r\n"tea, green",3\n"a ""b""\tc\\\nd",4\n'
        rows = b"# error 0 of 10\n5\t5\ttea, green\n4\t4\ta \"b\"\\tc\\\\\\nd\n1\t1\tmilk\n"
        cases = [
            (["-f", "name", "-w", "n"], table, rows),
            (["-f", "1", "-w", "2"], table, rows),
            (["-f", "name", "--json"], b'name\n"a\tb"\n', b'{"error":0,"total":1}\n{"lower":1,"upper":1,"item":"a\\u0009b"}\n'),
            (["-f", "1", "--no-csv-header"], b"a,b\na\n\n\"a\"\n", b"# error 0 of 3\n3\t3\ta\n"),
            (["-f", "2"], b"a,b\n1\n2,\n3,x,y\n", b"# error 0 of 2\n1\t1\t\n1\t1\tx\n"),
            (["-d", ";", "-f", "b"], b"a;b\n1;\"x;y\"\n", b"# error 0 of 1\n1\t1\tx;y\n"),
            (["-d", "\t", "-f", "2"], b"a\tb\n1\tx y\n", b"# error 0 of 1\n1\t1\tx y\n"),
            (["-f", '"a,b"'], b'"a,b",c\n1,2\n', b"# error 0 of 1\n1\t1\t1\n"),
            (["-f", 'x"y'], b'"x""y",c\n1,2\n', b"# error 0 of 1\n1\t1\t1\n"),
            (["-f", "a"], b"\xef\xbb\xbfa,b\n1,2\n", b"# error 0 of 1\n1\t1\t1\n"),
            (["-f", "a"], b'\xef\xbb\xbf"a",b\n1,2\n', b"# error 0 of 1\n1\t1\t1\n"),
            (["-f", "1"], b'\xef\xbb\xbf"a\nb",c\n1,2\n', b"# error 0 of 1\n1\t1\t1\n"),
            (["-f", "1"], b'"a\nb",c\n1,2\n', b"# error 0 of 1\n1\t1\t1\n"),
            (["-f", "1", "--no-csv-header"], b'\xef\xbb\xbf"a,b",c\n1,2\n', b"# error 0 of 2\n1\t1\ta,b\n1\t1\t1\n"),
            (["-f", "1", "--no-csv-header"], b"\xef\xbb\xbf", b"# error 0 of 0\n"),
            (["-f", "1", "--no-csv-header"], b"a\n\xef\xbb\xbfb\n", b"# error 0 of 2\n1\t1\ta\n1\t1\t\xef\xbb\xbfb\n"),
            (["-f", "b"], b"a,b\n", b"# error 0 of 0\n"),
            (["-f", "1"], b"", b"# error 0 of 0\n"),
            (["-f", "1", "--no-csv-header"], b'"never closed,\nx\n', b"# error 0 of 1\n1\t1\tnever closed,\\nx\\n\n"),
            (["-f", "1", "--no-csv-header"], b'a\rb\n"c\r"\r\n', b"# error 0 of 2\n1\t1\ta\\rb\n1\t1\tc\\r\n"),
            (["-f", "4294967295"], b"a\n1\n", b"# error 0 of 0\n"),
        ]
        for words, data, wanted in cases:
            ran = self.run("top", "--csv", *words, data=data)
            self.check(f"{words} of {data}", (ran[0], ran[2]) == (0, b"") and sorted(ran[1].split(b"\n")) == sorted(wanted.split(b"\n")), ran)

    def random_bytes(self):
        """Compares reports on random bytes with Python's `csv`."""
        rng = random.Random(5)
        for number in range(600):
            data = b"".join(rng.choices(PIECES, k=rng.choice([3, 10, 40, 400])))
            field = rng.randint(1, 4)
            header = rng.random() < 0.5
            words = ["-n", "100000", "--no-note", "-f", field] + ([] if header else ["--no-csv-header"])
            ran = self.run("top", "--csv", *words, data=data)
            self.is_exact(f"random bytes {number}", ran, counts_of([data], field, header=header), 100000)

    def random_weights(self):
        """The same with weights, good and bad."""
        rng = random.Random(6)
        weights = [b"1", b"0", b"7", b'"12"', b'"1"3', b"18446744073709551", b"x", b"", b"-1", b'"', b"1 "]
        for number in range(300):
            kinds = weights[:6] if rng.random() < 0.7 else weights
            rows = [rng.choice([b"a", b'"b,c"', b'"d""e"', b"", b"f\xff"]) + b"," + rng.choice(kinds) for _ in range(rng.randint(0, 30))]
            data = b"".join(row + rng.choice([b"\n", b"\r\n"]) for row in rows)
            counts = counts_of([data], 1, weight=2)
            ran = self.run("top", "--csv", "--no-csv-header", "--no-note", "-n", 1000, "-f", 1, "-w", 2, data=data)
            if isinstance(counts, int):
                self.check(f"bad weight {number}", ran[0] == 2 and ran[1] == b"" and ran[2].startswith(b"sketches: -: line %d: bad weight '" % counts), (ran, counts))
            else:
                self.is_exact(f"random weights {number}", ran, counts, 1000)

    def blocks(self):
        """Checks files whose records are cut at every place of a block."""
        pattern = b'"a\n,""b",2\r\n"c"\r\n"dd\r\n\n",3\n,"e"\n"f""",\n\n'
        for shift in range(len(pattern) + 2):
            for size, words, header in [(BLOCK, ["--no-csv-header"], False), (1 << 16, [], True)]:
                rows = (size - shift - 2) // 4
                data = b"x" * (size - shift - 4 * rows - 1) + b"\n" + b"y,1\n" * rows
                self.check(f"cut {shift}: size", len(data) == size - shift)
                data += pattern * 3
                ran = self.run("top", "--csv", "-n", 100, "-f", 1, *words, self.file("cut.csv", data))
                self.is_exact(f"cut {shift} {words}", ran, counts_of([data], 1, header=header), 100)
        long = b'k,v\n"' + b"many\nlines,\"\"" * 100000 + b'",1\nz,2\n'
        self.is_exact("a record of many lines", self.run("top", "--csv", "-f", "k", data=long), counts_of([long], 1, header=True), 10)
        self.is_exact("a long header", self.run("top", "--csv", "-f", 2, data=long[4:]), counts_of([long[4:]], 2, header=True), 10)

    def limits(self):
        """Checks records of more than `--max-line` bytes."""
        said = b"sketches: -: a line is longer than --max-line\n"
        for size in [1, 10, 1000, BLOCK + 5]:
            for length in [size - 1, size, size + 1]:
                data = b'a\n"' + b"\n" * (length - 1)
                ran = self.run("top", "--csv", "--no-csv-header", "--max-line", size, "-f", 1, data=data)
                if length > size:
                    self.check(f"a quote that is not closed, {length} of {size}", ran == (2, b"", said), ran)
                else:
                    self.is_exact(f"a quote that is not closed, {length} of {size}", ran, counts_of([data], 1), 10)

    def marks(self):
        """Checks byte order marks: they are no part of a record, and `uniq` and `join` print the first one, as they print a header."""
        mark = b"\xef\xbb\xbf"
        one, two = self.file("mark.csv", mark + b'"a,x",b\n1,2\n'), self.file("mark2.csv", mark + b'"a,x",c\n3,4')
        self.file("keys.csv", mark + b'"a,x"\n3\n')
        for words, wanted in [
            (["uniq", "-f", 1, "--no-csv-header", one, two], mark + b'"a,x",b\n1,2\n3,4'),
            (["uniq", "-f", '"a,x"', one, two], mark + b'"a,x",b\n1,2\n3,4'),
            (["join", "-f", 1, "--no-csv-header", "--keys-field", 1, "--keys", "keys.csv", one, two], mark + b'"a,x",b\n"a,x",c\n3,4'),
            (["join", "-f", 1, "--keys-field", '"a,x"', "--keys", "keys.csv", one, two], mark + b'"a,x",b\n3,4'),
        ]:
            ran = self.run(words[0], "--csv", "--no-note", *words[1:])
            self.check(f"marks: {words}", ran == (0, wanted, b""), ran)
        ran = self.run("weigh", "--csv", "-f", 1, "--no-csv-header", "--keys-field", 1, "--keys", "keys.csv", one, two)
        self.check("marks: weigh", ran == (0, b"# total 4\n2\ta,x\n1\t3\n", b""), ran)

    def line_numbers(self):
        """Checks that a message has the number of the line in its file, after headers and records of several lines."""
        for data, words, line in [
            (b"a,n\nx,z\n", [], 2),
            (b'"a\nb\n",n\n"x\n\ny",1\nx,z\n', [], 7),
            (b'\xef\xbb\xbf"a\nb",n\nx,z\n', [], 3),
            (b'"x\ny",1\nx,z\n', ["--no-csv-header"], 3),
            (b"a,n\n" + b'"x\ny",1\n' * 60000 + b"x,z", [], 120002),
        ]:
            name = self.file("lines.csv", data)
            self.file("keys.csv", b"k\nx\n")
            said = b"sketches: lines.csv: line %d: bad weight 'z'\n" % line
            for command in [["top"], ["weigh", "--keys", "keys.csv", "--keys-field", 1]]:
                ran = self.run(*command, "--csv", "-f", 1, "-w", 2, *words, name)
                self.check(f"{command[0]}: the line of a bad weight", ran == (2, b"", said), ran)
            first = self.file("first.csv", b"a,n\n" + b"x,1\n" * 5)
            ran = self.run("top", "--csv", "-f", 1, "-w", 2, *words, *([] if words else [first]), name)
            self.check("the line of a bad weight in a later file", ran == (2, b"", said), ran)

    def long_headers(self):
        """Checks headers of more than `--max-line` bytes: they end the run as other lines do."""
        for name, data in [("a line", b"page\n1\n"), ("a quote that is not closed", b'"' + 200000 * b"x\n")]:
            for command, status in [("top", 2), ("uniq", 2)]:
                ran = self.run(command, "--csv", "-f", 1, "--max-line", 3, data=data)
                self.check(f"{command} with the header {name}", ran == (status, b"", b"sketches: -: a line is longer than --max-line\n"), ran)
        one, long = self.file("short.csv", b"a\n1\n2\n"), self.file("long.csv", b"abcdef\n3\n")
        ran = self.run("uniq", "--csv", "--no-note", "-f", 1, "--max-line", 3, one, long)
        self.check("a later header that is too long", ran == (1, b"a\n1\n2\n", b"sketches: long.csv: a line is longer than --max-line\n"), ran)

    def headers(self):
        """Checks names of fields in several files."""
        one = self.file("one.csv", b"a,b\n1,x\n2,y\n")
        two = self.file("two.csv", b"a,b,c\n3,x\n")
        other = self.file("other.csv", b"b,a\nz,9\n")
        absent = self.file("absent.csv", b"c,d\n5,6\n")
        self.is_exact("two files", self.run("top", "--csv", "-f", "b", one, two), collections.Counter({b"x": 2, b"y": 1}), 10)
        self.is_exact("two files by number", self.run("top", "--csv", "-f", 1, one, other), collections.Counter({b"1": 1, b"2": 1, b"z": 1}), 10)
        ran = self.run("top", "--csv", "-f", "b", one, other)
        self.is_exact("a field elsewhere", ran, collections.Counter({b"x": 1, b"y": 1}), 10, 1, b"sketches: other.csv: column 'b' is field 1, and was field 2 before\n")
        ran = self.run("top", "--csv", "-f", "b", one, absent)
        self.is_exact("a later file without it", ran, collections.Counter({b"x": 1, b"y": 1}), 10, 1, b"sketches: absent.csv: no column 'b'\n")
        ran = self.run("top", "--csv", "-f", "b", absent, one)
        self.check("a first file without it", ran == (2, b"", b"sketches: absent.csv: no column 'b'\n"), ran)
        ran = self.run("top", "--csv", "-f", "b", "none.csv", one)
        self.is_exact("an absent file", ran, collections.Counter({b"x": 1, b"y": 1}), 10, 1, b"sketches: none.csv: No such file or directory (os error 2)\n")
        ran = self.run("top", "--csv", "-f", "a", "-w", "n", data=b"a,b\n1,2\n")
        self.check("no weight", ran == (2, b"", b"sketches: -: no column 'n'\n"), ran)
        ran = self.run("top", "--csv", "-f", "a", data=b"")
        self.check("no header", ran == (2, b"", b"sketches: -: no column 'a'\n"), ran)

    def wrong_use(self):
        """Checks options that do not fit."""
        for words in [[], ["-f", "0"], ["-f", "4294967296"], ["-f", "a", "--no-csv-header"], ["-f", "1", "-w", "b", "--no-csv-header"], ["-f", "1", "-d", '"'],
                      ["-f", "1", "-d", "\n"], ["-f", "1", "-d", "\r"], ["-f", "1", "-d", "é"], ["-f", "1", "-d", ",,"], ["--words"], ["-f", "1", "-w", "0"]]:
            ran = self.run("top", "--csv", *words, data=b"a,b\n1,2\n")
            self.check(f"{words}", ran[:2] == (2, b"") and ran[2], ran)
        for words in [["-f", "a"], ["-f", "1", "-w", "a"], ["--no-csv-header"], ["-f", ""]]:
            ran = self.run("top", *words, data=b"a b\n")
            self.check(f"{words} of lines", ran[:2] == (2, b"") and ran[2], ran)

    def saved(self):
        """Checks that images have the texts of fields, and that merges escape on request."""
        data = b'k\n"a\tb"\n"a\tb"\nc\\d\n'
        self.run("top", "--csv", "-f", "k", "--save", "image", data=data)
        ran = self.run("merge", "--escape", "image")
        self.is_exact("merge --escape", ran, counts_of([data], 1, header=True), 10)
        ran = self.run("merge", "--json", "image")
        items = [json.loads(line)["item"] for line in ran[1].splitlines()[1:]]
        self.check("merge --json", sorted(items) == ["a\tb", "c\\d"], ran)

    def not_utf8(self):
        """Checks the note on records that have items that are not UTF-8."""
        data = b'k,v\n"\xff\n",\xff\nx,\xff\ny,z\n'
        said = b"sketches: 1 line has an item that is not UTF-8: its bytes are shown as U+FFFD\n"
        self.is_exact("the note", self.run("top", "--csv", "-f", 1, data=data), counts_of([data], 1, header=True), 10, 0, said)

    def records(self):
        """Checks what `uniq`, `join` and `weigh` print for records that were written down by hand."""
        table = self.file("table.csv", b'id,name\r\n1,"tea, green"\r\n2,"two\nlines"\n1,x\n3,"tea, green"\n\n2\n4')
        head = b"id,name\r\n"
        tea, two, last = b'1,"tea, green"\r\n', b'2,"two\nlines"\n', b'3,"tea, green"\n'
        keys = self.file("keys.csv", b'"a ""key""",n\n"tea, green",1\n,2\n"two\nlines",3\n"tea, green",1\n')
        self.file("bad.csv", b"a,n\nx,1\n\"y\n\",z\n")
        cases = [
            (["uniq", "-f", "name", table], head + tea + two + b"1,x\n\n2\n4"),
            (["uniq", "-f", "2", "--repeated", table], head + last),
            (["uniq", "-f", "id", table], head + tea + two + last + b"\n4"),
            (["uniq", "-f", "1", "--no-csv-header", table], head + tea + two + last + b"\n4"),
            (["join", "-f", "name", "--keys-field", 'a "key"', "--keys", keys, table], head + tea + two + last),
            (["join", "-f", "2", "--keys-field", "1", "--keys", keys, table], head + tea + two + last),
            (["join", "-v", "-f", "name", "--keys-field", "1", "--keys", keys, table], head + b"1,x\n\n2\n4"),
            (["join", "-f", "id", "--keys-field", "n", "--keys", keys, table], head + tea + two + b"1,x\n" + last + b"2\n"),
            (["weigh", "-f", "name", "--keys-field", "1", "--keys", keys, table], b"# total 4\n2\ttea, green\n0\t\n1\ttwo\\nlines\n2\ttea, green\n"),
            (["weigh", "-f", "name", "-w", "id", "--keys-field", "1", "--keys", keys, table], b"# total 7\n4\ttea, green\n0\t\n2\ttwo\\nlines\n4\ttea, green\n"),
            (["weigh", "-f", "a", "-w", "n", "--no-header", "--keys-field", "a", "--keys", "bad.csv", "bad.csv"], 3),
        ]
        for words, wanted in cases:
            note = [] if words[0] == "weigh" else ["--no-note"]
            ran = self.run(words[0], "--csv", *note, *words[1:])
            if isinstance(wanted, int):
                wanted, said, status = b"", b"sketches: bad.csv: line 3: bad weight 'z'\n", 2
            else:
                said, status = b"", 0
            self.check(f"{words}", ran == (status, wanted, said), ran)
        ran = self.run("weigh", "--escape", "--keys", keys, data=b"a\\b\n")
        self.check("weigh --escape", ran[0] == 0 and ran[1].split(b"\n")[2] == b'0\t"tea, green",1', ran)

    def random_records(self):
        """Compares `uniq`, `join` and `weigh` on random bytes with exact sets and sums."""
        rng = random.Random(7)
        fixed = ["--csv", "--no-note", "--items", "4096"]
        for number in range(120):
            data = [b"".join(rng.choices(PIECES, k=rng.choice([3, 10, 40, 400]))) for _ in range(4)]
            field, keys_field, header = rng.randint(1, 4), rng.randint(1, 3), rng.random() < 0.5
            words = ["-f", field] + ([] if header else ["--no-csv-header"])
            names = [self.file(f"random{at}.csv", one) for at, one in enumerate(data)]
            with_keys = [*words, "--keys-field", keys_field, "--keys", names[0]]
            for repeated in [False, True]:
                ran = self.run("uniq", *fixed, *words, *(["--repeated"] if repeated else []), *names)
                self.check(f"random uniq {number} {repeated}", ran == (0, unseen(data, field, header, repeated), b""), ran)
            for wanted in [True, False]:
                ran = self.run("join", *fixed, *with_keys, *([] if wanted else ["-v"]), *names[1:])
                self.check(f"random join {number} {wanted}", ran == (0, joined(data[0], data[1:], keys_field, field, header, wanted), b""), ran)
            ran = self.run("weigh", "--csv", *with_keys, *names[1:])
            self.check(f"random weigh {number}", ran == (0, weighed(data[0], data[1:], keys_field, field, header=header), b""), ran)

    def columns(self):
        """Checks fields from the end, several fields and names in quotes, and lists that do not fit."""
        table = b'last,first,"Last, First",-1,n\na,"b,c",x,y,3\n"a,b",c,x,z,4\na,"b,c",u,v,5\n'
        short = b'"q""r",s\n\n"t\nu"\n'
        for fields, numbers, data in [("1,2", [1, 2], table + short), ("last,first", [1, 2], table + short), ("-1", [-1], table + short), ("-2", [-2], table + short),
                                      ('"Last, First",1', [3, 1], table + short), ('"-1"', [4], table), ('n,"-1",-1,-2', [5, 4, -1, -2], table), ("2,-2", [2, -2], table + short)]:
            items = [item for row in records_of(data)[1:] for item in made_of_row(row, numbers)]
            self.is_exact(f"columns {fields}", self.run("top", "--csv", "-f", fields, data=data), collections.Counter(items), 10)
        for data, word in [(b"a;b\n1;2,3\n", "2,3"), (b'a;b\n1;"2;3"\n', '"2;3"'), (b'a;b\n1;"2""3"\n', '"2""3"')]:
            ran = self.run("top", "--csv", "-d", ";", "-f", "b,a", data=data)
            self.check(f"columns of {data}", ran == (0, b"# error 0 of 1\n1\t1\t%s;1\n" % word.encode(), b""), ran)
        weights = collections.Counter({b'a,"b,c"': 8, b'"a,b",c': 4})
        for weight in ["n", "5", "-1"]:
            self.is_exact(f"columns with weight {weight}", self.run("top", "--csv", "-f", "last,2", "-w", weight, data=table), weights, 10)
        one, two = self.file("one.csv", b"a,b\n1,x\n"), self.file("two.csv", b"a,c,b\n2,z,x\n")
        ran = self.run("top", "--csv", "-f", "a,-1", one, two)
        self.is_exact("columns of two files", ran, collections.Counter({b"1,x": 1, b"2,x": 1}), 10)
        ran = self.run("top", "--csv", "-f", "a,b", one, two)
        self.is_exact("columns elsewhere", ran, collections.Counter({b"1,x": 1}), 10, 1, b"sketches: two.csv: column 'b' is field 3, and was field 2 before\n")
        self.file("keys.csv", b'x,y\n"x,",1\nx,"""1"\n')
        three = self.file("three.csv", b'a,b\n1,"x,"\n2,x\n"""1",y\n')
        for words, wanted in [(["-f", "-1", "--keys-field", "1"], b'1,"x,"\n2,x\n'), (["-f", "b,1", "--keys-field", "x,y"], b'1,"x,"\n'),
                              (["-f", "1", "--keys-field", "-1"], b'1,"x,"\n"""1",y\n'), (["-f", "-2,-1", "--keys-field", "y,x"], b'1,"x,"\n')]:
            ran = self.run("join", "--csv", "--no-note", *words, "--keys", "keys.csv", three)
            self.check(f"columns: {words}", ran == (0, b"a,b\n" + wanted, b""), ran)
        for words, said in [(["-f", "a,c"], b"one.csv: no column 'c'"), (["-f", '1,"a,b"'], b"one.csv: no column '\"a,b\"'"), (["-f", "1,-0"], None),
                            (["-f", "1,,2"], None), (["-f", "-a"], None), (["-f", "1" + 8 * ",a"], None), (["-f", "1", "-w", "a,b"], None),
                            (["-f", "1,a", "--no-csv-header"], None), (["-f", "1", "-w", '"1"', "--no-csv-header"], None)]:
            ran = self.run("top", "--csv", *words, one)
            self.check(f"columns: {words}", ran[:2] == (2, b"") and ran[2] and said in [None, ran[2][10:-1]], ran)

    def random_columns(self):
        """Compares lists of fields on random bytes with exact counts, sets and sums."""
        rng = random.Random(8)
        lists = [[-1], [-2], [1, 2], [2, -1], [-1, -3, 1]]
        for number in range(60):
            data, others = [b"".join(rng.choices(PIECES, k=rng.choice([3, 10, 40, 400]))) for _ in range(2)]
            for numbers, keys_numbers in zip(lists, rng.sample(lists, len(lists))):
                fields, keys_fields = [",".join(map(str, each)) for each in (numbers, keys_numbers)]
                name, keys = self.file("columns.csv", data), self.file("keys.csv", others)
                rows = [(raw, made_of_row(row, numbers)) for raw, row in raws_of(data)]
                counts = collections.Counter(item for _, items in rows for item in items)
                keys_found = [item for _, row in raws_of(others) for item in made_of_row(row, keys_numbers)]
                told = f"random columns {number} {fields}"
                words = ["--csv", "--no-csv-header", "-f", fields]
                with_keys = [*words, "--keys-field", keys_fields, "--keys", keys]
                ran = self.run("top", *words, "--no-note", "-n", 1000, name)
                shown_counts = collections.Counter()
                for item, count in counts.items():
                    shown_counts[text_of(item)] += count
                self.is_exact(told, ran, shown_counts, 1000)
                firsts = [raw for at, (raw, items) in enumerate(rows) if not items or items not in [row[1] for row in rows[:at]]]
                ran = self.run("uniq", *words, "--no-note", "--items", 4096, name)
                self.check(f"{told}: uniq", ran == (0, text_of_records(firsts), b""), ran)
                ran = self.run("join", *with_keys, "--no-note", "--items", 4096, name)
                found = [raw for raw, items in rows if items and items[0] in keys_found]
                self.check(f"{told}: join {keys_fields}", ran == (0, text_of_records(found), b""), ran)
                ran = self.run("weigh", *with_keys, name)
                lines = b"".join(b"%d\t%s\n" % (counts[key], shown(key)) for key in keys_found)
                self.check(f"{told}: weigh {keys_fields}", ran == (0, b"# total %d\n" % counts.total() + lines, b""), ran)

    def cut_records(self):
        """Checks files whose records are cut at every place of a block, as inputs and as keys."""
        pattern = b'"a\n,""b",2\r\n"c"\r\n"dd\r\n\n",3\n,"e"\n"f""",\n\n'
        for shift in range(len(pattern) + 2):
            rows = (BLOCK - shift - 2) // 4
            data = b"x" * (BLOCK - shift - 4 * rows - 1) + b"\n" + b"y,1\n" * rows + pattern * 2
            cut, few = self.file("cut.csv", data), self.file("few.csv", pattern + b"y\n")
            words = ["--csv", "--no-csv-header", "-f", 1]
            ran = self.run("uniq", "--no-note", *words, cut)
            head = data[:data.index(b"\n") + 1]
            self.check(f"uniq cut {shift}", ran == (0, head + b"y,1\n" + pattern + b"\n", b""), ran)
            ran = self.run("join", "--no-note", "-v", *words, "--keys-field", 1, "--keys", cut, few)
            self.check(f"keys cut {shift}", ran == (0, b"\n", b""), ran)
            ran = self.run("join", "--no-note", *words, "--keys-field", 1, "--keys", few, cut)
            self.check(f"join cut {shift}", ran == (0, b"y,1\n" * rows + pattern[:-1] * 2, b""), ran)

    def record_headers(self):
        """Checks the headers that `uniq` and `join` print, and names in several files."""
        one, two = self.file("one.csv", b"a,b\n1,x\n2,y\n"), self.file("two.csv", b"a,b,c\n3,x\n")
        other, absent = self.file("other.csv", b"b,a\nz,9\n"), self.file("absent.csv", b"c,d\n5,6\n")
        only, marked = self.file("only.csv", b"a,b"), self.file("marked.csv", b'\xef\xbb\xbf"a","b\n"\r\n1,2\n')
        cases = [
            ("uniq", ["-f", "b"], [one, two], 0, b"a,b\n1,x\n2,y\n", b""),
            ("uniq", ["-f", "b"], [one, other], 1, b"a,b\n1,x\n2,y\n", b"sketches: other.csv: column 'b' is field 1, and was field 2 before\n"),
            ("uniq", ["-f", "b"], [one, absent], 1, b"a,b\n1,x\n2,y\n", b"sketches: absent.csv: no column 'b'\n"),
            ("uniq", ["-f", "b"], [absent, one], 2, b"", b"sketches: absent.csv: no column 'b'\n"),
            ("uniq", ["-f", "b"], ["none.csv", two], 1, b"a,b,c\n3,x\n", b"sketches: none.csv: No such file or directory (os error 2)\n"),
            ("uniq", ["-f", "b"], [only, one], 0, b"a,b\n1,x\n2,y\n", b""),
            ("uniq", ["-f", "a"], [marked], 0, b'\xef\xbb\xbf"a","b\n"\r\n1,2\n', b""),
            ("uniq", ["-f", "b"], ["/dev/null"], 2, b"", b"sketches: /dev/null: no column 'b'\n"),
            ("join", ["-f", "b", "--keys-field", "b", "--keys", two], [one, other], 1, b"a,b\n1,x\n", b"sketches: other.csv: column 'b' is field 1, and was field 2 before\n"),
            ("join", ["-f", "b", "--keys-field", "b", "--keys", only], [one], 0, b"a,b\n", b""),
            ("join", ["-f", "b", "--keys-field", "e", "--keys", two], [one], 2, b"", b"sketches: two.csv: no column 'e'\n"),
            ("join", ["-f", "e", "--keys-field", "b", "--keys", two], [one], 2, b"", b"sketches: one.csv: no column 'e'\n"),
            ("join", ["-f", "b", "--keys-field", "b", "--keys", "none.csv"], [one], 2, b"", b"sketches: none.csv: No such file or directory (os error 2)\n"),
            ("join", ["-f", "a", "--keys-field", "1", "--keys", "-"], [one], 0, b"a,b\n1,x\n", b""),
        ]
        for command, words, files, status, wanted, said in cases:
            ran = self.run(command, "--csv", "--no-note", *words, *files, data=b"k\n1\n")
            self.check(f"{command} {words} {files}", ran == (status, wanted, said), ran)
        for wanted in [b"a,b\n1,x\n2,y\n", b"a,b\n"]:
            ran = self.run("uniq", "--csv", "--no-note", "--state", "state", "-f", "a", one)
            self.check("uniq --state", ran == (0, wanted, b""), ran)
        ran = self.run("weigh", "--csv", "-f", "b", "-w", "e", "--keys-field", "b", "--keys", two, one)
        self.check("weigh without a column", ran == (2, b"", b"sketches: one.csv: no column 'e'\n"), ran)

    def wrong_records(self):
        """Checks options of `uniq`, `join` and `weigh` that do not fit."""
        keys = ["--keys", self.file("k.csv", b"a\n1\n")]
        for words in [["uniq"], ["uniq", "-f", "0"], ["uniq", "-f", "a", "--no-csv-header"], ["uniq", "-f", "1", "-d", '"'], ["uniq", "-f", "1", "-w", "1"],
                      ["join", "-f", "1", *keys], ["join", "--keys-field", "1", *keys], ["join", "-f", "1", "--keys-field", "a", "--no-csv-header", *keys],
                      ["join", "-f", "1", "--keys-field", "0", *keys], ["weigh", "-f", "1", "-w", "0", "--keys-field", "1", *keys]]:
            ran = self.run(words[0], "--csv", *words[1:], data=b"a,b\n1,2\n")
            self.check(f"{words}", ran[:2] == (2, b"") and ran[2], ran)
        for words in [["uniq", "-f", "a"], ["uniq", "-d", ","], ["join", "--keys-field", "a", *keys], ["join", "-d", ",", *keys], ["weigh", "-w", "a", *keys],
                      ["join", "-f", "0", *keys], ["uniq", "--no-csv-header"]]:
            ran = self.run(*words, data=b"a b\n")
            self.check(f"{words} of lines", ran[:2] == (2, b"") and ran[2], ran)

    def progress(self):
        """Checks what `--progress` shows on a terminal, of a run that waits for the reader of its output, and elsewhere."""
        lines = b"".join(b"%d\n" % number for number in range(10**6, 10**6 + 400000))
        half = self.file("half", lines[:len(lines) // 2]), self.file("other", lines[len(lines) // 2:])
        for is_terminal in [True, False]:
            reader, writer = os.openpty() if is_terminal else os.pipe()
            command = [self.program, "uniq", "--no-note", "--key", "plain", "--progress", *half]
            ran = subprocess.Popen(command, stdout=subprocess.PIPE, stderr=writer, env={"PATH": "/usr/bin:/bin"}, cwd=self.work)
            time.sleep(1.2)
            out, _ = ran.communicate()
            os.close(writer)
            said = b""
            with open(reader, "rb", buffering=0) as shown_there, contextlib.suppress(OSError):  # A terminal ends with an error.
                while more := shown_there.read(1 << 16):
                    said += more
            wanted = rb"((\x1b\[Ksketches: [0-3] of 3 MB\r)+\x1b\[K)+" if is_terminal else b""
            self.check(f"progress, {is_terminal}", re.fullmatch(wanted, said), said)
            self.check("progress changes nothing", ran.returncode == 0 and 0 <= len(lines) - len(out) < len(lines) // 100)

    def large(self):
        """Checks the memory of a large input from a pipe."""
        row = b'%d,"/page/%d, ""x""",200\n'
        block = b"".join(row % (n, n * n % 1000) for n in range(40000))
        times = 1 + (1 << 30) // len(block)
        command = [self.program, "top", "--csv", "--no-csv-header", "-n", "3", "-f", "2"]
        ran = subprocess.Popen(command, stdin=subprocess.PIPE, stdout=subprocess.PIPE, env={"PATH": "/usr/bin:/bin"})
        for _ in range(times):
            ran.stdin.write(block)
        with open(f"/proc/{ran.pid}/status", encoding="ascii") as file:
            peak = int(re.search(r"VmHWM:\s+(\d+) kB", file.read())[1])
        out, _ = ran.communicate()
        self.check("1 GB: status and total", ran.returncode == 0 and out.startswith(b"# error 0 of %d\n" % (40000 * times)), out)
        self.check("1 GB: memory", peak < 8 * 1024, peak)


def main():
    words = sys.argv[1:]
    with tempfile.TemporaryDirectory() as work:
        tests = Tests(words[0], work)
        tests.worked()
        tests.random_bytes()
        tests.random_weights()
        tests.blocks()
        tests.limits()
        tests.marks()
        tests.line_numbers()
        tests.long_headers()
        tests.headers()
        tests.wrong_use()
        tests.saved()
        tests.not_utf8()
        tests.records()
        tests.random_records()
        tests.columns()
        tests.random_columns()
        tests.cut_records()
        tests.record_headers()
        tests.wrong_records()
        tests.progress()
        tests.large()
    tests.end()


main()
