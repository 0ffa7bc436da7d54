"""Runs `sketches top`, `uniq`, `join` and `weigh` over generated files, and compares their outputs with exact counts and sets.

    python3 tests/sketches/sketches.py crates/sketches/out/sketches

prints a line for each check that failed, and then 'N passed, M failed'.
"""
import collections
import fcntl
import os
import random
import re
import subprocess
import sys
import tempfile

TOP = os.path.dirname(os.path.dirname(os.path.dirname(os.path.abspath(__file__))))
sys.path.append(f"{TOP}/tests")

import checks  # noqa: E402
from columns import Columns, made_of  # noqa: E402
from joins import Joins  # noqa: E402
from layouts import Layouts  # noqa: E402
from messages import Messages  # noqa: E402
from objects import Objects  # noqa: E402
from places import Places  # noqa: E402
from states import States  # noqa: E402
from texts import text_of  # noqa: E402
from weights import Weights  # noqa: E402

BLOCK = 1 << 18
VARIABLE = "DATASKETCHES_TABLE_KEY"
HEX = "000102030405060708090a0b0c0d0e0f"

# Bytes that a reader can get wrong: line ends, blanks, NUL, and parts of sequences of UTF-8.
PIECES = [b"\n", b"\n", b"\r\n", b"\r", b"\0", b" ", b"\t", b"\x0b", b"\x0c", b",", b"a", b"b", "é".encode(), "€".encode(), "😀".encode(),
          b"\xc3", b"\xe2\x82", b"\xf0\x9f\x98", b"\x80", b"\xff", b"\xed\xa0\x80", b"\xc0\xaf", b"\xf4\x90\x80\x80"]

# The options that choose items, and the items of a line.
SELECTIONS = [
    ([], lambda line: [line]),
    (["--words"], lambda line: words_of(line)),
    (["-f", "1"], lambda line: words_of(line)[:1]),
    (["-f", "3"], lambda line: words_of(line)[2:3]),
    (["-f", "4294967295"], lambda line: []),
    (["-d", ",", "-f", "1"], lambda line: line.split(b",")[:1]),
    (["-d", ",", "-f", "2"], lambda line: line.split(b",")[1:2]),
    (["-d", "\t", "--field", "2"], lambda line: line.split(b"\t")[1:2]),
    (["--delimiter", " ", "-f", "3"], lambda line: line.split(b" ")[2:3]),
    (["-d", "\r", "-f", "1"], lambda line: line.split(b"\r")[:1]),
    (["-f", "-1"], lambda line: words_of(line)[-1:]),
    (["-f", "-2,1"], lambda line: made_of(words_of(line), [-2, 1], b" ")),
    (["-d", ",", "-f", "-2"], lambda line: line.split(b",")[-2:-1]),
    (["-d", ",", "-f", "1,3"], lambda line: made_of(line.split(b","), [1, 3], b",")),
]


def words_of(line):
    """Returns the words of a line, between runs of ASCII white space."""
    return [word for word in re.split(rb"[ \t\n\x0c\r]+", line) if word]


def lines_of(data):
    """Returns the lines of an input, with U+FFFD for what is not UTF-8."""
    parts = data.split(b"\n")
    last = parts.pop()
    lines = [part[:-1] if part.endswith(b"\r") else part for part in parts] + ([last] if last else [])
    return [line.decode("utf-8", "replace").encode() for line in lines]


def note_of(inputs, items_of=lambda line: [line]):
    """Returns the note on the lines of the inputs that have items that are not UTF-8, or nothing if all are."""
    lines = sum(not all(map(is_utf8, items_of(line))) for data in inputs for _, line in raw_lines_of(data))
    return not_utf8(lines).encode() if lines else b""


def not_utf8(lines):
    """Returns the note on a number of lines that have items that are not UTF-8."""
    words = "line has an item that is not UTF-8: its bytes are" if lines == 1 else "lines have items that are not UTF-8: their bytes are"
    return f"sketches: {lines} {words} shown as U+FFFD\n"


def is_utf8(line):
    try:
        line.decode()
    except UnicodeDecodeError:
        return False
    return True


def counts_of(inputs, items_of):
    """Returns how often each item occurs in the inputs, of which each ends its last line."""
    return collections.Counter(item for data in inputs for line in lines_of(data) for item in items_of(line))


def raw_lines_of(data):
    """Returns the lines of an input, each with its end and without it. The last may have no end."""
    parts = data.split(b"\n")
    last = parts.pop()
    lines = [(part + b"\n", part[:-1] if part.endswith(b"\r") else part) for part in parts]
    return lines + ([(last, last)] if last else [])


def unseen_of(inputs, items_of, repeated=False):
    """Returns the lines of the inputs whose items are new, or with `repeated` the others, and the number of lines left out."""
    seen = set()
    written = []
    left_out = 0
    for data in inputs:
        for raw, line in raw_lines_of(data):
            items = items_of(line)
            if any(item in seen for item in items) == repeated:
                written.append(raw)
            else:
                left_out += 1
            seen.update(items)
    return text_of(written), left_out


class Tests(checks.Checks):
    def __init__(self, program, work):
        super().__init__(work)
        self.program = os.path.abspath(program)
        self.library = checks.preloaded(work)

    def file(self, name, data):
        with open(os.path.join(self.work, name), "wb") as file:
            file.write(data)
        return name

    def run(self, words, data=b"", key="plain", stdout=subprocess.PIPE, **settings):
        """Runs the program. Returns its status, both outputs, and the numbers of the preloaded library if it has settings."""
        env = {"PATH": "/usr/bin:/bin"}
        if key is not None:
            env[VARIABLE] = key
        report = os.path.join(self.work, "report")
        if settings:
            env.update({name: str(value) for name, value in settings.items()}, LD_PRELOAD=self.library, REFUSED_REPORT=report)
        command = [self.program, *[str(word) for word in words]]
        with open(os.path.join(self.work, self.file("input", data)), "rb") as file:
            ran = subprocess.run(command, stdin=file, stdout=stdout, stderr=subprocess.PIPE, env=env, cwd=self.work, timeout=120)
        numbers = None
        if settings:
            with open(report) as file:
                numbers = [int(word) for word in file.read().split()]
        return ran.returncode, ran.stdout, ran.stderr, numbers

    def is_exact(self, name, ran, counts, rows=10, status=0, said=b""):
        """Checks a whole report, of so few items that the error is 0."""
        self.check(f"{name}: status and messages", (ran[0], ran[2]) == (status, said), ran)
        header, *lines = ran[1].split(b"\n")[:-1]
        self.check(f"{name}: header", header == b"# error 0 of %d" % counts.total(), header)
        shown = [tuple(line.split(b"\t", 2)) for line in lines]
        heaviest = sorted(counts.values(), reverse=True)[:rows]
        self.check(f"{name}: heaviest first", [int(row[1]) for row in shown] == heaviest, shown)
        self.check(f"{name}: exact", all(int(lower) == int(upper) == counts[item] for lower, upper, item in shown), shown)
        self.check(f"{name}: each once", len({row[2] for row in shown}) == len(shown), shown)

    def worked(self):
        """Checks reports that are written out by hand."""
        for words, data, wanted in [
            (["top"], b"", b"# error 0 of 0\n"),
            (["top"], b"b\na\nb\n", b"# error 0 of 3\n2\t2\tb\n1\t1\ta\n"),
            (["top", "--no-header"], b"b\na\nb", b"2\t2\tb\n1\t1\ta\n"),
            (["top", "-n", "1"], b"b\r\na\r\nb\r\n", b"# error 0 of 3\n2\t2\tb\n"),
            (["top", "-n", "0"], b"b\na\nb\n", b"# error 0 of 3\n"),
            (["top"], b"\n\n\n", b"# error 0 of 3\n3\t3\t\n"),
            (["top", "-f", "2"], b"x  y z\n\t y\nq\n  x\ty\n", b"# error 0 of 2\n2\t2\ty\n"),
            (["top", "-d", ":", "-f", "1"], b"::\nx:y\n\n:\n", b"# error 0 of 4\n3\t3\t\n1\t1\tx\n"),
            (["top", "--words"], b"to be or\nnot to be to\n", b"# error 0 of 7\n3\t3\tto\n2\t2\tbe\n"),
            (["top"], b"\xff\n\xfe\n\xc3\n", b"# error 0 of 3\n3\t3\t\xef\xbf\xbd\n"),
            (["top"], b"a\tb\0\na\tb\0", b"# error 0 of 2\n2\t2\ta\tb\0\n"),
        ]:
            status, out, said, _ = self.run(words, data)
            self.check(f"{words} of {data}", (status, said) == (0, note_of([data])) and out.startswith(wanted), out)

    def ties(self):
        """Checks that rows with equal upper bounds are in the order of their items' bytes, under each key, and before they are cut."""
        items = [b"", b"B", b"a", b"a\0", b"aa", b"b", "é".encode(), b"\xf0\x9f\x98\x80", b"z", b"\x7f"]
        rng = random.Random(11)
        for number in range(12):
            counts = {item: rng.choice([1, 1, 1, 2, 3]) for item in items}
            lines = [item for item, count in counts.items() for _ in range(count)]
            rng.shuffle(lines)
            rows = sorted(counts.items(), key=lambda row: (-row[1], row[0]))
            for count in [1, 2, 5, 100]:
                wanted = b"# error 0 of %d\n" % len(lines) + b"".join(b"%d\t%d\t%s\n" % (n, n, item) for item, n in rows[:count])
                ran = self.run(["top", "-n", count], b"\n".join(lines) + b"\n", key=None)
                self.check(f"ties {number}, {count} rows", ran[:3] == (0, wanted, b""), (ran, wanted))
            for name, part in [("left", lines[:7]), ("right", lines[7:])]:
                self.run(["top", "-n", 0, "--no-header", "--save", name], b"".join(line + b"\n" for line in part), key=None)
            for names in [["left", "right"], ["right", "left"]]:
                ran = self.run(["merge", "-n", 5, *names], key=None)
                wanted = b"# error 0 of %d\n" % len(lines) + b"".join(b"%d\t%d\t%s\n" % (n, n, item) for item, n in rows[:5])
                self.check(f"ties {number}, {names}", ran[:3] == (0, wanted, b""), (ran, wanted))
        self.check("ties of the page", {self.run(["top", "-n", 2, "--no-header"], b"b\na\nc\nd\n", key=None)[1] for _ in range(8)} == {b"1\t1\ta\n1\t1\tb\n"})

    def notes(self):
        """Checks the note on lines that have items that are not UTF-8, and that --no-note omits it alone."""
        for words, inputs, lines in [
            (["top"], [b"a\n"], 0),
            (["top"], [b"\xef\xbf\xbd\n"], 0),
            (["top"], [b"\xff\n"], 1),
            (["top"], [b"\xff\xfe\na\n\xc3"], 2),
            (["top"], [b"\xc3", b"\xa9\n"], 2),
            (["top"], [b"\xff\r\n", b"a", b"\xff"], 2),
            (["top", "--words"], [b"\xff \xff \xff\n"], 1),
            (["top", "-f", "9"], [b"\xff a\nb\n"], 0),
            (["top", "-f", "2"], [b"\xff a\nb \xff\n\xff \xff\n"], 2),
            (["top", "-d", ",", "-f", "1"], [b"a,\xff\n\xff\n"], 1),
            (["top", "-f", "1", "-w", "2"], [b"a 1 \xff\n"], 0),
            (["top", "-f", "1", "-w", "2"], [b"\xff 1\na 2\n\n\xfe\xfe 3\n"], 2),
            (["top", "-f", "9", "-w", "2"], [b"\xff\n"], 0),
            (["top", "--csv", "-f", "v"], [b"k,v\n\xff,a\n"], 0),
            (["top", "--csv", "-f", "v"], [b"k,v\n\xff,\"\xff\"\n"], 1),
            (["top"], [b"\xff\n" * 200000 + b"a\n" * BLOCK + b"\xff\n"], 200001),
        ]:
            names = [self.file(f"note{n}", data) for n, data in enumerate(inputs)]
            ran = self.run([*words, *names])
            said = not_utf8(lines).encode() if lines else b""
            self.check(f"a note on {lines} lines", (ran[0], ran[2]) == (0, said), ran[2])
            silent = self.run([*words, "--no-note", *names])
            self.check(f"no note on {lines} lines", silent[:3] == (0, ran[1], b""), silent[2])
        for words, data, status in [(["top", "--max-line", "3"], b"\xff\nlonger\n", 2), (["top", "-f", "1", "-w", "2"], b"\xff 1\na\n", 2)]:
            ran = self.run(words, data)
            self.check("no note after an error", ran[0] == status and b"UTF-8" not in ran[2], ran)
        ran = self.run(["top", self.file("note0", b"\xff\n"), "none"])
        self.check("a note after an absent file", ran[0] == 1 and ran[2].endswith(not_utf8(1).encode()), ran)

    def random_bytes(self):
        """Checks each choice of items over random bytes, from files and from standard input."""
        rng = random.Random(1)
        for round in range(12):
            inputs = [b"".join(rng.choices(PIECES, k=rng.choice([0, 1, 7, 300, 3000]))) for _ in range(3)]
            names = [self.file(f"random{n}", data) for n, data in enumerate(inputs)]
            for words, items_of in SELECTIONS:
                name = f"random bytes {round} {words}"
                rows = rng.choice([0, 1, 10, 100000])
                size = 1 << 16
                ran = self.run(["top", *words, "-n", rows, "--size", size, *names], key=None)
                self.is_exact(name, ran, counts_of(inputs, items_of), rows, said=note_of(inputs, items_of))
                ran = self.run(["top", "-n", rows, *words, "--size", size, "-"], inputs[0], key=HEX)
                self.is_exact(f"{name} -", ran, counts_of(inputs[:1], items_of), rows, said=note_of(inputs[:1], items_of))

    def cuts(self):
        """Cuts an input at each place: by reads of a few bytes, and by a block that ends there."""
        data = b"ab\r\n\r\n\xe2\x82\xac b\n\xe2\x82\nab\r\na \xf0\x9f\x98\x80 c\r\r\n\nab"
        for words, items_of in SELECTIONS:
            for step in range(1, len(data) + 1):
                ran = self.run(["top", *words], data, READ_STEP=step)
                self.is_exact(f"reads of {step} bytes {words}", ran, counts_of([data], items_of), said=note_of([data], items_of))
        for cut in range(len(data) + 1):
            for lead in [b"x" * (BLOCK - cut - 1) + b"\n", b"y\n" * ((BLOCK - cut) // 2) + b"\n" * ((BLOCK - cut) % 2)]:
                whole = lead + data
                ran = self.run(["top"], whole)
                self.is_exact(f"a block that ends at {cut}", ran, counts_of([whole], lambda line: [line]), said=note_of([whole]))

    def long_lines(self):
        """Checks lines around the limit, with each line end, whole and last."""
        for limit in [0, 1, 5, BLOCK - 2, BLOCK - 1, BLOCK, BLOCK + 1, 3 * BLOCK]:
            for length in [limit - 1, limit, limit + 1, limit + 2]:
                for end in [b"\n", b""]:
                    if length < 0:
                        continue
                    for lead in [b"", b"\n"]:
                        data = lead + length * b"x" + end
                        name = f"limit {limit}, a line of {length} and {end}"
                        ran = self.run(["top", "--max-line", limit], data)
                        if length <= limit:
                            self.is_exact(name, ran, counts_of([data], lambda line: [line]))
                        else:
                            said = b"sketches: -: a line is longer than --max-line\n"
                            self.check(name, ran[:3] == (2, b"", said), ran)
        data = (1 << 23) * b"z" + b"\n"
        self.is_exact("a line of 8 MB", self.run(["top"], 3 * data), counts_of([3 * data], lambda line: [line]))

    def piped(self, words, block, times):
        """Runs the program on a block that a pipe has `times` times, and returns its status, output, messages and peak of KiB."""
        how = {"stdin": subprocess.PIPE, "stdout": subprocess.PIPE, "stderr": subprocess.PIPE, "env": {"PATH": "/usr/bin:/bin"}}
        ran, peak = subprocess.Popen([self.program, *words], **how), 0
        fcntl.fcntl(ran.stdin, fcntl.F_SETPIPE_SZ, 1 << 20)
        try:
            for _ in range(times):
                ran.stdin.write(block)
                with open(f"/proc/{ran.pid}/status", encoding="ascii") as file:
                    peak = max([peak, *(int(kib) for kib in re.findall(r"VmHWM:\s+(\d+) kB", file.read()))])
        except BrokenPipeError:
            pass
        said = ran.communicate()
        return ran.returncode, *said, peak

    def large_inputs(self):
        """Checks results and memory for a log of 10 GB and for a line of 1 GB, from a pipe."""
        line = b'10.0.%d.%d - - [29/Nov/2026:18:24:35 +0000] "GET /page/%d HTTP/1.1" 200 %d "https://example.org/" "Mozilla/5.0 (X11)"\n'
        lines = [line % (n % 256, n % 199, n * n % 1000, n) for n in range(40000)]
        times = -(-10**10 // sum(map(len, lines)))
        counts = collections.Counter(each.split()[6] for each in lines)
        rows = sorted(((times * count, item) for item, count in counts.items()), key=lambda row: (-row[0], row[1]))
        status, out, said, peak = self.piped(["top", "-f", "7", "-n", "3"], b"".join(lines), times)
        found = out.split(b"\n")
        head = b"# error 0 of %d" % (times * len(lines))
        self.check("10 GB: status and error", (status, said, found[0], found[-1]) == (0, b"", head, b""), (status, out, said))
        heaviest = {count for count, _ in rows[:3]}
        wanted = {b"%d\t%d\t%s" % (count, count, item) for count, item in rows if count in heaviest}
        self.check("10 GB: rows", len(found) == 5 and set(found[1:4]) <= wanted, out)
        self.check("10 GB: memory", 0 < peak < 4 << 10, peak)
        status, out, said, peak = self.piped(["top"], (1 << 20) * b"x", 1 << 10)
        self.check("1 GB: a line", (status, out, said) == (2, b"", b"sketches: -: a line is longer than --max-line\n"), (status, said))
        self.check("1 GB: memory", 0 < peak < 160 << 10, peak)

    def is_unseen(self, name, ran, inputs, items_of, repeated=False, status=0, said=b""):
        """Checks what `uniq` wrote, and its note, for so few items that the filter has no false positive."""
        written, left_out = unseen_of(inputs, items_of, repeated)
        self.check(f"{name}: status", ran[0] == status, ran)
        self.check(f"{name}: lines", ran[1] == written, (ran[1][:200], written[:200]))
        rate = rb"(?:about 1 in \d{9,}|fewer than 1 in 10\^12) new items is taken for a repeated one\n"
        unit = b"line" if left_out == 1 else b"lines"
        note = rb"sketches: %d %b left out; the filter is [0-3]%% full: " % (left_out, unit) + rate
        self.check(f"{name}: note", re.fullmatch(re.escape(said) + note, ran[2]), ran[2])

    def uniq_worked(self):
        """Checks unseen lines that are written out by hand."""
        for words, data, wanted in [
            ([], b"", b""),
            ([], b"b\na\nb\nc", b"b\na\nc"),
            ([], b"b\na\nb", b"b\na\n"),
            ([], b"a\r\na\na\r\r\n", b"a\r\na\r\r\n"),
            ([], b"\n\na\n\n", b"\na\n"),
            ([], b"\xff\n\xfe\n\xff\n\xef\xbf\xbd\n", b"\xff\n\xfe\n\xef\xbf\xbd\n"),
            (["--repeated"], b"b\na\nb\nb", b"b\nb"),
            (["-f", "2"], b"x 1\ny 1\nz\nw  2\nz\n", b"x 1\nz\nw  2\nz\n"),
            (["-f", "2", "--repeated"], b"x 1\ny 1\nz\nw  2\nz\n", b"y 1\n"),
            (["-d", ",", "-f", "2"], b"x,\ny,,z\nw\n,\xff\n,\xfe\n,\xff", b"x,\nw\n,\xff\n,\xfe\n"),
        ]:
            ran = self.run(["uniq", "--no-note", *words], data)
            self.check(f"uniq {words} of {data}", ran[:3] == (0, wanted, b""), ran)

    def uniq_random_bytes(self):
        """Checks each choice of items over random bytes, from files and from standard input."""
        rng = random.Random(3)
        for round in range(8):
            inputs = [b"".join(rng.choices(PIECES, k=rng.choice([0, 1, 7, 300, 3000]))) for _ in range(3)]
            names = [self.file(f"random{n}", data) for n, data in enumerate(inputs)]
            for words, items_of in SELECTIONS:
                if words == ["--words"]:
                    continue
                for repeated in [[], ["--repeated"]]:
                    ran = self.run(["uniq", *words, *repeated, "--items", "200000", *names], key=None)
                    self.is_unseen(f"uniq of random bytes {round} {words} {repeated}", ran, inputs, items_of, bool(repeated))
            ran = self.run(["uniq", "--items", "200000"], inputs[0])
            self.is_unseen(f"uniq of random bytes {round} -", ran, inputs[:1], lambda line: [line])

    def uniq_cuts(self):
        """Cuts an input at each place: by reads of a few bytes, and by a block that ends there."""
        data = b"ab\r\n\r\n\xe2\x82\xac b\n\xe2\x82\nab\r\na \xf0\x9f\x98\x80 c\r\r\n\n\xe2\x82\xac b\nab"
        for step in range(1, len(data) + 1):
            ran = self.run(["uniq"], data, READ_STEP=step)
            self.is_unseen(f"uniq by reads of {step} bytes", ran, [data], lambda line: [line])
        for cut in range(len(data) + 1):
            whole = b"x" * (BLOCK - cut - 1) + b"\n" + data
            self.is_unseen(f"uniq of a block that ends at {cut}", self.run(["uniq"], whole), [whole], lambda line: [line])
        for limit in [1, 5, BLOCK - 1, BLOCK, 3 * BLOCK]:
            for length in [limit - 1, limit, limit + 1]:
                for end in [b"\n", b""]:
                    data = b"\n" + length * b"x" + end
                    ran = self.run(["uniq", "--max-line", limit], data)
                    name = f"uniq with limit {limit}, a line of {length} and {end}"
                    if length <= limit:
                        self.is_unseen(name, ran, [data], lambda line: [line])
                    else:
                        said = b"sketches: -: a line is longer than --max-line\n"
                        self.check(name, ran[0] == 2 and ran[1] in (b"", b"\n") and ran[2] == said, ran)

    def uniq_false_positives(self):
        """Checks that few new lines are left out, that none is printed twice, and that none is out of order."""
        lines = [b"line %d" % n for n in range(50000)]
        rng = random.Random(4)
        data = b"".join(line + b"\n" for line in lines + rng.choices(lines, k=50000))
        for questions in [2, 100, 10000]:
            ran = self.run(["uniq", "--items", 50000, "--false-positives", questions], data)
            shown = ran[1].split(b"\n")[:-1]
            left = set(lines) - set(shown)
            name = f"uniq with one false positive in {questions}"
            self.check(f"{name}: status", ran[0] == 0, ran[2])
            self.check(f"{name}: each once, in order", shown == [line for line in lines if line not in left])
            self.check(f"{name}: few are missing", len(left) * questions <= 50000, len(left))
            note = rb"sketches: (\d+) lines left out; the filter is (\d+)% full: about 1 in (\d+) new items is taken for a repeated one\n"
            found = re.fullmatch(note, ran[2])
            self.check(f"{name}: note", found and int(found[1]) == 50000 + len(left), ran[2])
            self.check(f"{name}: full", 40 <= int(found[2]) <= (80 if questions == 2 else 60), ran[2])
            self.check(f"{name}: rate", 0.9 * questions <= int(found[3]) <= 2 * questions, ran[2])

    def default_sizes(self):
        """Checks that a filter that is sized by a file loses few lines, and that one that is too small ends with a warning."""
        for name, lines in [("seq", [b"%d" % n for n in range(1, 100001)]), ("short", [b"%x" % n for n in range(60000)]),
                            ("long", [b"x" * 300 + b"%d" % n for n in range(3000)])]:
            self.file(name, b"\n".join(lines) + b"\n")
            ran = self.run(["uniq", name], key=None)
            shown = ran[1].split(b"\n")[:-1]
            self.check(f"{name} by its size", ran[0] == 0 and len(lines) - len(shown) <= len(lines) / 1000 + 5, (len(lines), len(shown)))
            self.check(f"{name}: no warning", b"warning" not in ran[2], ran[2])
        warning = rb"sketches: warning: the filter has more items than it is made for: about 1 in (\d+) new items is taken for a repeated one; use a larger --items\n"
        for words in [[], ["--no-note"]]:
            ran = self.run(["uniq", "--items", 5000, *words, "seq"], key=None)
            found = re.search(warning, ran[2])
            self.check(f"a warning {words}", ran[0] == 0 and found and int(found[1]) < 100, ran[2])
        ran = self.run(["uniq", "--items", 100000, "--no-note", "seq"], key=None)
        self.check("no warning at the number of items", ran[:1] == (0,) and ran[2] == b"", ran[2])
        others = b"".join(b"other %d\n" % n for n in range(300000))
        for keys, words, most in [(2, [], 3), (3, [], 3), (10, ["--false-positives", 1000000], 3), (100, [], 450)]:
            self.file("keys", b"".join(b"key %d\n" % n for n in range(keys)))
            ran = self.run(["join", "--no-note", *words, "--keys", "keys"], others, key=None)
            self.check(f"few others pass a filter of {keys} keys {words}", ran[0] == 0 and ran[1].count(b"\n") <= most, ran[1].count(b"\n"))

    def uniq_statuses(self):
        """Checks files that cannot be read, wrong use, and devices and calls that fail."""
        self.file("one", b"a\nb")
        self.file("two", b"b\nc\n")
        whole = lambda line: [line]
        self.is_unseen("uniq of two files", self.run(["uniq", "one", "two"]), [b"a\nb", b"b\nc\n"], whole)
        for files, wanted in [([b"a", b"b"], b"a\nb"), ([b"a", b"a", b"b\n"], b"a\nb\n"), ([b"a", b"", b"b"], b"a\nb"), ([b"a", b"a"], b"a"),
                              ([b"a\r", b"b"], b"a\r\nb"), ([b"a\n\n", b"\n", b"c"], b"a\n\nc")]:
            names = [self.file(f"part{n}", data) for n, data in enumerate(files)]
            ran = self.run(["uniq", "--no-note", *names])
            self.check(f"uniq of {files}", ran[:3] == (0, wanted, b""), ran)
            self.file("keys", b"x\n")
            ran = self.run(["join", "-v", "--no-note", "--keys", "keys", *names])
            self.check(f"join -v of {files}", ran[:3] == (0, text_of([raw for data in files for raw, _ in raw_lines_of(data)]), b""), ran)
        ran = self.run(["uniq", "--repeated", "--no-note", self.file("part0", b"x\nx"), self.file("part1", b"y\nx")])
        self.check("uniq --repeated of two files", ran[:3] == (0, b"x\nx", b""), ran)
        self.default_sizes()
        absent = b"sketches: none: No such file or directory (os error 2)\n"
        self.is_unseen("uniq of an absent file", self.run(["uniq", "none", "two"]), [b"b\nc\n"], whole, status=1, said=absent)
        bad = b"sketches: --items must be at least 1, --false-positives at least 2, --bits from 1 to 2^37 - 64, and --hashes from 1 to 32767\n"
        for words in [["--items", "0"], ["--false-positives", "0"], ["--false-positives", "1"], ["--items", str(2**64 - 1)]]:
            ran = self.run(["uniq", *words], b"a\n")
            self.check(f"uniq {words}", ran[:3] == (2, b"", bad), ran)
        for words in [["--items", "-1"], ["--items", "x"], ["-f", "0"], ["-d", ","], ["-f", "1", "-d", ",,"], ["--words"], ["--key", "00"]]:
            status, out, said, _ = self.run(["uniq", *words], b"a\n")
            self.check(f"uniq {words}", (status, out) == (2, b"") and said, (status, out, said))
        with open("/dev/full", "wb") as full:
            ran = self.run(["uniq"], b"a\n", stdout=full)
            self.check("uniq and a full device", (ran[0], ran[2]) == (2, b"sketches: output: No space left on device (os error 28)\n"), ran)
        many = b"".join(b"%d\n" % number for number in range(3000))
        small = ["uniq", "--items", "200", "--false-positives", "2", "--no-note"]
        outs = [self.run([*small, "--key", key], many)[1] for key in ["plain", "plain", HEX, HEX]]
        self.check("uniq under one key and another", outs[0] == outs[1] and outs[2] == outs[3] and outs[0] != outs[2])
        self.check("uniq has a random seed", len({self.run(small, many, key=None)[1] for _ in range(3)}) > 1)
        reader, writer = os.pipe()
        os.close(reader)
        ran = self.run(["uniq"], b"a\n", stdout=writer)
        os.close(writer)
        self.check("uniq and a closed pipe", (ran[0], ran[2]) == (0, b""), ran)
        words = ["uniq", "--items", "1000"]
        data = b"".join(b"line %d\xff %d\n" % (n % 40, n) for n in range(200)) + 20 * b"\n" + b"x" * BLOCK
        done = self.run(words, data)
        n = 1
        while True:
            ran = self.run(words, data, REFUSED_AT=n)
            self.check(f"uniq, allocation {n}: all memory is freed", ran[3][2] == 0, ran)
            if ran[3][1] == 0:
                self.check("uniq, no allocation fails", ran[:3] == done[:3], ran)
                break
            ended = ran[0] == 2 and done[1].startswith(ran[1]) and ran[2]
            self.check(f"uniq, allocation {n}", ended or ran[:3] == done[:3], ran)
            n += 1
        short = b"a\nb\na\nb\nc"
        for which in ["FAILS_READ_AT", "FAILS_WRITE_AT"]:
            for interrupted in [{}, {"INTERRUPTED": 1}]:
                n = 1
                while True:
                    ran = self.run(words, short, **{which: n, "READ_STEP": 1, **interrupted})
                    name = f"uniq, {which} {n} {interrupted}"
                    if ran[3][1] == 0 or interrupted:
                        self.is_unseen(name, ran, [short], whole)
                    elif which == "FAILS_READ_AT":
                        read = short[: n - 1]
                        said = b"sketches: -: Input/output error (os error 5)\n"
                        self.is_unseen(name, ran, [read[: read.rfind(b"\n") + 1]], whole, status=1, said=said)
                    else:
                        ended = ran[0] == 2 and ran[2].startswith(b"sketches: output: ")
                        self.check(name, ended and unseen_of([short], whole)[0].startswith(ran[1]), ran)
                    if ran[3][1] == 0:
                        break
                    n += 1

    def many_items(self):
        """Checks bounds, their share and missing items over many more items than slots, in several orders."""
        rng = random.Random(2)
        names = [b"item%d" % n for n in range(20000)]
        stream = rng.choices(names, [1 / (n + 1) for n in range(20000)], k=60000)
        counts = collections.Counter(stream)
        for size in [8, 64, 1024, 4096]:
            for order, lines in [("random", stream), ("ascending", sorted(stream)), ("rare first", sorted(stream, key=counts.get))]:
                for key in ["plain", HEX, None]:
                    data = b"".join(line + b"\n" for line in lines)
                    rows = rng.choice([3, 100, 100000])
                    status, out, said, _ = self.run(["top", "--size", size, "-n", rows], data, key=key)
                    name = f"{size} slots, {order}, key {key}"
                    header, *shown = out.split(b"\n")[:-1]
                    found = re.fullmatch(rb"# error (\d+) of 60000", header)
                    self.check(f"{name}: header", (status, said) == (0, b"") and found, (header, said))
                    error = int(found[1])
                    places = min(1024, size * 3 // 4) // 2
                    self.check(f"{name}: share", places * error <= 60000, error)
                    bounds = [(int(lower), int(upper), item) for lower, upper, item in (line.split(b"\t") for line in shown)]
                    self.check(f"{name}: enclosed", all(lower <= counts[item] <= upper == lower + error for lower, upper, item in bounds))
                    self.check(f"{name}: heaviest first", bounds == sorted(bounds, key=lambda row: -row[1]))
                    self.check(f"{name}: few", len(bounds) <= rows and len({row[2] for row in bounds}) == len(bounds))
                    listed = {row[2] for row in bounds}
                    least = min([row[1] for row in bounds], default=0) if len(bounds) == rows else 0
                    missing = [item for item, count in counts.items() if count > max(error, least) and item not in listed]
                    self.check(f"{name}: none is missing", not missing, missing[:3])

    def statuses(self):
        """Checks files that cannot be read, wrong use, and devices that fail."""
        names = [self.file("one", b"a\nb"), self.file("two", b"b\nc\n")]
        both = collections.Counter({b"b": 2, b"a": 1, b"c": 1})
        self.is_exact("two files", self.run(["top", *names]), both)
        self.is_exact("a file and standard input", self.run(["top", "one", "-"], b"b\nc\n"), both)
        absent = b"sketches: none: No such file or directory (os error 2)\n"
        self.is_exact("an absent file", self.run(["top", "one", "none", "two"]), both, status=1, said=absent)
        self.is_exact("only an absent file", self.run(["top", "none"]), collections.Counter(), status=1, said=absent)
        folder = b"sketches: .: Is a directory (os error 21)\n"
        self.is_exact("a folder", self.run(["top", ".", "one", "two"]), both, status=1, said=folder)
        for name, words in [
            ("no command", []),
            ("an unknown command", ["bottom"]),
            ("an unknown option", ["top", "--much"]),
            ("no number of rows", ["top", "-n", "ten"]),
            ("a negative number of rows", ["top", "-n", "-1"]),
            ("field 0", ["top", "-f", "0"]),
            ("a delimiter without a field", ["top", "-d", ","]),
            ("two characters", ["top", "-f", "1", "-d", ",,"]),
            ("no character", ["top", "-f", "1", "-d", ""]),
            ("a character beyond ASCII", ["top", "-f", "1", "-d", "é"]),
            ("words and a field", ["top", "--words", "-f", "1"]),
            ("a size of 0", ["top", "--size", "0"]),
            ("a size of 4", ["top", "--size", "4"]),
            ("a size of 100", ["top", "--size", "100"]),
            ("a size of 2^31", ["top", "--size", "2147483648"]),
            ("a short key", ["top", "--key", "00"]),
            ("a key that is no number", ["top", "--key", HEX[:-1] + "g"]),
        ]:
            status, out, said, _ = self.run(words, b"a\n")
            self.check(name, (status, out) == (2, b"") and said, (status, out, said))
        for value in ["", "Plain", HEX[:-1], HEX + "0"]:
            ran = self.run(["top"], b"a\n", key=value)
            said = b"sketches: DATASKETCHES_TABLE_KEY must be plain or 32 hexadecimal digits\n"
            self.check(f"a bad variable {value}", ran[:3] == (2, b"", said), ran)
            self.check("the option comes first", self.run(["top", "--key", "plain"], b"a\n", key=value)[0] == 0)
        with open(f"{TOP}/VERSION", "rb") as file:
            version = b"sketches " + file.read()
        for words, part in [(["--version"], version), (["--help"], b"Usage"), (["top", "--help"], b"--max-line"), (["help", "top"], b"FILE")]:
            status, out, said, _ = self.run(words)
            self.check(f"{words}", (status, said) == (0, b"") and part in out, (status, out, said))
        with open("/dev/full", "wb") as full:
            ran = self.run(["top"], b"a\n", stdout=full)
            self.check("a full device", (ran[0], ran[2]) == (2, b"sketches: output: No space left on device (os error 28)\n"), ran)
        reader, writer = os.pipe()
        os.close(reader)
        ran = self.run(["top"], b"a\n", stdout=writer)
        os.close(writer)
        self.check("a closed pipe", (ran[0], ran[2]) == (0, b""), ran)
        ran = self.run(["top"], b"a\n", key=None, NO_RANDOM_BYTES=1)
        self.check("no random bytes", ran[:3] == (2, b"", b"sketches: no random bytes\n"), ran)

    def failures_in_turn(self):
        """Fails each allocation, each read and each write in turn, and interrupts each read and each write."""
        data = b"".join(b"line %d\xff %d\n" % (n % 40, n) for n in range(200)) + 20 * b"\n" + b"x" * BLOCK
        words = ["top", "-n", "3", "--size", "64"]
        whole = self.run(words, data)
        n = 1
        while True:
            ran = self.run(words, data, REFUSED_AT=n)
            if ran[3][1] == 0:
                self.check("no allocation fails", ran[:3] == whole[:3] and ran[3][2] == 0, ran)
                break
            # std ignores that a string of the arguments could not be made smaller
            ended = ran[0] == 2 and ran[1] == b"" and ran[2]
            self.check(f"allocation {n}", ended or ran[:3] == whole[:3], ran)
            self.check(f"allocation {n}: all memory is freed", ran[3][2] == 0, ran)
            n += 1
        self.check("allocations were counted", n > 100, n)
        short = b"a\nb\na\nb\nc"
        whole = self.run(["top"], short)
        for which in ["FAILS_READ_AT", "FAILS_WRITE_AT"]:
            for interrupted in [{}, {"INTERRUPTED": 1}]:
                n = 1
                while True:
                    ran = self.run(["top"], short, **{which: n, "READ_STEP": 1, **interrupted})
                    name = f"{which} {n} {interrupted}"
                    if ran[3][1] == 0 or interrupted:
                        self.check(name, ran[:3] == whole[:3], ran)
                    elif which == "FAILS_READ_AT":
                        read = short[: n - 1]
                        counts = counts_of([read[: read.rfind(b"\n") + 1]], lambda line: [line])
                        said = b"sketches: -: Input/output error (os error 5)\n"
                        self.is_exact(name, ran, counts, status=1, said=said)
                    else:
                        self.check(name, ran[0] == 2 and ran[2].startswith(b"sketches: output: "), ran)
                    if ran[3][1] == 0:
                        break
                    n += 1


def main():
    words = sys.argv[1:]
    with tempfile.TemporaryDirectory() as work:
        tests = Tests(words[0], work)
        tests.worked()
        tests.ties()
        tests.notes()
        tests.random_bytes()
        tests.cuts()
        tests.long_lines()
        tests.large_inputs()
        tests.many_items()
        tests.statuses()
        tests.failures_in_turn()
        tests.uniq_worked()
        tests.uniq_random_bytes()
        tests.uniq_cuts()
        tests.uniq_false_positives()
        tests.uniq_statuses()
        Joins(tests, SELECTIONS, PIECES, raw_lines_of).run()
        Weights(tests, SELECTIONS, PIECES, raw_lines_of).run()
        States(tests, PIECES, raw_lines_of).run()
        Columns(tests).run()
        Layouts(tests).run()
        Objects(tests).run()
        Messages(tests).run()
        Places(tests).run()
    tests.end()


main()
