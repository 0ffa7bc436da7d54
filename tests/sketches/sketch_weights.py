"""Runs `sketches top` with weights, thresholds and error targets, and compares the reports with exact sums.

    python3 tests/sketches/sketch_weights.py crates/sketches/out/sketches

prints a line for each check that failed, and then 'N passed, M failed'.
"""
import collections
import fractions
import os
import random
import re
import subprocess
import sys
import tempfile

sys.path.append(os.path.dirname(os.path.dirname(os.path.abspath(__file__))))

import checks  # noqa: E402

BLOCK = 1 << 18
LAST = 2**64 - 1

# The options that choose the item and its weight, and both fields of a line.
CHOICES = [
    (["-f", "1", "-w", "2"], lambda line: (words_of(line)[:1], words_of(line)[1:2])),
    (["-f", "2", "-w", "1"], lambda line: (words_of(line)[1:2], words_of(line)[:1])),
    (["-f", "2", "-w", "2"], lambda line: (words_of(line)[1:2], words_of(line)[1:2])),
    (["-w", "2"], lambda line: ([line], words_of(line)[1:2])),
    (["-d", ",", "-f", "2", "--weight", "3"], lambda line: (line.split(b",")[1:2], line.split(b",")[2:3])),
]


def words_of(line):
    """Returns the words of a line, between runs of ASCII white space."""
    return [word for word in re.split(rb"[ \t\n\x0c\r]+", line) if word]


def text_of(item):
    """Returns an item with U+FFFD for what is not UTF-8."""
    return item.decode("utf-8", "replace").encode()


def lines_of(data):
    """Returns the lines of an input."""
    parts = data.split(b"\n")
    last = parts.pop()
    return [part[:-1] if part.endswith(b"\r") else part for part in parts] + ([last] if last else [])


def weight_of(field):
    """Returns the weight that a field states, or `None`."""
    number = int(field) if re.fullmatch(rb"[0-9]+", field) else LAST + 1
    return number if number <= LAST else None


def sums_of(inputs, fields_of):
    """Returns the weight of each item, or the index and the line of the first input that has a bad weight."""
    sums = collections.Counter()
    for index, data in enumerate(inputs):
        for number, line in enumerate(lines_of(data), 1):
            items, fields = fields_of(line)
            for item in items:
                weight = weight_of(fields[0]) if fields else None
                if weight is None:
                    return index, number
                if weight:
                    sums[text_of(item)] += weight
    return sums


class Tests(checks.Checks):
    def __init__(self, program, work):
        super().__init__(work)
        self.program = os.path.abspath(program)

    def file(self, name, data):
        with open(os.path.join(self.work, name), "wb") as file:
            file.write(data)
        return name

    def run(self, *words, data=b""):
        """Runs the program. Returns its status and both outputs."""
        command = [self.program, *[str(word) for word in words]]
        env = {"PATH": "/usr/bin:/bin", "DATASKETCHES_TABLE_KEY": "plain"}
        ran = subprocess.run(command, input=data, capture_output=True, env=env, cwd=self.work, timeout=120)
        return ran.returncode, ran.stdout, ran.stderr

    def report(self, name, ran):
        """Returns the error, the total and the rows of a report."""
        self.check(f"{name}: status and messages", (ran[0], ran[2]) == (0, b""), ran)
        header, *lines = ran[1].split(b"\n")[:-1] or [b"# error 0 of 0"]
        error, total = [int(word) for word in re.fullmatch(rb"# error (\d+) of (\d+)", header).groups()]
        rows = [line.split(b"\t", 2) for line in lines]
        return error, total, [(int(lower), int(upper), item) for lower, upper, item in rows]

    def is_sound(self, name, ran, sums, count, is_above=lambda number: True):
        """Checks a report against exact sums."""
        error, total, rows = self.report(name, ran)
        self.check(f"{name}: total", total == sums.total(), total)
        self.check(f"{name}: bounds", all(0 < lower <= sums[item] <= upper == lower + error for lower, upper, item in rows), rows)
        self.check(f"{name}: each once", len({row[2] for row in rows}) == len(rows) <= count, rows)
        uppers = [row[1] for row in rows]
        self.check(f"{name}: in order, above", uppers == sorted(uppers, reverse=True) and all(map(is_above, uppers)), uppers)
        listed = {row[2] for row in rows}
        missing = [weight for item, weight in sums.items() if weight > error and is_above(weight) and item not in listed]
        self.check(f"{name}: none is missing", not missing or len(rows) == count and max(missing) <= min(uppers, default=LAST), missing)
        return error, total

    def worked(self):
        """Checks reports that are written out by hand."""
        for words, data, wanted in [
            (["-f", "1", "-w", "2"], b"a 3\nb 2\na 4\n", b"# error 0 of 9\n7\t7\ta\n2\t2\tb\n"),
            (["-f", "1", "-w", "2"], b"a 0\nb 2\n\n a 007 x\r\n", b"# error 0 of 9\n7\t7\ta\n2\t2\tb\n"),
            (["-d", ",", "-f", "1", "-w", "2"], b"a,18446744073709551615\n", b"# error 0 of 18446744073709551615\n%d\t%d\ta\n" % (LAST, LAST)),
            (["-f", "2", "-w", "1"], b"x\n5 a\n1\n2 b", b"# error 0 of 7\n5\t5\ta\n2\t2\tb\n"),
            (["-d", ",", "-w", "2"], b"a b,3\nb,2\na b,3\n", b"# error 0 of 8\n6\t6\ta b,3\n2\t2\tb,2\n"),
            (["-f", "1", "-w", "2", "--above", "3"], b"a 3\nb 2\na 1\nc 3\n", b"# error 0 of 9\n4\t4\ta\n"),
            (["--above", "50%"], b"a\nb\na\nb\n", b"# error 0 of 4\n"),
            (["--above", "49.999999%", "-n", "1"], b"a\na\nb\nc\n", b"# error 0 of 4\n2\t2\ta\n"),
            (["--above", "25%"], b"a\na\nb\nc\n", b"# error 0 of 4\n2\t2\ta\n"),
            (["--above", "0"], b"b\n", b"# error 0 of 1\n1\t1\tb\n"),
            (["--above", "100%", "--error", "100%"], b"b\n", b"# error 0 of 1\n"),
        ]:
            ran = self.run("top", *words, data=data)
            self.check(f"{words} of {data}", ran == (0, wanted, b""), ran)

    def random_weights(self):
        """Checks weights and thresholds over random lines, in tables that are purged and in tables that are not."""
        rng = random.Random(11)
        for words, fields_of in CHOICES:
            for round in range(6):
                inputs = []
                for _ in range(2):
                    lines = []
                    for _ in range(rng.choice([0, 5, 400])):
                        item = rng.choice([b"a", b"b\xff", "é".encode(), b"item%d" % rng.randrange(200)])
                        weight = b"%d" % rng.choice([0, 1, 7, 1000, rng.randrange(10**6), 2**50])
                        first, second = (weight, item) if words == CHOICES[1][0] else (item, weight)
                        lines.append(b"x,%s,%s,y" % (first, second) if words[0] == "-d" else b" %s\t%s z" % (first, second))
                    inputs.append(b"\n".join(lines) + (rng.choice([b"", b"\n", b"\r\n"]) if lines else b""))
                names = [self.file(f"weights{n}", data) for n, data in enumerate(inputs)]
                sums = sums_of(inputs, fields_of)
                for size in [64, 4096]:
                    name = f"weights {words} {round} {size}"
                    self.is_sound(name, self.run("top", "--no-note", *words, "--size", size, "-n", 20, *names), sums, 20)
                    least = rng.choice([0, 1000, sums.total() // 50])
                    ran = self.run("top", "--no-note", *words, "--size", size, "--above", least, *names)
                    self.is_sound(f"{name} above {least}", ran, sums, LAST, lambda number: number > least)
                    share = rng.choice(["0%", "0.000001%", "1%", "2.5%", "33.333333%", "99.999999%", "100%"])
                    part = fractions.Fraction(share[:-1]) * sums.total() / 100
                    ran = self.run("top", "--no-note", *words, "--size", size, "--above", share, *names)
                    self.is_sound(f"{name} above {share}", ran, sums, LAST, lambda number: number > part)

    def same_as_repeated(self):
        """Checks that a weight counts as that number of lines, also in images."""
        rng = random.Random(12)
        pairs = [(b"item%d" % rng.randrange(30), rng.randrange(5)) for _ in range(300)]
        weighed = self.run("top", "-n", 100, "-f", 1, "-w", 2, "--save", "weighed", data=b"".join(b"%s %d\n" % pair for pair in pairs))
        repeated = self.run("top", "-n", 100, "--save", "repeated", data=b"".join(weight * (item + b"\n") for item, weight in pairs))
        self.check("weights and repeated lines", sorted(weighed[1].split(b"\n")) == sorted(repeated[1].split(b"\n")), weighed)
        sums = collections.Counter()
        for item, weight in pairs:
            sums[item] += 2 * weight
        ran = self.run("merge", "weighed", "repeated", "--above", "5%")
        self.is_sound("a merge of both", ran, +sums, LAST, lambda number: 20 * number > sums.total())

    def left_out(self):
        """Checks `--bad-weight` against sums without the lines whose weights are bad, and its note."""
        lines = [b"a -", b"b 3", b"a 2", b"c", b"", b"d 1e3", b"e 18446744073709551616", b"a +1", b"b 0", b"  ", b"f 4 x", b"\xff -"]
        rng = random.Random(9)
        for number in range(40):
            some = rng.choices(lines, k=rng.choice([0, 1, 2, 30]))
            table = [b",".join(line.split(b" ")[:2]) for line in some if line.strip()]
            for words, data, good in [([], b"".join(line + b"\n" for line in some), some), (["--csv", "--no-csv-header"], b"".join(line + b"\n" for line in table), some)]:
                fields = [line.split() for line in good if line.split()]
                bad = sum(len(each) < 2 or weight_of(each[1]) is None for each in fields)
                sums = collections.Counter()
                for each in fields:
                    sums[text_of(each[0])] += (weight_of(each[1]) or 0) if len(each) > 1 else 0
                rows = sorted(((weight, item) for item, weight in sums.items() if weight), key=lambda row: (-row[0], row[1]))
                not_utf8 = sum(b"\xff" in line for line in good)
                note = [b"", b"sketches: 1 line has no whole number as its weight: it is left out\n"][bad] if bad < 2 else (
                    b"sketches: %d lines have no whole number as their weights: they are left out\n" % bad)
                for value in ["0", "skip"]:
                    ran = self.run("top", *words, "-f", 1, "-w", 2, "--bad-weight", value, data=data)
                    header = b"# error 0 of %d" % sums.total()
                    found = sorted(ran[1].split(b"\n")[1:-1])
                    wanted = sorted(b"%d\t%d\t%s" % (weight, weight, item) for weight, item in rows)
                    said = b"".join(line for line in ran[2].splitlines(keepends=True) if b"UTF-8" not in line)
                    self.check(f"bad weights {number} {words} {value}", ran[0] == 0 and ran[1].split(b"\n")[0] == header and found == wanted, (ran, wanted))
                    self.check(f"bad weights {number} {words} {value}: notes", said == note and (b"UTF-8" in ran[2]) == (not_utf8 > 0), (ran[2], note))
                    quiet = self.run("top", *words, "-f", 1, "-w", 2, "--bad-weight", value, "--no-note", data=data)
                    self.check(f"bad weights {number} {words} {value}: no note", quiet == (0, ran[1], b""), quiet)
                    self.weighed_without(f"bad weights {number} {words} {value}: weigh", [*words, "--bad-weight", value], data, fields, note)
        for command in [["top"], ["weigh", "--keys", self.file("keys", b"a\n")]]:
            ran = self.run(*command, "-f", 1, "-w", 2, "--bad-weight", "none", data=b"a 1\n")
            self.check(f"{command[0]}: another word for bad weights", ran == (2, b"", b"sketches: --bad-weight must be skip or 0\n"), ran)
            ran = self.run(*command, "-f", 1, "--bad-weight", "0", data=b"a 1\n")
            self.check(f"{command[0]}: bad weights without weights", ran[:2] == (2, b"") and b"--weight" in ran[2], ran)
            ran = self.run(*command, "-f", 1, "-w", 2, data=b"a 1\na -\n")
            self.check(f"{command[0]}: a bad weight without the option", ran == (2, b"", b"sketches: -: line 2: bad weight '-'\n"), ran)

    def weighed_without(self, name, words, data, fields, note):
        """Checks `weigh` with `--bad-weight` against sums in which a bad weight is 0, and its note."""
        sums = collections.Counter()
        for each in fields:
            sums[each[0]] += (weight_of(each[1]) or 0) if len(each) > 1 else 0
        keys = [b"a", b"b", b"c", b"d", b"e", b"f", b"\xff", b"other"]
        options = ["--keys-field", 1] if "--csv" in words else []
        self.file("keys", b"".join(key + b"\n" for key in keys))
        wanted = b"# total %d\n" % sums.total() + b"".join(b"%d\t%s\n" % (sums[key], key) for key in keys)
        ran = self.run("weigh", *words, "-f", 1, "-w", 2, *options, "--keys", "keys", data=data)
        self.check(name, ran == (0, wanted, note), (ran, wanted, note))
        quiet = self.run("weigh", *words, "-f", 1, "-w", 2, *options, "--no-note", "--keys", "keys", data=data)
        self.check(f"{name}, no note", quiet == (0, wanted, b""), quiet)

    def bad_weights(self):
        """Checks the message of each bad weight: its file, its line in the file and its text."""
        blank = "\ufffd".encode()
        for text, shown in [
            (b"-1", b"-1"), (b"+1", b"+1"), (b"1.0", b"1.0"), (b"", b""), (b" 1", b" 1"), (b"1 ", b"1 "), (b"0x1", b"0x1"), (b"18446744073709551616", None),
            (b"99999999999999999999999999", None), (b"1\x1b[31m", b"1" + blank + b"[31m"), (b"\xff", blank), ("٣".encode(), None), (100 * b"z", 40 * b"z"),
            (b"\x7f\r\x00", 3 * blank), (60 * "é".encode(), 40 * "é".encode()), ("\u0085".encode(), blank),
        ]:
            shown = text if shown is None else shown
            for before in [b"", b"a,1\n", b"a,1\n\n" + 50000 * b"b,1\n"]:
                number = before.count(b"\n") + 1
                self.file("bad", before.replace(b"\n\n", b"\n,1\n") + b"a," + text + b",\na,0\n")
                ran = self.run("top", "-d", ",", "-f", 1, "-w", 2, self.file("good", b"a,1\nb,1\n"), "bad")
                said = b"sketches: bad: line %d: bad weight '%s'\n" % (number, shown)
                self.check(f"the weight {text[:30]} at line {number}", ran == (2, b"", said), ran)
        ran = self.run("top", "-f", 1, "-w", 3, data=b"a 1 1\na 1\n")
        self.check("a missing weight", ran == (2, b"", b"sketches: -: line 2: bad weight ''\n"), ran)
        ran = self.run("top", "-f", 2, "-w", 1, data=b"z\nz\n7 x\n")
        self.check("a line without an item", ran == (0, b"# error 0 of 7\n7\t7\tx\n", b""), ran)
        ran = self.run("top", "-f", 1, "-w", 2, data=b"a %d\nb 1\n" % LAST)
        self.check("too large a total", ran == (2, b"", b"sketches: the total weight exceeds 2^64 - 1\n"), ran)
        data = b"a 1\n" * (BLOCK // 4) + b"a x"
        ran = self.run("top", "-f", 1, "-w", 2, data=data)
        self.check("a bad weight in the second block", ran == (2, b"", b"sketches: -: line %d: bad weight 'x'\n" % (BLOCK // 4 + 1)), ran)

    def errors(self):
        """Checks that the error is at most the share that was asked for."""
        rng = random.Random(13)
        data = b"".join(b"%d %d\n" % (int(rng.paretovariate(0.6)) % 100000, rng.randrange(100)) for _ in range(60000))
        sums = sums_of([data], CHOICES[0][1])
        for share in ["100%", "20%", "5%", "1%", "0.5%", "0.2%", "0.195313%"]:
            ran = self.run("top", "-f", 1, "-w", 2, "--error", share, data=data)
            error, total = self.is_sound(f"an error of {share}", ran, sums, 10)
            self.check(f"an error of {share}: share", 100 * error <= fractions.Fraction(share[:-1]) * total, (error, total))

    def wrong_use(self):
        """Checks values that are not allowed."""
        above = b"sketches: --above must be a number below 2^64, or a percentage up to 100% with at most 6 decimals\n"
        for value in ["", "%", "x", "-1", "+1", "1.5", "18446744073709551616", "100.000001%", "101%", "1.%", ".5%", "1.0000000%", "1e1%", "-1%", "5%%", " 5%"]:
            ran = self.run("top", f"--above={value}", data=b"a\n")
            self.check(f"--above={value}", ran == (2, b"", above), ran)
        error = b"sketches: --error must be a percentage from 0.195313% to 100% with at most 6 decimals\n"
        for value in ["", "5", "0%", "0.195312%", "0.1%", "101%", "-1%", "x%"]:
            ran = self.run("top", f"--error={value}", data=b"a\n")
            self.check(f"--error={value}", ran == (2, b"", error), ran)
        for words in [["-w", "0"], ["-w", "x"], ["-w", "-0"], ["--words", "-w", "1"], ["--error", "1%", "--size", "64"], ["-d", ","],
                      ["-d", ",,", "-f", "1", "-w", "2"]]:
            ran = self.run("top", *words, data=b"a 1\n")
            self.check(f"{words}", ran[:2] == (2, b"") and ran[2], ran)


def main():
    words = sys.argv[1:]
    with tempfile.TemporaryDirectory() as work:
        tests = Tests(words[0], work)
        tests.worked()
        tests.random_weights()
        tests.same_as_repeated()
        tests.bad_weights()
        tests.left_out()
        tests.errors()
        tests.wrong_use()
    tests.end()


main()
