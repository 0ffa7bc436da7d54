"""Checks `sketches join` against Python's sets, for `sketches.py`."""
import os
import random
import re

from texts import text_of

BLOCK = 1 << 18
NOTE = rb"sketches: (\d+) lines? left out; the filter is (\d+)% full: (?:about 1 in (\d+)|fewer than 1 in 10\^12) other items is taken for a key\n"

# Sizes of a filter that has no false positive for so few keys.
LARGE = [["--items", "200000"], ["--items", "100000", "--false-positives", "100000"], ["--bits", "4000000", "--hashes", "12"]]


class Joins:
    def __init__(self, tests, selections, pieces, raw_lines_of):
        self.tests = tests
        self.selections = [(words, items_of) for words, items_of in selections if "--words" not in words]
        self.pieces = pieces
        self.raw_lines_of = raw_lines_of

    def run(self):
        self.worked()
        self.random_bytes()
        self.cuts()
        self.sizes()
        self.statuses()
        self.failures_in_turn()

    def check(self, name, holds, said=""):
        self.tests.check(name, holds, said)

    def keys_of(self, data, items_of):
        """Returns the set of keys of a file."""
        return {item for _, line in self.raw_lines_of(data) for item in items_of(line)}

    def joined(self, inputs, items_of, keys, inverted=False):
        """Returns the lines of the inputs whose item is a key, or the others, and the number of lines left out."""
        lines = [(raw, items_of(line)) for data in inputs for raw, line in self.raw_lines_of(data)]
        written = [raw for raw, items in lines if any(item in keys for item in items) != inverted]
        return text_of(written), len(lines) - len(written)

    def is_joined(self, name, ran, inputs, items_of, keys, inverted=False, status=0, said=b""):
        """Checks what `join` wrote, and its note, for so few keys that the filter has no false positive."""
        written, left_out = self.joined(inputs, items_of, keys, inverted)
        self.check(f"{name}: status", ran[0] == status, ran)
        self.check(f"{name}: lines", ran[1] == written, (ran[1][:200], written[:200]))
        found = re.fullmatch(re.escape(said) + NOTE, ran[2])
        self.check(f"{name}: note", found and int(found[1]) == left_out and int(found[3] or 10**12) > 10**8, ran[2])

    def worked(self):
        """Checks lines that are written out by hand."""
        for words, keys, data, wanted in [
            ([], b"", b"a\n\n", b""),
            (["-v"], b"", b"a\n\nb", b"a\n\nb"),
            ([], b"b\nc", b"a\nb\r\nb\nc", b"b\r\nb\nc"),
            (["--invert-match"], b"b\nc", b"a\nb\r\nb\nc", b"a\n"),
            ([], b"b\r\n", b"b\nb\r", b"b\n"),
            ([], b"\n", b"a\n\n \n", b"\n"),
            ([], b"\xff\nx", b"\xff\n\xfe\n\xef\xbf\xbd\nx", b"\xff\nx"),
            ([], b"a\0b\n", b"a\na\0b\na\0c\n", b"a\0b\n"),
            (["-f", "2"], b"1\n", b"x 1\ny 2\nz\n1\n  w\t1 q", b"x 1\n  w\t1 q"),
            (["-f", "2", "-v"], b"1\n", b"x 1\ny 2\nz\n1\n", b"y 2\nz\n1\n"),
            (["--keys-field", "2"], b"x 1\ny\nz 2 3\n", b"1\n2\n3\ny\n", b"1\n2\n"),
            (["-d", ",", "-f", "2", "--keys-field", "1"], b"1,x\n,y", b"a,1\nb\nc,,1\n1,\n", b"a,1\nc,,1\n1,\n"),
            (["-d", ",", "--keys-field", "2"], b"a,b c\n", b"b c\na\n", b"b c\n"),
        ]:
            ran = self.tests.run(["join", "--no-note", *LARGE[0], *words, "--keys", self.tests.file("keys", keys)], data)
            self.check(f"join {words} of {data} with {keys}", ran[:3] == (0, wanted, b""), ran)

    def random_bytes(self):
        """Checks each choice of items and of keys over random bytes, from files and from standard input."""
        rng = random.Random(5)
        for round in range(6):
            inputs = [b"".join(rng.choices(self.pieces, k=rng.choice([0, 1, 7, 300, 3000]))) for _ in range(3)]
            keys = b"".join(rng.choices(self.pieces, k=rng.choice([0, 5, 300, 1500])))
            names = [self.tests.file(f"random{n}", data) for n, data in enumerate(inputs)]
            self.tests.file("keys", keys)
            for words, items_of in self.selections:
                if "-f" not in words and "--field" not in words:
                    options, keyed = words, lambda line: [line]
                else:
                    field = rng.choice(["1", "2", "3"])
                    number = words.index("-f") if "-f" in words else words.index("--field")
                    options = [*words, "--keys-field", field]
                    same = [*words[:number + 1], field, *words[number + 2:]]
                    keyed = self.items_of(same)
                known = self.keys_of(keys, keyed)
                for inverted in [[], ["-v"]]:
                    name = f"join of random bytes {round} {options} {inverted}"
                    size = rng.choice(LARGE)
                    ran = self.tests.run(["join", *options, *inverted, *size, "--keys", "keys", *names], key=None)
                    self.is_joined(name, ran, inputs, items_of, known, bool(inverted))
                    ran = self.tests.run(["join", *options, *inverted, *size, "--keys", "-", *names], keys)
                    self.is_joined(f"{name}, keys of -", ran, inputs, items_of, known, bool(inverted))
                    ran = self.tests.run(["join", *options, *inverted, "--keys", "keys", "--no-note"], inputs[0])
                    wanted = self.joined(inputs[:1], items_of, known)[0].splitlines(True)
                    self.check(f"{name}: default size", ran[0] == 0 and not ran[2], ran)
                    if not inverted:
                        rest = iter(ran[1].splitlines(True))
                        self.check(f"{name}: no line is lost", all(line in rest for line in wanted), ran)
                    else:
                        lines = [items for _, line in self.raw_lines_of(ran[1]) for items in items_of(line)]
                        self.check(f"{name}: none is a key", not known.intersection(lines), ran)

    def items_of(self, words):
        """Returns the items of a line that options choose, of which one is a field."""
        number = int(words[-1]) - 1
        if words[0] in ("-d", "--delimiter"):
            return lambda line: line.split(words[1].encode())[number:number + 1]
        return lambda line: [word for word in re.split(rb"[ \t\n\x0c\r]+", line) if word][number:number + 1]

    def cuts(self):
        """Cuts keys and lines at each place: by reads of a few bytes, and by a block that ends there."""
        data = b"ab\r\n\r\n\xe2\x82\xac b\n\xe2\x82\nab\r\na \xf0\x9f\x98\x80 c\r\r\n\n\xe2\x82\xac b\nab"
        keys = b"\xe2\x82\xac b\r\n\xe2\x82\nq\nab"
        whole = lambda line: [line]
        known = self.keys_of(keys, whole)
        self.tests.file("keys", keys)
        for step in range(1, len(data) + 1):
            ran = self.tests.run(["join", *LARGE[0], "--keys", "keys"], data, READ_STEP=step)
            self.is_joined(f"join by reads of {step} bytes", ran, [data], whole, known)
        self.tests.file("lines", data)
        for step in range(1, len(keys) + 1):
            ran = self.tests.run(["join", *LARGE[0], "--keys", "-", "lines"], keys, READ_STEP=step)
            self.is_joined(f"join with keys by reads of {step} bytes", ran, [data], whole, known)
        for cut in range(len(data) + 1):
            lead = b"x" * (BLOCK - cut - 1) + b"\n"
            ran = self.tests.run(["join", *LARGE[0], "-v", "--keys", "keys"], lead + data)
            self.is_joined(f"join of a block that ends at {cut}", ran, [lead + data], whole, known, True)
        for cut in range(len(keys) + 1):
            lead = b"x" * (BLOCK - cut - 1) + b"\n"
            self.tests.file("long_keys", lead + keys)
            ran = self.tests.run(["join", *LARGE[0], "--keys", "long_keys"], data)
            self.is_joined(f"join with a block of keys that ends at {cut}", ran, [data], whole, known)

    def sizes(self):
        """Checks that no key is missed, how many other lines are printed, and the note, for each way to size the filter."""
        keys = [b"key %d" % n for n in range(20000)]
        others = [b"other %d" % n for n in range(50000)]
        rng = random.Random(6)
        lines = rng.sample(keys + others, 70000)
        self.tests.file("keys", b"\n".join(keys))
        data = b"".join(line + b"\n" for line in lines)
        known = set(keys)
        for words, questions in [([], 1000), (["--false-positives", "10"], 10), (["--items", "20000", "--false-positives", "100"], 100),
                                 (["--bits", "200000", "--hashes", "7"], 120)]:
            ran = self.tests.run(["join", "--keys", "keys", *words], data)
            shown = ran[1].split(b"\n")[:-1]
            name = f"join by size {words}"
            extra = [line for line in shown if line not in known]
            chosen = set(shown)
            self.check(f"{name}: status", ran[0] == 0, ran[2])
            self.check(f"{name}: no key is lost, and lines are in order", shown == [line for line in lines if line in known or line in chosen])
            self.check(f"{name}: few others", len(extra) * questions <= 1.5 * len(others) + 10 * questions, len(extra))
            found = re.fullmatch(NOTE, ran[2])
            self.check(f"{name}: left out", found and int(found[1]) == len(lines) - len(shown), ran[2])
            self.check(f"{name}: full", 40 <= int(found[2]) <= 60, ran[2])
            self.check(f"{name}: rate", 0.8 * questions <= int(found[3]) <= 2 * questions, ran[2])
            ran = self.tests.run(["join", "--keys", "keys", "-v", *words], data)
            self.check(f"{name}: the others", ran[1].split(b"\n")[:-1] == [line for line in lines if line not in chosen])
        lines = b"".join(b"%015d\n" % n for n in range(100000))
        self.tests.file("lines", lines)
        for words, data, low, high in [(["lines"], b"", 38, 47), (["lines", "lines"], b"", 20, 28), ([], lines, 0, 2)]:
            ran = self.tests.run(["uniq", *words], data)
            found = re.search(rb"the filter is (\d+)% full", ran[2])
            self.check(f"uniq of {words}: size", ran[0] == 0 and low <= int(found[1]) <= high, ran[2])

    def statuses(self):
        """Checks keys and lines that cannot be read, wrong use, and devices that fail."""
        run = self.tests.run
        self.tests.file("keys", b"b\n")
        self.tests.file("one", b"a\nb")
        self.tests.file("two", b"b\nc\n")
        whole = lambda line: [line]
        join = ["join", *LARGE[0], "--keys", "keys"]
        self.is_joined("join of two files", run([*join, "one", "two"]), [b"a\nb", b"b\nc\n"], whole, {b"b"})
        self.is_joined("join of a file and -", run([*join, "one", "-"], b"b\nc\n"), [b"a\nb", b"b\nc\n"], whole, {b"b"})
        absent = b"sketches: none: No such file or directory (os error 2)\n"
        ran = run([*join, "none", "two"])
        self.is_joined("join of an absent file", ran, [b"b\nc\n"], whole, {b"b"}, status=1, said=absent)
        for size in [[], LARGE[0]]:
            ran = run(["join", *size, "--keys", "none", "one"])
            self.check(f"absent keys {size}", ran[:3] == (2, b"", absent), ran)
            ran = run(["join", *size, "--keys", ".", "-v", "one"])
            self.check(f"a folder as keys {size}", ran[:3] == (2, b"", b"sketches: .: Is a directory (os error 21)\n"), ran)
            long = b"sketches: keys: a line is longer than --max-line\n"
            self.tests.file("keys", b"b\nccc\n")
            ran = run(["join", *size, "--max-line", "2", "--keys", "keys", "one"])
            self.check(f"long keys {size}", ran[:3] == (2, b"", long), ran)
            self.tests.file("keys", b"b\n")
        ran = run([*join, "--max-line", "2"], b"b\nccc\n")
        said = b"sketches: -: a line is longer than --max-line\n"
        self.check("join of a long line", ran[0] == 2 and ran[1] in (b"", b"b\n") and ran[2] == said, ran)
        bad = b"sketches: --items must be at least 1, --false-positives at least 2, --bits from 1 to 2^37 - 64, and --hashes from 1 to 32767\n"
        for words in [["--items", "0"], ["--false-positives", "1"], ["--items", str(2**64 - 1)], ["--bits", "0", "--hashes", "1"],
                      ["--bits", str(2**37 - 63), "--hashes", "1"], ["--bits", "64", "--hashes", "0"], ["--bits", "64", "--hashes", "32768"]]:
            ran = run(["join", "--keys", "keys", *words], b"a\n")
            self.check(f"join {words}", ran[:3] == (2, b"", bad), ran)
        for words in [[], ["--keys", "-"], ["--keys", "-", "one", "-"], ["--keys", "keys", "-d", ","], ["--keys", "keys", "-f", "0"],
                      ["--keys", "keys", "--bits", "64"], ["--keys", "keys", "--hashes", "3"], ["--keys", "keys", "-f", "1", "-d", "é"],
                      ["--keys", "keys", "--bits", "64", "--hashes", "3", "--items", "3"], ["--keys", "keys", "--key", "00"]]:
            ran = run(["join", *words], b"a\n")
            self.check(f"join {words}", ran[:2] == (2, b"") and ran[2], ran)
        with open("/dev/full", "wb") as full:
            ran = run(join, b"b\n", stdout=full)
            self.check("join and a full device", (ran[0], ran[2]) == (2, b"sketches: output: No space left on device (os error 28)\n"), ran)
        reader, writer = os.pipe()
        os.close(reader)
        ran = run(join, b"b\n", stdout=writer)
        os.close(writer)
        self.check("join and a closed pipe", (ran[0], ran[2]) == (0, b""), ran)

    def failures_in_turn(self):
        """Fails each allocation, each read and each write in turn, and interrupts each read and each write."""
        run = self.tests.run
        self.tests.file("keys", b"a\nc\xff")
        data = b"a\nb\na\xff\nc\xff\nd" + b"x" * BLOCK
        for words in [["join", "--keys", "keys"], ["join", "-v", *LARGE[2], "--keys", "keys"]]:
            done = run(words, data)
            n = 1
            while True:
                ran = run(words, data, REFUSED_AT=n)
                self.check(f"{words}, allocation {n}: all memory is freed", ran[3][2] == 0, ran)
                if ran[3][1] == 0:
                    self.check(f"{words}, no allocation fails", ran[:3] == done[:3], ran)
                    break
                ended = ran[0] == 2 and done[1].startswith(ran[1]) and ran[2]
                self.check(f"{words}, allocation {n}", ended or ran[:3] == done[:3], ran)
                n += 1
        short = b"a\nb\nc\xff\na"
        words = ["join", *LARGE[0], "--keys", "keys"]
        known = {b"a", b"c\xff"}
        whole = lambda line: [line]
        self.tests.file("lines", short)
        for which in ["FAILS_READ_AT", "FAILS_WRITE_AT"]:
            for interrupted in [{}, {"INTERRUPTED": 1}]:
                n = 1
                while True:
                    ran = run(words, short, **{which: n, "READ_STEP": 1, **interrupted})
                    name = f"join, {which} {n} {interrupted}"
                    if ran[3][1] == 0 or interrupted:
                        self.is_joined(name, ran, [short], whole, known)
                    elif which == "FAILS_WRITE_AT":
                        ended = ran[0] == 2 and ran[2].startswith(b"sketches: output: ")
                        self.check(name, ended and self.joined([short], whole, known)[0].startswith(ran[1]), ran)
                    else:
                        read = short[: n - 1]
                        said = b"sketches: -: Input/output error (os error 5)\n"
                        self.is_joined(name, ran, [read[: read.rfind(b"\n") + 1]], whole, known, status=1, said=said)
                    if ran[3][1] == 0:
                        break
                    n += 1
        for interrupted in [{}, {"INTERRUPTED": 1}]:
            n = 1
            while True:
                ran = run(["join", *LARGE[0], "--keys", "-", "lines"], b"a\nc\xff", FAILS_READ_AT=n, READ_STEP=1, **interrupted)
                name = f"join, a read of keys {n} {interrupted}"
                if ran[3][1] == 0 or interrupted:
                    self.is_joined(name, ran, [short], whole, known)
                else:
                    self.check(name, ran[:3] == (2, b"", b"sketches: -: Input/output error (os error 5)\n"), ran)
                if ran[3][1] == 0:
                    break
                n += 1
