"""Checks `sketches weigh` against Python's dictionaries, for `sketches.py`."""
import collections
import os
import random

BLOCK = 1 << 18

# Exact numbers, and estimates that are exact for few items.
MODES = [[], ["--error", "0.001%"]]


class Weights:
    def __init__(self, tests, selections, pieces, raw_lines_of):
        self.tests = tests
        self.selections = [(words, items_of) for words, items_of in selections if "--words" not in words]
        self.pieces = pieces
        self.raw_lines_of = raw_lines_of

    def run(self):
        self.worked()
        self.weighed()
        self.random_bytes()
        self.cuts()
        self.once()
        self.many_items()
        self.many_keys()
        self.statuses()
        self.failures_in_turn()

    def check(self, name, holds, said=""):
        self.tests.check(name, holds, said)

    def items(self, data, items_of):
        """Returns the items of the lines of a file, in order."""
        return [item for _, line in self.raw_lines_of(data) for item in items_of(line)]

    def weights_of(self, inputs, items_of):
        """Returns how often each item occurs."""
        return collections.Counter(item for data in inputs for item in self.items(data, items_of))

    def weighed(self):
        """Checks weights of fields, bad weights with their places, and totals around the maximum."""
        bad = lambda line, text: b"sketches: -: line %d: bad weight '%s'\n" % (line, text)
        most = 2**64 - 1
        for words, data, status, wanted in [
            (["-f", "1", "-w", "2"], b"a 5\nb 7\na  11\n\nc 0\n", 0, b"# total 23\n16\ta\n7\tb\n0\tc\n"),
            (["-f", "2", "-w", "1"], b"5 a\r\n7 b\r\n3\n\n", 0, b"# total 12\n5\ta\n7\tb\n0\tc\n"),
            (["-w", "1"], b"7\n07\n7", 0, b"# total 21\n0\ta\n0\tb\n0\tc\n"),
            (["-d", ",", "-f", "1", "-w", "3"], b"a,,5\nb,,0\n\xff,x,2\na,q,1,,", 0, b"# total 8\n6\ta\n0\tb\n0\tc\n"),
            (["-f", "1", "-w", "2"], b"a %d\n" % most, 0, b"# total %d\n%d\ta\n0\tb\n0\tc\n" % (most, most)),
            (["-f", "1", "-w", "2"], b"a %d\nb 0\nb 1\n" % most, 2, b"sketches: the total weight exceeds 2^64 - 1\n"),
            (["-f", "1", "-w", "2"], b"a %d\nb %d\n" % (most, most), 2, b"sketches: the total weight exceeds 2^64 - 1\n"),
            (["-f", "1", "-w", "2"], b"a 1\n\na %d\n" % (most + 1), 2, bad(3, b"%d" % (most + 1))),
            (["-f", "1", "-w", "2"], b"a 1\na\n", 2, bad(2, b"")),
            (["-f", "1", "-w", "2"], b"a -1\n", 2, bad(1, b"-1")),
            (["-f", "1", "-w", "2"], b"a +1\n", 2, bad(1, b"+1")),
            (["-f", "1", "-w", "2"], b"a 1.0\n", 2, bad(1, b"1.0")),
            (["-f", "1", "-w", "2"], b"a 1\na 1\0\n", 2, bad(2, b"1\xef\xbf\xbd")),
            (["-f", "1", "-w", "2"], b"a " + 100 * b"x", 2, bad(1, 40 * b"x")),
            (["-d", ",", "-f", "1", "-w", "2"], b"a, 1\n", 2, bad(1, b" 1")),
            (["-d", ",", "-f", "1", "-w", "2"], b"a,\n", 2, bad(1, b"")),
        ]:
            self.tests.file("keys", b"a\nb\nc\n")
            ran = self.tests.run(["weigh", *words, "--keys", "keys"], data)
            out, said = (wanted, b"") if status == 0 else (b"", wanted)
            self.check(f"weigh {words} of {data}", ran[:3] == (status, out, said), ran)
        self.tests.file("first", b"a 1\nb 2\n")
        self.tests.file("second", b"a 3\nb x\n")
        ran = self.tests.run(["weigh", "-f", "1", "-w", "2", "--keys", "keys", "first", "second"])
        self.check("weigh a bad weight of a second file", ran[:3] == (2, b"", b"sketches: second: line 2: bad weight 'x'\n"), ran)
        rng = random.Random(9)
        for delimiter, words in [(b" ", []), (b",", ["-d", ","])]:
            lines = [(b"k%d" % rng.randrange(50), rng.choice([0, 1, 7, 10**9, 2**40])) for _ in range(3000)]
            weights = collections.Counter()
            for item, weight in lines:
                weights[item] += weight
            data = b"".join(item + delimiter + b"%d\n" % weight for item, weight in lines)
            keys = [b"k%d" % n for n in range(60)]
            self.tests.file("keys", b"".join(key + b"\n" for key in keys))
            for how in MODES:
                ran = self.tests.run(["weigh", *words, *how, "-f", "1", "-w", "2", "--keys", "keys"], data)
                self.is_exact(f"weigh 3000 lines {words} {how}", ran, keys, weights)

    def rows(self, name, ran, keys, weights, status=0, said=b""):
        """Checks the status, the header, the keys and their order. Returns the numbers."""
        self.check(f"{name}: status and messages", (ran[0], ran[2]) == (status, said), ran)
        total = b"# total %d\n" % sum(weights.values())
        self.check(f"{name}: total", ran[1].startswith(total), (ran[1][:100], total))
        rest = ran[1][len(total):]
        numbers = []
        for key in keys:
            number, _, after = rest.partition(b"\t")
            if not number.isdigit() or not after.startswith(key + b"\n"):
                break
            numbers.append(int(number))
            rest = after[len(key) + 1:]
        self.check(f"{name}: keys", rest == b"" and len(numbers) == len(keys), rest[:100])
        return numbers

    def is_exact(self, name, ran, keys, weights, status=0, said=b""):
        """Checks that `weigh` wrote the weight of each key. With `--error` this holds for few items."""
        numbers = self.rows(name, ran, keys, weights, status, said)
        self.check(f"{name}: exact", numbers == [weights[key] for key in keys], (numbers, [weights[key] for key in keys]))

    def worked(self):
        """Checks lines that are written out by hand."""
        for words, keys, data, wanted in [
            ([], b"", b"a\n\n", b"# total 2\n"),
            ([], b"b\na\nc\nb", b"b\na\r\nb", b"# total 3\n2\tb\n1\ta\n0\tc\n2\tb\n"),
            (["--no-header"], b"\n\r\n", b"\n\na\n", b"2\t\n2\t\n"),
            (["--no-header"], b"", b"a\n", b""),
            ([], b"\xff\n\xef\xbf\xbd\na\tb\0\n", b"\xff\n\xff\n\xfe\na\tb\0", b"# total 4\n2\t\xff\n0\t\xef\xbf\xbd\n1\ta\tb\0\n"),
            (["-f", "2"], b"1\n2\n", b"x 1\ny 2\nz\n w  1\tq", b"# total 3\n2\t1\n1\t2\n"),
            (["--keys-field", "2"], b"x b\ny\nz  a q\n", b"a\nb\na\n", b"# total 3\n1\tb\n2\ta\n"),
            (["-d", ",", "-f", "2", "--keys-field", "1"], b"b,x\n,y\nb", b"x,\ny,b,z\nw\n,b\n", b"# total 3\n2\tb\n1\t\n2\tb\n"),
            (["-d", ",", "--keys-field", "2"], b"b,x\n,y\nb", b"x\ny\ny\n", b"# total 3\n1\tx\n2\ty\n"),
        ]:
            self.tests.file("keys", keys)
            ran = self.tests.run(["weigh", *words, "--keys", "keys"], data)
            self.check(f"weigh {words} of {data}", ran[:3] == (0, wanted, b""), ran)
            if not words or words[0] != "--keys-field":
                self.tests.file("inputs", data)
                ran = self.tests.run(["weigh", *words, "--keys", "-", "inputs"], keys)
                self.check(f"weigh {words} of {data} by keys of standard input", ran[:3] == (0, wanted, b""), ran)

    def random_bytes(self):
        """Checks each choice of items over random bytes, with keys that occur and others."""
        rng = random.Random(7)
        for round in range(6):
            inputs = [b"".join(rng.choices(self.pieces, k=rng.choice([0, 1, 7, 300, 3000]))) for _ in range(3)]
            names = [self.tests.file(f"random{n}", data) for n, data in enumerate(inputs)]
            others = b"".join(rng.choices(self.pieces, k=300))
            for words, items_of in self.selections:
                for keys_words, keys_of in rng.sample(self.selections, 2):
                    delimiters = [w[w.index(d) + 1] for w in (words, keys_words) for d in ("-d", "--delimiter") if d in w]
                    if len(delimiters) == 1 or len(set(delimiters)) == 2:
                        # both fields have the one delimiter
                        continue
                    data = inputs[0] + b"\n" + others
                    self.tests.file("keys", data)
                    field = [keys_words[-1]] if keys_words else []
                    choice = [*words, *(["--keys-field", *field] if field else [])]
                    for how in MODES:
                        name = f"weigh random bytes {round} {choice} {how}"
                        ran = self.tests.run(["weigh", *choice, *how, "--keys", "keys", *names], key=rng.choice([None, "plain"]))
                        self.is_exact(name, ran, self.items(data, keys_of), self.weights_of(inputs, items_of))

    def cuts(self):
        """Cuts the inputs and the keys at each place: by reads of a few bytes, and by a block that ends there."""
        whole = lambda line: [line]
        data = b"ab\r\n\r\n\xe2\x82\xac b\n\xe2\x82\nab\r\na \xf0\x9f\x98\x80 c\r\r\n\n\xe2\x82\xac b\nab"
        self.tests.file("keys", data)
        for step in range(1, len(data) + 1):
            for how in MODES:
                ran = self.tests.run(["weigh", *how, "--keys", "keys"], data, READ_STEP=step)
                self.is_exact(f"weigh {how} by reads of {step} bytes", ran, self.items(data, whole), self.weights_of([data], whole))
        for cut in range(len(data) + 1):
            more = b"x" * (BLOCK - cut - 1) + b"\n" + data
            self.tests.file("keys", more)
            for how in MODES:
                ran = self.tests.run(["weigh", *how, "--keys", "keys"], more)
                self.is_exact(f"weigh {how} with a block that ends at {cut}", ran, self.items(more, whole), self.weights_of([more], whole))
        for limit in [1, 5, BLOCK - 1, BLOCK, 3 * BLOCK]:
            for length in [limit - 1, limit, limit + 1]:
                for end in [b"\n", b""]:
                    long = b"\n" + length * b"x" + end
                    for keys, data, how in [(b"\n", long, []), (long, b"\n", []), (long, b"\n", MODES[1])]:
                        self.tests.file("keys", keys)
                        ran = self.tests.run(["weigh", *how, "--max-line", limit, "--keys", "keys"], data)
                        name = f"weigh {how} with limit {limit}, a line of {length} and {end}"
                        if length <= limit:
                            self.is_exact(name, ran, self.items(keys, whole), self.weights_of([data], whole))
                        else:
                            place = b"-" if data == long else b"keys"
                            said = b"sketches: %s: a line is longer than --max-line\n" % place
                            self.check(name, ran[0] == 2 and ran[2] == said, ran)
                            self.check(f"{name}: nothing printed", bool(how) or ran[1] == b"", ran)

    def once(self):
        """Checks 100,000 keys that occur once each."""
        keys = [b"item%d" % n for n in range(100000)]
        data = b"".join(key + b"\n" for key in keys)
        self.tests.file("keys", data)
        ran = self.tests.run(["weigh", "--keys", "keys"], data)
        self.check("weigh keys that occur once", ran[:3] == (0, b"# total 100000\n" + b"".join(b"1\t" + key + b"\n" for key in keys), b""), ran[1][:100])

    def many_keys(self):
        """Checks the maximum number of distinct keys: an error comes before the input is read."""
        said = b"sketches: the file of keys has more distinct keys than --max-keys: use a larger one, or --error for estimates\n"
        for keys, distinct in [(b"", 0), (b"a", 1), (b"a\na\na\n", 1), (b"a\nb\na\n\n", 3), (b"".join(b"%d\n" % (n % 5000) for n in range(9000)), 5000)]:
            self.tests.file("keys", keys)
            words = keys.split(b"\n")[: keys.count(b"\n")] + ([b"a"] if keys == b"a" else [])
            for most in {0, 1, max(distinct - 1, 0), distinct, distinct + 1, 2**32 - 1}:
                name = f"weigh {distinct} distinct keys, at most {most}"
                ran = self.tests.run(["weigh", "--max-keys", most, "--keys", "keys"], b"a\nb\na\n")
                if distinct <= most:
                    self.is_exact(name, ran, words, collections.Counter([b"a", b"b", b"a"]))
                else:
                    self.check(name, ran[:3] == (2, b"", said), ran)
        for words in [["--max-keys", "x"], ["--max-keys", "-1"], ["--max-keys", "4294967296"], ["--max-keys", "5", "--error", "1%"], ["--max-keys", "5", "--outliers", "9"]]:
            ran = self.tests.run(["weigh", *words, "--keys", "keys"], b"a\n")
            self.check(f"weigh {words}", ran[:2] == (2, b"") and ran[2], ran)

    def many_items(self):
        """Checks bounds over more items than buckets, and the share of numbers above the error."""
        rng = random.Random(8)
        names = [b"item%d" % n for n in range(20000)]
        stream = rng.choices(names, [1 / (n + 1) for n in range(20000)], k=60000)
        weights = collections.Counter(stream)
        keys = names + [b"other%d" % n for n in range(2000)]
        self.tests.file("keys", b"".join(key + b"\n" for key in keys))
        data = b"".join(line + b"\n" for line in stream)
        for error, parts in [("100%", 1), ("33.333333%", 4), ("1%", 100), ("0.1%", 1000), ("0.05%", 2000)]:
            for outliers in [2, 1000]:
                for key in ["plain", None]:
                    name = f"weigh with error {error}, one outlier in {outliers}, key {key}"
                    ran = self.tests.run(["weigh", "--error", error, "--outliers", outliers, "--keys", "keys"], data, key=key)
                    numbers = self.rows(name, ran, keys, weights)
                    self.check(f"{name}: none too small", all(n >= weights[k] for n, k in zip(numbers, keys)))
                    self.check(f"{name}: none above the total", max(numbers) <= 60000)
                    above = sum(n > weights[k] + 60000 // parts for n, k in zip(numbers, keys))
                    self.check(f"{name}: few outliers", above * outliers <= 2 * len(keys), above)
        for key in ["plain", None]:
            self.is_exact(f"weigh 22000 keys, key {key}", self.tests.run(["weigh", "--keys", "keys"], data, key=key), keys, weights)

    def statuses(self):
        """Checks files that cannot be read, wrong use, and devices that fail."""
        whole = lambda line: [line]
        self.tests.file("one", b"a\nb")
        self.tests.file("two", b"b\nc\n")
        self.tests.file("keys", b"b\nq\n")
        both = [b"a\nb", b"b\nc\n"]
        self.is_exact("weigh two files", self.tests.run(["weigh", "--keys", "keys", "one", "two"]), [b"b", b"q"], self.weights_of(both, whole))
        absent = b"sketches: none: No such file or directory (os error 2)\n"
        ran = self.tests.run(["weigh", "--keys", "keys", "none", "two"])
        self.is_exact("weigh an absent file", ran, [b"b", b"q"], self.weights_of(both[1:], whole), status=1, said=absent)
        ran = self.tests.run(["weigh", "--keys", "none", "one"])
        self.check("weigh without the file of keys", ran[:3] == (2, b"", absent), ran)
        ran = self.tests.run(["weigh", "--keys", ".", "one"])
        self.check("weigh by a folder", ran[:3] == (2, b"", b"sketches: .: Is a directory (os error 21)\n"), ran)
        few = b"sketches: --outliers must be at least 2\n"
        large = b"sketches: the sketch for --error and --outliers has 2^30 cells or more: use a larger --error or a smaller --outliers\n"
        for words in [["--outliers", "0"], ["--outliers", "1"], ["--error", "0.000001%"], ["--error", "0.0000005%"]]:
            ran = self.tests.run(["weigh", *words, "--keys", "keys"], b"a\n")
            if words[1] == "0.0000005%":
                self.check(f"weigh {words}", ran[0] == 2 and ran[1] == b"" and ran[2].startswith(b"sketches: --error must be"), ran)
            else:
                self.check(f"weigh {words}", ran[:3] == (2, b"", few if words[0] == "--outliers" else large), ran)
        for words in [["--error", value] for value in ["", "%", "0%", "0.0%", "100.1%", "101%", "1", "x%", "-1%", "+1%", "1.%", ".5%", "1.2.3%", "1e1%", "1000%"]] + [
            ["-d", ","], ["-f", "1", "-d", ",,"], ["-f", "0"], ["-w", "0"], ["-w", "x"], ["--keys-field", "0"], ["--words"], ["--outliers", "-1"], ["--key", "00"], ["-"],
        ]:
            if words == ["-"]:
                words = ["--keys", "-"]
                ran = self.tests.run(["weigh", *words], b"a\n")
            else:
                ran = self.tests.run(["weigh", *words, "--keys", "keys"], b"a\n")
            self.check(f"weigh {words}", ran[:2] == (2, b"") and ran[2], ran)
        ran = self.tests.run(["weigh", "one"])
        self.check("weigh without --keys", ran[:2] == (2, b"") and ran[2], ran)
        with open("/dev/full", "wb") as full:
            ran = self.tests.run(["weigh", "--keys", "keys"], b"a\n", stdout=full)
            self.check("weigh and a full device", (ran[0], ran[2]) == (2, b"sketches: output: No space left on device (os error 28)\n"), ran)
        reader, writer = os.pipe()
        os.close(reader)
        ran = self.tests.run(["weigh", "--keys", "keys"], b"a\n", stdout=writer)
        os.close(writer)
        self.check("weigh and a closed pipe", (ran[0], ran[2]) == (0, b""), ran)

    def failures_in_turn(self):
        """Fails each allocation, each read and each write in turn, and interrupts each read and each write."""
        whole = lambda line: [line]
        data = b"".join(b"line %d\xff %d\n" % (n % 40, n) for n in range(200)) + 20 * b"\n" + b"x" * BLOCK
        self.tests.file("keys", data)
        for how in [[], ["--error", "1%"]]:
            words = ["weigh", *how, "--keys", "keys"]
            done = self.tests.run(words, data)
            n = 1
            while True:
                ran = self.tests.run(words, data, REFUSED_AT=n)
                self.check(f"weigh {how}, allocation {n}: all memory is freed", ran[3][2] == 0, ran)
                if ran[3][1] == 0:
                    self.check(f"weigh {how}, no allocation fails", ran[:3] == done[:3], ran)
                    break
                ended = ran[0] == 2 and done[1].startswith(ran[1]) and ran[2]
                self.check(f"weigh {how}, allocation {n}", ended or ran[:3] == done[:3], ran)
                n += 1
        short = b"a\nb\na\nb\nc"
        listed = b"b\nq\na"
        self.tests.file("keys", listed)
        keys = [b"b", b"q", b"a"]
        self.tests.file("lines", short)
        failed = b"sketches: -: Input/output error (os error 5)\n"
        for how in MODES:
            for which in ["FAILS_READ_AT", "FAILS_WRITE_AT"]:
                for interrupted in [{}, {"INTERRUPTED": 1}]:
                    n = 1
                    while True:
                        ran = self.tests.run(["weigh", *how, "--keys", "keys"], short, **{which: n, "READ_STEP": 1, **interrupted})
                        name = f"weigh {how}, {which} {n} {interrupted}"
                        if ran[3][1] == 0 or interrupted:
                            self.is_exact(name, ran, keys, self.weights_of([short], whole))
                        elif which == "FAILS_READ_AT":
                            read = short[: n - 1]
                            self.is_exact(name, ran, keys, self.weights_of([read[: read.rfind(b"\n") + 1]], whole), status=1, said=failed)
                        else:
                            self.check(name, ran[0] == 2 and ran[2].startswith(b"sketches: output: "), ran)
                        if ran[3][1] == 0:
                            break
                        n += 1
            for interrupted in [{}, {"INTERRUPTED": 1}]:
                n = 1
                while True:
                    ran = self.tests.run(["weigh", *how, "--keys", "-", "lines"], listed, FAILS_READ_AT=n, READ_STEP=1, **interrupted)
                    name = f"weigh {how}, a read of keys {n} {interrupted}"
                    if ran[3][1] == 0 or interrupted:
                        self.is_exact(name, ran, keys, self.weights_of([short], whole))
                    elif how and n > 1:
                        # the first read is that of no bytes, which finds folders
                        read = listed[: n - 2]
                        self.is_exact(name, ran, self.items(read[: read.rfind(b"\n") + 1], whole), self.weights_of([short], whole), status=2, said=failed)
                    else:
                        self.check(name, ran[:3] == (2, b"", failed), ran)
                    if ran[3][1] == 0:
                        break
                    n += 1
