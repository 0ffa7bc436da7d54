"""Checks `--json` and `--exact` of `sketches top` and `sketches merge` against Python's `json`, for `sketches.py`."""
import json
import random
import re

# Bytes that a JSON string needs to escape, and parts of sequences of UTF-8.
PIECES = [bytes([n]) for n in range(32) if n != 10] + [b'"', b"\\", b"/", b"\x7f", b"a", b"{"]
PIECES += ["é".encode(), "\u2028".encode(), "😀".encode(), b"\xff", b"\xe2\x82", b"\\n", b'\\"', b"\n"]


def counts_of(data):
    """Returns how often each line of an input occurs, with U+FFFD for what is not UTF-8."""
    parts = data.split(b"\n")
    last = parts.pop()
    lines = [part[:-1] if part.endswith(b"\r") else part for part in parts] + ([last] if last else [])
    counts = {}
    for line in lines:
        item = line.decode("utf-8", "replace")
        counts[item] = counts.get(item, 0) + 1
    return counts


class Layouts:
    def __init__(self, tests):
        self.tests = tests

    def run(self):
        self.worked()
        self.random_items()
        self.inexact()

    def check(self, name, holds, said=""):
        self.tests.check(name, holds, said)

    def worked(self):
        """Checks reports that are written out by hand, of `top` and of a merge of its images."""
        data = b'b"\na\\\tb\nb"\n'
        for words, wanted in [
            (["--json"], b'{"error":0,"total":3}\n{"lower":2,"upper":2,"item":"b\\""}\n{"lower":1,"upper":1,"item":"a\\\\\\u0009b"}\n'),
            (["--json", "--no-header", "-n", "1"], b'{"lower":2,"upper":2,"item":"b\\""}\n'),
            (["--exact"], b'# error 0 of 3\n2\tb"\n1\ta\\\tb\n'),
            (["--exact", "--no-header"], b'2\tb"\n1\ta\\\tb\n'),
            (["--exact", "--json"], b'{"error":0,"total":3}\n{"count":2,"item":"b\\""}\n{"count":1,"item":"a\\\\\\u0009b"}\n'),
        ]:
            ran = self.tests.run(["top", "--save", "image", *words], data)
            self.check(f"layout {words}", ran[:3] == (0, wanted, b""), ran)
            ran = self.tests.run(["merge", *words, "image"])
            self.check(f"layout {words} of a merge", ran[:3] == (0, wanted, b""), ran)
        for command in ["top", "merge"]:
            ran = self.tests.run([command, "--help"])
            self.check(f"the help of {command} names --json and --exact", ran[0] == 0 and b"--json" in ran[1] and b"--exact" in ran[1], ran)

    def random_items(self):
        """Reads each line of reports of random items by Python's `json`."""
        rng = random.Random(5)
        for round in range(20):
            data = b"".join(rng.choices(PIECES, k=rng.choice([0, 1, 40, 2000, 20000])))
            counts = counts_of(data)
            for words in [[], ["--exact"]]:
                ran = self.tests.run(["top", "--json", "--no-note", *words, "-n", 100000, "--size", 1 << 16], data, key=None)
                name = f"random JSON {round} {words}"
                self.check(f"{name}: status", (ran[0], ran[2]) == (0, b""), ran)
                header, *rows = [json.loads(line) for line in ran[1].decode().split("\n")[:-1]]
                self.check(f"{name}: header", header == {"error": 0, "total": sum(counts.values())}, header)
                wanted = [({"count": n} if words else {"lower": n, "upper": n}) | {"item": item} for item, n in counts.items()]
                order = lambda row: row["item"]
                self.check(f"{name}: rows", sorted(rows, key=order) == sorted(wanted, key=order), rows)

    def inexact(self):
        """Checks that a report whose numbers are not exact is an error under `--exact`."""
        data = b"".join(b"%d\n" % (n % 500) for n in range(3000))
        for words in [[], ["--json"], ["--no-header"]]:
            ran = self.tests.run(["top", "--size", 64, "--save", "image", *words, "--exact"], data)
            found = re.fullmatch(rb"sketches: the numbers are not exact: the error is ([1-9]\d*); use a larger --size\n", ran[2])
            self.check(f"not exact {words}", ran[:2] == (2, b"") and found, ran)
            shown = self.tests.run(["merge", "-n", 0, "image"])
            self.check(f"not exact {words}: the error", found and shown[1] == b"# error %s of 3000\n" % found[1], shown)
            ran = self.tests.run(["merge", *words, "--exact", "image"])
            self.check(f"not exact {words}: a merge", ran[:2] == (2, b"") and ran[2] == found[0], ran)
