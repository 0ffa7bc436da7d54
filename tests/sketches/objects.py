"""Checks `--json` of `sketches uniq`, `join` and `weigh` against Python's `json`, for `sketches.py`."""
import json
import os
import random

from layouts import PIECES

# The commands, and a file of keys for those that need one.
COMMANDS = [["uniq"], ["uniq", "--repeated"], ["join", "--keys", "keys"], ["join", "-v", "--keys", "keys"]]


def texts_of(data):
    """Returns the lines of an output as strings, without their ends, with U+FFFD for what is not UTF-8."""
    parts = data.split(b"\n")
    last = parts.pop()
    lines = [part[:-1] if part.endswith(b"\r") else part for part in parts] + ([last] if last else [])
    return [line.decode("utf-8", "replace") for line in lines]


def objects_of(data):
    """Returns the JSON values of an output that has one a line, or nothing if it is something else."""
    if data and not data.endswith(b"\n"):
        return None
    try:
        return [json.loads(line) for line in data.decode().split("\n")[:-1]]
    except ValueError:
        return None


class Objects:
    def __init__(self, tests):
        self.tests = tests

    def run(self):
        self.worked()
        self.csv()
        self.random_lines()
        self.options()

    def check(self, name, holds, said=""):
        self.tests.check(name, holds, said)

    def worked(self):
        """Checks outputs that are written out by hand."""
        self.tests.file("keys", b'b"\n\xff\nnone\n')
        data = b'b"\r\na\\\tb\n\xff\n\nb"\n\xff'
        first = b'{"line":"b\\""}\n{"line":"a\\\\\\u0009b"}\n{"line":"\xef\xbf\xbd"}\n{"line":""}\n'
        again = b'{"line":"b\\""}\n{"line":"\xef\xbf\xbd"}\n'
        for words, wanted in [
            (["uniq", "--json"], first),
            (["uniq", "--json", "--repeated"], again),
            (["uniq", "--json", "-d", "\\", "-f", "2"], b'{"line":"b\\""}\n{"line":"a\\\\\\u0009b"}\n{"line":"\xef\xbf\xbd"}\n{"line":""}\n' + again),
            (["join", "--json", "--keys", "keys"], b'{"line":"b\\""}\n{"line":"\xef\xbf\xbd"}\n' + again),
            (["join", "--json", "-v", "--keys", "keys"], b'{"line":"a\\\\\\u0009b"}\n{"line":""}\n'),
        ]:
            ran = self.tests.run([*words, "--no-note"], data)
            self.check(f"objects {words}", ran[:3] == (0, wanted, b""), ran)
        rows = b'{"weight":2,"item":"b\\""}\n{"weight":2,"item":"\xef\xbf\xbd"}\n{"weight":0,"item":"none"}\n'
        for words, wanted in [(["--json"], b'{"total":6}\n' + rows), (["--json", "--no-header"], rows)]:
            ran = self.tests.run(["weigh", "--keys", "keys", *words], data)
            self.check(f"objects weigh {words}", ran[:3] == (0, wanted, b""), ran)
        for command in ["uniq", "join", "weigh"]:
            ran = self.tests.run([command, "--help"])
            self.check(f"the help of {command} names --json", ran[0] == 0 and b"--json" in ran[1], ran)

    def csv(self):
        """Records of CSV are printed with their quotes, and without their header."""
        self.tests.file("pages", b'page\n"a\nb"\n')
        data = b'\xef\xbb\xbfid,page\r\n1,"a\nb"\r\n2,"c ""d"""\n3,"a\nb"'
        for words, wanted in [
            (["uniq"], ['1,"a\nb"', '2,"c ""d"""']),
            (["uniq", "--repeated"], ['3,"a\nb"']),
            (["join", "--keys-field", "page", "--keys", "pages"], ['1,"a\nb"', '3,"a\nb"']),
        ]:
            ran = self.tests.run([*words, "--csv", "-f", "page", "--json", "--no-note"], data)
            self.check(f"objects of CSV {words}", ran[0] == 0 and objects_of(ran[1]) == [{"line": line} for line in wanted], ran)
        ran = self.tests.run(["weigh", "--csv", "-f", "page", "--keys-field", "page", "--keys", "pages", "--json"], data)
        self.check("objects of CSV of weigh", ran[0] == 0 and objects_of(ran[1]) == [{"total": 3}, {"weight": 2, "item": "a\nb"}], ran)

    def random_lines(self):
        """Compares random lines with the plain output, which has the same lines."""
        rng = random.Random(7)
        for round in range(12):
            data = [b"".join(rng.choices(PIECES, k=rng.choice([0, 1, 40, 3000]))) + end for end in [b"x", b""]]
            names = [self.tests.file(f"part{at}", part) for at, part in enumerate(data)]
            self.tests.file("keys", b"".join(rng.choices(PIECES, k=60)))
            for words in COMMANDS:
                plain = self.tests.run([*words, "--no-note", *names])
                ran = self.tests.run([*words, "--json", "--no-note", *names])
                wanted = [{"line": line} for line in texts_of(plain[1])]
                self.check(f"random objects {round} {words}", ran[0] == plain[0] == 0 and objects_of(ran[1]) == wanted, (ran, wanted))
            plain = self.tests.run(["weigh", "--keys", "keys", "--escape", *names])
            ran = self.tests.run(["weigh", "--keys", "keys", "--json", *names])
            total, *rows = plain[1].decode("utf-8", "replace").split("\n")[:-1]
            found = objects_of(ran[1])
            same = bool(found) and found[0] == {"total": int(total.split(" ")[2])} and [row["weight"] for row in found[1:]] == [int(row.split("\t")[0]) for row in rows]
            self.check(f"random objects {round} of weigh", ran[0] == 0 and same, (ran, plain))
            with open(os.path.join(self.tests.work, "keys"), "rb") as file:
                keys = texts_of(file.read())
            self.check(f"random objects {round} of weigh: keys", bool(found) and [row["item"] for row in found[1:]] == keys, (found, keys))

    def options(self):
        """JSON has no escapes of its own."""
        self.tests.file("keys", b"a\n")
        for words in [["top"], ["weigh", "--keys", "keys"], ["merge", "image"]]:
            ran = self.tests.run([*words, "--json", "--escape"], b"a\n")
            self.check(f"{words} --json --escape", ran[:2] == (2, b"") and b"cannot be used with" in ran[2], ran)
