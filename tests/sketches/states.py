"""Checks `sketches uniq --state`, which keeps its filter between runs, for `sketches.py`."""
import os
import random

BLOCK = 1 << 18
LARGE = ["--items", "200000", "--no-note"]


class States:
    def __init__(self, tests, pieces, raw_lines_of):
        self.tests = tests
        self.pieces = pieces
        self.raw_lines_of = raw_lines_of

    def run(self):
        self.runs()
        self.one_run_or_many()
        self.images()
        self.failures()

    def check(self, name, holds, said=""):
        self.tests.check(name, holds, said)

    def path(self, name):
        return os.path.join(self.tests.work, name)

    def bytes_of(self, name):
        """Returns the bytes of a file, or None if there is none."""
        if not os.path.exists(self.path(name)):
            return None
        with open(self.path(name), "rb") as file:
            return file.read()

    def remove(self, name):
        if os.path.exists(self.path(name)):
            os.remove(self.path(name))

    def uniq(self, data, *words, **settings):
        return self.tests.run(["uniq", "--state", "state", *words], data, **settings)

    def unseen(self, data, seen, repeated):
        """Returns the lines that are new, or with `repeated` the others. Adds all of them to `seen`."""
        written = []
        for raw, line in self.raw_lines_of(data):
            if (line in seen) == repeated:
                written.append(raw)
            seen.add(line)
        return b"".join(written)

    def runs(self):
        """Checks run after run over random bytes, with a set that is kept."""
        rng = random.Random(7)
        for round in range(4):
            self.remove("state")
            seen = set()
            for number in range(6):
                data = b"".join(rng.choices(self.pieces, k=rng.choice([0, 3, 300, 3000])))
                repeated = rng.choice([True, False])
                wanted = self.unseen(data, seen, repeated)
                words = [*LARGE, *(["--repeated"] if repeated else [])]
                ran = self.uniq(data, *words, key=None)
                self.check(f"state, run {number} of {round}", ran[:3] == (0, wanted, b""), (ran[1][:200], wanted[:200], ran[2]))
            self.check("state: nothing is left beside", not os.path.exists(self.path("state.tmp")))

    def one_run_or_many(self):
        """Checks that several runs print what one prints, false positives among it, and leave the same image."""
        lines = [b"line %d\n" % n for n in range(4000)]
        rng = random.Random(8)
        parts = [b"".join(rng.choices(lines, k=2500)) for _ in range(4)]
        words = ["--items", "1000", "--false-positives", "4", "--no-note"]
        self.remove("state")
        whole = self.uniq(b"".join(parts), *words)
        image = self.bytes_of("state")
        self.remove("state")
        outs = [self.uniq(part, *words) for part in parts]
        self.check("state: many runs as one", b"".join(ran[1] for ran in outs) == whole[1] and {ran[0] for ran in outs} == {0})
        self.check("state: the same image", self.bytes_of("state") == image)
        self.check("state: lines were left out", len(whole[1].splitlines()) < len(set(b"".join(parts).splitlines())))

    def images(self):
        """Checks what a state is, and files that are none."""
        self.remove("state")
        self.uniq(b"a\nb\n", "--bits", "640", "--hashes", "5", "--no-note")
        shown = self.tests.run(["show", "state"])
        self.check("state: its sizes", b"bits\t640\nhashes\t5\nseed\t9001\n" in shown[1], shown)
        ran = self.uniq(b"b\nc\n", "--no-note", "--key", "000102030405060708090a0b0c0d0e0f")
        again = self.tests.run(["show", "state"])
        self.check("state: the image's own sizes and seed", ran[1] == b"c\n" and again[1].splitlines()[:4] == shown[1].splitlines()[:4], (ran, again))
        image = self.bytes_of("state")
        self.tests.run(["top", "--save", "items"], b"a\n")
        empty = bytes([3, 1, 21, 4, 5, 0, 0, 0]) + bytes(8) + (2**31 - 1).to_bytes(4, "little") + bytes(4)
        for name, bad, said in [
            ("no bytes", b"", b"InsufficientData"),
            ("a cut image", image[:-1], b"InsufficientData"),
            ("more bytes", image + b"x", b"bytes follow the image"),
            ("a wrong count", image[:24] + bytes([image[24] ^ 1]) + image[25:], b"BadBitCount"),
            ("a sketch of items", self.bytes_of("items"), b"BadFamily"),
            ("an empty filter of 16 GiB", empty, b"TableTooLarge"),
        ]:
            self.tests.file("state", bad)
            ran = self.uniq(b"a\n", "--no-note")
            self.check(f"state of {name}", ran[:2] == (2, b"") and ran[2].startswith(b"sketches: state: ") and said in ran[2], ran)
            self.check(f"state of {name}: unchanged", self.bytes_of("state") == bad)
        self.tests.file("state", image)
        ran = self.uniq(b"a\n", "--no-note", "--max-bytes", len(image) - 1)
        self.check("a state over the limit", ran[:3] == (2, b"", b"sketches: state: the image is longer than --max-bytes\n"), ran)
        ran = self.uniq(b"a\nq\n", "--no-note", "--max-bytes", len(image))
        self.check("a state at the limit", ran[:2] == (0, b"q\n"), ran)
        ran = self.tests.run(["uniq", "--state", "-"], b"a\n")
        self.check("a state of standard input", ran[:3] == (2, b"", b"sketches: --state must name a file\n"), ran)
        ran = self.tests.run(["uniq", "--state", "."], b"a\n")
        self.check("a state of a folder", ran[:2] == (2, b"") and ran[2].startswith(b"sketches: .: "), ran)

    def failures(self):
        """Checks that a run that fails leaves the state as it was, unless only a file could not be read."""
        self.remove("state")
        self.uniq(b"a\nb\n", *LARGE)
        before = self.bytes_of("state")
        ran = self.uniq(b"c\n" + 9 * b"x", *LARGE, "--max-line", "8")
        self.check("state after a long line", ran[0] == 2 and self.bytes_of("state") == before, ran)
        with open("/dev/full", "wb") as full:
            ran = self.uniq(b"c\n", *LARGE, stdout=full)
        self.check("state and a full device", ran[0] == 2 and self.bytes_of("state") == before, ran)
        reader, writer = os.pipe()
        os.close(reader)
        ran = self.uniq(b"c\n", *LARGE, stdout=writer)
        os.close(writer)
        self.check("state and a closed pipe", ran[0] == 0 and self.bytes_of("state") == before, ran)
        data = b"c\na\nd\xff\n" + b"x" * BLOCK
        done = self.uniq(data, *LARGE)
        after = self.bytes_of("state")
        self.check("state: it changes", done[:2] == (0, b"c\nd\xff\n" + b"x" * BLOCK) and after != before)
        n = 1
        while True:
            self.tests.file("state", before)
            ran = self.uniq(data, *LARGE, REFUSED_AT=n)
            self.check(f"state, allocation {n}: all memory is freed", ran[3][2] == 0, ran)
            if ran[3][1] == 0:
                self.check("state, no allocation fails", ran[:3] == done[:3] and self.bytes_of("state") == after, ran[0])
                break
            same = ran[:3] == done[:3] and self.bytes_of("state") == after
            ended = ran[0] == 2 and done[1].startswith(ran[1]) and ran[2] and self.bytes_of("state") == before
            self.check(f"state, allocation {n}", same or ended, (ran[0], ran[2]))
            n += 1
        self.tests.file("state", before)
        ran = self.uniq(b"c\nd\n", *LARGE, FAILS_READ_AT=4, READ_STEP=1)
        self.check("state after a failing read", ran[:2] == (1, b"c\n"), ran)
        ran = self.uniq(b"c\nd\n", *LARGE)
        self.check("state: the lines that were read are kept", ran[:2] == (0, b"d\n"), ran)
        ran = self.tests.run(["uniq", *LARGE, "--state", "none/state"], b"a\na\n")
        said = b"sketches: none/state: No such file or directory (os error 2)\n"
        self.check("a state that cannot be saved", ran[:3] == (2, b"", said), ran)
