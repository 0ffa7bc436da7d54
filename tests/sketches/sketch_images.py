"""Saves images with `sketches top --save`, merges and shows them, and compares the reports with exact counts.

    python3 tests/sketches/sketch_images.py crates/sketches/out/sketches

prints a line for each check that failed, and then 'N passed, M failed'.
"""
import collections
import itertools
import os
import random
import re
import struct
import subprocess
import sys
import tempfile

sys.path.append(os.path.dirname(os.path.dirname(os.path.abspath(__file__))))

import checks  # noqa: E402

VARIABLE = "DATASKETCHES_TABLE_KEY"
HEX = "000102030405060708090a0b0c0d0e0f"
EMPTY = bytes([1, 1, 10, 12, 3, 5, 0, 0])


def image_of(counts, total=None, error=0, lg_max=12, lg_cur=12):
    """Returns the bytes of an image of strings, as the format states them."""
    total = sum(counts.values()) + error if total is None else total
    head = struct.pack("<8B2I2Q", 4, 1, 10, lg_max, lg_cur, 0, 0, 0, len(counts), 0, total, error)
    weights = b"".join(struct.pack("<Q", weight) for weight in counts.values())
    return head + weights + b"".join(struct.pack("<I", len(item)) + item for item in counts)


def seed_hash(seed):
    """Returns the low 16 bits of MurmurHash3 x64 128 of a seed as eight bytes, under the seed 0."""
    mask = 2**64 - 1
    rotated = lambda x, n: (x << n | x >> 64 - n) & mask
    mixed = lambda k: rotated(k * 0x87C37B91114253D5 & mask, 31) * 0x4CF5AD432745937F & mask

    def final(k):
        k = (k ^ k >> 33) * 0xFF51AFD7ED558CCD & mask
        k = (k ^ k >> 33) * 0xC4CEB9FE1A85EC53 & mask
        return k ^ k >> 33

    first, second = mixed(seed) ^ 8, 8
    first = first + second & mask
    second = second + first & mask
    return final(first) + final(second) & 0xFFFF


def counts_of(hashes, buckets, total, cells, hash=seed_hash(9001)):
    """Returns the bytes of an image of a Count-Min sketch, as the format states them. It is marked empty if there is no total."""
    head = struct.pack("<8BIBHB", 2, 1, 18, int(total is None), 0, 0, 0, 0, buckets, hashes, hash, 0)
    return head + b"".join(struct.pack("<Q", number % 2**64) for number in ([] if total is None else [total, *cells]))


def splits_of(leaves):
    """Yields the ways to split leaves into parts, each once."""
    if not leaves:
        yield ()
        return
    first, *others = leaves
    for chosen in range(1 << len(others)):
        with_first = [leaf for n, leaf in enumerate(others) if chosen >> n & 1]
        for rest in splits_of([leaf for n, leaf in enumerate(others) if not chosen >> n & 1]):
            yield ((first, *with_first), *rest)


def trees_of(leaves):
    """Yields each tree of leaves, as a tuple of two or more trees, or one leaf."""
    if len(leaves) == 1:
        yield leaves[0]
        return
    for parts in splits_of(leaves):
        if len(parts) > 1:
            yield from itertools.product(*map(trees_of, parts))


class Tests(checks.Checks):
    def __init__(self, program, work):
        super().__init__(work)
        self.program = os.path.abspath(program)
        self.library = checks.preloaded(work)

    def path(self, name):
        return os.path.join(self.work, name)

    def file(self, name, data):
        with open(self.path(name), "wb") as file:
            file.write(data)
        return name

    def run(self, *words, data=b"", key="plain", stdout=subprocess.PIPE, user=None):
        """Runs the program. Returns its status and both outputs."""
        env = {"PATH": "/usr/bin:/bin"}
        if key is not None:
            env[VARIABLE] = key
        command = [self.program, *[str(word) for word in words]]
        ran = subprocess.run(command, input=data, stdout=stdout, stderr=subprocess.PIPE, env=env, cwd=self.work, timeout=120, user=user)
        return ran.returncode, ran.stdout, ran.stderr

    def failing(self, words, data=b"", **settings):
        """Runs the program under the preloaded library. Returns its status, both outputs, and the numbers of the library."""
        report = self.path("report")
        env = {"PATH": "/usr/bin:/bin", VARIABLE: "plain", "LD_PRELOAD": self.library, "REFUSED_REPORT": report}
        env.update({name: str(value) for name, value in settings.items()})
        ran = subprocess.run([self.program, *words], input=data, capture_output=True, env=env, cwd=self.work, timeout=120)
        with open(report) as file:
            numbers = [int(word) for word in file.read().split()]
        return (ran.returncode, ran.stdout, ran.stderr), numbers

    def rows(self, name, ran, total):
        """Checks the status and the header. Returns the error, and the rows: both bounds and the item."""
        self.check(f"{name}: status and messages", (ran[0], ran[2]) == (0, b""), ran)
        header, *lines = ran[1].split(b"\n")[:-1]
        found = re.fullmatch(rb"# error (\d+) of %d" % total, header)
        self.check(f"{name}: header", found, header)
        cells = [line.split(b"\t", 2) for line in lines]
        return int(found[1]) if found else -1, [(int(lower), int(upper), item) for lower, upper, item in cells]

    def is_exact(self, name, ran, counts):
        """Checks a whole report, of so few items that the error is 0."""
        error, rows = self.rows(name, ran, counts.total())
        self.check(f"{name}: exact", error == 0 and {item: lower for lower, _, item in rows} == dict(counts), rows)
        self.check(f"{name}: each once", len(rows) == len(counts), rows)
        self.check(f"{name}: no width", all(lower == upper for lower, upper, _ in rows), rows)
        self.check(f"{name}: heaviest first", rows == sorted(rows, key=lambda row: -row[1]), rows)

    def saved(self, name, items, *words, key="plain"):
        """Saves an image of the items. Returns its name."""
        ran = self.run("top", *words, "-n", 0, "--save", name, data=b"".join(item + b"\n" for item in items), key=key)
        self.check(f"{name} is saved", ran[0] == 0 and os.path.exists(self.path(name)), ran)
        return name

    def fails(self, name, ran, said):
        """Checks that a run printed nothing but this message, and has status 2."""
        self.check(name, ran == (2, b"", said), ran)

    def worked(self):
        """Checks images and reports that are written out by hand."""
        ran = self.run("top", "--save", "hand", data=b"b\na\nb\n")
        self.check("the report beside an image", ran == (0, b"# error 0 of 3\n2\t2\tb\n1\t1\ta\n", b""), ran)
        with open(self.path("hand"), "rb") as file:
            image = file.read()
        known = [image_of(counts, lg_cur=3) for counts in ({b"a": 1, b"b": 2}, {b"b": 2, b"a": 1})]
        self.check("the image of three lines", image in known, image)
        self.check("no file beside is left", not os.path.exists(self.path("hand.tmp")))
        for name, words, wanted in [
            ("one image", ["hand"], b"# error 0 of 3\n2\t2\tb\n1\t1\ta\n"),
            ("twice the same image", ["hand", "hand"], b"# error 0 of 6\n4\t4\tb\n2\t2\ta\n"),
            ("one row", ["-n", 1, "hand"], b"# error 0 of 3\n2\t2\tb\n"),
            ("no header", ["--no-header", "hand"], b"2\t2\tb\n1\t1\ta\n"),
            ("an image of another writer", [self.file("other", image_of({b"b": 5, b"\xe2\x82\xac": 4}, lg_max=3, lg_cur=3)), "hand"],
             b"# error 0 of 12\n7\t7\tb\n4\t4\t\xe2\x82\xac\n1\t1\ta\n"),
            ("equal items in an image", [self.file("equal", image_of({b"b": 5}, lg_cur=3)[:8] + struct.pack("<2I2Q", 2, 0, 9, 1)
             + struct.pack("<2Q", 5, 3) + 2 * (struct.pack("<I", 1) + b"b"))], b"# error 1 of 9\n8\t9\tb\n"),
            ("an empty image", [self.file("empty", EMPTY)], b"# error 0 of 0\n"),
            ("an empty image first", ["empty", "hand"], b"# error 0 of 3\n2\t2\tb\n1\t1\ta\n"),
        ]:
            ran = self.run("merge", *words)
            self.check(f"merge of {name}", ran == (0, wanted, b""), ran)
        ran = self.run("merge", "-", "hand", data=image)
        self.check("an image from standard input", ran == (0, b"# error 0 of 6\n4\t4\tb\n2\t2\ta\n", b""), ran)
        self.run("top", "--save", "none")
        with open(self.path("none"), "rb") as file:
            self.check("the image of no line", file.read() == EMPTY)

    def splits(self):
        """Merges images of split inputs: few items, so the reports are exact."""
        rng = random.Random(1)
        names = [b"", b" ", b"a\tb", "é€😀".encode()] + [b"item %d" % n for n in range(500)]
        for round in range(6):
            items = rng.choices(names, [1 / (n + 1) for n in range(len(names))], k=rng.choice([0, 1, 100, 5000]))
            number = rng.choice([1, 2, 7])
            images = [self.saved(f"part{n}", items[n::number], "--size", rng.choice([1024, 4096]), key=rng.choice(["plain", HEX, None])) for n in range(number)]
            ran = self.run("merge", "-n", 1000, *images, key=None)
            self.is_exact(f"split {round}", ran, collections.Counter(items))
            ran = self.run("merge", "-n", 1000, "--save", "whole", *images, key=HEX)
            self.is_exact(f"split {round}, saved", ran, collections.Counter(items))
            self.is_exact(f"split {round}, read again", self.run("merge", "-n", 1000, "whole"), collections.Counter(items))

    def trees(self):
        """Merges five images in each tree, children in any order: many more items than slots."""
        rng = random.Random(2)
        names = [b"item%d" % n for n in range(20000)]
        streams = [rng.choices(names, [1 / (n + 1) for n in range(20000)], k=12000) for _ in range(5)]
        counts = collections.Counter(item for stream in streams for item in stream)
        for sizes in [[64] * 5, [1024] * 5, [256, 64, 1024, 4096, 256]]:
            saved = {n: self.saved(f"leaf{n}", stream, "--size", size) for n, (stream, size) in enumerate(zip(streams, sizes))}
            places = min(min(1024, size * 3 // 4) // 2 for size in sizes)
            for tree in trees_of((0, 1, 2, 3, 4)):
                ran = self.merged(rng, tree, saved)
                name = f"{tree} of {sizes}"
                error, rows = self.rows(name, ran, 60000)
                self.check(f"{name}: share", places * error <= 60000, error)
                self.check(f"{name}: enclosed", all(lower <= counts[item] <= upper == lower + error for lower, upper, item in rows))
                listed = {row[2] for row in rows}
                self.check(f"{name}: each once", len(listed) == len(rows))
                self.check(f"{name}: none is missing", all(count <= error or item in listed for item, count in counts.items()))

    def merged(self, rng, tree, saved):
        """Merges the images of a tree, those of inner trees first, and keeps each image. Returns what the last merge printed."""
        for child in tree:
            if child not in saved:
                self.merged(rng, child, saved)
        saved[tree] = f"node{len(saved)}"
        inner = rng.sample([saved[child] for child in tree], len(tree))
        ran = self.run("merge", "-n", 100000, "--save", saved[tree], *inner, key=rng.choice(["plain", HEX, None]))
        self.check(f"{tree} is merged", (ran[0], ran[2]) == (0, b""), ran)
        return ran

    def damaged(self):
        """Damages an image in 10,000 ways. Each either ends with status 2 and a message, or is still an image within its total."""
        items = [b"item %d" % (n * n % 50) for n in range(300)]
        self.saved("sound", items)
        with open(self.path("sound"), "rb") as file:
            sound = file.read()
        for length in range(len(sound)):
            if length % 4 == 0 or length < 40:
                ran = self.run("merge", "sound", self.file("cut", sound[:length]))
                self.fails(f"cut to {length}", ran, b"sketches: cut: InsufficientData: insufficient data\n")
        rng = random.Random(3)
        rejected = 0
        for round in range(9900):
            image = bytearray(sound)
            for _ in range(rng.choice([1, 1, 2, 8])):
                place = rng.randrange(rng.choice([8, 32, len(image)]))
                image[place] = rng.choice([0, 255, image[place] ^ 1 << rng.randrange(8), rng.randrange(256)])
            self.file("bad", bytes(image))
            status, out, said = self.run("merge", "--escape", "-n", 100000, "sound", "bad")
            if status == 2:
                rejected += 1
                self.check(f"damage {round}: a message and no report", out == b"" and re.fullmatch(rb"sketches: bad: [^\n]+\n", said), (out, said))
            else:
                total = 300 + (struct.unpack("<Q", image[16:24])[0] if image[0] % 64 == 4 else 0)
                error, rows = self.rows(f"damage {round}", (status, out, said), total)
                self.check(f"damage {round}: within its total", sum(row[0] for row in rows) + error <= total, rows)
        self.check("most damages are found", rejected > 4000, rejected)
        for name, image, fault in [
            ("an empty file", b"", b"InsufficientData: insufficient data"),
            ("a Bloom filter", bytes([3, 1, 21, 4, 3, 0, 0, 0]) + bytes(8) + b"\1" + bytes(7), b"BadFamily: wrong family"),
            ("a Count-Min sketch", bytes([2, 1, 18, 1]) + bytes(20), b"BadFamily: wrong family"),
            ("another version", bytes([4, 2]) + sound[2:], b"BadVersion: wrong serial version"),
            ("a string that is not UTF-8", image_of({b"\xff": 1}), b"InvalidUtf8: invalid UTF-8"),
            ("a table that is too large", sound[:3] + bytes([30, 30]) + sound[5:], b"TableTooLarge: table too large"),
            ("weights above the total", image_of({b"a": 5}, total=4), b"WeightsExceedTotal: weights exceed total weight"),
            ("bytes after the image", sound + b"\0", b"bytes follow the image"),
            ("two images in a file", sound + sound, b"bytes follow the image"),
        ]:
            for words in [["bad"], ["sound", "bad"], ["bad", "sound"]]:
                self.file("bad", image)
                self.fails(f"{name} {words}", self.run("merge", *words), b"sketches: bad: " + fault + b"\n")

    def limits(self):
        """Checks the limits of bytes and of the total."""
        image = image_of({b"a": 1})
        self.file("one", image)
        self.is_exact("as many bytes as the limit", self.run("merge", "--max-bytes", 1 << 20, "one"), collections.Counter({b"a": 1}))
        self.file("long", image + bytes(1000))
        said = b"sketches: long: the image is longer than --max-bytes\n"
        self.fails("more bytes than the limit", self.run("merge", "--max-bytes", len(image) + 999, "long"), said)
        said = b"sketches: one: TableTooLarge: table too large\n"
        self.fails("a table above the limit", self.run("merge", "--max-bytes", 1000, "one"), said)
        half = 1 << 63
        self.file("half", image_of({b"a": half}))
        self.file("rest", image_of({b"b": half - 1}))
        ran = self.run("merge", "half", "rest")
        self.check("a total of 2^64 - 1", ran[0] == 0 and ran[1].startswith(b"# error 0 of %d\n" % (2**64 - 1)), ran)
        self.fails("a total of 2^64", self.run("merge", "half", "half"), b"sketches: half: more than 2^64 - 1 items with this image\n")

    def saving(self):
        """Saves where it is not possible. The report is printed, the status is 2, and nothing is left."""
        report = b"# error 0 of 1\n1\t1\ta\n"
        self.file("one", image_of({b"a": 1}))
        os.mkdir(self.path("folder"))
        for name, target, reason in [
            ("a folder that is missing", "missing/image", b"No such file or directory (os error 2)"),
            ("a folder", "folder", b"Is a directory (os error 21)"),
            ("a full device", "/dev/full", b"No space left on device (os error 28)"),
            ("no name", "", b"No such file or directory (os error 2)"),
        ]:
            said = b"sketches: " + target.encode() + b": " + reason + b"\n"
            before = sorted(os.listdir(self.work))
            for words in [["top"], ["merge", "one"]]:
                ran = self.run(*words, "--save", target, data=b"a\n")
                self.check(f"{name}, {words}", ran == (2, report, said), ran)
            self.check(f"{name}: nothing is left", sorted(os.listdir(self.work)) == before, os.listdir(self.work))
        self.check("a device stays one", not os.path.isfile("/dev/full"))
        os.mkdir(self.path("closed"))
        os.chmod(self.path("closed"), 0o555)
        os.chmod(self.work, 0o755)
        if os.getuid() == 0:
            ran = self.run("top", "--save", "closed/image", data=b"a\n", user=65534)
        else:
            ran = self.run("top", "--save", "closed/image", data=b"a\n")
        said = b"sketches: closed/image: Permission denied (os error 13)\n"
        self.check("a folder that is closed", ran == (2, report, said), ran)
        for words in [["top"], ["merge", "one"]]:
            self.fails(f"standard output, {words}", self.run(*words, "--save", "-", data=b"a\n"), b"sketches: --save must name a file\n")
        ran = self.run("top", "--save", "kept", "absent", "-", data=b"a\n")
        self.check("an input that is absent", ran == (1, report, b"sketches: absent: No such file or directory (os error 2)\n"), ran)
        self.check("the other input is saved", self.run("merge", "kept") == (0, report, b""))
        self.file("kept", b"something else")
        ran = self.run("merge", "bad", "--save", "kept", data=b"a\n")
        with open(self.path("kept"), "rb") as file:
            self.check("after an error nothing is saved", ran[0] == 2 and file.read() == b"something else", ran)
        with open("/dev/full", "wb") as full:
            ran = self.run("merge", "one", "--save", "kept", stdout=full)
            self.check("a full device", (ran[0], ran[2]) == (2, b"sketches: output: No space left on device (os error 28)\n"), ran)
        ran = self.run("merge", "kept")
        self.check("the image was saved before", ran == (0, report, b""), ran)
        os.mkdir(self.path("elsewhere"))
        self.file("elsewhere/image", b"")
        os.symlink("elsewhere/image", self.path("link"))
        ran = self.run("top", "--save", "link", data=b"a\n")
        self.check("a symbolic link stays", os.readlink(self.path("link")) == "elsewhere/image", ran)
        self.check("its file is replaced", ran == (0, report, b"") and self.run("merge", "elsewhere/image") == (0, report, b""), ran)
        self.check("nothing else is there", os.listdir(self.path("elsewhere")) == ["image"])
        with open(self.path("sent"), "wb") as sent:
            ran = self.run("top", "-n", 0, "--no-header", "--save", "/dev/stdout", data=b"a\n", stdout=sent)
        self.check("standard output stays what it was", os.path.islink("/dev/stdout") or not os.path.isfile("/dev/stdout"))
        self.check("into standard output", (ran[0], ran[2]) == (0, b"") and self.run("merge", "sent") == (0, report, b""), ran)
        os.mkfifo(self.path("fifo"))
        with subprocess.Popen([self.program, "merge", self.path("fifo")], stdout=subprocess.PIPE, env={VARIABLE: "plain"}) as merging:
            ran = self.run("top", "--save", "fifo", data=b"a\n")
            self.check("through a pipe with a name", ran == (0, report, b"") and merging.communicate(timeout=60)[0] == report, ran)
        self.check("the pipe is left", not os.path.isfile(self.path("fifo")))
        reader, writer = os.pipe()
        os.close(reader)
        self.file("kept", b"")
        ran = self.run("top", "--save", "kept", data=b"a\n", stdout=writer)
        os.close(writer)
        self.check("a closed pipe", (ran[0], ran[2]) == (0, b""), ran)
        ran = self.run("merge", "kept")
        self.check("the image was saved before the pipe", ran == (0, report, b""), ran)

    def failures_in_turn(self):
        """Fails each allocation, each read and each write in turn, and interrupts each read and each write."""
        left = image_of({b"a": 5, b"b": 2, b"x" * 100: 7})
        self.file("right", image_of({b"b": 2, b"c": 9}, error=3))
        self.file("kept", b"")
        self.file("report", b"")
        files = sorted(os.listdir(self.work))
        for words, data in [
            (["top", "--save", "kept"], b"a\nb\na\n"),
            (["merge", "-", "right", "--save", "kept"], left),
            (["show", "-"], left),
            (["show", "-"], bytes([3, 1, 21, 4]) + struct.pack("<2HQ2I", 5, 0, 9, 1000, 0)),
        ]:
            self.file("kept", b"old")
            whole = self.run(*words, data=data)
            with open(self.path("kept"), "rb") as file:
                saved = file.read()
            for settings in [{"REFUSED_AT": 1}] + [
                {which: 1, **more} for which in ["FAILS_READ_AT", "FAILS_WRITE_AT"] for more in [{}, {"READ_STEP": 1, "WRITE_STEP": 1}, {"INTERRUPTED": 1}]
            ]:
                which, n, failed = next(iter(settings)), 0, 1
                while failed:
                    n += 1
                    settings[which] = n
                    self.file("kept", b"old")
                    ran, numbers = self.failing(words, data, **settings)
                    failed = numbers[1]
                    with open(self.path("kept"), "rb") as file:
                        kept = file.read()
                    name = f"{settings} {words}: {ran} {kept[:40]}"
                    if which == "REFUSED_AT":
                        self.check(f"{name}: all memory is freed", numbers[2] == 0, numbers)
                        missed = ran[0] == 2 and ran[2] and (ran[1] == b"" or ran[1] == whole[1] and ran[2].startswith(b"sketches: kept: "))
                        # std ignores that a string of the arguments could not be made smaller
                        self.check(name, ran == whole or failed and missed)
                        self.check(f"{name}: the whole image or none", kept in (saved, b"old") and (ran != whole or kept == saved))
                    elif not failed or "INTERRUPTED" in settings:
                        self.check(name, ran == whole and kept == saved)
                    elif which == "FAILS_READ_AT":
                        said = b"sketches: -: Input/output error (os error 5)\n"
                        self.check(name, (ran[0], ran[2]) == (1 if words[0] == "top" else 2, said))
                        self.check(f"{name}: no report, no image", words[0] == "top" or (ran[1], kept) == (b"", b"old"))
                    else:
                        self.check(name, ran[0] == 2 and ran[2].startswith(b"sketches: output: ") and kept == saved)
                self.check(f"{which} {words}: some failed", n > 1, n)
        self.check("no other file is left", sorted(os.listdir(self.work)) == files, os.listdir(self.work))

    def shown_counts(self):
        """Shows images of Count-Min sketches, and images with a fault."""
        empty = counts_of(2, 3, None, [])
        signed = counts_of(2, 3, 9, [0, -9, 3, 9, 0, 0])
        large = counts_of(1, 4, 2**64 - 1, [2**64 - 1, 2**63, 1, 0])
        for name, image, hashes, buckets, total in [
            ("no weight", empty, 2, 3, 0),
            ("weights of both signs", signed, 2, 3, 9),
            ("weights", counts_of(1, 3, 2**63 - 1, [2**63 - 1, 0, 5]), 1, 3, 2**63 - 1),
            ("large weights", large, 1, 4, 2**64 - 1),
            ("many hashes", counts_of(255, 3, 1, [1, 0, 0] * 255), 255, 3, 1),
        ]:
            wanted = b"kind\tCount-Min sketch\nhashes\t%d\nbuckets\t%d\ntotal\t%d\n" % (hashes, buckets, total)
            self.file("image", image)
            self.check(f"show {name}", self.run("show", "image") == (0, wanted, b""), self.run("show", "image"))
            self.check(f"show {name} -", self.run("show", "-", data=image) == (0, wanted, b""))
            for length in range(0, len(image), 1 if len(image) < 100 else 97):
                self.file("image", image[:length])
                self.fails(f"show {name} cut to {length}", self.run("show", "image"), b"sketches: image: InsufficientData: insufficient data\n")
            self.file("image", image + b"\0")
            self.fails(f"show {name} and a byte", self.run("show", "image"), b"sketches: image: bytes follow the image\n")
        for name, image, fault in [
            ("another version", signed[:1] + b"\2" + signed[2:], b"BadVersion: wrong serial version"),
            ("another preamble", b"\3" + signed[1:], b"BadPreamble: wrong preamble longs"),
            ("another seed", signed[:13] + b"\1" + signed[14:], b"SeedHashMismatch: seed hashes differ"),
            ("no hashes", signed[:12] + b"\0" + signed[13:], b"BadNumHashes: num_hashes out of range"),
            ("two buckets", signed[:8] + b"\2" + signed[9:], b"BadNumBuckets: num_buckets below 3"),
            ("2^30 cells", signed[:8] + struct.pack("<I", 1 << 29) + signed[12:], b"TableTooLarge: table too large"),
            ("a cell above the total", counts_of(1, 3, 5, [0, 6, 0]), b"CellAboveTotal: counter exceeds total weight"),
            ("a cell below the total", counts_of(1, 3, 5, [0, -6, 0]), b"CellAboveTotal: counter exceeds total weight"),
            ("a large cell above the total", counts_of(1, 3, 2**63, [0, 2**63 + 1, 0]), b"CellAboveTotal: counter exceeds total weight"),
        ]:
            self.file("image", image)
            self.fails(f"show {name}", self.run("show", "image"), b"sketches: image: " + fault + b"\n")
        wanted = b"kind\tCount-Min sketch\nhashes\t2\nbuckets\t3\ntotal\t9\n"
        self.file("image", counts_of(2, 3, 9, [0, -9, 3, 9, 0, 0], 0xB2C3))
        said = b"sketches: image: SeedHashMismatch: seed hashes differ\n"
        self.fails("show the image of another seed", self.run("show", "image"), said)
        # the seeds of which DataSketches' hash is 0xB2C3 and 0
        seeds = {hash: next(n for n in range(1 << 22) if seed_hash(n) == hash) for hash in [0xB2C3, 0]}
        self.check("show by a seed", self.run("show", "--seed", seeds[0xB2C3], "image") == (0, wanted, b""))
        said = b"sketches: image: ZeroSeedHash: seed hash is zero\n"
        self.fails("show by a seed without a hash", self.run("show", "--seed", seeds[0], "image"), said)
        self.file("image", counts_of(3, 1000, None, []))
        self.check("show at the limit", self.run("show", "--max-bytes", 24024, "image")[0] == 0)
        self.fails("show above the limit", self.run("show", "--max-bytes", 24023, "image"), b"sketches: image: TableTooLarge: table too large\n")

    def shown(self):
        """Shows images of sketches and of filters, and images with a fault."""
        words = b"".join(struct.pack("<Q", word) for word in [5, 1 << 63, 0])
        filled = bytes([4, 1, 21, 0]) + struct.pack("<2HQ2IQ", 7, 0, 2**64 - 1, 3, 0, 3) + words
        for name, image, lines in [
            ("three items", image_of({b"a": 5, b"b": 2, b"": 1}, error=4), ["frequent items of strings", ("max_size", 4096), ("counters", 3), ("total", 12), ("error", 4)]),
            ("no item", EMPTY, ["frequent items of strings", ("max_size", 4096), ("counters", 0), ("total", 0), ("error", 0)]),
            ("the maximum", image_of({b"a": 2**64 - 1}, lg_max=30, lg_cur=3), ["frequent items of strings", ("max_size", 1 << 30), ("counters", 1), ("total", 2**64 - 1), ("error", 0)]),
            ("a filter", filled, ["Bloom filter", ("bits", 192), ("hashes", 7), ("seed", 2**64 - 1), ("set_bits", 3)]),
            ("an uncounted filter", filled[:24] + b"\xff" * 8 + filled[32:], ["Bloom filter", ("bits", 192), ("hashes", 7), ("seed", 2**64 - 1), ("set_bits", 3)]),
            ("an empty filter", bytes([3, 1, 21, 4]) + struct.pack("<2HQ2I", 5, 0, 9, 1000, 0), ["Bloom filter", ("bits", 64000), ("hashes", 5), ("seed", 9), ("set_bits", 0)]),
        ]:
            wanted = f"kind\t{lines[0]}\n" + "".join(f"{key}\t{value}\n" for key, value in lines[1:])
            self.file("image", image)
            self.check(f"show {name}", self.run("show", "image") == (0, wanted.encode(), b""), self.run("show", "image"))
            self.check(f"show {name} -", self.run("show", "-", data=image) == (0, wanted.encode(), b""))
            for length in range(len(image)):
                self.file("image", image[:length])
                self.fails(f"show {name} cut to {length}", self.run("show", "image"), b"sketches: image: InsufficientData: insufficient data\n")
            self.file("image", image + b"\0")
            self.fails(f"show {name} and a byte", self.run("show", "image"), b"sketches: image: bytes follow the image\n")
        for name, image, fault in [
            ("another version", filled[:1] + b"\2" + filled[2:], b"BadVersion: wrong serial version"),
            ("another preamble", b"\5" + filled[1:], b"BadPreamble: wrong preamble longs"),
            ("no hashes", filled[:4] + b"\0" + filled[5:], b"BadNumHashes: num_hashes out of range"),
            ("no words", filled[:16] + b"\0" + filled[17:], b"BadNumWords: number of words below 1"),
            ("another number of set bits", filled[:24] + b"\2" + filled[25:], b"BadBitCount: wrong number of set bits"),
            ("a theta sketch", bytes([2, 1, 3, 1]) + bytes(20), b"BadFamily: wrong family"),
        ]:
            self.file("image", image)
            self.fails(f"show {name}", self.run("show", "image"), b"sketches: image: " + fault + b"\n")
        self.shown_counts()
        self.file("image", filled)
        said = b"sketches: image: TableTooLarge: table too large\n"
        self.file("large", bytes([3, 1, 21, 4]) + struct.pack("<2HQ2I", 5, 0, 9, 1000, 0))
        self.fails("a filter above the limit", self.run("show", "--max-bytes", 7999, "large"), said.replace(b"image", b"large"))
        self.fails("an absent image", self.run("show", "absent"), b"sketches: absent: No such file or directory (os error 2)\n")
        for words in [["show"], ["show", "image", "image"]]:
            status, out, said = self.run(*words)
            self.check(f"{words}", (status, out) == (2, b"") and said, (status, out, said))
        with open("/dev/full", "wb") as full:
            ran = self.run("show", "image", stdout=full)
            self.check("show to a full device", (ran[0], ran[2]) == (2, b"sketches: output: No space left on device (os error 28)\n"), ran)

    def statuses(self):
        """Checks images that cannot be read, and wrong use."""
        self.file("one", image_of({b"a": 1}))
        absent = b"sketches: absent: No such file or directory (os error 2)\n"
        for words in [["absent"], ["one", "absent"], ["absent", "one"]]:
            self.fails(f"an absent image {words}", self.run("merge", *words), absent)
        self.fails("a folder", self.run("merge", "one", "."), b"sketches: .: Is a directory (os error 21)\n")
        for name, words in [
            ("no image", ["merge"]),
            ("an unknown option", ["merge", "--size", "64", "one"]),
            ("a bad key", ["merge", "--key", "0", "one"]),
            ("a bad number of rows", ["merge", "-n", "x", "one"]),
            ("no name of a file", ["merge", "one", "--save"]),
        ]:
            status, out, said = self.run(*words)
            self.check(name, (status, out) == (2, b"") and said, (status, out, said))
        ran = self.run("merge", "--help")
        self.check("help", (ran[0], ran[2]) == (0, b"") and b"--max-bytes" in ran[1] and b"--save" in ran[1], ran)
        with open("/dev/full", "wb") as full:
            ran = self.run("merge", "one", stdout=full)
            self.check("a full output", (ran[0], ran[2]) == (2, b"sketches: output: No space left on device (os error 28)\n"), ran)


def main():
    words = sys.argv[1:]
    with tempfile.TemporaryDirectory() as work:
        tests = Tests(words[0], work)
        tests.worked()
        tests.splits()
        tests.trees()
        tests.damaged()
        tests.limits()
        tests.saving()
        tests.failures_in_turn()
        tests.shown()
        tests.statuses()
    tests.end()


main()
