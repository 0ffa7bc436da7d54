#!/usr/bin/env python3
"""Tests that the cost of each call that reads input is linear in the input, by counting instructions.

    python3 tests/costs/run.py crates/datasketches_cli/out/datasketches_cli [ARCHIVE [PACKAGE]]

makes each call of the C library, each kind of line of the program, and calls of the Python package on an input of size n and of
10 n, under valgrind's callgrind. A test fails if the second one takes more than 12 times the instructions of the first one. From
runs of the program those on an empty input are subtracted. ARCHIVE is the library for C, and PACKAGE the folder of
`bindings/python/build.sh`, which is built if it is not given. The last line is 'N passed, M failed'.
"""
import os
import random
import re
import struct
import subprocess
import sys
import tempfile

HERE = os.path.dirname(os.path.abspath(__file__))
TOP = os.path.dirname(os.path.dirname(HERE))
sys.path.insert(0, f"{TOP}/tests")

import checks  # noqa: E402

PYTHON = "/usr/bin/python3"
COMPILER = os.environ.get("CC", "cc")
MOST = 12  # times the instructions, for 10 times the input
KEY = b"DATASKETCHES_TABLE_KEY"  # in the program if its tables and maps have keys


class Tests(checks.Checks):
    def __init__(self, work):
        super().__init__(work)

    def compile(self, *words):
        out = os.path.join(self.work, f"built{len(os.listdir(self.work))}")
        include = f"{TOP}/bindings/c/include"
        flags = ["-std=gnu11", "-O2", "-Wall", "-Wextra", "-Werror", f"-I{include}"]
        subprocess.run([COMPILER, *flags, *words, "-o", out, "-lpthread"], check=True)
        return out

    def callgrind(self, command, name, lines=b"", **settings):
        """Runs a command under callgrind. Returns what ran, and the instructions of each of its dumps by the dump's name."""
        out = os.path.join(self.work, name)
        command = ["valgrind", "-q", "--tool=callgrind", f"--callgrind-out-file={out}", *command]
        env = {"PATH": "/usr/bin:/bin", "LANG": "C.UTF-8", **settings}
        ran = subprocess.run(command, input=lines, capture_output=True, env=env, timeout=600)
        counted = {}
        for file in sorted(os.listdir(self.work)):
            if file != name and not file.startswith(f"{name}."):
                continue
            with open(os.path.join(self.work, file), encoding="utf-8") as dump:
                text = dump.read()
            total = re.search(r"^(?:totals|summary): (\d+)", text, re.MULTILINE)
            trigger = re.search(r"^desc: Trigger: (?:Client Request: )?(.*)$", text, re.MULTILINE)
            if total:
                counted[trigger[1] if trigger else ""] = int(total[1])
        return ran, counted

    def compare(self, counted):
        """Compares the two dumps of each call, whose names end in n and in 10 n."""
        for label, small in counted.items():
            name, _, size = label.rpartition(" ")
            if size.isdigit() and f"{name} {size}0" in counted:
                large = counted[f"{name} {size}0"]
                self.check(name, large <= MOST * small, f"{small} instructions at {size}, {large} at {size}0")

    def library(self, archive):
        """Compares the calls of the C library."""
        built = os.path.join(self.work, "library")
        subprocess.run(["bash", f"{TOP}/bindings/c/build.sh", built, *archive], check=True, stdout=subprocess.DEVNULL)
        driver = self.compile(f"{HERE}/costs.c", f"{built}/libdatasketches.a")
        for kind in ("numbers", "tenants", "names"):
            subprocess.run([driver, f"--{kind}", os.path.join(self.work, kind)], check=True)
        ran, counted = self.callgrind([driver, os.path.join(self.work, "numbers")], "calls")
        self.check("the calls of the C library", ran.returncode == 0 and b"all calls made" in ran.stdout, ran)
        self.check("calls were counted", len(counted) > 100, len(counted))
        self.compare(counted)

    def lines(self, program):
        """Compares scripts of the program."""
        _, counted = self.callgrind([program], "empty")
        start = min(counted.values())
        for number, (name, (status, script)) in enumerate(scripts(program, self.work).items()):
            costs = []
            for n in (300, 3000):
                lines = "".join(f"{line}\n" for line in script(n)).encode()
                ran, counted = self.callgrind([program], f"script{number}at{n}", lines)
                self.check(f"the program, {name}: the status", ran.returncode == status, (ran.returncode, ran.stdout[-200:]))
                costs.append(max(1, max(counted.values()) - start))
            self.check(f"the program, {name}", costs[1] <= MOST * costs[0], f"{costs} instructions")

    def package(self, archive, built):
        """Compares calls of the Python package."""
        if not built:
            built = os.path.join(self.work, "package")
            subprocess.run(["bash", f"{TOP}/bindings/python/build.sh", built, *archive], check=True, stdout=subprocess.DEVNULL,
                           env={**os.environ, "PYTHON": PYTHON})
        marks = self.compile("-shared", "-fPIC", f"{HERE}/marks.c")
        settings = {"PYTHONPATH": built, "PYTHONDONTWRITEBYTECODE": "1", "PYTHONHASHSEED": "0", "PYTHONMALLOC": "malloc"}
        ran, counted = self.callgrind([PYTHON, f"{HERE}/calls.py", marks], "python", **settings)
        self.check("the calls of the Python package", ran.returncode == 0 and b"all calls made" in ran.stdout, ran)
        self.compare(counted)


def contains(path, word):
    with open(path, "rb") as file:
        return word in file.read()


def image_of(n):
    """Returns an image of a sketch of n strings, in hexadecimal digits."""
    size = max(8, 1 << (n * 4 // 3).bit_length())
    lg = size.bit_length() - 1
    head = bytes([4, 1, 10, lg, lg, 0, 0, 0]) + n.to_bytes(8, "little") + n.to_bytes(8, "little") + bytes(8)
    items = b"".join(b"\x06\0\0\0" + f"{i:06}".encode() for i in range(n))
    return (head + n * (b"\x01" + bytes(7)) + items).hex()


def words_in(work, kind):
    """Returns the words of 8 bytes in a file."""
    with open(os.path.join(work, kind), "rb") as file:
        return [word for word, in struct.iter_unpack("8s", file.read())]


def scripts(program, work):
    """Returns scripts for a size, by name, each with the exit status of the program."""
    rng = random.Random(2)
    names = [f"name{i}" for i in range(3000)]
    found = {
        "new items": (0, lambda n: ["frequent s 16384"] + [f"add s 1 {name}" for name in names[:n]]),
        "items of Count-Min": (0, lambda n: ["countu c 4 64 9001"] + [f"add c 1 {name}" for name in names[:n]]),
        "items of a filter": (0, lambda n: ["bloom f 65536 7 9001"] + [f"insert f {name}" for name in names[:n]]),
        "look-ups": (0, lambda n: ["frequent s 64", "add s 1 a"] + [f"ask s {name}" for name in names[:n]]),
        "purges": (0, lambda n: ["frequent s 64"] + [f"add s {rng.randrange(1, 9)} {name}" for name in names[:n]]),
        "names": (0, lambda n: [f"bloom {name} 64 1 9001" for name in names[:n]]),
        "tenants": (0, lambda n: ["windows 2 8"] + [f"hadd {rng.randrange(2**64)} 1 x" for _ in range(n)]),
        "turns of windows": (0, lambda n: ["windows 2 8"] + n * ["hadd 1 1 x", "hturn 1"]),
        "a long item": (0, lambda n: ["frequent s 64", f"add s 1 {1000 * n * 'x'}"]),
        "blank lines": (0, lambda n: 10 * n * [" "]),
        "a line of spaces": (0, lambda n: [100 * n * " "]),
        "a bad line of many words": (1, lambda n: [100 * n * "x "]),
        "a bad line at the end": (1, lambda n: ["frequent s 64"] + n * ["add s 1 a"] + ["\xff"]),
        "an image": (0, lambda n: [f"load s frequent 1000000000 {image_of(n)}"]),
        "images": (0, lambda n: ["frequent s 8"] + [f"save s {name}" for name in names[:n]]),
    }
    if contains(program, KEY):
        chosen = [word.decode() for word in words_in(work, "names")]
        tenants = [int.from_bytes(word, "little") for word in words_in(work, "tenants")]
        found["names of one group"] = (0, lambda n: [f"bloom {name} 64 1 9001" for name in chosen[:n]])
        found["tenants of one group"] = (0, lambda n: ["windows 1 8"] + [f"hadd {tenant} 1 x" for tenant in tenants[:n]])
    return found


def main():
    words = sys.argv[1:]
    program, archive, built = os.path.abspath(words[0]), words[1:2], words[2:3]
    with tempfile.TemporaryDirectory() as work:
        tests = Tests(work)
        tests.library(archive)
        tests.lines(program)
        tests.package(archive, os.path.abspath(built[0]) if built else None)
        tests.end()


main()
