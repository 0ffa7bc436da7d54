"""Writes `src/sys/constants.rs`, the constants of `datasketches.h`, which CI compares with the header: python3 bindings/rust/constants.py

It is no part of `build.rs`, which may find a library without its header."""
import os
import re
import sys

RUST = os.path.dirname(os.path.abspath(__file__))
FILE = f"{RUST}/src/sys/constants.rs"
sys.path.append(f"{os.path.dirname(os.path.dirname(RUST))}/tests")

import tables  # noqa: E402

HEAD = """\
//! The constants of `datasketches.h`, which `constants.py` writes.
#![allow(dead_code)]

"""


def lines():
    """Returns a line for each constant of the header that has a number of its own."""
    with open(tables.HEADER, encoding="utf-8") as it:
        text = re.sub(r"/\*.*?\*/", "", it.read(), flags=re.DOTALL)
    found = re.findall(r"\b(DS_\w+) = (-?\d+)|X\((-?\d+), (DS_\w+),", text)
    pairs = [(name or of_row, value or number) for name, value, number, of_row in found]
    return [f"pub const {name}: i32 = {value};" for name, value in pairs]


def text():
    return HEAD + "".join(f"{line}\n" for line in lines())


if __name__ == "__main__":
    with open(FILE, "w", encoding="utf-8") as file:
        file.write(text())
