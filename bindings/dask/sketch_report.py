"""Draws rows with bars, for a terminal or a file."""
from __future__ import annotations

import shutil
import sys
from typing import Iterable, NamedTuple, Sequence

GREATEST_LABEL = 32
ESCAPES = str.maketrans({"\\": r"\\", "\t": r"\t", "\n": r"\n", "\r": r"\r"})


class Row(NamedTuple):
    """A bar that is full up to `low` and light up to `high`, with a label before it and a string after it."""

    label: str
    low: int
    high: int
    text: str


def number(value: int) -> str:
    """Returns a number with separators between thousands."""
    return f"{value:,}"


def plural(count: int, name: str) -> str:
    """Returns a number with a noun, which is in the plural unless the number is 1."""
    return f"{number(count)} {name}{'' if count == 1 else 's'}"


def bars(rows: Sequence[Row], width: int | None = None, full: str | None = None) -> list[str]:
    """Returns lines of bars. The longest bar fills its line."""
    if full is None:
        encoding = (getattr(sys.stdout, "encoding", None) or "ascii").lower()
        full = "█░" if encoding.startswith("utf") else "#-"
    labels = [label if len(label) <= GREATEST_LABEL else label[: GREATEST_LABEL - 1] + "~" for label in
              ("".join(c if c.isprintable() else "?" for c in row.label) for row in rows)]
    wide = max(map(len, labels), default=0)
    behind = max((len(row.text) for row in rows), default=0)
    room = max(10, (width or shutil.get_terminal_size().columns) - wide - behind - 4)
    most = max((row.high for row in rows), default=0) or 1
    lines = []
    for label, row in zip(labels, rows):
        low, high = row.low * room // most, -(-row.high * room // most)
        bar = full[0] * low + full[1] * (high - low)
        lines.append(f"{label:{wide}}  {bar:{room}}  {row.text:>{behind}}")
    return lines


def print_lines(rows: Iterable[tuple[str, str]], escaped: bool) -> None:
    """Prints numbers and an item a line, with a tab between. Escapes backslashes, tabs and line ends of items if asked to."""
    for numbers, item in rows:
        print(numbers, item.translate(ESCAPES) if escaped else item, sep="\t")
