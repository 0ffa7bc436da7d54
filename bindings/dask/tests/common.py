"""A Zipf stream of words in a file, its exact weights, and runs of commands."""
from __future__ import annotations

import collections
import contextlib
import io
import os
import random
from typing import Callable, Sequence


def zipf(count: int, distinct: int, seed: int) -> list[str]:
    """Returns `count` words of at most `distinct` different ones. Few of these are frequent."""
    weights = [rank**-1.1 for rank in range(1, distinct + 1)]
    return [f"wört{n}" for n in random.Random(seed).choices(range(distinct), weights, k=count)]


def write(folder: str, name: str, text: str | bytes) -> str:
    """Writes a file, and returns its path."""
    path = os.path.join(folder, name)
    with open(path, "wb") as file:
        file.write(text.encode() if isinstance(text, str) else text)
    return path


def weight_outside(weights: collections.Counter[str], top: int) -> int:
    """Returns the total weight of all items but the `top` heaviest."""
    return sum(sorted(weights.values(), reverse=True)[top:])


def said(command: Callable[[Sequence[str]], int], *words: str) -> tuple[int, str, str]:
    """Runs a command. Returns its exit status, its output and its error output."""
    out, errors = io.StringIO(), io.StringIO()
    with contextlib.redirect_stdout(out), contextlib.redirect_stderr(errors):
        status = command(words)
    return status, out.getvalue(), errors.getvalue()
