#!/usr/bin/env python3
"""Finds the heaviest items of files, with bounds of their weights, on many workers.

    heavy.py --words book.txt letters/*.txt
    heavy.py --column page --weight bytes access.csv
    heavy.py --field 7 access.log
"""
from __future__ import annotations

import argparse
import functools
import sys
from typing import Any, Sequence

import sketch_engine as engine
from sketch_parts import Heavy
from sketch_report import Row, bars, number, plural, print_lines


def words_of(arguments: Sequence[str] | None) -> argparse.Namespace:
    """Reads the command line."""
    parser = argparse.ArgumentParser(prog="heavy.py", description=__doc__,
                                     formatter_class=argparse.RawDescriptionHelpFormatter)
    parser.add_argument("files", nargs="+", metavar="FILE", help=engine.FILE_HELP)
    engine.add_item_words(parser)
    parser.add_argument("--size", type=engine.positive, default=4096, metavar="N",
                        help="the slots of a sketch, a power of two: more make the bounds closer (%(default)s)")
    parser.add_argument("--top", type=engine.positive, default=20, metavar="N", help="print at most N items (%(default)s)")
    parser.add_argument("--threshold", type=engine.whole_number(0, 2**64 - 1), default=0, metavar="WEIGHT",
                        help="print items whose upper bound is above WEIGHT, not those where it is equal (%(default)s)")
    parser.add_argument("--key", type=engine.key_of, metavar="HEX",
                        help="hash under these 32 hexadecimal digits, so that runs over the same parts have the same result (a "
                             "random key for each sketch)")
    engine.add_engine_words(parser)
    engine.add_line_word(parser, "`sketches top` prints: the error and the total, and then a line for each item, with its bounds")
    return engine.parsed(parser, arguments)


def heaviest(words: argparse.Namespace) -> dict[str, Any]:
    """Counts, and returns the heaviest items and the smallest known weight above which no item is missing."""
    shape = Heavy(words.size, key=words.key)
    shape.empty()
    parts = engine.cut_files(words.files, words.parts, words=words.words, **engine.items_of(words))
    sketch = shape.read(engine.image_of(words, shape, parts))
    rows = sketch.rows(threshold=words.threshold)
    shown, hidden = rows[: words.top], rows[words.top :]
    complete = max([words.threshold, sketch.maximum_error] + [high for _, _, _, high in hidden])
    return {
        "total": sketch.total_weight,
        "error": sketch.maximum_error,
        "complete_above": complete,
        "budget": sketch.sample_size // 2,
        "more": len(hidden),
        "parts": len(parts),
        "items": [{"item": item, "lower": low, "estimate": estimate, "upper": high} for item, low, estimate, high in shown],
    }


def show(found: dict[str, Any]) -> None:
    """Prints a bar for each item, and the guarantee."""
    rows = [Row(each["item"], each["lower"], each["upper"],
                number(each["lower"]) + ("" if each["lower"] == each["upper"] else f" to {number(each['upper'])}"))
            for each in found["items"]]
    print(f"a weight of {number(found['total'])} in {plural(found['parts'], 'part')}")
    print("\n".join(bars(rows)) if rows else "no item has an upper bound above the threshold and the error")
    if found["more"]:
        print(f"and {plural(found['more'], 'lighter item')}")
    print(f"Each weight lies between its bounds, {number(found['error'])} apart, and no item above "
          f"{number(found['complete_above'])} is missing.")


def show_lines(found: dict[str, Any], escaped: bool) -> None:
    """Prints a line for each item, as `sketches top` does."""
    print(f"# error {found['error']} of {found['total']}")
    print_lines(((f"{each['lower']}\t{each['upper']}", each["item"]) for each in found["items"]), escaped)


def main(arguments: Sequence[str] | None = None) -> int:
    """Runs the command, and returns the exit status."""
    words = words_of(arguments)
    as_lines = functools.partial(show_lines, escaped=words.column is not None)
    return engine.run("heavy.py", lambda: heaviest(words), as_lines if words.tsv else show, words.json)


if __name__ == "__main__":
    sys.exit(main())
