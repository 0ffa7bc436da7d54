#!/usr/bin/env python3
"""Estimates the total weights of keys, in a table of a fixed size, on many workers.

    traffic.py --column host --weight bytes access.csv --ask example.org --ask example.com
    traffic.py --words book.txt --ask-file names.txt
    traffic.py --field 1 access.log --ask 192.0.2.7
"""
from __future__ import annotations

import argparse
import functools
import math
import sys
from typing import Any, Sequence

import sketch_engine as engine
from sketch_parts import Traffic, batches
from sketch_report import Row, bars, number, plural, print_lines


def words_of(arguments: Sequence[str] | None) -> argparse.Namespace:
    """Reads the command line."""
    parser = argparse.ArgumentParser(prog="traffic.py", description=__doc__,
                                     formatter_class=argparse.RawDescriptionHelpFormatter)
    parser.add_argument("files", nargs="+", metavar="FILE", help=engine.FILE_HELP)
    engine.add_item_words(parser)
    parser.add_argument("--ask", action="append", default=[], metavar="KEY", help="a key to estimate; may be repeated")
    parser.add_argument("--ask-file", metavar="FILE", help="a file of keys to estimate, one a line")
    parser.add_argument("--buckets", type=engine.positive, default=27183, metavar="N",
                        help="cells in a row: more make the estimates closer (%(default)s)")
    parser.add_argument("--hashes", type=engine.positive, default=7, metavar="N",
                        help="rows: more make a bad estimate rarer (%(default)s)")
    parser.add_argument("--signed", action="store_true", help="weights may be below 0")
    engine.add_engine_words(parser)
    engine.add_line_word(parser, "`sketches weigh` prints: the total, and then a line for each key, with its estimate")
    return engine.parsed(parser, arguments)


def weigh(words: argparse.Namespace) -> dict[str, Any]:
    """Counts the items, and returns the estimates of the keys."""
    shape = Traffic(words.hashes, words.buckets, words.signed)
    empty = shape.empty()
    asked = list(words.ask)
    if words.ask_file is not None:
        for part in engine.cut_files([words.ask_file], 1):
            asked += [key for batch in batches(part) for key in batch.items]
    if not asked:
        raise ValueError("no key is asked for: --ask KEY, or --ask-file FILE")
    empty.estimate(asked)  # raises if one is not UTF-8
    parts = engine.cut_files(words.files, words.parts, words=words.words, **engine.items_of(words))
    sketch = shape.read(engine.image_of(words, shape, parts))
    margin = sketch.upper_bound(asked[0]) - sketch[asked[0]]
    return {
        "total": sketch.total_weight,
        "margin": margin,
        "one_in": math.floor(math.exp(words.hashes)),
        "signed": words.signed,
        "parts": len(parts),
        "keys": [{"key": key, "estimate": estimate} for key, estimate in zip(asked, sketch.estimate(asked))],
    }


def show(found: dict[str, Any]) -> None:
    """Prints a bar for each key, and the guarantee."""
    margin = found["margin"]
    rows = []
    for each in found["keys"]:
        estimate = each["estimate"]
        text = f"about {number(estimate)}" if found["signed"] else f"at most {number(estimate)}"
        rows.append(Row(each["key"], max(0, estimate - margin), max(0, estimate), text))
    print(f"a weight of {number(found['total'])} in {plural(found['parts'], 'part')}")
    print("\n".join(bars(rows)))
    if found["signed"]:
        print("Each estimate is what all keys of one cell weigh together: with weights below 0 it may be too low or too high.")
    else:
        print(f"No key weighs more than its estimate. About one in {number(found['one_in'])} weighs less by more than "
              f"{number(margin)}, by the published formula.")


def show_lines(found: dict[str, Any], escaped: bool) -> None:
    """Prints a line for each key, as `sketches weigh` does."""
    print(f"# total {found['total']}")
    print_lines(((str(each["estimate"]), each["key"]) for each in found["keys"]), escaped)


def main(arguments: Sequence[str] | None = None) -> int:
    """Runs the command, and returns the exit status."""
    words = words_of(arguments)
    as_lines = functools.partial(show_lines, escaped=words.column is not None)
    return engine.run("traffic.py", lambda: weigh(words), as_lines if words.tsv else show, words.json)


if __name__ == "__main__":
    sys.exit(main())
