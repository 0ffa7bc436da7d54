#!/usr/bin/env python3
"""Finds the lines of files whose key may be in a file of keys: a filter of the keys, made and applied by many workers.

    seen.py customers.txt orders/*.txt --column customer --write kept

The keys are the lines of KEYS, or a column of it by --key-column, or a field of its lines by --key-field.
"""
from __future__ import annotations

import argparse
import contextlib
import re
import shutil
import sys
import uuid
from pathlib import Path
from typing import Any, Iterator, Sequence

import datasketches_rattle as ds
import sketch_engine as engine
from dask.delayed import delayed
from sketch_parts import Seen, count_part, decompressor, filter_part
from sketch_report import Row, bars, number, plural

WRITTEN = re.compile(r"[0-9]{6,}-.+", re.DOTALL)


def words_of(arguments: Sequence[str] | None) -> argparse.Namespace:
    """Reads the command line."""
    parser = argparse.ArgumentParser(prog="seen.py", description=__doc__,
                                     formatter_class=argparse.RawDescriptionHelpFormatter)
    parser.add_argument("keys", metavar="KEYS", help="the file with the keys, as a FILE is")
    parser.add_argument("files", nargs="+", metavar="FILE", help=engine.FILE_HELP)
    engine.add_item_words(parser, words=False, weights=False)
    keys = parser.add_mutually_exclusive_group()
    keys.add_argument("--key-column", metavar="NAME", help="the column of KEYS with the keys (the whole line)")
    keys.add_argument("--key-field", type=engine.field_number, metavar="N", help="the field of the lines of KEYS with the keys")
    parser.add_argument("--one-in", type=engine.positive, default=100, metavar="N",
                        help="keep about one in N of the lines whose key is not there (%(default)s)")
    parser.add_argument("--write", metavar="FOLDER",
                        help="write the lines that are kept, a file for each part, into a folder with no files")
    parser.add_argument("--overwrite", action="store_true",
                        help="remove what an earlier --write left in FOLDER, when the job is done; other files are an error")
    engine.add_engine_words(parser)
    return engine.parsed(parser, arguments)


def shape_for(count: int, one_in: int) -> Seen:
    """Returns the shape of a filter of `count` keys, by the published formulas, with at least the minimum of bits."""
    count, questions = max(count, 1), max(one_in, 2)
    bits = ds.BloomFilter.suggest_num_bits(count, questions)
    hashes = ds.BloomFilter.suggest_num_hashes(bits, count)
    return Seen(max(bits, ds.BloomFilter.min_num_bits(count, questions)), hashes)


def name_of(path: str) -> str:
    """Returns the name of a file, without the ending of a compressed one."""
    return Path(path).stem if decompressor(path) else Path(path).name


def replaced_in(folder: Path, overwrite: bool, making: Path | None = None) -> list[Path]:
    """Returns the files that a job replaces in its folder. Raises `ValueError` if there is a file that it must not replace."""
    there = sorted(set(folder.iterdir()) - {making})
    for path in there:
        if not overwrite:
            raise ValueError(f"{folder} has files, as {path.name}; --overwrite replaces those that an earlier --write left")
        if not WRITTEN.fullmatch(path.name) or not path.is_file():
            raise ValueError(f"{path} was not written by this command, and is not replaced")
    return there


@contextlib.contextmanager
def output_folder(folder: Path, overwrite: bool, names: Sequence[str]) -> Iterator[Path]:
    """Yields a new folder for files of these names. If the job succeeds, moves them to its folder, else leaves that unchanged."""
    folder.mkdir(parents=True, exist_ok=True)
    replaced_in(folder, overwrite)
    making = folder / f".{uuid.uuid4().hex}"
    making.mkdir()
    try:
        yield making
        for path in replaced_in(folder, overwrite, making):
            path.unlink()
        for name in names:
            (making / name).rename(folder / name)
    finally:
        shutil.rmtree(making, ignore_errors=True)


def items_in(words: argparse.Namespace, column: str | None, field: int | None) -> dict[str, Any]:
    """Returns arguments of `cut_files`: lines, a column or a field, by the command line's delimiter."""
    if column is None and field is None:
        return {}
    return {"column": column, "field": field, "no_header": words.no_header and column is not None, "delimiter": words.delimiter}


def kept(words: argparse.Namespace) -> dict[str, Any]:
    """Makes the filter and applies it. Returns for each file the numbers of its lines and of those that are kept."""
    if words.overwrite and words.write is None:
        raise ValueError("--overwrite needs --write FOLDER")
    key_parts = engine.cut_files([words.keys], words.parts, **items_in(words, words.key_column, words.key_field))
    parts = engine.cut_files(words.files, words.parts, **items_in(words, words.column, words.field))
    targets: list[str | None] = [None] * len(parts)
    with contextlib.ExitStack() as stack:
        if words.write is not None:
            names = [f"{n:06}-{name_of(part.path)}" for n, part in enumerate(parts)]
            making = stack.enter_context(output_folder(Path(words.write).absolute(), words.overwrite, names))
            targets = [str(making / name) for name in names]
        client = stack.enter_context(engine.connect(words.workers, words.scheduler))
        counts = [delayed(count_part, pure=False)(part) for part in key_parts]
        count = engine.answer(client, delayed(sum)(counts))
        shape = shape_for(count, words.one_in)
        image = engine.merged(shape, engine.sketches(shape, key_parts), words.fan_in)
        apply = delayed(filter_part, pure=False)
        found = engine.answer(client, delayed(list)([apply(shape, image, *each) for each in zip(parts, targets)]))
    files = {part.path: [0, 0] for part in parts}
    for part, numbers in zip(parts, found):
        files[part.path] = [before + more for before, more in zip(files[part.path], numbers)]
    return {
        "keys": count,
        "bits": shape.bits,
        "hashes": shape.hashes,
        "one_in": words.one_in,
        "parts": len(parts),
        "files": [{"file": path, "lines": lines, "kept": kept} for path, (lines, kept) in files.items()],
    }


def show(found: dict[str, Any]) -> None:
    """Prints a bar for each file, and the guarantee."""
    rows = [Row(Path(each["file"]).name, each["kept"], each["lines"],
                f"{number(each['kept'])} of {plural(each['lines'], 'line')} kept") for each in found["files"]]
    print(f"{plural(found['keys'], 'key')} in a filter of {plural(found['bits'], 'bit')}, {found['hashes']} an item")
    print("\n".join(bars(rows)))
    print(f"No line whose key is there was left out. Of those whose key is not, about one in {number(found['one_in'])} is kept, "
          "by the published formula.")


def main(arguments: Sequence[str] | None = None) -> int:
    """Runs the command, and returns the exit status."""
    words = words_of(arguments)
    return engine.run("seen.py", lambda: kept(words), show, words.json)


if __name__ == "__main__":
    sys.exit(main())
