"""Cuts files into parts, sketches these by threads or by workers of Dask, and merges the sketches in a tree."""
from __future__ import annotations

import argparse
import asyncio
import collections
import concurrent.futures
import contextlib
import csv
import dataclasses
import json
import logging
import os
import re
import sys
import tempfile
from typing import TYPE_CHECKING, Any, Callable, Iterator, Sequence

import datasketches_rattle as ds

import sketch_parts
from sketch_parts import BadInput, Columns, Field, Part, Shape, merge_images, sketch_part

if TYPE_CHECKING:  # Dask is imported where it is used: threads need none
    import distributed
    from dask.delayed import Delayed

PART_BYTES = 1 << 24
PATIENCE = 60
FILE_HELP = "a UTF-8 text file that all workers can read; one that ends in .gz, .bz2, .xz or .zst is unpacked"


# --- Options that the commands share ---


def add_engine_words(parser: argparse.ArgumentParser) -> None:
    """Adds the options for workers and for the output."""
    group = parser.add_argument_group("workers")
    group.add_argument("--workers", type=positive, metavar="N",
                       help="start N workers on this machine, which take nothing but this command's tasks: threads that count "
                            "(one for each processor), and processes that look up in a filter (at most 4)")
    group.add_argument("--scheduler", metavar="ADDRESS", help="use the workers of this Dask scheduler, as tcp://HOST:8786")
    group.add_argument("--parts", type=positive, metavar="N",
                       help="cut the files into about N parts, at least one a file (one for each 16 MiB); a compressed file is one")
    group.add_argument("--fan-in", type=whole_number(2), default=4, metavar="N", help="merge N sketches at a time (%(default)s)")
    shown = parser.add_argument_group("output")
    shown.add_argument("--json", action="store_true", help="print the result as JSON")


def add_line_word(parser: argparse.ArgumentParser, what: str) -> None:
    """Adds the option for lines in the form of the program `sketches`."""
    parser.add_argument("--tsv", action="store_true",
                        help=f"print what {what} and tabs between; with --column, backslashes, tabs and line ends of an item are "
                             r"written as \\, \t, \n and \r")


def add_item_words(parser: argparse.ArgumentParser, words: bool = True, weights: bool = True) -> None:
    """Adds the options for the items of a file. Without them items are lines."""
    group = parser.add_argument_group("items")
    one = group.add_mutually_exclusive_group()
    if words:
        one.add_argument("--words", action="store_true", help="items are the words of the lines, not the lines")
    one.add_argument("--column", metavar="NAME",
                     help="items are the strings of a column of comma-separated values; a number from 1 with --no-header")
    one.add_argument("-f", "--field", type=field_number, metavar="N",
                     help="items are field N of each line, between runs of white space; a line without it has no item")
    if weights:
        group.add_argument("--weight", metavar="NAME", help="the column with the items' weights (each weighs 1)")
        group.add_argument("-w", "--weight-field", type=field_number, metavar="N",
                           help="the field with the weight of a line's item, or of the line without --field: a line with an item "
                                "and without this number is an error")
    group.add_argument("--no-header", action="store_true", help="the first line names no columns")
    group.add_argument("-d", "--delimiter", type=delimiter_of, metavar="C",
                       help=r"the character between columns (,); with -f or -w take fields between single characters C of ASCII, "
                            r"without quoting; \t is a tab")


def parsed(parser: argparse.ArgumentParser, arguments: Sequence[str] | None) -> argparse.Namespace:
    """Reads the command line. Exits with a usage error if a delimiter has neither columns nor fields, or if a field is the weight
    of words or columns."""
    words = parser.parse_args(arguments)
    chosen = [getattr(words, name, None) for name in ("column", "field", "weight_field", "key_column", "key_field")]
    if words.delimiter is not None and chosen.count(None) == len(chosen):
        parser.error("argument -d/--delimiter: needs a column or a field")
    if getattr(words, "weight_field", None) is not None and (words.words or words.column is not None):
        parser.error("argument -w/--weight-field: not allowed with --words or --column")
    return words


def items_of(words: argparse.Namespace) -> dict[str, Any]:
    """Returns the command line's options for columns and fields, as arguments of `cut_files`."""
    return {name: getattr(words, name) for name in ("column", "weight", "no_header", "field", "weight_field", "delimiter")}


def whole_number(least: int, most: int = 2**63 - 1) -> Callable[[str], int]:
    """Returns a function that reads a whole number in a range, for argparse."""

    def read(text: str) -> int:
        if not re.fullmatch("[0-9]{1,20}", text) or not least <= int(text) <= most:
            raise argparse.ArgumentTypeError(f"{text!r} is no whole number from {least} to {most}")
        return int(text)

    return read


positive = whole_number(1)
field_number = whole_number(1, 2**32 - 1)  # as for the program `sketches`


def key_of(text: str) -> bytes:
    """Reads a key of 16 bytes."""
    if not re.fullmatch("[0-9a-fA-F]{32}", text):
        raise argparse.ArgumentTypeError("a key is 32 hexadecimal digits")
    return bytes.fromhex(text)


def delimiter_of(text: str) -> str:
    """Reads the character between columns or fields."""
    return "\t" if text == r"\t" else text


# --- Parts of files ---


def cut_files(paths: Sequence[str], parts: int | None, *, words: bool = False, column: str | None = None,
              weight: str | None = None, no_header: bool = False, field: int | None = None,
              weight_field: int | None = None, delimiter: str | None = None) -> list[Part]:
    """Cuts files into parts, at least one a file. Raises `OSError` or `BadInput` if a file cannot be read or cut."""
    if column is None and (weight is not None or no_header):
        raise ValueError("a weight, or no header, needs a column")
    of_fields = field is not None or weight_field is not None
    if words + (column is not None) + of_fields > 1:
        raise ValueError("items are words, a column's strings or a field, and no two of these")
    chosen = fields_between(delimiter, field, weight_field) if of_fields else None
    if not of_fields and delimiter is not None and (len(delimiter) != 1 or delimiter in "\"\r\n"):
        raise ValueError(f"a delimiter is one character, and no quote or line end, not {delimiter!r}")
    files = [sketch_parts.whole(os.path.abspath(path), words=words, field=chosen) for path in paths]
    max_bytes = PART_BYTES if parts is None else max(1, -(-sum(file.end for file in files) // parts))
    if column is not None:
        files = [with_columns(file, column, weight, no_header, "," if delimiter is None else delimiter) for file in files]
    return [part for file in files for part in sketch_parts.cut(file, max_bytes)]


def fields_between(delimiter: str | None, item: int | None, weight: int | None) -> Field:
    """Returns the fields of these numbers from 1, between delimiters, or between runs of white space without one."""
    if delimiter is not None and (len(delimiter) != 1 or not delimiter.isascii()):
        raise ValueError(f"a delimiter of fields is one character of ASCII, not {delimiter!r}")
    places = [None if number is None else number - 1 for number in (item, weight)]
    return Field(places[0], None if delimiter is None else delimiter.encode(), places[1])


def with_columns(file: Part, column: str, weight: str | None, no_header: bool, delimiter: str) -> Part:
    """Returns the rows of a file, with the columns of these names. An empty file has no rows, and needs no names."""
    if no_header:
        for name in (column, weight):
            if name is not None and not (name.isdecimal() and int(name) > 0):
                raise ValueError(f"with no header a column is a number from 1, not {name!r}")
        places = [int(name) - 1 for name in (column, weight) if name is not None]
        return dataclasses.replace(file, columns=Columns(places[0], places[1] if weight is not None else None, delimiter))
    with contextlib.closing(sketch_parts.blocks(file)) as blocks:
        at, data = next(blocks, (0, b""))
    if not data:
        return dataclasses.replace(file, columns=Columns(0, None, delimiter))
    head = data[: data.find(b"\n") + 1] or data
    try:
        names = next(sketch_parts.rows_of(sketch_parts.lines_of(file.path, at, head), delimiter), [])
    except csv.Error as error:
        raise BadInput(file.path, f"the header cannot be read: {error}", at) from None
    for name in (column, weight):
        if name is not None and names.count(name) != 1:
            there = ", ".join(names) if names else "none"
            raise BadInput(file.path, f"{names.count(name) or 'no'} columns have the name {name!r}; there are: {there}", at)
    columns = Columns(names.index(column), names.index(weight) if weight is not None else None, delimiter)
    return dataclasses.replace(file, begin=at + len(head), columns=columns)


# --- Workers ---


def image_of(words: argparse.Namespace, shape: Shape, parts: Sequence[Part]) -> bytes:
    """Returns the image of the sketch of all parts. Threads of this process count items, which the library does without the
    interpreter's lock. If a scheduler is named, its workers count them."""
    if words.scheduler is None:
        return image_by_threads(shape, parts, words.workers, words.fan_in)
    with connect(words.workers, words.scheduler) as client:
        return answer(client, merged(shape, sketches(shape, parts), words.fan_in))


def image_by_threads(shape: Shape, parts: Sequence[Part], threads: int | None, fan_in: int) -> bytes:
    """Returns the image of the sketch of all parts, with the merges of `merged`. On a terminal it shows how many parts are done."""
    processors = len(os.sched_getaffinity(0)) if hasattr(os, "sched_getaffinity") else os.cpu_count() or 1
    tree = Tree(shape, fan_in)
    with concurrent.futures.ThreadPoolExecutor(threads or processors) as pool:
        for count, image in enumerate(images_in_order(pool, shape, parts, 2 * (threads or processors)), 1):
            tree.add(image)
            if sys.stderr.isatty():
                print(f"\r{count} of {len(parts)} parts", end="" if count < len(parts) else "\n", file=sys.stderr)
    return tree.image()


def images_in_order(
    pool: concurrent.futures.Executor, shape: Shape, parts: Sequence[Part], ahead: int
) -> Iterator[bytes]:
    """Yields the images of the parts' sketches in order. At most `ahead` of them are made before the first is taken."""
    waiting: collections.deque[concurrent.futures.Future[bytes]] = collections.deque()
    try:
        for part in parts:
            waiting.append(pool.submit(sketch_part, shape, part))
            if len(waiting) == ahead:
                yield waiting.popleft().result()
        while waiting:
            yield waiting.popleft().result()
    finally:
        for future in waiting:
            future.cancel()


class Tree:
    """Merges images in the tree of `merged`, as they come. It keeps less than `fan_in` images of each level."""

    def __init__(self, shape: Shape, fan_in: int) -> None:
        self.shape, self.fan_in = shape, fan_in
        self.levels: list[list[bytes]] = []  # the images that are not merged yet
        self.counts: list[int] = []  # the number of all images

    def add(self, image: bytes, level: int = 0) -> None:
        """Adds the next image of a level."""
        if level == len(self.levels):
            self.levels.append([])
            self.counts.append(0)
        self.levels[level].append(image)
        self.counts[level] += 1
        if len(self.levels[level]) == self.fan_in:
            self.merge(level)

    def merge(self, level: int) -> None:
        """Merges the images that a level keeps into one of the next level."""
        images, self.levels[level] = self.levels[level], []
        self.add(merge_images(self.shape, images), level + 1)

    def image(self) -> bytes:
        """Returns the image of all. There is at least one, and none is added later."""
        level = 0
        while self.counts[level] > 1:
            if self.levels[level]:
                self.merge(level)
            level += 1
        return self.levels[level][0]


@contextlib.contextmanager
def connect(workers: int | None, scheduler: str | None) -> Iterator[distributed.Client]:
    """Starts workers on this machine, or connects to those of a scheduler and sends them the file that they need.

    Workers are processes that listen on the loopback address, and accept only TLS connections with a certificate of this run. They
    serve no pages.
    """
    import dask
    import distributed

    logging.getLogger("asyncio").setLevel(logging.CRITICAL)  # no messages on tasks that run when a client ends
    if scheduler is not None:
        try:
            client = distributed.Client(scheduler, timeout=PATIENCE)
        except (TypeError, RuntimeError) as error:  # tls:// without a certificate, or a certificate that is not accepted
            raise ConnectionError(f"{scheduler}: {error}") from None
        with client:
            client.wait_for_workers(1, timeout=PATIENCE)
            client.upload_file(sketch_parts.__file__)
            yield client
        return
    with contextlib.ExitStack() as stack:
        folder = stack.enter_context(tempfile.TemporaryDirectory())
        stack.enter_context(dask.config.set({"distributed.comm.timeouts.connect": PATIENCE,
                                             "distributed.scheduler.http.routes": [], "distributed.worker.http.routes": []}))
        cluster = stack.enter_context(distributed.LocalCluster(
            n_workers=workers or min(4, os.cpu_count() or 1), threads_per_worker=1, processes=True, host="127.0.0.1",
            scheduler_port=0, security=distributed.Security.temporary(), dashboard_address="127.0.0.1:0",
            worker_dashboard_address="127.0.0.1:0", scheduler_kwargs={"dashboard": False}, local_directory=folder,
            silence_logs=logging.CRITICAL))
        yield stack.enter_context(distributed.Client(cluster, timeout=PATIENCE))


def sketches(shape: Shape, parts: Sequence[Part]) -> list[Delayed]:
    """Returns the images of the parts' sketches, as tasks for workers."""
    from dask.delayed import delayed

    make = delayed(sketch_part, pure=False)
    return [make(shape, part) for part in parts]


def merged(shape: Shape, images: Sequence[Delayed], fan_in: int) -> Delayed:
    """Returns the image of all sketches merged in a tree, as tasks for workers. Each image is in one merge."""
    from dask.delayed import delayed

    merge = delayed(merge_images, pure=False)
    images = list(images)
    while len(images) > 1:
        images = [merge(shape, images[at : at + fan_in]) for at in range(0, len(images), fan_in)]
    return images[0]


def answer(client: distributed.Client, wanted: Any) -> Any:
    """Returns the workers' result. On a terminal it shows Dask's progress bar."""
    import distributed

    future = client.compute(wanted)
    if sys.stderr.isatty():
        with contextlib.redirect_stdout(sys.stderr):
            distributed.progress(future, notebook=False)
    return future.result()


def is_killed_worker(error: Exception) -> bool:
    """Returns whether an error says that workers died. Then Dask is imported."""
    dask_module = sys.modules.get("distributed")
    return dask_module is not None and isinstance(error, dask_module.KilledWorker)


def run(name: str, job: Callable[[], dict[str, Any]], show: Callable[[dict[str, Any]], None], as_json: bool) -> int:
    """Runs a job and prints its result, or an error. Returns the exit status."""
    try:
        found = job()
        try:
            if as_json:
                print(json.dumps(found, ensure_ascii=False))
            else:
                show(found)
            sys.stdout.flush()
        except OSError as error:
            os.dup2(os.open(os.devnull, os.O_WRONLY), sys.stdout.fileno())  # Python writes the rest of its buffer at exit
            if isinstance(error, BrokenPipeError):  # as with `| head`
                return 1
            raise
        return 0
    except ds.SketchError as error:
        reason = f"{error.fault}: {error}"
    except (asyncio.TimeoutError, concurrent.futures.TimeoutError) as error:  # not an OSError before Python 3.11
        reason = f"the scheduler or its workers did not answer in time: {error}"
    except OSError as error:
        reason = str(error) if error.filename is None else f"{error.filename}: {error.strerror}"
    except (BadInput, ValueError, OverflowError) as error:
        reason = str(error)
    except MemoryError:
        reason = "out of memory: a sketch of this size, or what a worker holds beside it, is too large"
    except ImportError as error:
        reason = f"not installed here or on a worker: {error}"
    except Exception as error:
        if not is_killed_worker(error):
            raise
        reason = f"workers died one after another: {error}"
    print(f"{name}: {reason}", file=sys.stderr)
    return 1
