"""Sketches of the words, lines or fields of files."""
from __future__ import annotations

import codecs
import csv as csv_format
import os
import select
import stat
import warnings
from typing import TYPE_CHECKING, Any, BinaryIO, Iterator

from ._sketches import BloomFilter, SketchError, _take_fields, _take_file, _threads

if TYPE_CHECKING:
    from ._sketches import CountMinSketch, FrequentItemsSketch

CHUNK = 1 << 20
HEADER = 1 << 20  # the maximum number of bytes of a header of CSV
DELAY = 2.0  # the seconds after which a bar appears


class _NoBar:
    """A bar that shows nothing."""

    def __enter__(self) -> _NoBar:
        return self

    def __exit__(self, *exception: Any) -> None:
        pass

    def update(self, count: int) -> None:
        pass


def _bar(file: BinaryIO, progress: bool | None) -> Any:
    """Returns a bar for the bytes of a file."""
    if progress is not None and not progress:
        return _NoBar()
    try:
        from tqdm import tqdm
    except ImportError:
        if progress:
            raise ImportError("progress=True needs the package tqdm") from None
        return _NoBar()
    status = os.fstat(file.fileno())
    total = status.st_size if stat.S_ISREG(status.st_mode) else None
    return tqdm(total=total, unit="B", unit_scale=True, delay=0 if progress else DELAY, disable=False if progress else None)


def filter_from_file(
    cls: type[BloomFilter], path: Any, split: str = "words", *, num_bits: int, num_hashes: int, seed: int = 9001,
    progress: bool | None = None, threads: int | None = 1, item: Any = None, delimiter: str | None = None, csv: bool = False,
    header: bool = True,
) -> BloomFilter:
    """Returns a filter of the words, lines or fields of a file."""
    columns = _columns(split, item, None, delimiter, csv, header)
    return _with_file(cls(num_bits, num_hashes, seed), path, split, columns, progress, threads)


def count_from_file(
    cls: type[CountMinSketch], path: Any, split: str = "words", *, num_hashes: int, num_buckets: int, seed: int = 9001,
    signed: bool = False, progress: bool | None = None, threads: int | None = 1, item: Any = None, weight: Any = None,
    delimiter: str | None = None, csv: bool = False, header: bool = True,
) -> CountMinSketch:
    """Returns a Count-Min sketch of the words, lines or fields of a file."""
    columns = _columns(split, item, weight, delimiter, csv, header)
    return _with_file(cls(num_hashes, num_buckets, seed, signed), path, split, columns, progress, threads)


def frequent_from_file(
    cls: type[FrequentItemsSketch], path: Any, split: str = "words", max_map_size: int = 4096, sample_size: int | None = None,
    progress: bool | None = None, key: Any = None, threads: int | None = 1, *, item: Any = None, weight: Any = None,
    delimiter: str | None = None, csv: bool = False, header: bool = True,
) -> FrequentItemsSketch:
    """Returns a sketch of the most frequent words, lines or fields of a file."""
    columns = _columns(split, item, weight, delimiter, csv, header)
    return _with_file(cls(max_map_size, item=str, sample_size=sample_size, key=key), path, split, columns, progress, threads)


filter_from_file.__qualname__ = "BloomFilter.from_file"  # for the errors of wrong arguments
count_from_file.__qualname__ = "CountMinSketch.from_file"
frequent_from_file.__qualname__ = "FrequentItemsSketch.from_file"


class _Columns:
    """The fields of records: indices from 0, or names of columns of CSV."""

    def __init__(self, item: Any, weight: Any, delimiter: str | None, csv: bool, header: bool) -> None:
        self.item, self.weight, self.delimiter, self.csv, self.header = item, weight, delimiter, csv, csv and header


def _columns(split: str, item: Any, weight: Any, delimiter: str | None, csv: bool, header: bool) -> _Columns | None:
    """Returns the chosen fields, or None for words and lines. A whole line may have a weight."""
    if split not in ("words", "lines"):
        raise ValueError(f"split is 'words' or 'lines', not {split!r}")
    if item is None:
        if csv or (split == "words" and weight is not None) or (weight is None and delimiter is not None):
            raise ValueError("item is the field to take: its index, counted from 0, or with csv=True the name of its column")
        return None if weight is None else _Columns(None, weight, delimiter, csv, header)
    if split != "words":
        raise ValueError("split='lines' takes whole lines, and item a field of each")
    for name, column in (("item", item), ("weight", weight)):
        if isinstance(column, str) and not (csv and header):
            raise ValueError(f"{name}={column!r} is the name of a column: with csv=True the first record has the names")
    return _Columns(item, weight, delimiter, csv, header)


def _with_file(
    sketch: Any, path: Any, split: str, columns: _Columns | None, progress: bool | None, threads: int | None
) -> Any:
    """Counts or inserts the words, lines or fields of a file, which is read once, and returns the sketch."""
    threads = _threads(sketch, threads)
    with open(path, "rb", buffering=0) as file, _bar(file, progress) as bar:
        try:
            if columns is not None:
                _take_records(sketch, path, file, columns, threads, bar)
            elif threads == 1:
                _take_chunks(sketch, file, split, bar)
            else:
                _take_file(sketch, file.fileno(), split == "lines", threads, bar.update)
        except SketchError as error:
            raise _at_file(error, path) from None
    return sketch


def _read(file: Any, size: int) -> bytes:
    """Reads `size` bytes, or fewer at the end of the file. Waits for the bytes of a file that does not block."""
    pieces, left = [], size
    while left > 0:
        piece = file.read(left)
        if piece is None:
            _wait(file)
            continue
        if not piece:
            break
        pieces.append(piece)
        left -= len(piece)
    return pieces[0] if len(pieces) == 1 else b"".join(pieces)


def _wait(file: Any) -> None:
    """Waits until a file that does not block has bytes, or is at its end."""
    waiting = select.poll()
    waiting.register(file, select.POLLIN)
    waiting.poll()


def _take_chunks(sketch: Any, file: Any, split: str, bar: Any) -> None:
    """Counts or inserts the words or lines of a file in chunks, by this thread."""
    update = getattr(sketch, ("insert_" if isinstance(sketch, BloomFilter) else "update_") + split)
    rest, at, size = b"", 0, CHUNK
    try:
        while piece := _read(file, size):
            chunk = rest + piece
            if at == 0 and chunk.startswith(codecs.BOM_UTF8):
                at, chunk = len(codecs.BOM_UTF8), chunk[len(codecs.BOM_UTF8) :]
            used = update(chunk, final=False)
            at, rest = at + used, chunk[used:]
            size = max(CHUNK, len(rest))  # a long word is not copied for each chunk of it, but each time it has doubled
            bar.update(len(piece))
        update(rest)
    except SketchError as error:
        if error.byte is not None:
            error.args, error.byte = (str(error).replace(f" at byte {error.byte}", f" at byte {at + error.byte}"),), at + error.byte
        raise


def _at_file(error: SketchError, path: Any) -> SketchError:
    """Returns the error for a file. It has no note, since the sketch is lost."""
    found = SketchError(f"{path}: {error}")
    found.kind, found.fault, found.byte = error.kind, error.fault, error.byte
    return found


# --- Fields ---


class _Front:
    """The front of a file, and its header of CSV."""

    def __init__(self, path: Any, file: Any) -> None:
        self.path, self.file = path, file
        self.bytes = _read(file, CHUNK)
        self.used = len(codecs.BOM_UTF8) if self.bytes.startswith(codecs.BOM_UTF8) else 0

    def lines(self) -> Iterator[str]:
        """Returns lines with their ends, as characters for single bytes. `used` is then the number of bytes through the last one."""
        while self.used < len(self.bytes):
            end = self.bytes.find(b"\n", self.used) + 1
            if end == 0 and len(self.bytes) < HEADER + CHUNK and (more := _read(self.file, CHUNK)):
                self.bytes += more
                continue
            end = end or len(self.bytes)
            if end > HEADER:
                raise ValueError(f"{self.path}: the header has more than {HEADER} bytes")
            begin, self.used = self.used, end
            yield self.bytes[begin:end].decode("latin-1")

    def header(self, delimiter: str | None) -> list[str]:
        """Reads the first record, and returns its fields."""
        try:
            found = next(csv_format.reader(self.lines(), delimiter=delimiter or ","), [])
        except csv_format.Error as error:
            raise ValueError(f"{self.path}: the header is no record of CSV: {error}") from None
        return [field.encode("latin-1").decode("utf-8", "replace") for field in found]


def _index(path: Any, names: list[str], column: Any) -> Any:
    """Returns the index of a column that may be a name."""
    if not isinstance(column, str):
        return column
    if column in names:
        return names.index(column)
    shown = ", ".join(map(repr, names[:20])) + (", .." if len(names) > 20 else "")
    raise ValueError(f"{path}: no column {column!r} in the header: it has {shown or 'no name'}")


def _take_records(sketch: Any, path: Any, file: Any, columns: _Columns, threads: int, bar: Any) -> None:
    """Counts or inserts a field of each record of a file. Warns if records do not have it."""
    take = sketch.insert_fields if isinstance(sketch, BloomFilter) else sketch.update_fields
    chosen = {"weight": 0 if isinstance(columns.weight, str) else columns.weight} if columns.weight is not None else {}
    take(b"", 0 if isinstance(columns.item, str) else columns.item, delimiter=columns.delimiter, csv=columns.csv, **chosen)  # checks all
    front = _Front(path, file)
    names = front.header(columns.delimiter) if columns.header else []
    item, weight = (_index(path, names, column) for column in (columns.item, columns.weight))
    records, absent = _take_fields(sketch, file.fileno(), memoryview(front.bytes)[front.used :], front.used, item, weight,
                                   columns.delimiter, columns.csv, threads, bar.update)
    if absent > 0:
        warnings.warn(f"{path}: {absent} of {records} records have no field {columns.item!r}, and are left out", stacklevel=4)
