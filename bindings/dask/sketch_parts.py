"""The work of a worker: counts the items of a part of a file in a sketch, and merges sketches.

Sketches are sent as images, which the receiver checks. A worker needs this file and the package `datasketches_rattle`.
"""
from __future__ import annotations

import bz2
import codecs
import csv
import dataclasses
import functools
import lzma
import math
import os
import platform
import re
import stat
import time
import uuid
import zlib
from dataclasses import dataclass
from typing import Any, BinaryIO, Callable, Iterable, Iterator, NamedTuple, Sequence

import datasketches_rattle as ds

try:
    import numpy
except ImportError:  # then Python's csv reads columns with quotes
    numpy = None

BLOCK = 1 << 20
LONGEST_LINE = 1 << 24
PACKED_STEP = 512  # this number of bytes of a .gz or .zst unpacks to at most some 16 MiB
MAX_WINDOW = 1 << 27  # the maximum memory to unpack a file; `xz -9` and `zstd -19` need less
NUMBER = re.compile(r"\s*[+-]?0*[0-9]{1,20}\s*", re.ASCII)
DIGITS = re.compile(rb"-?0*[0-9]{1,20}")
BLANK_LINES = re.compile(rb"(?:\A|(?<=\n))(?:\r?\n)+")
OF_PROCESS = re.compile(r"/dev/(stdin|stdout|stderr|fd/.*)|/proc/.*")


class BadInput(Exception):
    """Input that a job cannot count: the file, the reason, and the byte, from 0, at which the line begins."""

    def __init__(self, path: str, reason: str, byte: int | None = None) -> None:
        super().__init__(path, reason, byte)

    def __str__(self) -> str:
        path, reason, byte = self.args
        return f"{path}: {reason}" if byte is None else f"{path}, line at byte {byte}: {reason}"


@dataclass(frozen=True)
class Columns:
    """The columns of the item and of the weight, from 0. Without a weight column each row weighs 1."""

    item: int
    weight: int | None = None
    delimiter: str = ","


@dataclass(frozen=True)
class Field:
    """A field of a line, from 0: between single bytes, or between runs of white space if there is no delimiter. The item is the
    field, or the line if the index is None. `weight` is the field with the item's weight, if it does not weigh 1."""

    index: int | None
    delimiter: bytes | None = None
    weight: int | None = None


@dataclass(frozen=True)
class Version:
    """The version of a file on a host. It differs for another file under the same path, and after a change."""

    size: int
    modified: int
    inode: int
    host: str

    @staticmethod
    def of(status: os.stat_result) -> Version:
        return Version(status.st_size, status.st_mtime_ns, status.st_ino, platform.node())

    def matches(self, other: Version) -> bool:
        """Returns whether both are one file, or copies on two hosts, whose inodes may differ."""
        same = (self.size, self.modified) == (other.size, other.modified)
        return same and (self.inode == other.inode or self.host != other.host)

    def __str__(self) -> str:
        seconds, rest = divmod(self.modified, 10**9)
        modified = time.strftime("%Y-%m-%d %H:%M:%S", time.gmtime(seconds))
        return f"{self.size} bytes of {modified}.{rest:09} UTC, inode {self.inode} on {self.host}"


@dataclass(frozen=True)
class Part:
    """The lines of a file that begin in a range of its bytes. Their items are the lines, their words, a column's strings, or a
    field of each line that has it.

    A compressed file is one part. Its range begins at a byte of the unpacked content, and ends with it.
    """

    path: str
    begin: int
    end: int
    version: Version
    words: bool = False
    columns: Columns | None = None
    field: Field | None = None

    def check(self, status: os.stat_result) -> None:
        """Raises `BadInput` if the file is not the one that was cut."""
        if not self.version.matches(found := Version.of(status)):
            raise BadInput(self.path, f"the file changed, or another one is here: cut from {self.version}; read from {found}")


class Batch(NamedTuple):
    """Some of a part's items. Without weights each weighs 1. `lines` has the items' lines, but is empty if items are words.
    `missing` is the number of other lines that are not blank: those without the field."""

    items: list[str]
    weights: list[int] | None
    lines: list[str]
    missing: int = 0


# --- Files ---


def open_file(path: str) -> BinaryIO:
    """Opens a regular file. Raises `BadInput` for a pipe or a device, which two workers cannot both read."""
    if OF_PROCESS.fullmatch(path):
        raise BadInput(path, "belongs to this process, and workers cannot read it; write its text to a file")
    file = open(path, "rb", opener=lambda name, flags: os.open(name, flags | os.O_NONBLOCK))  # does not wait for a pipe's writer
    if not stat.S_ISREG(os.fstat(file.fileno()).st_mode):
        file.close()
        raise BadInput(path, "is no regular file; write its text to a file")
    return file


def whole(path: str, **more: Any) -> Part:
    """Returns a file as one part."""
    decompressor(path)
    with open_file(path) as file:
        version = Version.of(os.fstat(file.fileno()))
    return Part(path, 0, version.size, version, **more)


def cut(part: Part, max_bytes: int) -> list[Part]:
    """Cuts a part into parts of at most `max_bytes` and the rest of a line, at least one. A compressed file stays whole."""
    size = part.end - part.begin
    count = 1 if decompressor(part.path) else max(1, math.ceil(size / max_bytes))
    ends = [part.begin + size * (n + 1) // count for n in range(count)]
    return [dataclasses.replace(part, begin=begin, end=end) for begin, end in zip([part.begin] + ends, ends)]


def decompressor(path: str) -> Callable[[], Any] | None:
    """Returns a function that begins to unpack a file of this name, or None if the name is not that of a compressed file."""
    match os.path.splitext(path)[1]:
        case ".gz":
            return lambda: zlib.decompressobj(wbits=31)
        case ".bz2":
            return bz2.BZ2Decompressor
        case ".xz":
            return lambda: lzma.LZMADecompressor(lzma.FORMAT_XZ, memlimit=MAX_WINDOW)
        case ".zst":
            try:
                import zstandard
            except ImportError:
                raise ImportError(f"{path} needs the package python3-zstandard") from None
            return zstandard.ZstdDecompressor(max_window_size=MAX_WINDOW).decompressobj
    return None


def unpacked(path: str, file: BinaryIO, begin: Callable[[], Any]) -> Iterator[bytes]:
    """Yields the unpacked bytes of a compressed file, at most `BLOCK` at a time."""
    text, at = bytearray(), 0
    try:
        for piece in streams(file, begin):
            text += piece
            if len(text) >= BLOCK:
                for start in range(0, len(text), BLOCK):
                    yield bytes(text[start : start + BLOCK])
                at += len(text)
                text.clear()
    except MemoryError:
        raise
    except Exception as error:  # each format has its own errors
        raise BadInput(path, f"cannot be unpacked: {error}", at + len(text)) from None
    if text:
        yield bytes(text)


def streams(file: BinaryIO, begin: Callable[[], Any]) -> Iterator[bytes]:
    """Yields the unpacked bytes of the compressed streams in a file, at most some 16 MiB at a time. Zeros between streams are
    skipped."""
    stream, data = begin(), b""
    while data or (data := file.read(PACKED_STEP)):
        if stream is None:
            if not (data := data.lstrip(b"\0")):
                continue
            stream = begin()
        if hasattr(stream, "needs_input"):  # .bz2 and .xz, of which a few bytes may unpack to gigabytes
            yield stream.decompress(data, BLOCK)
            while not (stream.eof or stream.needs_input):
                yield stream.decompress(b"", BLOCK)
        else:
            yield stream.decompress(data)
        data = b""
        if stream.eof:
            data, stream = stream.unused_data, None
    if stream is not None:
        raise EOFError("its end is missing")


# --- The lines of a part ---


def batches(part: Part, least: int = 0, most: int = 2**64 - 1) -> Iterator[Batch]:
    """Yields the part's items, with weights from `least` to `most`. Blank lines have no items.

    Raises `BadInput` if the file is not the one that was cut, before the first batch and after the last one.
    """
    for at, data in blocks(part):
        yield batch_of(part, at, data, least, most)


def batch_of(part: Part, at: int, data: bytes, least: int, most: int) -> Batch:
    """Returns the items of a block that begins at byte `at`."""
    if part.words:
        return Batch(words_of(text_of(part.path, at, data)), None, [])
    if part.field is not None:
        return fields_with_lines(part, part.field, at, data, least, most)
    lines = lines_of(part.path, at, data)
    return Batch(lines, None, lines) if part.columns is None else columns_of(part, part.columns, at, data, lines, least, most)


def blocks(part: Part) -> Iterator[tuple[int, bytes]]:
    """Yields the part in blocks of whole lines, each with the byte at which it begins."""
    begin = decompressor(part.path)
    with open_file(part.path) as file:
        part.check(os.fstat(file.fileno()))
        if begin is not None:
            start, pieces = 0, unpacked(part.path, file, begin)
        else:
            start, end = (line_start(part.path, file, at) for at in (part.begin, part.end))
            file.seek(start)
            pieces = iter(lambda: file.read(min(BLOCK, end - file.tell())), b"")
        for at, data in whole_lines(part.path, start, pieces):
            skipped = max(0, part.begin - at)
            if at == 0 and data.startswith(codecs.BOM_UTF8):
                skipped = max(skipped, len(codecs.BOM_UTF8))
            yield at + skipped, data[skipped:]
        part.check(os.fstat(file.fileno()))
        part.check(os.stat(part.path))
        if begin is None and file.tell() != end:
            raise BadInput(part.path, f"ends at byte {file.tell()}, and not at {end}")


def line_start(path: str, file: BinaryIO, at: int) -> int:
    """Returns the byte at which the first line begins that begins at a byte or after it, or the file's end."""
    size = os.fstat(file.fileno()).st_size
    if at == 0 or at >= size:
        return min(at, size)
    file.seek(at - 1)
    if not file.readline(LONGEST_LINE + 1).endswith(b"\n") and file.tell() < size:
        raise BadInput(path, f"longer than {LONGEST_LINE} bytes", at)
    return file.tell()


def whole_lines(path: str, at: int, pieces: Iterable[bytes]) -> Iterator[tuple[int, bytes]]:
    """Yields pieces, of which the first begins at byte `at`, as blocks of whole lines, each with the byte at which it begins."""
    rest = b""
    for piece in pieces:
        data = rest + piece
        end = data.rfind(b"\n") + 1
        if (data.find(b"\n") if end else len(data)) > LONGEST_LINE:
            raise BadInput(path, f"longer than {LONGEST_LINE} bytes", at)
        if end:
            yield at, data[:end]
        at, rest = at + end, data[end:]
    if rest:
        yield at, rest


def text_of(path: str, at: int, data: bytes) -> str:
    """Returns the string of a block."""
    try:
        return data.decode("utf-8")
    except UnicodeDecodeError as error:
        raise BadInput(path, "not UTF-8", at + data.rfind(b"\n", 0, error.start) + 1) from None


def lines_of(path: str, at: int, data: bytes) -> list[str]:
    """Returns the lines of a block that are not blank."""
    text = text_of(path, at, data).replace("\r\n", "\n").removesuffix("\r")
    return [line for line in text.split("\n") if line]


def full_lines(data: bytes) -> bytes:
    """Returns a block without its blank lines, and without CR at the end of a last line without LF."""
    return without_blank_lines(data.removesuffix(b"\r"))


def without_blank_lines(data: bytes) -> bytes:
    """Returns a block without its blank lines."""
    if data.startswith((b"\n", b"\r\n")) or b"\n\n" in data or b"\n\r\n" in data:
        data = BLANK_LINES.sub(b"", data)
    return data


def words_of(text: str) -> list[str]:
    """Returns the words of a string: its longest runs without space, tab, LF, FF and CR, as `update_words` takes them."""
    for space in "\t\n\f\r":
        text = text.replace(space, " ")
    return [word for word in text.split(" ") if word]


def fields_of(field: Field, data: bytes) -> list[bytes]:
    """Returns the field of each line of a block that has it. The block is UTF-8. Blank lines have no field.

    A CR before LF is not of the line, but one at the end of a last line without LF is, as for the program `sketches`.
    """
    index, delimiter = field.index, field.delimiter
    if index is None:
        return [line for line in data.replace(b"\r\n", b"\n").split(b"\n") if line]
    if delimiter is None and b"\v" in data:  # white space for Python alone; UTF-8 has no byte 0xff
        return [item.replace(b"\xff", b"\v") for item in fields_of(field, data.replace(b"\v", b"\xff"))]
    lines = data.replace(b"\r\n", b"\n").split(b"\n")
    return [fields[index] for line in lines if line and len(fields := line.split(delimiter, index + 1)) > index]


def fields_with_lines(part: Part, field: Field, at: int, data: bytes, least: int, most: int) -> Batch:
    """Returns the item of each line of a block that has it, with its weight and its line."""
    lines = [line for line in text_of(part.path, at, data).replace("\r\n", "\n").split("\n") if line]
    found = [(number, item.decode()) for number, line in enumerate(lines) for item in fields_of(field, line.encode())]
    weights: list[int] | None = None
    if field.weight is not None:
        weighed, weights = dataclasses.replace(field, index=field.weight), []
        for number, _ in found:
            try:
                weights.append(field_weight(fields_of(weighed, lines[number].encode()), least, most))
            except ValueError as error:
                raise BadInput(part.path, str(error), at + line_at(data, number)) from None
    return Batch([item for _, item in found], weights, [lines[number] for number, _ in found], len(lines) - len(found))


def field_weight(fields: Sequence[bytes], least: int, most: int) -> int:
    """Returns the weight in the only field, if any. Raises `ValueError` if it is not a whole number in the range."""
    if not fields:
        raise ValueError("there is no field with the weight")
    if not DIGITS.fullmatch(fields[0]):
        raise ValueError(f"the weight {fields[0].decode()!r} is no whole number from {least} to {most}")
    return weight(fields[0].decode(), least, most)


def line_at(data: bytes, index: int) -> int:
    """Returns the byte in a block at which a line begins. Its index, from 0, counts the lines that are not blank."""
    at = 0
    for line in data.split(b"\n"):
        if line.removesuffix(b"\r"):
            if index == 0:
                break
            index -= 1
        at += len(line) + 1
    return at


def rows_of(lines: Sequence[str], delimiter: str) -> Iterator[list[str]]:
    """Yields the fields of each line. Raises `csv.Error` if a line is not a row."""
    reader, count = csv.reader(lines, delimiter=delimiter, strict=True), 0
    try:
        for count, row in enumerate(reader, 1):
            if reader.line_num != count:
                break
            yield row
        else:
            return
    except csv.Error as error:
        if str(error) != "unexpected end of data":
            raise
    raise csv.Error("a quoted field goes on in the next line")


def columns_of(part: Part, columns: Columns, at: int, data: bytes, lines: list[str], least: int, most: int) -> Batch:
    """Returns the items and the weights of the rows in a block's lines."""
    items: list[str] = []
    weights: list[int] | None = None if columns.weight is None else []
    try:
        for row in rows_of(lines, columns.delimiter):
            item = field(row, columns.item)
            if weights is not None:
                weights.append(weight(field(row, columns.weight), least, most))
            items.append(item)
    except (csv.Error, ValueError) as error:
        raise BadInput(part.path, str(error), at + line_at(data, len(items))) from None
    return Batch(items, weights, lines)


def field(row: Sequence[str], column: int) -> str:
    """Returns a field of a row."""
    if column >= len(row):
        raise csv.Error(f"there are {len(row)} columns, and column {column + 1} is asked for")
    return row[column]


def weight(text: str, least: int, most: int) -> int:
    """Returns the weight in a string. Raises `ValueError` if it is not a whole number in the range."""
    number = int(text) if NUMBER.fullmatch(text) else None
    if number is None or not least <= number <= most:
        raise ValueError(f"the weight {text!r} is no whole number from {least} to {most}")
    return number


# --- Sketches of parts ---
#
# Only images of this job's own sketches are read, so no limit rejects them.


@dataclass(frozen=True)
class Heavy:
    """Frequent items, in a table of at most `size` slots. It hashes under `key`, or under its own random key if that is None."""

    size: int
    item: type | str = str
    key: bytes | None = None
    least, most = 0, 2**64 - 1

    def empty(self) -> ds.FrequentItemsSketch:
        return ds.FrequentItemsSketch(self.size, item=self.item, key=self.key)

    def read(self, image: bytes) -> ds.FrequentItemsSketch:
        return ds.FrequentItemsSketch.deserialize(image, item=self.item, max_bytes=None, key=self.key)

    def add(self, sketch: ds.FrequentItemsSketch, batch: Batch) -> None:
        sketch.update(batch.items, 1 if batch.weights is None else batch.weights)

    @property
    def takes_strings(self) -> bool:
        return self.item in (str, "str")

    def add_text(self, sketch: ds.FrequentItemsSketch, text: bytes, words: bool) -> None:
        (sketch.update_words if words else sketch.update_lines)(text)

    def add_fields(self, sketch: ds.FrequentItemsSketch, text: bytes, item: int | None, weight: int | None, **chosen: Any) -> tuple[int, int]:
        return sketch.update_fields(text, item, weight=weight, **chosen)

    def join_all(self, sketch: ds.FrequentItemsSketch, others: list[ds.FrequentItemsSketch]) -> None:
        sketch.merge_all(others)


@dataclass(frozen=True)
class Traffic:
    """A Count-Min sketch of `hashes` rows and `buckets` columns. If it is signed, weights may be below 0."""

    hashes: int
    buckets: int
    signed: bool = False
    takes_strings = True

    @property
    def least(self) -> int:
        return -(2**63) + 1 if self.signed else 0

    @property
    def most(self) -> int:
        return 2**63 - 1 if self.signed else 2**64 - 1

    def empty(self) -> ds.CountMinSketch:
        return ds.CountMinSketch(self.hashes, self.buckets, signed=self.signed)

    def read(self, image: bytes) -> ds.CountMinSketch:
        return ds.CountMinSketch.deserialize(image, signed=self.signed, max_bytes=None)

    def add(self, sketch: ds.CountMinSketch, batch: Batch) -> None:
        sketch.update(batch.items, 1 if batch.weights is None else batch.weights)

    def add_text(self, sketch: ds.CountMinSketch, text: bytes, words: bool) -> None:
        (sketch.update_words if words else sketch.update_lines)(text)

    def add_fields(self, sketch: ds.CountMinSketch, text: bytes, item: int | None, weight: int | None, **chosen: Any) -> tuple[int, int]:
        return sketch.update_fields(text, item, weight=weight, **chosen)

    def join_all(self, sketch: ds.CountMinSketch, others: list[ds.CountMinSketch]) -> None:
        sketch.merge_all(others)


@dataclass(frozen=True)
class Seen:
    """A Bloom filter of `bits` bits and `hashes` hashes."""

    bits: int
    hashes: int
    least, most = 0, 2**64 - 1
    takes_strings = True

    def empty(self) -> ds.BloomFilter:
        return ds.BloomFilter(self.bits, self.hashes)

    def read(self, image: bytes) -> ds.BloomFilter:
        return ds.BloomFilter.deserialize(image, max_bytes=None)

    def add(self, sketch: ds.BloomFilter, batch: Batch) -> None:
        sketch.insert(batch.items)

    def add_text(self, sketch: ds.BloomFilter, text: bytes, words: bool) -> None:
        (sketch.insert_words if words else sketch.insert_lines)(text)

    def add_fields(self, sketch: ds.BloomFilter, text: bytes, item: int | None, weight: int | None, **chosen: Any) -> tuple[int, int]:
        return sketch.insert_fields(text, item, **chosen)

    def join_all(self, sketch: ds.BloomFilter, others: list[ds.BloomFilter]) -> None:
        sketch.union_all(others)


Shape = Heavy | Traffic | Seen
Sketch = ds.FrequentItemsSketch | ds.CountMinSketch | ds.BloomFilter


def has_long_line(data: bytes, most: int) -> bool:
    """Returns whether a line has more than `most` bytes."""
    begin = 0
    while len(data) - begin > most:
        end = data.rfind(b"\n", begin, begin + most + 1)
        if end < 0:
            return True
        begin = end + 1
    return False


def takes_fields(columns: Columns, data: bytes) -> bool:
    """Returns whether the library reads the records of a block, if they are its lines, as Python's csv does: it also takes text after
    a quoted field. CR stands before LF alone, and each quote begins a quoted field, ends it, or is one of two for one."""
    delimiter = columns.delimiter.encode()
    if len(delimiter) != 1 or b"\0" in data or (b"\r" in data and data.count(b"\r") != data.count(b"\r\n")):
        return False
    if has_long_line(data, csv.field_size_limit()):
        return False
    if b'"' not in data:
        return True
    if numpy is None:
        return False
    text = numpy.frombuffer(data if data.endswith(b"\n") else data + b"\n", numpy.uint8)
    quotes = numpy.flatnonzero(text == ord('"'))
    ends = b'\n\r"' + delimiter  # what stands before a quote that begins or goes on, and after one that ends or goes on
    return len(quotes) % 2 == 0 and are_among(text[quotes[::2] - 1], ends) and are_among(text[quotes[1::2] + 1], ends)


def are_among(found: numpy.ndarray, wanted: bytes) -> bool:
    """Returns whether each byte is one of those that are wanted."""
    return bool(functools.reduce(numpy.logical_or, (found == byte for byte in wanted)).all())


def add_records(shape: Shape, sketch: Sketch, part: Part, at: int, data: bytes) -> None:
    """Adds the items of a block's records, by one call of the library. If the library rejects a record, or the records are not the
    block's lines, Python takes them, and raises `BadInput`."""
    columns, field = part.columns, part.field
    if field is not None:
        lines = without_blank_lines(data)
        chosen: dict[str, Any] = {"delimiter": None if field.delimiter is None else field.delimiter.decode()}
        item, weight = field.index, field.weight
    else:
        assert columns is not None
        lines = full_lines(data)
        chosen = {"delimiter": columns.delimiter, "csv": True}
        item, weight = columns.item, columns.weight
    if shape.takes_strings and (columns is None or takes_fields(columns, lines)):
        try:
            records, left_out = shape.add_fields(sketch, lines, item, weight, **chosen)
        except ds.SketchError:
            pass  # and nothing was added
        else:
            if columns is None or (left_out == 0 and records == lines.count(b"\n") + (lines[-1:] not in (b"", b"\n"))):
                return
            batch_of(part, at, data, shape.least, shape.most)
            raise BadInput(part.path, "records that are not lines", at)
    shape.add(sketch, batch_of(part, at, data, shape.least, shape.most))


def sketch_part(shape: Shape, part: Part) -> bytes:
    """Returns the image of a sketch of a part's items. The library splits words, lines and records itself."""
    sketch = shape.empty()
    for at, data in blocks(part):
        if part.columns is not None or part.field is not None:
            text_of(part.path, at, data)  # the other columns and fields are UTF-8 too
            add_records(shape, sketch, part, at, data)
            continue
        try:
            shape.add_text(sketch, data if part.words else full_lines(data), part.words)
        except ds.SketchError as error:
            if error.fault == "InvalidUtf8":
                text_of(part.path, at, data)
            raise
    return bytes(sketch)


def merge_images(shape: Shape, images: list[bytes]) -> bytes:
    """Merges the sketches of some images in one call, and returns the image. Raises the fault of a malformed image."""
    sketch, *others = [shape.read(image) for image in images]
    shape.join_all(sketch, others)
    return bytes(sketch)


def count_part(part: Part) -> int:
    """Returns the number of a part's items."""
    if part.words or part.columns is not None or part.field is not None:
        return sum(len(batch.items) for batch in batches(part))
    count = 0
    for at, data in blocks(part):
        text_of(part.path, at, data)
        lines = full_lines(data)
        count += lines.count(b"\n") + (lines != b"" and not lines.endswith(b"\n"))
    return count


def filter_part(shape: Seen, image: bytes, part: Part, target: str | None) -> tuple[int, int]:
    """Returns the number of a part's lines, and of those whose item the filter contains. Writes those to a file, if named. A line
    without the field is not one of those.

    Two workers may process a part at the same time, if one of them is taken for dead. So each writes its own file, which is
    renamed when it is complete.
    """
    seen, all_lines, kept_lines = shape.read(image), 0, 0
    writing = os.devnull if target is None else os.path.join(os.path.dirname(target), f".{uuid.uuid4().hex}")
    with open(writing, "w", encoding="utf-8", newline="\n") as output:
        for batch in batches(part):
            kept = [line + "\n" for line, keep in zip(batch.lines, seen.contains(batch.items)) if keep]
            all_lines, kept_lines = all_lines + len(batch.lines) + batch.missing, kept_lines + len(kept)
            output.writelines(kept)
    if target is not None:
        os.replace(writing, target)
    return all_lines, kept_lines
