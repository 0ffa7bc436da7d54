"""Measures how near the sketches come to the truth, on a text and on Zipf numbers, and prints tables. It tests the guarantees on this
data: if one does not hold, it prints which on standard error, and the exit status is 1.

    /usr/bin/python3 bench/accuracy.py BUILT [--key HEX|plain] [--program SKETCHES] [--text FILE] [--draws N]

BUILT is the folder of `bindings/python/build.sh`. Needs numpy. The same key and the same text give the same tables.

- Sketches of frequent items hash under the key, by default KEY. Count-Min sketches and filters have the default seed.
- The text is the words of the licences and of the copyright files of the installed packages, so another machine has another text. FILE
  is another text. Files of the machine that are not UTF-8 are left out.
- Zipf numbers are 10^6 draws out of 10^6 numbers, from a fixed seed. The number n has a probability proportional to n^-exponent.
- With `rustc` from 1.88 on, the tables have the error of plain Rust without a key, which does as the published crate does (`accuracy.rs`). Numbers
  are strings to it. With SKETCHES, the program, its images without a key must be those of plain Rust, byte for byte.
- With the key `plain` the tables are of the program's images, since Python has no sketches without a key.

Only what is guaranteed is checked. Count-Min's margin and the false-positive rates assume ideal hashes, so they are only printed.
"""
import argparse
import collections
import datetime
import glob
import hashlib
import math
import os
import re
import shutil
import subprocess
import sys

import numpy as np

TOP = os.path.dirname(os.path.dirname(os.path.abspath(__file__)))
OUT = f"{TOP}/bench/out/accuracy"
KEY = "000102030405060708090a0b0c0d0e0f"
TEXTS = ["/usr/share/common-licenses/*", "/usr/share/doc/*/copyright"]
NUMBERS, DRAWS, SEED = 10**6, 10**6, 7
EXPONENTS = [0.8, 1.1, 1.5]
SIZES = [2**power for power in range(6, 15)]
PARTS = 1000  # a report lists what is above the total over this
TEN_SLOTS = 256
COUNT_MIN_HASHES, FILTER_HASHES = 4, 7
BITS = [4, 6, 8, 10, 12, 16]
ABSENT = 10**5

# `items` are the distinct items, the most frequent first, and `counts` how often each occurs. `lines` has all in their order, and `batch`
# too if they are numbers. `absent` are items that do not occur.
Stream = collections.namedtuple("Stream", "name about items counts lines batch absent")


class Checks:
    """Counts the checks, and prints those that failed."""

    def __init__(self):
        self.held, self.failed, self.images = 0, 0, 0

    def check(self, name, holds):
        if holds:
            self.held += 1
        else:
            self.failed += 1
            print(f"does not hold: {name}", file=sys.stderr, flush=True)


# The streams.

def text_of_machine():
    """Returns what the text of this machine is, and its bytes: each file once, in the order of their names."""
    paths = {os.path.realpath(path) for pattern in TEXTS for path in glob.glob(pattern)}
    parts = []
    for path in sorted(paths):
        with open(path, "rb") as file:
            data = file.read()
        try:
            data.decode("utf-8")
        except UnicodeDecodeError:
            continue
        parts.append(data)
    return f"{len(parts):,} files of {' and '.join(TEXTS)}", b"\n".join(parts)


def text_stream(path):
    """Returns the words of the text."""
    if path:
        with open(path, "rb") as file:
            about, data = "a file", file.read()
    else:
        about, data = text_of_machine()
    words = data.split()
    counts = collections.Counter(words)
    order = sorted(counts, key=lambda word: (-counts[word], word))
    lines = b"\n".join(words) + b"\n"
    about = f"the words of {about}, SHA-256 of the words as lines {hashlib.sha256(lines).hexdigest()}"
    return Stream("text", about, [word.decode("utf-8") for word in order], np.array([counts[word] for word in order]), lines,
                  None, [f"absent {n}" for n in range(ABSENT)])


def zipf_stream(exponent, draws):
    """Returns draws of numbers by Zipf's law."""
    sums = np.cumsum(np.arange(1, NUMBERS + 1, dtype=np.float64) ** -exponent)
    places = (np.random.PCG64(SEED).random_raw(draws) >> np.uint64(11)) * 2.0**-53
    drawn = np.searchsorted(sums, places * sums[-1], side="right").clip(max=NUMBERS - 1) + 1
    items, counts = np.unique(drawn, return_counts=True)
    order = np.lexsort((items, -counts))
    lines = b"".join(b"%d\n" % number for number in drawn.tolist())
    return Stream(f"Zipf {exponent}", f"numbers by Zipf's law with exponent {exponent}", items[order], counts[order], lines,
                  drawn, np.arange(NUMBERS + 1, NUMBERS + 1 + ABSENT))


# Sketches of frequent items.

def filled(stream, slots, options, image):
    """Returns a sketch of the stream, which is that of the program's image for the key `plain`."""
    if options.key == "plain":
        return ds.FrequentItemsSketch.deserialize(image, item=str, key=bytes(16))
    sketch = ds.FrequentItemsSketch(slots, item=str if stream.batch is None else int, key=bytes.fromhex(options.key))
    if stream.batch is None:
        sketch.update_lines(stream.lines)
    else:
        sketch.update(stream.batch)
    return sketch


def has_plain():
    """Compiles plain Rust, and returns whether there is a compiler that can."""
    if not shutil.which("rustc"):
        return False
    version = subprocess.run(["rustc", "--version"], check=True, capture_output=True, text=True).stdout
    if tuple(map(int, re.match(r"rustc (\d+)\.(\d+)", version).groups())) < (1, 88):
        return False
    subprocess.run(["rustc", "--edition", "2024", "-O", "-o", f"{OUT}/accuracy", f"{TOP}/bench/accuracy.rs"], check=True)
    return True


def plain_sketches(stream, options):
    """Returns the error and the image of plain Rust for each size, if it is compiled. Writes the lines for the program too."""
    with open(f"{OUT}/lines", "wb") as file:
        file.write(stream.lines)
    if not options.plain:
        return {}
    ran = subprocess.run([f"{OUT}/accuracy", f"{OUT}/lines", *map(str, SIZES)], check=True, capture_output=True, text=True)
    rows = [line.split() for line in ran.stdout.splitlines()]
    return {int(size): (int(error), bytes.fromhex(image)) for size, error, image in rows}


def image_of_program(slots, program):
    """Returns the image that the program saves of the stream without a key."""
    path = f"{OUT}/{slots}.sketch"
    subprocess.run([program, "top", "--key", "plain", "--size", str(slots), "--save", path, f"{OUT}/lines"], check=True,
                   stdout=subprocess.DEVNULL)
    with open(path, "rb") as file:
        return file.read()


def named(stream, options, items):
    """Returns items as the sketch has them: numbers are strings to the program."""
    return [str(item) for item in items] if options.key == "plain" else items


def bound_of_size(total, slots):
    """Returns the largest error that a sketch of this size can have."""
    return 8 * total // (3 * slots) if slots <= 1024 else total // 512


def sides(error, below):
    """Returns the columns of some items: how far the lower bound is below and the upper bound above, at most."""
    return [below.max(), (error - below).max()]


def frequent(stream, slots, options, plain, checks):
    """Checks the bounds and the reports of a sketch. Returns its rows of both tables, and the bounds of the ten heaviest items."""
    where = f"{stream.name}, {slots} slots"
    image = image_of_program(slots, options.program) if options.program else None
    if image and plain:
        checks.check(f"{where}: the image without a key is that of plain Rust", image == plain[slots][1])
        checks.images += 1
    sketch = filled(stream, slots, options, image)
    counts, total, error = stream.counts, int(stream.counts.sum()), sketch.maximum_error
    bounds = np.array(sketch.bounds(named(stream, options, stream.items)), dtype=np.int64)
    lower, estimate, upper = bounds.T
    checks.check(f"{where}: total weight", sketch.total_weight == total)
    checks.check(f"{where}: lower bounds", (lower <= counts).all())
    checks.check(f"{where}: upper bounds", (counts <= upper).all())
    checks.check(f"{where}: bounds differ by the error", (upper - lower == error).all())
    checks.check(f"{where}: estimates", (estimate == np.where(lower > 0, upper, 0)).all())
    absent = np.array(sketch.bounds(named(stream, options, stream.absent)), dtype=np.int64)
    checks.check(f"{where}: bounds of absent items", (absent == (0, 0, error)).all())
    checks.check(f"{where}: counters", sketch.num_active_items == (lower > 0).sum() <= slots // 4 * 3)
    checks.check(f"{where}: the bound of the size", error <= bound_of_size(total, slots))
    checks.check(f"{where}: no error for few items", error == 0 or len(counts) > slots // 4 * 3)

    # The tail budget, for each number of heaviest items that are left out.
    half = sketch.sample_size // 2
    left = half - np.arange(min(half, len(counts)) + 1)
    rest = total - np.concatenate(([0], np.cumsum(counts[:half])))
    kept = lower.sum() - np.concatenate(([0], np.cumsum(lower[:half])))
    checks.check(f"{where}: the tail budget", (kept + left * error <= rest).all())
    tail = int((rest[left > 0] // left[left > 0]).min())

    below = counts - lower
    row = [stream.name, slots, error, bound_of_size(total, slots), tail, plain[slots][0] if plain else "-",
           *sides(error, below), f"{below.mean():.1f}", *sides(error, below[:10]), *sides(error, below[:100])]

    # The reports.
    threshold = total // PARTS
    weights = dict(zip(named(stream, options, stream.items.tolist() if stream.batch is not None else stream.items), counts.tolist()))
    heavy = {item for item, weight in weights.items() if weight > threshold}
    report = [stream.name, slots, error, threshold, len(heavy)]
    certain = max(threshold, error)
    for no_false in ("negatives", "positives"):
        listed = {item for item, *_ in sketch.rows(threshold, no_false)}
        if no_false == "negatives":
            checks.check(f"{where}: no false negatives", all(item in listed for item in heavy if weights[item] > certain))
        else:
            checks.check(f"{where}: no false positives", all(weights.get(item, 0) > certain for item in listed))
        found = len(listed & heavy)
        report += [len(listed), share(found, len(heavy)), share(found, len(listed))]
    for k in (10, 100):
        least = counts[min(k, len(counts)) - 1]
        report.append(sum(weights[item] >= least for item, *_ in sketch.top(k)))
    ten = [(item, weight, *pair) for item, weight, pair in zip(stream.items[:10], counts[:10], bounds[:10, ::2].tolist())]
    return row, report, ten


def share(part, whole):
    """Returns a share with three decimals."""
    return f"{part / whole:.3f}" if whole else "-"


# Count-Min sketches and filters.

def count_min(stream, buckets, checks):
    """Checks the estimates of a Count-Min sketch and returns its row."""
    where = f"{stream.name}, {buckets} buckets"
    sketch = ds.CountMinSketch(COUNT_MIN_HASHES, buckets)
    sketch.update(stream.items, stream.counts)
    total = int(stream.counts.sum())
    over = np.array(sketch.estimate(stream.items), dtype=np.int64) - stream.counts
    first = stream.items[0]
    margin = sketch.upper_bound(first) - sketch.estimate(first)
    checks.check(f"{where}: total weight", sketch.total_weight == total)
    checks.check(f"{where}: no estimate is below", (over >= 0).all())
    checks.check(f"{where}: no estimate is above the total", (over + stream.counts <= total).all())
    return [stream.name, buckets, margin, over.max(), f"{over.mean():.1f}", f"{100 * (over > margin).mean():.3f}", over[:10].max(),
            over[:100].max()]


def filters(stream, bits, checks):
    """Checks that a filter has its items, and returns its row."""
    count = len(stream.items)
    sketch = ds.BloomFilter(bits * count, FILTER_HASHES)
    sketch.insert(stream.items)
    checks.check(f"{stream.name}, {bits} bits an item: items are found", np.all(sketch.contains(stream.items)))
    ideal = (1 - math.exp(-FILTER_HASHES * count / sketch.capacity)) ** FILTER_HASHES
    found = int(np.sum(sketch.contains(stream.absent)))
    return [stream.name, bits, count, found, f"{ABSENT * ideal:.1f}", f"{math.sqrt(ABSENT * ideal * (1 - ideal)):.1f}"]


# The tables.

def table(title, note, columns, rows):
    """Prints a table."""
    print(f"\n{title}\n\n{note}\n\n| {' | '.join(columns)} |\n|{'---|' * len(columns)}")
    for row in rows:
        print(f"| {' | '.join(str(cell) for cell in row)} |")


def run(options, checks):
    """Measures all sketches and prints the tables."""
    streams = [text_stream(options.text), *(zipf_stream(exponent, options.draws) for exponent in EXPONENTS)]
    print(f"{datetime.date.today()}\n\nBy `bench/accuracy.py` with the key {options.key}.\n")
    for stream in streams:
        print(f"- {stream.name}: {stream.about}; {stream.counts.sum():,} items, {len(stream.counts):,} distinct")
    rows, reports, ten = [], [], None
    for stream in streams:
        plain = plain_sketches(stream, options)
        for slots in SIZES:
            row, report, heaviest = frequent(stream, slots, options, plain, checks)
            rows.append(row)
            reports.append(report)
            if stream is streams[0] and slots == TEN_SLOTS:
                ten = heaviest
    table("Frequent items", "`bound` is the largest error for the size, `tail` the bound that also takes the true weights of the heaviest items, "
          "and `plain` the error of plain Rust without a key, to which numbers are strings. Then, over all items, the 10 and the 100 heaviest: "
          "how far lower bounds are `below` and upper bounds `above` the true weight, at most. Bounds differ by the error.",
          ["stream", "slots", "error", "bound", "tail", "plain", "below", "above", "below, mean", "below, 10", "above, 10", "below, 100",
           "above, 100"], rows)
    table("Reports of frequent items", f"`heavy` items are above the threshold, 1/{PARTS} of the total. A report without false negatives "
          "(`fn`) or without false positives (`fp`) has rows, recall and precision. An item above the threshold but not above the error may be "
          "missing from both. Then, how many of the first 10 and 100 rows are as heavy as the true ones; of items with equal weight any may "
          "be there.",
          ["stream", "slots", "error", "threshold", "heavy", "fn rows", "fn recall", "fn precision", "fp rows", "fp recall", "fp precision",
           "of 10", "of 100"], reports)
    table(f"The ten heaviest words, {TEN_SLOTS} slots", "The bounds of the words that are most frequent in truth.",
          ["word", "lower bound", "true", "upper bound"], [(word, lower, weight, upper) for word, weight, lower, upper in ten])
    table(f"Count-Min, {COUNT_MIN_HASHES} hashes", "How far estimates are above the true weight: at most, on average, for the 10 and the 100 "
          "heaviest items, and the share of items above the margin. Under ideal hashes its mean is at most "
          f"{100 * math.exp(-COUNT_MIN_HASHES):.3f} percent.",
          ["stream", "buckets", "margin", "over", "over, mean", "percent above the margin", "over, 10", "over, 100"],
          [count_min(stream, buckets, checks) for stream in streams for buckets in SIZES])
    table(f"Filters, {FILTER_HASHES} hashes", f"Of {ABSENT:,} absent items, how many were found, and the mean and the standard deviation under "
          "ideal hashes.",
          ["stream", "bits an item", "items", "found", "ideal", "deviation"],
          [filters(stream, bits, checks) for stream in streams for bits in BITS])
    print(f"\n{checks.images} images without a key were compared with those of plain Rust, byte for byte.\n"
          f"{checks.held} checks held, {checks.failed} failed")


def main():
    parser = argparse.ArgumentParser(description="Measures the accuracy of the sketches, and checks their bounds")
    parser.add_argument("built")
    parser.add_argument("--key", default=KEY)
    parser.add_argument("--program")
    parser.add_argument("--text")
    parser.add_argument("--draws", type=int, default=DRAWS)
    options = parser.parse_args()
    if options.key == "plain" and not options.program:
        parser.error("the key `plain` needs --program")
    if options.key != "plain" and (len(options.key) != 32 or set(options.key) - set("0123456789abcdefABCDEF")):
        parser.error("a key has 32 hexadecimal digits")
    sys.path[:0] = [os.path.abspath(options.built)]
    global ds
    import datasketches_rattle as ds
    os.makedirs(OUT, exist_ok=True)
    options.plain = has_plain()
    if options.program and not options.plain:
        print("no rustc from 1.88 on: images are not compared with those of plain Rust", file=sys.stderr)
    checks = Checks()
    run(options, checks)
    sys.exit(1 if checks.failed else 0)


main()
