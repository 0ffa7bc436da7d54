#!/usr/bin/env python3
"""Measures frequent items of a Zipf stream, which workers generate and count, and prints a table.

    figures.py --items 100000000 --workers 1 2 4

For each number of workers the table has:
- the seconds from the first task to the result, and the seconds to generate the stream without counting it
- the items a second
- the processor seconds of all workers
- the maximum memory of a worker, and in brackets its maximum before the stream
- the bytes that all workers received from others
- the bytes of the images of a part and of the result
- the error

Each result is compared with the exact weights of the numbers 1 to 10.
"""
from __future__ import annotations

import argparse
import os
import resource
import time
from typing import Iterator

import numpy
import sketch_engine as engine
from dask.delayed import delayed
from sketch_parts import Heavy

CHUNK = 1 << 20
DISTINCT = 10_000_000
SEEN = 10


def made(seed: int, count: int) -> Iterator[numpy.ndarray]:
    """Yields `count` numbers in chunks. The frequency of the number n is about proportional to n**-1.1."""
    chance = numpy.random.default_rng(seed)
    for at in range(0, count, CHUNK):
        spread = chance.random(min(CHUNK, count - at))
        yield ((1 - spread * (1 - DISTINCT**-0.1)) ** -10).astype("u8")


def sketch_made(shape: Heavy, seed: int, count: int) -> bytes:
    """Returns the image of a sketch of a part of the stream."""
    sketch = shape.empty()
    for items in made(seed, count):
        sketch.update(items)
    return bytes(sketch)


def exact_made(seed: int, count: int) -> numpy.ndarray:
    """Returns the exact weights of the numbers up to `SEEN` in a part of the stream."""
    return sum(numpy.bincount(items[items <= SEEN].astype("i8"), minlength=SEEN + 1) for items in made(seed, count))


def only_made(seed: int, count: int) -> int:
    """Generates a part of the stream without counting it. Returns its length."""
    return sum(len(items) for items in made(seed, count))


def memory_of(dask_worker) -> int:
    """Returns the maximum bytes of memory that a worker had."""
    return resource.getrusage(resource.RUSAGE_SELF).ru_maxrss * 1024


def processor_of(dask_worker) -> float:
    """Returns the processor seconds of a worker."""
    used = resource.getrusage(resource.RUSAGE_SELF)
    return used.ru_utime + used.ru_stime


def received_by(dask_worker) -> int:
    """Returns the bytes of images that a worker received from other workers."""
    return sum(each["total"] for each in dask_worker.transfer_incoming_log)


def measure(workers: int, items: int, parts: int, shape: Heavy) -> list[str]:
    """Returns the row of the table for a number of workers."""
    counts = [items * (n + 1) // parts - items * n // parts for n in range(parts)]
    with engine.connect(workers, None) as client:
        client.gather(client.map(only_made, range(workers), [1] * workers))
        before = max(client.run(memory_of).values())
        begin = time.monotonic()
        client.gather(client.map(only_made, range(parts), counts, pure=False))
        making = time.monotonic() - begin
        make = delayed(sketch_made, pure=False)
        images = [make(shape, seed, count) for seed, count in enumerate(counts)]
        busy = sum(client.run(processor_of).values())
        begin = time.monotonic()
        image = engine.answer(client, engine.merged(shape, images, 4))
        seconds = time.monotonic() - begin
        busy = sum(client.run(processor_of).values()) - busy
        memory, received = max(client.run(memory_of).values()), sum(client.run(received_by).values())
        part = len(client.submit(sketch_made, shape, 0, counts[0]).result())
        exact = sum(client.gather(client.map(exact_made, range(parts), counts)))
    sketch = shape.read(image)
    assert sketch.total_weight == items
    for item in range(1, SEEN + 1):
        low, _, high = sketch.bounds(item)
        assert low <= exact[item] <= high, (item, low, exact[item], high)
    mega = 1 << 20
    return [f"{workers}", f"{seconds:.1f}", f"{making:.1f}", f"{items / seconds / 1e6:.1f} million", f"{busy:.1f}",
            f"{memory / mega:.0f} MiB ({before / mega:.0f})", f"{received / mega:.2f} MiB", f"{part:,}", f"{len(image):,}",
            f"{sketch.maximum_error:,}"]


def main() -> None:
    """Prints the table."""
    parser = argparse.ArgumentParser(description=__doc__, formatter_class=argparse.RawDescriptionHelpFormatter)
    parser.add_argument("--items", type=engine.positive, default=100_000_000, help="the length of the stream (%(default)s)")
    parser.add_argument("--parts", type=engine.positive, default=32, help="the number of parts (%(default)s)")
    parser.add_argument("--size", type=engine.positive, default=4096, help="slots of a sketch (%(default)s)")
    parser.add_argument("--workers", type=engine.positive, nargs="+", default=[1, 2, 4], help="(%(default)s)")
    words = parser.parse_args()
    print(f"{words.items:,} items in {words.parts} parts, {words.size} slots; load of the machine "
          f"{os.getloadavg()[0]:.1f} before, {os.cpu_count()} cores\n")
    print("| workers | seconds | to make the stream | items a second | processor seconds | memory of a worker "
          "| got from others | a part | the answer | error |\n|---|---|---|---|---|---|---|---|---|---|")
    for workers in words.workers:
        print("| " + " | ".join(measure(workers, words.items, words.parts, Heavy(words.size, "u64"))) + " |", flush=True)


if __name__ == "__main__":
    main()
