"""Times calls from Python and calls from C in one run, and prints a table: nanoseconds an item, and the ratio.

    /usr/bin/python3 bench/calls.py [ARCHIVE]

It first builds both libraries in bench/out/calls, from ARCHIVE, which `.ci/archive` builds. Without it, it proves and builds
the crates. It needs the packages that `.ci/needs` lists.
"""
import array
import os
import subprocess
import sys
import time

TOP = os.path.dirname(os.path.dirname(os.path.abspath(__file__)))
OUT = os.path.join(TOP, "bench", "out", "calls")
ITEMS, ROUNDS = 1 << 20, 15


def build(archive):
    os.makedirs(OUT, exist_ok=True)
    subprocess.run(["bash", f"{TOP}/bindings/c/build.sh", OUT, *archive], check=True)
    subprocess.run(["bash", f"{TOP}/bindings/python/build.sh", OUT, *archive], check=True)
    compiler = [os.environ.get("CC", "cc"), "-std=gnu11", "-O2", f"-I{TOP}/bindings/c/include", f"{TOP}/bench/calls.c"]
    subprocess.run([*compiler, f"{OUT}/libdatasketches.a", "-o", f"{OUT}/calls"], check=True)


def mix(x):
    x = (x ^ (x >> 30)) * 0xBF58476D1CE4E5B9 % 2**64
    x = (x ^ (x >> 27)) * 0x94D049BB133111EB % 2**64
    return x ^ (x >> 31)


def timed(call, prepare=lambda: None):
    """Returns the nanoseconds an item of a call: the minimum of some rounds."""
    least = float("inf")
    for _ in range(ROUNDS):
        prepare()
        begin = time.thread_time_ns()
        call()
        least = min(least, time.thread_time_ns() - begin)
    return least / ITEMS


def each(call, items):
    """Returns the nanoseconds of a call for one item, without the time of the loop."""
    def loop():
        for item in items:
            call(item)

    def empty():
        for item in items:
            pass

    return timed(loop) - timed(empty)


def rows(ds):
    numbers = [mix(i + 0x9E3779B97F4A7C15) >> 1 for i in range(ITEMS)]
    items = array.array("Q", numbers)
    signed = array.array("q", numbers)
    texts = [f"t{number & 0xFFFFFF:06x}" for number in numbers]
    seen, load = ds.BloomFilter(num_bits=1 << 20, num_hashes=7), ds.CountMinSketch(num_hashes=4, num_buckets=1 << 16)
    heavy = []
    try:
        import numpy
        given = numpy.frombuffer(items, dtype="u8")
    except ImportError:
        given = items
    yield "filter_insert_all", timed(lambda: seen.insert(items), seen.reset)
    yield "filter_contains_all", timed(lambda: seen.contains(given))
    yield "count_update_all", timed(lambda: load.update(items))
    yield "count_estimate_all", timed(lambda: load.estimate(given))
    yield "frequent_update_all", timed(lambda: heavy[-1].update(signed), lambda: heavy.append(ds.FrequentItemsSketch(1 << 16)))
    yield "filter_insert_all_texts", timed(lambda: seen.insert(texts), seen.reset)
    yield "filter_insert_one", each(seen.insert, numbers)
    yield "filter_contains_one", each(seen.__contains__, numbers)
    yield "count_update_one", each(load.update, numbers)
    yield "count_estimate_one", each(load.estimate, numbers)


def main():
    build(sys.argv[1:])
    sys.path.insert(0, OUT)
    import datasketches_rattle as ds
    ran = subprocess.run([f"{OUT}/calls"], check=True, capture_output=True, text=True)
    from_c = {name: float(number) for name, number in map(str.split, ran.stdout.splitlines())}
    print("| call | ns an item from C | from Python | ratio |\n|---|---|---|---|")
    for name, number in rows(ds):
        print(f"| {name.replace('_', ' ')} | {from_c[name]:.1f} | {number:.1f} | {number / from_c[name]:.2f} |")


main()
