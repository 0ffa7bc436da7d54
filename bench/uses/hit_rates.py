#!/usr/bin/env python3
"""Measures the hit rates of a cache with admission and without, and prints a table and draws a picture.

    /usr/bin/python3 bench/uses/hit_rates.py PROGRAM PICTURE.png

PROGRAM is the built program of `crates/uses`. The trace is generated here: 200000 uses of 20000 items by Zipf's law, with a scan
of 50000 other items, each used once, in its middle. Both caches evict the least recently used item. One admits every item. The
other admits a new item only if it was used more often of late. It needs Debian's python3-matplotlib.
"""
import random
import subprocess
import sys

import matplotlib

matplotlib.use("Agg")
import matplotlib.pyplot as pyplot  # noqa: E402

ITEMS, USES, SEED = 20000, 200000, 7
SIZES = (100, 500, 2000)
WITH, WITHOUT = "#1f6f8b", "#c9c9c9"


def trace():
    """Returns the trace's items in their order."""
    rng = random.Random(SEED)
    some = rng.choices(range(ITEMS), [1 / (n + 1) for n in range(ITEMS)], k=USES)
    scan = list(range(ITEMS, ITEMS + USES // 4))
    return some[: USES // 2] + scan + some[USES // 2 :]


def shares(program, stream, size):
    """Returns the hit rates in percent, with admission and without."""
    words = [program, "admission", "4", str(1 << 16), str(20 * size), str(size)]
    ran = subprocess.run(words, input="".join(f"{item}\n" for item in stream), capture_output=True, text=True, check=True)
    _, uses, _, hits, _, plain = ran.stdout.splitlines()[0].split()
    return 100 * int(hits) / int(uses), 100 * int(plain) / int(uses)


def picture(rows, path):
    """Draws two bars for each size, each with its hit rate."""
    figure, axes = pyplot.subplots(figsize=(6.4, 3.6), dpi=150)
    for place, (size, admitted, taken) in enumerate(rows):
        for shift, share, colour, label in [(-0.2, admitted, WITH, "admits by recent use"),
                                            (0.2, taken, WITHOUT, "takes every item")]:
            axes.bar(place + shift, share, 0.36, color=colour, label=label if place == 0 else None)
            axes.text(place + shift, share + 0.8, f"{share:.1f}", ha="center", va="bottom", fontsize=9)
    axes.set_xticks(range(len(rows)), [f"{size} items" for size, _, _ in rows])
    axes.set_ylabel("hits, percent of all uses")
    axes.set_ylim(0, 10 * (max(max(row[1:]) for row in rows) // 10 + 1) + 5)
    axes.set_title("A cache over a Zipf trace with a scan in it", loc="left", fontsize=11)
    axes.spines[["top", "right"]].set_visible(False)
    axes.tick_params(axis="x", length=0)
    axes.legend(frameon=False, loc="upper left", fontsize=9)
    figure.tight_layout()
    figure.savefig(path, metadata={"Software": None})


def main():
    program, path = sys.argv[1:]
    stream = trace()
    rows = [(size, *shares(program, stream, size)) for size in SIZES]
    print("| items in the cache | hits with admission, % | hits where every item is taken, % |")
    print("|---|---|---|")
    for size, admitted, taken in rows:
        print(f"| {size} | {admitted:.1f} | {taken:.1f} |")
    picture(rows, path)


main()
