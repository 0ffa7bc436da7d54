"""Draws `accuracy.svg`: errors of sketches of frequent items of each size, on a text and on Zipf numbers, below their bounds.

    /usr/bin/python3 docs/plots/accuracy.py [OUT]

It reads a table of RESULTS, in bench/results, and writes OUT, by default docs/plots/accuracy.svg. The same table gives the same bytes.
"""
import collections
import math
import os
import re
import sys
from xml.sax.saxutils import escape

HERE = os.path.dirname(os.path.abspath(__file__))
RESULTS = "2026-11-29-accuracy.txt"
OURS, OTHERS, HEAVY = "#1f6f8b", "#8a9499", "#c2571a"
WIDTH, HEIGHT = 258, 190
LEFTS, TOPS = (68, 418), (122, 368)
SLOTS = [2**power for power in range(6, 15)]
LEAST, MOST = -6, -1  # powers of ten of the total

Row = collections.namedtuple("Row", "slots error bound tail observed heavy")


def streams():
    """Returns the total weight and the rows of each stream, with shares of the total."""
    with open(f"{HERE}/../../bench/results/{RESULTS}", encoding="utf-8") as file:
        text = file.read()
    totals = {name: int(total.replace(",", "")) for name, total in re.findall(r"^- ([^:]+): .*; ([\d,]+) items, ", text, re.MULTILINE)}
    table = re.search(r"^Frequent items\n((?:.*\n)*?)Reports", text, re.MULTILINE)[1]
    rows = collections.defaultdict(list)
    for line in re.findall(r"^\| ([^|]+ \| \d+ .*) \|$", table, re.MULTILINE):
        name, slots, error, bound, tail, _, below, above, _, _, heavy, *_ = line.split(" | ")
        shares = [int(number) / totals[name] for number in (error, bound, tail, max(int(below), int(above)), heavy)]
        rows[name].append(Row(int(slots), *shares))
    return totals, rows


def panel(name, total, rows, left, top):
    """Returns the parts of the panel of a stream."""
    def x(slots):
        return left + WIDTH * (math.log2(slots) - 6) / 8

    def y(share):
        return top + HEIGHT * (MOST - math.log10(share)) / (MOST - LEAST)

    def line(field, style):
        places = [(x(row.slots), y(getattr(row, field))) for row in rows]
        return f'<polyline points="{" ".join(f"{a:.1f},{b:.1f}" for a, b in places)}" fill="none" {style}/>'

    parts = [f'<text x="{left}" y="{top - 10}" font-weight="bold">{escape(name)}, {total:,} items</text>']
    for power in range(LEAST, MOST + 1):
        at = y(10.0**power)
        parts.append(f'<path d="M{left} {at:.1f} H{left + WIDTH}" stroke="#e4e8ea"/>')
        parts.append(f'<text x="{left - 6}" y="{at + 4:.1f}" text-anchor="end" fill="#555555">{100 * 10.0**power:g} %</text>')
    for slots in SLOTS[::2]:
        parts.append(f'<text x="{x(slots):.1f}" y="{top + HEIGHT + 17}" text-anchor="middle" fill="#555555">{slots:,}</text>')
    parts.append(line("bound", f'stroke="{OTHERS}" stroke-width="2" stroke-dasharray="6 4"'))
    parts.append(line("tail", f'stroke="{OTHERS}" stroke-width="1.5" stroke-dasharray="2 3"'))
    parts.append(line("error", f'stroke="{OURS}" stroke-width="2"'))
    for row in rows:
        parts.append(f'<circle cx="{x(row.slots):.1f}" cy="{y(row.observed):.1f}" r="4" fill="white" stroke="{OURS}" stroke-width="1.5"/>')
        if row.heavy:
            parts.append(f'<rect x="{x(row.slots) - 3:.1f}" y="{y(row.heavy) - 3:.1f}" width="6" height="6" fill="{HEAVY}"/>')
    return parts


def legend():
    """Returns the parts that name the lines and marks."""
    return [
        f'<path d="M14 58 H44" stroke="{OTHERS}" stroke-width="2" stroke-dasharray="6 4"/><text x="52" y="62">bound for the size</text>',
        f'<path d="M186 58 H216" stroke="{OTHERS}" stroke-width="1.5" stroke-dasharray="2 3"/>',
        '<text x="224" y="62">bound with the weights of the heaviest items</text>',
        f'<path d="M512 58 H542" stroke="{OURS}" stroke-width="2"/><text x="550" y="62">error of the sketch</text>',
        f'<circle cx="29" cy="78" r="4" fill="white" stroke="{OURS}" stroke-width="1.5"/><text x="52" y="82">largest distance of a bound from the truth</text>',
        f'<rect x="322" y="75" width="6" height="6" fill="{HEAVY}"/><text x="336" y="82">that of upper bounds of the ten heaviest (no mark: 0)</text>',
    ]


def picture():
    """Returns the picture: a panel for each stream, with shares of the total weight over the number of slots."""
    totals, rows = streams()
    places = [(left, top) for top in TOPS for left in LEFTS]
    panels = [part for (name, of), place in zip(rows.items(), places) for part in panel(name, totals[name], of, *place)]
    height = TOPS[1] + HEIGHT + 32
    return "\n".join([
        f'<svg xmlns="http://www.w3.org/2000/svg" width="700" height="{height}" viewBox="0 0 700 {height}" font-family="sans-serif" font-size="12">',
        f'<rect width="700" height="{height}" fill="white"/>',
        '<text x="14" y="22" font-size="14" font-weight="bold">Errors of frequent items, as shares of the total weight, by the number of slots</text>',
        f'<text x="14" y="40" fill="#555555">{RESULTS[:10]}, one run with a fixed key.</text>',
        *legend(), *panels, "</svg>", ""])


def main():
    path = sys.argv[1] if len(sys.argv) > 1 else f"{HERE}/accuracy.svg"
    with open(path, "w", encoding="utf-8") as file:
        file.write(picture())


main()
