"""Draws `bounds.svg`, a picture of the first page: bounds of the ten heaviest words of a text around their true numbers.

    /usr/bin/python3 docs/plots/bounds.py [OUT]

It reads a table of RESULTS, in bench/results, and writes OUT, by default docs/plots/bounds.svg. The same table gives the same bytes.
"""
import os
import re
import sys
from xml.sax.saxutils import escape

HERE = os.path.dirname(os.path.abspath(__file__))
RESULTS = "2026-11-29-accuracy.txt"
OURS, REST = "#1f6f8b", "#dfe5e8"
LEFT, WIDTH, TOP, BAR = 100, 350, 62, 24


def numbers():
    """Returns the slots, the numbers of words and of distinct ones, the error, and for each word its bounds and true number."""
    with open(f"{HERE}/../../bench/results/{RESULTS}", encoding="utf-8") as file:
        text = file.read()
    words, distinct = re.search(r"^- text: .*; ([\d,]+) items, ([\d,]+) distinct$", text, re.MULTILINE).groups()
    slots, table = re.search(r"^The ten heaviest words, (\d+) slots\n((?:.*\n)*?)\n.* hashes$", text, re.MULTILINE).groups()
    error = re.search(rf"^\| text \| {slots} \| (\d+) \|", text, re.MULTILINE)[1]
    rows = re.findall(r"^\| (\S+) \| (\d+) \| (\d+) \| (\d+) \|$", table, re.MULTILINE)
    return int(slots), words, distinct, int(error), [(word, int(lower), int(true), int(upper)) for word, lower, true, upper in rows]


def picture():
    """Returns the picture: for each word a bar from its lower to its upper bound, and a mark at its true number."""
    slots, words, distinct, error, rows = numbers()
    scale = WIDTH / max(upper for *_, upper in rows)
    parts, y = [], TOP
    for word, lower, true, upper in rows:
        start, end, mark = (LEFT + scale * number for number in (lower, upper, true))
        parts += [
            f'<text x="{LEFT - 8}" y="{y + 14}" text-anchor="end" font-weight="bold">{escape(word)}</text>',
            f'<rect x="{LEFT}" y="{y + 7}" width="{start - LEFT:.1f}" height="6" fill="{REST}"/>',
            f'<rect x="{start:.1f}" y="{y + 3}" width="{end - start:.1f}" height="14" fill="{OURS}" fill-opacity="0.45"/>',
            f'<path d="M{mark:.1f} {y} V{y + 20}" stroke="black" stroke-width="2"/>',
            f'<text x="{LEFT + WIDTH + 12}" y="{y + 14}">{lower:,} ≤ <tspan font-weight="bold">{true:,}</tspan> ≤ {upper:,}</text>',
        ]
        y += BAR
    y += 8
    return "\n".join([
        f'<svg xmlns="http://www.w3.org/2000/svg" width="700" height="{y}" viewBox="0 0 700 {y}" font-family="sans-serif" font-size="12">',
        f'<rect width="700" height="{y}" fill="white"/>',
        '<text x="14" y="22" font-size="14" font-weight="bold">The ten heaviest words of a text: bounds (bars) and true numbers (marks)</text>',
        f'<text x="14" y="40" fill="#555555">{RESULTS[:10]}, a table of {slots} slots, so that bars can be seen. {words} words, {distinct} distinct; the error is '
        f'{error:,}.</text>',
        *parts, "</svg>", ""])


def main():
    path = sys.argv[1] if len(sys.argv) > 1 else f"{HERE}/bounds.svg"
    with open(path, "w", encoding="utf-8") as file:
        file.write(picture())


main()
