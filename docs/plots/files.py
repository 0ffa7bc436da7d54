"""Draws `files.svg`, the picture of the first page: times and memory of `sketches` on files, beside other tools.

    /usr/bin/python3 docs/plots/files.py [OUT]

It reads the table of RESULTS, in bench/results, and writes OUT, by default docs/plots/files.svg. The same table gives the same bytes.
"""
import itertools
import os
import re
import sys
from xml.sax.saxutils import escape

HERE = os.path.dirname(os.path.abspath(__file__))
RESULTS = "2026-11-29-files.txt"
OURS, OTHERS = "#1f6f8b", "#b9c0c4"
LEFT, WIDTH, BAR = 225, 330, 17


def rows():
    """Returns the rows of the table: a job, a tool, its seconds and its memory in MB."""
    with open(f"{HERE}/../../bench/results/{RESULTS}", encoding="utf-8") as file:
        return re.findall(r"^\| ([^|]+) \| ([^|]+) \| ([\d.]+) \| (\d+) \|$", file.read(), re.MULTILINE)


def picture():
    """Returns the picture: for each job a bar for each tool, as long as its time."""
    parts, y = [], 56
    for job, tools in itertools.groupby(rows(), key=lambda row: row[0]):
        tools = list(tools)
        longest = max(float(seconds) for _, _, seconds, _ in tools)
        parts.append(f'<text x="14" y="{y + 12}" font-weight="bold">{escape(job)}</text>')
        y += 20
        for _, tool, seconds, memory in tools:
            long = WIDTH * float(seconds) / longest
            ours = tool.startswith("sketches")
            weight = ' font-weight="bold"' if ours else ""
            parts.append(f'<text x="{LEFT - 8}" y="{y + 12}" text-anchor="end"{weight}>{escape(tool)}</text>')
            parts.append(f'<rect x="{LEFT}" y="{y + 1}" width="{long:.1f}" height="{BAR - 3}" fill="{OURS if ours else OTHERS}"/>')
            parts.append(f'<text x="{LEFT + long + 6:.1f}" y="{y + 12}"{weight}>{seconds} s, {memory} MB</text>')
            y += BAR
        y += 12
    return "\n".join([
        f'<svg xmlns="http://www.w3.org/2000/svg" width="700" height="{y}" viewBox="0 0 700 {y}" font-family="sans-serif" font-size="12">',
        f'<rect width="700" height="{y}" fill="white"/>',
        '<text x="14" y="22" font-size="14" font-weight="bold">Time by the clock and peak memory, for files of 100 MB</text>',
        f'<text x="14" y="40" fill="#555555">{RESULTS[:10]}, four processors, the least of three runs. Each job has a scale of its own. Only sketches approximates.</text>',
        *parts, "</svg>", ""])


def main():
    path = sys.argv[1] if len(sys.argv) > 1 else f"{HERE}/files.svg"
    with open(path, "w", encoding="utf-8") as file:
        file.write(picture())


main()
