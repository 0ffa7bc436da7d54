"""Checks times on pages beside the results that they link to: each row of a table with the columns `here`, `plain` and `ratio`, and each
number with a fraction in a paragraph that links to results."""
import os
import re

import links

TOP = os.path.dirname(os.path.dirname(os.path.dirname(os.path.abspath(__file__))))
TABLE = re.compile(r"^\| operation \| here \| plain \| ratio \|\n\|[-|]+\|\n((?:\|.*\n)+)", re.MULTILINE)
RESULTS = re.compile(r"results/(\d{4}-\d\d-\d\d[\w-]*\.txt)")
NUMBER = re.compile(r"(?<![\w.])\d[\d,]*(?:\.\d+)?(?![\w.]*\w)")


def read(path):
    with open(f"{TOP}/{path}", encoding="utf-8") as it:
        return it.read()


def rows(text):
    """Returns the rows of a table, without units."""
    return [re.sub(r" (?:ns|us)(?= \|)", "", row) for row in text.splitlines()]


def rounded(results, digits):
    """Returns the numbers of results with so many digits of a fraction, also in millions."""
    values = [float(number.replace(",", "")) for number in NUMBER.findall(results)]
    return {f"{value / unit:.{digits}f}" for value in values for unit in (1, 1_000_000)}


def check(tests):
    count = 0
    for page in links.pages():
        text = read(page)
        results = [row for name in RESULTS.findall(text) for row in rows(read(f"bench/results/{name}"))]
        for row in [row for table in TABLE.findall(text) for row in rows(table)]:
            count += 1
            tests.check(f"{page}: times as in bench/results: {row}", row in results)
        for paragraph in re.split(r"\n\s*\n", text):
            linked = "\n".join(read(f"bench/results/{name}") for name in RESULTS.findall(paragraph))
            shown = NUMBER.findall(re.sub(r"\]\([^)]*\)|`[^`]*`", "", paragraph)) if linked else []
            for number in [number for number in shown if "." in number]:
                count += 1
                tests.check(f"{page}: {number} as in bench/results", number in rounded(linked, len(number.partition(".")[2])))
    tests.check("there are times on pages", count > 15, count)
