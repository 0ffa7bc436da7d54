"""Times the program `sketches` on files beside what people use today, checks each result, and prints a table and draws a plot.

    LC_ALL=C /usr/bin/python3 bench/files.py PROGRAM SIZE RUNS [JOB ..]

`bench/files.sh` calls it, and has what it needs. The files have SIZE MB each and come from a fixed seed. A JOB is a part of the name of a
function that makes a job, such as `weighed`; without one all jobs run. The tools of a job run by
turns, RUNS times each, and their last results are checked:

- An exact tool must return the true numbers, or the exact lines.
- The bounds of `sketches` must enclose the true numbers. No item that is missing may occur more often than
  the last row's bound.
- `sketches uniq` must print lines of the exact result in order, and miss at most the share that its note states.
- `sketches join` must print each line that is a key, in order, and at most twice the share of others that its note states.
- `sketches weigh` must print the true number of each key, in order. With `--error` a number may be above the true one, and for at most 1 in
  500 keys by more than the error.
"""
import collections
import csv
import datetime
import itertools
import os
import random
import re
import statistics
import subprocess
import sys
from xml.sax.saxutils import escape

TOP = os.path.dirname(os.path.dirname(os.path.abspath(__file__)))
OUT = f"{TOP}/bench/out/files"
PROGRAM, SIZE, RUNS, ONLY = sys.argv[1], int(sys.argv[2]), int(sys.argv[3]), sys.argv[4:]
DATA = f"{OUT}/{SIZE}"
LOG, LINES, WORDS, EMPTY = f"{DATA}/log", f"{DATA}/lines", f"{DATA}/words", f"{DATA}/empty"
PLAIN, QUOTED = f"{DATA}/plain.csv", f"{DATA}/quoted.csv"
EXACT, MEASURE, RESULT = f"{OUT}/exact", f"{OUT}/measure", f"{OUT}/result"
PARTS = 8
DEFAULT = 100  # MB
HERE, BESIDE = "#1f6f8b", "#b9c0c4"

Tool = collections.namedtuple("Tool", "name command check")
Job = collections.namedtuple("Job", "name unit count tools runs")
Row = collections.namedtuple("Row", "name least median user peak")


# The files.

def zipf(rng, items, exponent, count):
    """Returns `count` of the items by Zipf's law, the first most often."""
    weights = itertools.accumulate((rank + 1) ** -exponent for rank in range(len(items)))
    return rng.choices(items, cum_weights=list(weights), k=count)


def log_lines(rng):
    """Yields lists of lines of a combined access log, whose field 7 is the URL."""
    urls = [f"/shop/{n % 97}/article-{n:05}/view?page={n % 7}" for n in range(50_000)]
    agents = [f"Mozilla/5.0 (X11; Linux x86_64; rv:{n}.0) Gecko/20100101 Firefox/{n}.0" for n in range(90, 130)]
    while True:
        lines = []
        for url in zipf(rng, urls, 1.0, 20_000):
            host, minute, size = rng.getrandbits(16), rng.randrange(1440), rng.getrandbits(16)
            lines.append(f'10.4.{host >> 8}.{host & 255} - - [28/Nov/2026:{minute // 60:02}:{minute % 60:02}:07 +0000] '
                         f'"GET {url} HTTP/1.1" 200 {size} "https://example.org/shop/" "{agents[host % 40]}"\n')
        yield lines


def short_lines(rng):
    """Yields lists of lines of 27 bytes: nine of ten by Zipf's law, and the tenth occurs once."""
    def line(n):
        return f"query {n * 2654435761 % 2**32:08x} of {n:08}\n"

    names = [line(n) for n in range(100_000)]
    others = itertools.count(len(names))
    while True:
        yield [line(next(others)) if rng.random() < 0.1 else name for name in zipf(rng, names, 1.1, 100_000)]


def text_lines(rng):
    """Yields lists of lines of 12 words, of which frequent ones are short."""
    parts = [a + b for a in "bdfghklmnprstvz" for b in "aeiou"]

    def word(rank):
        return parts[rank % 75] + (word(rank // 75 - 1) if rank >= 75 else "")

    words = [word(rank) for rank in range(100_000)]
    while True:
        chosen = zipf(rng, words, 1.0, 120_000)
        yield [" ".join(chosen[place:place + 12]) + "\n" for place in range(0, len(chosen), 12)]


def plain_rows(rng):
    """Yields lists of rows of CSV without quotes."""
    pages = [f"/shop/{n % 97}/article-{n:05}" for n in range(50_000)]
    yield ["time,host,page,status,bytes\n"]
    while True:
        yield [f"2026-11-28T{rng.randrange(24):02}:{rng.randrange(60):02},10.4.{rng.randrange(256)}.{rng.randrange(256)},{page},200,{rng.randrange(90_000)}\n"
               for page in zipf(rng, pages, 1.0, 20_000)]


def quoted_rows(rng):
    """Yields lists of rows of CSV with quotes around two of the fields."""
    titles = [f'"Tea, ""green"", no. {n:05}"' if n % 3 == 0 else f'"Tea, black, no. {n:05}"' for n in range(50_000)]
    yield ["time,host,title,agent,bytes\r\n"]
    while True:
        yield [f'2026-11-28T{rng.randrange(24):02}:{rng.randrange(60):02},10.4.{rng.randrange(256)}.{rng.randrange(256)},{title},"Mozilla/5.0 (X11, Linux)",{rng.randrange(90_000)}\r\n'
               for title in zipf(rng, titles, 1.0, 20_000)]


def write_files():
    """Writes the files that are not there."""
    os.makedirs(DATA, exist_ok=True)
    open(EMPTY, "wb").close()
    for path, lists in ((LOG, log_lines), (LINES, short_lines), (WORDS, text_lines), (PLAIN, plain_rows), (QUOTED, quoted_rows)):
        if os.path.exists(path):
            continue
        written, chunks = 0, lists(random.Random(7))
        with open(f"{path}.tmp", "wb") as out:
            while written < SIZE * 1_000_000:
                written += out.write("".join(next(chunks)).encode("ascii"))
        os.rename(f"{path}.tmp", path)


def read_lines(path):
    """Returns the file's lines without line feeds."""
    with open(path, "rb") as file:
        return file.read().split(b"\n")[:-1]


def true_counts(path, what):
    """Returns how often each line, word or field of the file occurs."""
    counts = collections.Counter()
    with open(path, "rb") as file:
        for lines in iter(lambda: file.readlines(1 << 24), []):
            if what == "lines":
                counts.update(line[:-1] for line in lines)
            elif what == "words":
                counts.update(b" ".join(lines).split())
            else:
                counts.update(line.split(None, int(what))[int(what) - 1] for line in lines)
    return counts


# The checks of results. Each gets the output and what was written to standard error.

def wrong(why):
    """Ends the run, since a result is wrong."""
    sys.exit(f"wrong result: {why}")


def exact_check(counts, pattern=rb" *(?P<count>\d+) (?P<item>.*)"):
    """Returns a check that the output has ten of the most frequent items, with their true numbers."""
    largest = sorted(counts.values(), reverse=True)[:10]

    def check(output, _):
        rows = [re.fullmatch(pattern, line) for line in output.split(b"\n")[:-1]]
        if [int(row["count"]) for row in rows] != largest:
            wrong(f"numbers {[row['count'] for row in rows]}, and not {largest}")
        if any(counts[row["item"]] != int(row["count"]) for row in rows):
            wrong("an item with a number that is not its own")

    return check


def bounds_check(counts):
    """Returns a check that the bounds of each row enclose the true number, and that no more frequent item is missing."""
    total = sum(counts.values())

    def check(output, _):
        head, *rows = output.split(b"\n")[:-1]
        error, stated = map(int, re.fullmatch(rb"# error (\d+) of (\d+)", head).groups())
        if stated != total:
            wrong(f"{stated} items, and not {total}")
        printed, last = set(), total
        for row in rows:
            lower, upper, item = row.split(b"\t")
            lower, upper = int(lower), int(upper)
            if not (lower <= counts[item] <= upper <= last and upper - lower == error and counts[item] > 0):
                wrong(f"bounds {lower} and {upper} of {counts[item]}, error {error}")
            printed.add(item)
            last = upper
        if len(printed) != 10 or any(count > last for item, count in counts.items() if item not in printed):
            wrong("a more frequent item is missing")

    return check


def unseen_check(unseen, total):
    """Returns a check that the output has lines of `unseen` in order, and misses at most the share that the note states."""
    def check(output, note):
        lines = output.split(b"\n")[:-1]
        stated = re.fullmatch(r"sketches: (\d+) lines left out; .*: about 1 in (\d+) new items is taken for a repeated one\n", note)
        rest = iter(unseen)
        if not all(line in rest for line in lines):
            wrong("a line is repeated, or out of order")
        missed, allowed = len(unseen) - len(lines), -(-len(unseen) // int(stated[2]))
        if int(stated[1]) != total - len(lines) or missed > allowed:
            wrong(f"{missed} lines are missing, at most {allowed} allowed, and the note has {note.strip()}")

    return check


def joined_check(lines, keys):
    """Returns a check that the output has the lines that are keys, in order, and at most twice the others that the note states."""
    def check(output, note):
        printed = output.split(b"\n")[:-1]
        stated = re.fullmatch(r"sketches: (\d+) lines left out; .*: about 1 in (\d+) other items is taken for a key\n", note)
        chosen = set(printed)
        if printed != [line for line in lines if line in keys or line in chosen]:
            wrong("a key is missing, or a line is out of order")
        others, allowed = len(chosen - keys), 2 * -(-len(set(lines) - keys) // int(stated[2]))
        if int(stated[1]) != len(lines) - len(printed) or others > allowed:
            wrong(f"{others} other lines, at most {allowed} allowed, and the note has {note.strip()}")

    return check


def estimates_check(counts, keys):
    """Returns a check that the output has a number for each key, in order, which is at least the true one and for few keys more than 0.1
    percent of all above it."""
    total = counts.total()

    def check(output, _):
        rows = [line.split(b"\t", 1) for line in output.split(b"\n")[:-1]]
        if [key for _, key in rows] != keys or any(int(number) < counts[key] for number, key in rows):
            wrong("another key, or a number below the true one")
        above = sum(1000 * (int(number) - counts[key]) > total for number, key in rows)
        if 500 * above > len(keys):
            wrong(f"{above} numbers are too large")

    return check


def same_check(expected):
    """Returns a check that the output has exactly these lines."""
    def check(output, _):
        if output.split(b"\n")[:-1] != expected:
            wrong("other lines")

    return check


# The jobs.

def shell(line):
    """Returns the command that runs a line of the shell."""
    return ["/bin/sh", "-c", line]


SORTED = "sort -t '\t' -k 2,2rn | head -n 10"
TAB_ROWS = rb"(?P<item>.*)[\t ](?P<count>\d+)"


def top_job(name, path, what, options):
    """Returns a job for the ten most frequent lines, words or fields."""
    counts = true_counts(path, what)
    number = sum(counts.values())
    if what == "lines":
        add, sort, group = "n[$0]++", f"sort {path}", f"datamash -s -g 1 count 1 <{path} | {SORTED}"
    elif what == "words":
        split = f"tr -s ' ' '\\n' <{path}"
        add = "for (i = 1; i <= NF; i++) n[$i]++"
        sort, group = f"{split} | sort", f"{split} | datamash -s -g 1 count 1 | {SORTED}"
    else:
        add, sort = f"n[${what}]++", f"cut -d ' ' -f {what} {path} | sort"
        group = f"datamash -t ' ' -s -g {what} count {what} <{path} | {SORTED}".replace("\t", " ")
    mawk = "mawk '{ %s } END { for (k in n) print n[k], k }' %s | sort -rn | head -n 10" % (add, path)
    return Job(f"{name}, {SIZE} MB", "word" if what == "words" else "line", number, [
        Tool(" ".join(["sketches top", *options]), [PROGRAM, "top", "-n", "10", *options, path], bounds_check(counts)),
        Tool("exact, Rust's HashMap", [EXACT, "top", what, path], exact_check(counts)),
        Tool("mawk, sort", shell(mawk), exact_check(counts)),
        Tool("sort, uniq -c, sort", shell(f"{sort} | uniq -c | sort -rn | head -n 10"), exact_check(counts)),
        Tool("datamash, sort", shell(group), exact_check(counts, TAB_ROWS)),
    ], RUNS)


BY_CSV = """
import collections, csv, sys
counts = collections.Counter()
with open(sys.argv[1], newline="") as file:
    rows = csv.reader(file)
    next(rows)
    for row in rows:
        counts[row[2]] += int(row[4]) if len(sys.argv) > 2 else 1
for item, count in counts.most_common(10):
    print(count, item)
"""


def csv_job(name, path, weighed):
    """Returns a job for the ten heaviest items of field 3 of CSV, by number or by the sums of field 5."""
    counts, number = collections.Counter(), 0
    with open(path, newline="", encoding="ascii") as file:
        for number, row in enumerate(itertools.islice(csv.reader(file), 1, None), 1):
            counts[row[2].encode()] += int(row[4]) if weighed else 1
    options = ["--csv", "-f", "3"] + (["-w", "5"] if weighed else [])
    tools = [
        Tool(" ".join(["sketches top", *options]), [PROGRAM, "top", "-n", "10", *options, path], bounds_check(counts)),
        Tool("Python's csv, Counter", [sys.executable, "-c", BY_CSV, path] + (["weighed"] if weighed else []), exact_check(counts)),
    ]
    if path == PLAIN:
        add, group = ("n[$3] += $5", "sum 5") if weighed else ("n[$3]++", "count 3")
        tools += [
            Tool("mawk -F,, sort", shell("mawk -F , 'NR > 1 { %s } END { for (k in n) printf \"%%.0f %%s\\n\", n[k], k }' %s | sort -rn | head -n 10" % (add, path)), exact_check(counts)),
            Tool("datamash -t,, sort", shell(f"datamash -t , -s --header-in -g 3 {group} <{path} | sort -t , -k 2,2rn | head -n 10"),
                 exact_check(counts, rb"(?P<item>.*),(?P<count>\d+)")),
        ]
    return Job(f"{name}, {SIZE} MB", "row", number, tools, RUNS)


def unseen_job():
    """Returns a job for the lines that were not seen before."""
    lines = read_lines(LINES)
    unseen = list(dict.fromkeys(lines))
    check = unseen_check(unseen, len(lines))
    tools = [Tool(f"sketches uniq --items {items}", [PROGRAM, "uniq", "--items", str(items), LINES], check)
             for items in (5_000_000, 100_000 + 4000 * SIZE)]
    return Job(f"lines not seen before, {SIZE} MB", "line", len(lines), tools + [
        Tool("exact, Rust's HashSet", [EXACT, "unseen", LINES], same_check(unseen)),
        Tool("mawk '!seen[$0]++'", ["mawk", "!seen[$0]++", LINES], same_check(unseen)),
        Tool("sort -u, in another order", ["sort", "-u", LINES], same_check(sorted(unseen))),
        Tool("datamash rmdup", shell(f"datamash rmdup 1 <{LINES}"), same_check(unseen)),
    ], RUNS)


def written_keys(lines):
    """Writes a file of keys, which has every fifth distinct line. Returns its keys and its name."""
    keys = list(dict.fromkeys(lines))[::5]
    path = f"{OUT}/keys"
    with open(path, "wb") as file:
        file.write(b"".join(key + b"\n" for key in keys))
    return keys, path


def joined_job():
    """Returns a job for the lines that are in a file of keys."""
    lines = read_lines(LINES)
    keys, path = written_keys(lines)
    known = set(keys)
    exact = same_check([line for line in lines if line in known])
    return Job(f"lines in a file of keys, {SIZE} MB", "line", len(lines), [
        Tool("sketches join --keys", [PROGRAM, "join", "--keys", path, LINES], joined_check(lines, known)),
        Tool("mawk, keys of an array", ["mawk", "NR == FNR { keys[$0]; next } $0 in keys", path, LINES], exact),
        Tool("grep -xFf", ["grep", "-xFf", path, LINES], exact),
    ], RUNS)


BY_KEYS = """
import collections, sys
counts = collections.Counter(open(sys.argv[2], "rb"))
sys.stdout.buffer.write(b"".join(b"%d\\t%b" % (counts[key], key) for key in open(sys.argv[1], "rb")))
"""


def weighed_job():
    """Returns a job for how often each key of a file occurs."""
    lines = read_lines(LINES)
    keys, path = written_keys(lines)
    counts = collections.Counter(lines)
    exact = same_check([b"%d\t%b" % (counts[key], key) for key in keys])
    mawk = "NR == FNR { keys[++c] = $0; n[$0] = 0; next } $0 in n { n[$0]++ } END { for (i = 1; i <= c; i++) print n[keys[i]] \"\\t\" keys[i] }"
    return Job(f"numbers of keys, {SIZE} MB", "line", len(lines), [
        Tool("sketches weigh --keys", [PROGRAM, "weigh", "--no-header", "--keys", path, LINES], exact),
        Tool("sketches weigh --error 0.1%", [PROGRAM, "weigh", "--no-header", "--error", "0.1%", "--keys", path, LINES], estimates_check(counts, keys)),
        Tool("mawk, keys of an array", ["mawk", mawk, path, LINES], exact),
        Tool("Python's Counter of all lines", [sys.executable, "-c", BY_KEYS, path, LINES], exact),
    ], RUNS)


def empty_job():
    """Returns a job for an empty file: what a program takes from start to end."""
    return Job("an empty file", None, 1, [
        Tool("sketches top", [PROGRAM, "top", EMPTY], same_check([b"# error 0 of 0"])),
        Tool("sketches uniq", [PROGRAM, "uniq", EMPTY], same_check([])),
        Tool("/bin/true", ["/bin/true"], same_check([])),
        Tool("mawk '!seen[$0]++'", ["mawk", "!seen[$0]++", EMPTY], same_check([])),
        Tool("sort -u", ["sort", "-u", EMPTY], same_check([])),
    ], 20 * RUNS)


def merge_job():
    """Returns a job for the most frequent lines of parts that were counted one by one, or None without `sketches merge`."""
    helped = subprocess.run([PROGRAM, "merge", "--help"], capture_output=True)
    if helped.returncode != 0:
        return None
    lines = read_lines(LINES)
    images, tables = [], []
    for part in range(PARTS):
        path = f"{OUT}/part-{part}"
        some = lines[len(lines) * part // PARTS:len(lines) * (part + 1) // PARTS]
        with open(path, "wb") as file:
            file.write(b"".join(line + b"\n" for line in some))
        images.append(f"{path}.sketch")
        tables.append(f"{path}.counts")
        subprocess.run([PROGRAM, "top", "--save", images[-1], path], check=True, stdout=subprocess.DEVNULL)
        with open(tables[-1], "wb") as file:
            file.write(b"".join(b"%b\t%d\n" % pair for pair in collections.Counter(some).items()))
    counts = collections.Counter(lines)
    files = " ".join(tables)
    return Job(f"merge of {PARTS} parts, counted before", None, 1, [
        Tool(f"sketches merge, {PARTS} images", [PROGRAM, "merge", "-n", "10", *images], bounds_check(counts)),
        Tool(f"mawk, sort, {PARTS} exact tables", shell(
            "mawk -F '\t' '{ n[$1] += $2 } END { for (k in n) print n[k], k }' %s | sort -rn | head -n 10" % files),
             exact_check(counts)),
        Tool(f"datamash, sort, {PARTS} exact tables", shell(f"cat {files} | datamash -s -g 1 sum 2 | {SORTED}"),
             exact_check(counts, TAB_ROWS)),
    ], RUNS)


# The runs.

def run(job):
    """Runs the tools of a job by turns, checks their last results, and returns the rows."""
    measured = [[] for _ in job.tools]
    for turn in range(job.runs):
        for tool, runs in zip(job.tools, measured):
            done = subprocess.run([MEASURE, RESULT, *tool.command], capture_output=True, text=True)
            if done.returncode != 0:
                wrong(f"{tool.name}: {done.stderr}")
            runs.append([int(number) for number in done.stdout.split()])
            if turn == job.runs - 1:
                with open(RESULT, "rb") as file:
                    tool.check(file.read(), done.stderr)
    rows = []
    for tool, runs in zip(job.tools, measured):
        clock, user, peak = zip(*runs)
        rows.append(Row(tool.name, min(clock) / 1e9, statistics.median(clock) / 1e9, statistics.median(user) / 1e6,
                        max(peak) * 1024 / 1e6))
    return rows


def digits(number):
    """Returns a number with about three digits."""
    return f"{number:.{2 if number < 10 else 1 if number < 100 else 0}f}"


def duration(seconds):
    """Returns a time in milliseconds, or in seconds from one second on."""
    return f"{digits(seconds)} s" if seconds >= 1 else f"{digits(seconds * 1e3)} ms"


def table_rows(job, rows):
    """Returns the lines of the table."""
    for row in rows:
        yield (f"| {job.name} | `{row.name}` | {row.least * 1e3:.1f} | {row.median * 1e3:.1f} | {row.user * 1e3:.1f} "
               f"| {digits(row.least / job.count * 1e9) + ' a ' + job.unit if job.unit else ''} "
               f"| {digits(row.least / rows[0].least)} | {digits(row.peak)} |")


def processor():
    """Returns the name of the processor."""
    with open("/proc/cpuinfo", encoding="ascii", errors="replace") as file:
        return next((line.split(":", 1)[1].strip() for line in file if line.startswith("model name")), "unknown")


def plot(results, about):
    """Returns an SVG image with a bar for each tool of each job."""
    left, width, bar, y, parts = 250, 380, 16, 46, []
    for job, rows in results:
        parts.append(f'<text x="12" y="{y + 12}" font-weight="bold">{escape(job.name)}</text>')
        y += 20
        longest = max(row.least for row in rows)
        for row in rows:
            colour = HERE if row.name.startswith("sketches") else BESIDE
            long = max(1.0, width * row.least / longest)
            parts.append(f'<text x="{left - 8}" y="{y + 12}" text-anchor="end">{escape(row.name)}</text>'
                         f'<rect x="{left}" y="{y + 1}" width="{long:.1f}" height="{bar - 2}" fill="{colour}"/>'
                         f'<text x="{left + long + 6:.1f}" y="{y + 12}">{duration(row.least)}, {digits(row.peak)} MB</text>')
            y += bar
        y += 14
    return "\n".join([
        f'<svg xmlns="http://www.w3.org/2000/svg" width="780" height="{y + 10}" font-family="sans-serif" font-size="11">',
        f'<rect width="780" height="{y + 10}" fill="white"/>',
        '<text x="12" y="18" font-size="13">Time by the clock, the least of the runs, and peak memory</text>',
        f'<text x="12" y="34" fill="#666666">{escape(about)}</text>', *parts, "</svg>", ""])


def main():
    write_files()
    about = f"{datetime.date.today()}, {processor()}, {len(os.sched_getaffinity(0))} processors"
    print(f"{about}. Times are in milliseconds: the least and the median of {RUNS} runs by the clock, and the median of user time.\n"
          f"The ratio is the time of the tool over that of the job's first. The peak is that of the largest process, in MB.\n\n"
          "| job | tool | least | median | user | ns | ratio | peak |\n|---|---|---|---|---|---|---|---|", flush=True)
    results = []
    makers = [
        lambda: top_job("most frequent lines", LINES, "lines", []),
        lambda: top_job("field 7 of a log", LOG, "7", ["-f", "7"]),
        lambda: top_job("most frequent words", WORDS, "words", ["--words"]),
        lambda: csv_job("field 3 of CSV", PLAIN, False),
        lambda: csv_job("field 3 of CSV, quoted", QUOTED, False),
        lambda: csv_job("field 3 of CSV, quoted, by weights", QUOTED, True),
        unseen_job, joined_job, weighed_job, merge_job, empty_job]
    for maker in makers:
        if ONLY and not any(word in maker.__name__ for word in ONLY):
            continue
        job = maker()
        if job is None:
            print("`sketches merge` is not in this program", file=sys.stderr)
            continue
        results.append((job, run(job)))
        print("\n".join(table_rows(*results[-1])), flush=True)
    path = f"{TOP}/bench/files.svg" if SIZE == DEFAULT and not ONLY else f"{OUT}/files.svg"
    with open(path, "w", encoding="utf-8") as file:
        file.write(plot(results, about))
    print(f"every result was right; the plot is in {os.path.relpath(path, TOP)}", file=sys.stderr)


main()
