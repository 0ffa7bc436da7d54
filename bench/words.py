"""Times the heaviest words and lines of a text: this package beside mawk, Python's Counter and an exact counter in Rust.

    /usr/bin/python3 bench/words.py BUILT

BUILT is the folder of `bindings/python/build.sh`. The text is made of files of this machine, 100 MB of valid UTF-8.
Needs Debian's `mawk`, and `rustc`. Each row is the least of three runs, one after another, reading included.
"""
import os
import subprocess
import sys
import time

TOP = os.path.dirname(os.path.dirname(os.path.abspath(__file__)))
OUT = os.path.join(TOP, "bench", "out", "words")
TEXT = os.path.join(OUT, "text")
SIZE = 100_000_000

COUNTER = """
import collections, sys
counts = collections.Counter()
with open(sys.argv[1], "rb") as text:
    for line in text:
        counts.update(line.split())
print(sum(counts.values()), counts.most_common(5))
"""

BY_LINES = """
import sys, datasketches_rattle as ds
words = ds.FrequentItemsSketch(4096, item=str)
with open(sys.argv[1], encoding="utf-8") as text:
    for line in text:
        words.update(line.split())
print(words.total_weight, words.rows(no_false="positives")[:5])
"""

BY_WORDS = """
import mmap, sys, datasketches_rattle as ds
words = ds.FrequentItemsSketch(4096, item=str)
with open(sys.argv[1], "rb") as file, mmap.mmap(file.fileno(), 0, access=mmap.ACCESS_READ) as text:
    words.update_words(text)
print(words.total_weight, words.rows(no_false="positives")[:5])
"""

BY_FILE = """
import sys, datasketches_rattle as ds
words = ds.FrequentItemsSketch.from_file(sys.argv[1], progress=False, threads=int(sys.argv[2]))
print(words.total_weight, words.top(5, no_false="positives"))
"""

LINES = """
import mmap, sys, datasketches_rattle as ds
lines = ds.FrequentItemsSketch(4096, item=str)
with open(sys.argv[1], "rb") as file, mmap.mmap(file.fileno(), 0, access=mmap.ACCESS_READ) as text:
    lines.update_lines(text)
print(lines.total_weight, lines.top(5, no_false="positives"))
"""

MAWK = "{ for (i = 1; i <= NF; i++) count[$i]++ } END { for (word in count) n += count[word]; print n }"


def make_text():
    """Writes the text, unless it is there."""
    if os.path.exists(TEXT) and os.path.getsize(TEXT) >= SIZE:
        return
    os.makedirs(OUT, exist_ok=True)
    written = 0
    with open(TEXT, "wb") as out:
        while written < SIZE:
            before = written
            for root in ("/usr/include", "/usr/lib/python3", "/usr/share/doc", "/usr/share/perl", "/usr/lib/python3.11"):
                for folder, names, files in sorted(os.walk(root)):
                    names.sort()
                    for name in sorted(files):
                        path = os.path.join(folder, name)
                        if written >= SIZE or not name.endswith((".h", ".py", ".txt", ".pm", ".md", "copyright")):
                            continue
                        try:
                            with open(path, "rb") as file:
                                data = file.read()
                            data.decode("utf-8")
                        except (OSError, UnicodeDecodeError):
                            continue
                        out.write(data + b"\n")
                        written += len(data) + 1
            if written == before:
                sys.exit("no files to make a text of")


def main():
    make_text()
    counter = os.path.join(OUT, "words")
    subprocess.run(["rustc", "--edition", "2024", "-O", "-o", counter, f"{TOP}/bench/words.rs"], check=True)
    env = {**os.environ, "PYTHONPATH": os.path.abspath(sys.argv[1])}
    python = "/usr/bin/python3"
    rows = [
        ("update_words of an mmap, 4096 slots", [python, "-c", BY_WORDS, TEXT]),
        *((f"from_file, 4096 slots, threads={threads}", [python, "-c", BY_FILE, TEXT, threads]) for threads in "124"),
        ("update of split lines, 4096 slots", [python, "-c", BY_LINES, TEXT]),
        ("heavy.py --words --workers 4", [python, f"{TOP}/bindings/dask/heavy.py", "--words", TEXT, "--workers", "4", "--json"]),
        ("exact, Rust", [counter, TEXT]),
        ("exact, Python's Counter", [python, "-c", COUNTER, TEXT]),
        ("exact, mawk", ["mawk", MAWK, TEXT]),
        ("update_lines of an mmap, 4096 slots, a line", [python, "-c", LINES, TEXT]),
    ]
    words = int(subprocess.run([counter, TEXT], capture_output=True, text=True, check=True).stdout.split()[0])
    with open(TEXT, "rb") as text:
        lines = text.read().count(b"\n")
    print(f"{os.path.getsize(TEXT)} bytes, {words} words, {lines} lines\n\n| what | seconds | ns a word |\n|---|---|---|")
    for name, command in rows:
        seconds = []
        for _ in range(3):
            began = time.monotonic()
            subprocess.run(command, env=env, check=True, stdout=subprocess.DEVNULL)
            seconds.append(time.monotonic() - began)
        count = lines if name.endswith("a line") else words
        print(f"| {name} | {min(seconds):.2f} | {min(seconds) / count * 1e9:.0f} |", flush=True)


main()
