"""Runs queries with sketches beside exact ones in PostgreSQL, and writes a table and plots of their time and memory.

    /usr/bin/python3 bench/postgresql.py ARCHIVE [ROWS GROUPS]

`bench/postgresql.sh` calls it, and has what it needs.
"""
import datetime
import os
import re
import subprocess
import sys
import tempfile
import threading
import time

TOP = os.path.dirname(os.path.dirname(os.path.abspath(__file__)))
PAGE = f"{TOP}/bindings/postgresql"
sys.path.insert(0, f"{PAGE}/tests")

import server  # noqa: E402

ROUNDS = 3
SERIAL = {"max_parallel_workers_per_gather": 0}
WORKERS = {"max_parallel_workers_per_gather": 3, "parallel_setup_cost": 0, "parallel_tuple_cost": 0}
LITTLE, MUCH = {"work_mem": "4MB"}, {"work_mem": "256MB"}

TABLES = """
SELECT setseed(0.5);
CREATE UNLOGGED TABLE events AS SELECT i * 30 / {rows} AS day, number, 'item ' || number AS string
FROM (SELECT i, floor(power({rows} / 10.0, random()))::bigint AS number
    FROM generate_series(0::bigint, {rows} - 1) AS i OFFSET 0) AS numbers;
CREATE UNLOGGED TABLE orders AS SELECT i * 7919 % ({rows} * 10) AS customer, i AS id
FROM generate_series(0::bigint, {rows} - 1) AS i;
CREATE UNLOGGED TABLE chosen AS SELECT i * 100 AS customer FROM generate_series(0::bigint, {rows} / 10 - 1) AS i;
CREATE TABLE days AS SELECT day, frequent_strings_agg(string, 1, 1024) AS strings FROM events GROUP BY day;
VACUUM ANALYZE events; VACUUM ANALYZE orders; VACUUM ANALYZE chosen; VACUUM ANALYZE days;
"""

EXACT = "SELECT string, count(*) FROM events {} GROUP BY string ORDER BY 2 DESC LIMIT 10"
LARGEST = "SELECT item, estimate FROM frequent_rows((SELECT {})) ORDER BY 2 DESC LIMIT 10"
SKETCH = LARGEST.format("frequent_strings_agg(string, 1, 4096) FROM events")
JOIN = "SELECT count(*), sum(id) FROM orders JOIN chosen USING (customer)"
FILTER = " WHERE sketch_contains((SELECT bloom_filter_agg(customer, {}, 0.01) FROM chosen), customer)"
UNION = LARGEST.format("frequent_strings_union(strings) FROM days")
GROUPED = "SELECT count(s) FROM (SELECT number % {} AS g, {} AS s FROM events GROUP BY 1) AS groups"


def queries(rows, groups):
    """Returns the queries: what is asked, how, settings, and the statement."""
    top, join = "top 10 of strings", "join with a tenth as many rows"
    days, many = "top 10 of 30 days", f"{groups:,} groups"
    return [
        (top, "exact, work_mem 4 MB", SERIAL | LITTLE, EXACT.format("")),
        (top, "exact, work_mem 256 MB", SERIAL | MUCH, EXACT.format("")),
        (top, "sketch of 4096 slots", SERIAL | LITTLE, SKETCH),
        (top, "exact, work_mem 4 MB, three workers", WORKERS | LITTLE, EXACT.format("")),
        (top, "exact, work_mem 256 MB, three workers", WORKERS | MUCH, EXACT.format("")),
        (top, "sketch of 4096 slots, three workers", WORKERS | LITTLE, SKETCH),
        (join, "plain, work_mem 4 MB", SERIAL | LITTLE, JOIN),
        (join, "after a filter, work_mem 4 MB", SERIAL | LITTLE, JOIN + FILTER.format(rows // 10)),
        (join, "plain, work_mem 256 MB", SERIAL | MUCH, JOIN),
        (join, "after a filter, work_mem 256 MB", SERIAL | MUCH, JOIN + FILTER.format(rows // 10)),
        (join, "plain, work_mem 256 MB, three workers", WORKERS | MUCH, JOIN),
        (join, "after a filter, three workers", WORKERS | MUCH, JOIN + FILTER.format(rows // 10)),
        (days, "counted again, work_mem 256 MB", SERIAL | MUCH, EXACT.format("WHERE day < 30")),
        (days, "30 stored sketches of 1024 slots", SERIAL | LITTLE, UNION),
        (many, "count(*), work_mem 128 MB", SERIAL | {"work_mem": "128MB"}, GROUPED.format(groups, "count(*)")),
        (many, "sketches of 64 slots, work_mem 128 MB", SERIAL | {"work_mem": "128MB"},
         GROUPED.format(groups, "frequent_bigints_agg(number, 1, 64)")),
        (many, "sketches of 64 slots, work_mem 4 MB", SERIAL | LITTLE,
         GROUPED.format(groups, "frequent_bigints_agg(number, 1, 64)")),
    ]


# Aggregates whose cost of a row is compared with that of `count(column)`.
COSTS = [("number", "frequent_bigints_agg(number)", "frequent bigints, 1024 slots"),
         ("string", "frequent_strings_agg(string)", "frequent strings, 1024 slots"),
         ("number", "count_min_agg_sized(number, 1, 5, 2048)", "Count-Min 5 x 2048, bigints"),
         ("string", "count_min_agg_sized(string, 1, 5, 2048)", "Count-Min 5 x 2048, strings"),
         ("number", "bloom_filter_agg_sized(number, 10000000, 7)", "filter of 1.2 MB, 7 hashes, bigints"),
         ("string", "bloom_filter_agg_sized(string, 10000000, 7)", "filter of 1.2 MB, 7 hashes, strings")]


class Watch:
    """Samples the memory of its own that a session and its workers have, and keeps the most above the session's at the start."""

    def __init__(self, on, process):
        self.on, self.process, self.most, self.ended = on, process, 0, False
        self.before = server.memory(process, "RssAnon")
        self.thread = threading.Thread(target=self.run)
        self.thread.start()

    def run(self):
        with self.on.session() as session, session.cursor() as cursor:
            while not self.ended:
                cursor.execute("SELECT pid FROM pg_stat_activity WHERE leader_pid = %s", (self.process,))
                processes = {self.process, *[row[0] for row in cursor.fetchall()]}
                self.most = max(self.most, sum(server.memory(process, "RssAnon") for process in processes) - self.before)
                time.sleep(0.01)

    def end(self):
        self.ended = True
        self.thread.join()
        return max(self.most, 0)


def temporary(on):
    with on.session() as session, session.cursor() as cursor:
        cursor.execute("SELECT temp_bytes FROM pg_stat_database WHERE datname = 'postgres'")
        return cursor.fetchone()[0]


def measured(on, settings, statement):
    """Returns the least time of some rounds, the most memory, and the bytes of temporary files of one."""
    least, memory, files = float("inf"), 0, 0
    for _ in range(ROUNDS):
        with on.session(**settings) as session, session.cursor() as cursor:
            cursor.execute("SELECT pg_backend_pid()")
            process = cursor.fetchone()[0]
            before = temporary(on)
            watch = Watch(on, process)
            time.sleep(0.05)
            began = time.monotonic()
            cursor.execute(statement)
            cursor.fetchall()
            least = min(least, time.monotonic() - began)
            memory = max(memory, watch.end())
            cursor.execute("SELECT pg_stat_force_next_flush()")
            files = temporary(on) - before
    return least, memory, files


def cost(on, expression):
    """Returns the processor time of a query over all rows, the least of some rounds, in seconds."""
    least = float("inf")
    with on.session(**SERIAL) as session, session.cursor() as cursor:
        cursor.execute("SELECT pg_backend_pid()")
        process = cursor.fetchone()[0]
        for _ in range(2 * ROUNDS):
            before = server.processor_time(process)
            cursor.execute(f"SELECT {expression} FROM events")
            cursor.fetchall()
            least = min(least, server.processor_time(process) - before)
    return least


def size(number):
    return f"{number / 1e6:.1f} MB" if number else "none"


def seconds(number):
    return f"{number * 1000:.0f} ms" if number < 1 else f"{number:.2f} s"


def plots(folder, table):
    """Draws the bars of time and of memory."""
    import matplotlib

    matplotlib.use("Agg")
    from matplotlib import pyplot

    os.makedirs(folder, exist_ok=True)
    names = [f"{what}:\n{how}" for what, how, *_ in table]
    colours = ["tab:gray" if re.match("exact|plain|counted|count", how) else "tab:blue" for _, how, *_ in table]
    for name, title, bars in [
        ("time", "Time of a query (seconds, log scale; grey is exact or plain)", [("", [row[2] for row in table], colours)]),
        ("memory", "Memory beyond shared buffers, and temporary files (MB, log scale; grey is exact or plain)",
         [("memory", [max(row[3], 1e5) / 1e6 for row in table], colours),
          ("temporary files", [row[4] / 1e6 for row in table], ["tab:orange"] * len(table))]),
    ]:
        figure, axes = pyplot.subplots(figsize=(10, 0.55 * len(table) + 1.2))
        height = 0.8 / len(bars)
        for number, (label, values, colour) in enumerate(bars):
            places = [place + number * height for place in range(len(table))]
            drawn = axes.barh(places, values, height=height, color=colour, label=label)
            words = [f" {value:.2g}" if value < 10 else f" {value:.0f}" if value else "" for value in values]
            axes.bar_label(drawn, ["" if value == 0 else word for value, word in zip(values, words)], fontsize=8)
        axes.set_yticks([place + 0.4 - height / 2 for place in range(len(table))], names, fontsize=8)
        axes.invert_yaxis()
        axes.set_xscale("log")
        axes.margins(x=0.12, y=0.01)
        axes.set_title(title, fontsize=10)
        if len(bars) > 1:
            handles = [pyplot.Rectangle((0, 0), 1, 1, color=colour) for colour in ["tab:gray", "tab:blue", "tab:orange"]]
            axes.legend(handles, ["memory, exact or plain", "memory, with sketches", "temporary files"], fontsize=8)
        figure.tight_layout()
        figure.savefig(f"{folder}/{name}.png", dpi=110, metadata={"Software": None})
        pyplot.close(figure)


def main():
    archive, *sizes = sys.argv[1:]
    load = os.getloadavg()[0]
    rows, groups = [int(word) for word in sizes] if sizes else (10_000_000, 100_000)
    with tempfile.TemporaryDirectory() as work:
        os.chmod(work, 0o755)
        subprocess.run(["bash", f"{TOP}/bindings/c/build.sh", f"{work}/built", archive], check=True, stdout=subprocess.DEVNULL)
        server.copy_programs(f"{work}/tree")
        server.install(f"{work}/tree", f"{work}/built/libdatasketches.a", work)
        with server.Server(f"{work}/tree", f"{work}/server", shared_buffers="'2GB'", max_wal_size="'4GB'",
                           max_parallel_workers="3") as on:
            print("making the tables", flush=True)
            with on.session() as session, session.cursor() as cursor:
                cursor.execute("CREATE EXTENSION sketches_rattle")
                for statement in TABLES.format(rows=rows).split(";"):
                    if statement.strip():
                        cursor.execute(statement)
                cursor.execute("SELECT count(DISTINCT string) FROM events")
                distinct = cursor.fetchone()[0]
                cursor.execute("SELECT avg(length(sketch_image(strings)))::bigint FROM days")
                of_day = cursor.fetchone()[0]
            table, text = [], ["| query | how | time | memory | temporary files |", "|---|---|---|---|---|"]
            for what, how, settings, statement in queries(rows, groups):
                table.append((what, how, *measured(on, settings, statement)))
                text.append(f"| {what} | {how} | {seconds(table[-1][2])} | {size(table[-1][3])} | {size(table[-1][4])} |")
                print(text[-1], flush=True)
            text += ["", "| aggregate | nanoseconds a row above `count(column)` |", "|---|---|"]
            counts = {column: cost(on, f"count({column})") for column in ["number", "string"]}
            for column, expression, name in COSTS:
                text.append(f"| {name} | {(cost(on, expression) - counts[column]) / rows * 1e9:.0f} |")
                print(text[-1], flush=True)
    head = (f"{rows:,} rows by a Zipf law, {distinct:,} different strings of 6 to 12 bytes. {os.cpu_count()} processors "
            f"({processor()}), {datetime.date.today()}. Times are the least of {ROUNDS} runs. Memory is what the session and "
            f"its workers have of their own, above the start. The sketch of a day has {of_day / 1000:.0f} kB. A row's cost is "
            f"processor time. The shared table of a parallel join is not counted. The load average was {load:.0f} at the start.")
    whole = sizes == []
    folder = PAGE if whole else f"{TOP}/bench/out/postgresql"
    plots(f"{folder}/plots", table)
    written = f"{TOP}/bench/results/{datetime.date.today()}-postgresql.txt" if whole else f"{folder}/table.txt"
    with open(written, "w", encoding="utf-8") as file:
        file.write("\n".join([*wrapped(head), "", *text, ""]))
    print(f"written to {os.path.relpath(written, TOP)}")


def processor():
    with open("/proc/cpuinfo", encoding="utf-8") as file:
        return next((line.split(":")[1].strip() for line in file if line.startswith("model name")), "unknown")


def wrapped(text):
    """Returns the lines of a paragraph of at most 132 characters."""
    lines = [""]
    for word in text.split():
        if len(lines[-1]) + len(word) >= 132:
            lines.append("")
        lines[-1] = f"{lines[-1]} {word}".strip()
    return lines


main()
