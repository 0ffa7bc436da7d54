"""Runs the queries of the page `README.md` as a user copies them, and compares each result with what the page shows."""
import datetime
import decimal
import os
import re
import uuid

import server

PAGE = os.path.join(os.path.dirname(os.path.dirname(os.path.abspath(__file__))), "README.md")


def examples():
    """Returns the page's queries, each with the output that follows it, or an empty string if none does."""
    with open(PAGE, encoding="utf-8") as file:
        text = file.read()
    found = re.findall(r"^```sql\n(.*?)^```\n(?:\n?```text\n(.*?)^```$)?", text, re.MULTILINE | re.DOTALL)
    return [(query, "\n".join(line.rstrip() for line in output.rstrip().split("\n"))) for query, output in found]


def output_of(text):
    """Returns the output of `psql` without spaces at the ends of lines and without empty lines at its end."""
    return "\n".join(line.rstrip() for line in text.rstrip().split("\n"))


def page_queries(tests):
    """The page's queries."""
    found = examples()
    tests.check("the page has queries", len(found) >= 6 and sum(bool(output) for _, output in found) >= 5, len(found))
    tests.main.run("createdb", "page")
    for number, (query, wanted) in enumerate(found, 1):
        ran = tests.main.run("psql", "-X", "-q", "-v", "ON_ERROR_STOP=1", "-d", "page", "-c", query, check=False)
        got = output_of(ran.stdout.decode())
        tests.check(f"README.md, query {number}", ran.returncode == 0 and got == wanted, f"\n{query}\n{got}\n{ran.stderr.decode()}")


def filter_is_faster(tests):
    """The page's query with a filter before a sort takes less than half of the time without it."""
    query = next(query for query, _ in examples() if "row_number" in query)
    made, asked = query[:query.index("SELECT count")], query[query.index("SELECT count"):]
    plain = re.sub(r"\n *WHERE sketch_contains\(.*?FROM chosen\), customer\)", "", asked)
    tests.main.run("createdb", "faster")
    with tests.main.session("faster", max_parallel_workers_per_gather=0) as session, session.cursor() as cursor:
        cursor.execute("CREATE EXTENSION sketches_rattle;" + made)
        cursor.execute("SELECT pg_backend_pid()")
        process = cursor.fetchone()[0]
        answers, times = [], []
        for statement in (asked, plain):
            least = float("inf")
            for _ in range(3):
                before = server.processor_time(process)
                cursor.execute(statement)
                least = min(least, server.processor_time(process) - before)
            answers.append(cursor.fetchall())
            times.append(least)
        tests.check("the filter changes no answer", answers[0] == answers[1] and plain != asked, answers)
        tests.check("the filter is faster", 2 * times[0] < times[1], times)


# A value of each type of the page's table, as a literal and in Python by the table's names.
VALUES = {
    "uuid": ("u", uuid.UUID("f0eebc999c0b4ef8bb6d6bb9bd380a11"), "'{f0eebc999c0b4ef8bb6d6bb9bd380a11}'"),
    "bytea": ("b", bytes([0, 255]), "'\\000\\377'"),
    "date": ("d", datetime.date(2026, 2, 3), "'03 Feb 2026'"),
    "timestamptz": ("t", datetime.datetime(2026, 2, 3, 5, 5, 6, 7, datetime.timezone(datetime.timedelta(hours=2))),
                    "'2026-02-03 04:05:06.000007+01'"),
    "numeric": ("n", decimal.Decimal("1.50"), "'1.500'"),
}


def items(tests):
    """The page's table of items: the expression in Python writes the item, and SQL has the same one."""
    with open(PAGE, encoding="utf-8") as file:
        rows = re.findall(r"^\| `(\w+)` \| `(.*?)`.*? \| `(.*)` \|$", file.read(), re.MULTILINE)
    found = {name: (item, expression) for name, item, expression in rows if name in VALUES}
    tests.check("the table has each type", found.keys() == VALUES.keys(), found)
    with tests.main.session() as session, session.cursor() as cursor:
        for name, (item, expression) in found.items():
            variable, value, literal = VALUES[name]
            written = eval(expression, {variable: value, "timezone": datetime.timezone})
            tests.check(f"the item of {name} in Python: {expression}", written == item, written)
            cursor.execute(f"SELECT item FROM frequent_rows((SELECT frequent_strings_agg({literal}::{name})))")
            tests.check(f"the item of {name} in SQL", cursor.fetchone() == (item,))
