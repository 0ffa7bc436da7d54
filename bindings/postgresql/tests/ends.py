"""Statements that end early: by a cancel, by a killed process, by a limit of memory. What they held is freed, and the server goes
on."""
import os
import signal
import threading
import time

import psycopg2

MB = 1 << 20

# Tables that the statements below read: rows, and stored sketches of each type.
TABLES = """
CREATE TABLE IF NOT EXISTS rows AS SELECT i, 'item ' || i % 50021 AS string, i * 7919 % 50021 AS number
FROM generate_series(1::bigint, 400000) AS i;
CREATE TABLE IF NOT EXISTS many AS SELECT part, frequent_strings_agg('item ' || i) AS strings, frequent_bigints_agg(i) AS bigints,
    count_min_agg_sized(i, 1, 4, 2000) AS counts, signed_count_min_agg_sized(i, -1, 4, 2000) AS signed_counts,
    bloom_filter_agg_sized(i, 100000, 5) AS filter
FROM generate_series(1, 300) AS part, generate_series(part::bigint, part + 500) AS i GROUP BY part;
ANALYZE;
"""

# Statements that take long, by what they do when they are cancelled.
LONG = {
    "rows of strings": "SELECT frequent_strings_agg(string || i) FROM rows, generate_series(1, 1000)",
    "rows of bigints": "SELECT frequent_bigints_agg(number * j, 1, 65536) FROM rows, generate_series(1, 1000) AS j",
    "rows of counts": "SELECT count_min_agg_sized(string, 1, 9, 20000) FROM rows, generate_series(1, 1000)",
    "rows of a filter": "SELECT bloom_filter_agg_sized(string || j, 100000000, 9) FROM rows, generate_series(1, 1000) AS j",
    "many groups": "SELECT count(s) FROM (SELECT frequent_bigints_agg(number, 1, 8) AS s FROM rows, generate_series(1, 1000) AS j "
                   "GROUP BY number * j) AS t",
    "unions of strings": "SELECT frequent_strings_union(strings) FROM many, generate_series(1, 100000)",
    "unions of filters": "SELECT bloom_filter_union(filter) FROM many, generate_series(1, 100000)",
    "unions of two": "SELECT count(a.bigints | b.bigints) FROM many AS a, many AS b",
    "queries": "SELECT count(*) FROM many, generate_series(1::bigint, 1000000) AS i WHERE sketch_contains(filter, i)",
    "reports": "SELECT count(*) FROM many, generate_series(1, 100000), frequent_rows(strings)",
    "workers": "SELECT frequent_strings_agg(string || j, 1, 65536) FROM rows, generate_series(1, 1000) AS j",
}
ANSWER = "SELECT (sketch_status(frequent_strings_agg(string))).total_weight FROM rows"
WORKERS = {"max_parallel_workers_per_gather": 3, "parallel_setup_cost": 0, "parallel_tuple_cost": 0,
           "min_parallel_table_scan_size": 0}


def code_of(cursor, statement):
    """Runs a statement. Returns None, or the SQLSTATE of its error."""
    try:
        cursor.execute(statement)
    except psycopg2.Error as error:
        return error.pgcode or type(error).__name__
    return None


def detail_of(cursor, statement):
    """Runs a statement. Returns None, or the detail of its error."""
    try:
        cursor.execute(statement)
    except psycopg2.Error as error:
        return error.diag.message_detail
    return None


def prepare(on):
    with on.session() as session, session.cursor() as cursor:
        cursor.execute("SET max_parallel_workers_per_gather = 0")
        cursor.execute(TABLES)


def held(cursor):
    """Returns the bytes of all memory contexts of a session, and the memory of its process."""
    cursor.execute("SELECT sum(total_bytes)::bigint, pg_backend_pid() FROM pg_backend_memory_contexts")
    contexts, process = cursor.fetchone()
    with open(f"/proc/{process}/status", encoding="utf-8") as file:
        resident = next(int(line.split()[1]) * 1024 for line in file if line.startswith("VmRSS"))
    return contexts, resident


def cancels(tests):
    """A cancel in the middle of each kind of statement."""
    prepare(tests.main)
    for name, statement in LONG.items():
        with tests.main.session(**(WORKERS if name == "workers" else {"max_parallel_workers_per_gather": 0})) as session:
            with session.cursor() as cursor:
                if name == "workers":
                    cursor.execute("EXPLAIN " + statement)
                    tests.check("the plan has workers", any("Workers Planned" in row[0] for row in cursor.fetchall()))
                cancel = threading.Timer(0.25, session.cancel)
                began = time.monotonic()
                cancel.start()
                code = code_of(cursor, statement)
                took = time.monotonic() - began
                cancel.join()
                tests.check(f"a cancel of {name}", code == "57014", (code, took))
                tests.check(f"a cancel of {name} comes soon", 0.2 < took < 30, took)
                cursor.execute(ANSWER)
                tests.check(f"an answer after a cancel of {name}", cursor.fetchone() == (400000,))


def many_cancels(tests):
    """1,000 cancelled statements leave no memory."""
    prepare(tests.main)
    with tests.main.session(max_parallel_workers_per_gather=0) as session, session.cursor() as cursor:
        def cancelled(count):
            codes = []
            for number in range(count):
                statement = list(LONG.values())[number % (len(LONG) - 1)]
                cursor.execute(f"SET statement_timeout = {3 + number % 5}")
                codes.append(code_of(cursor, statement))
                while code_of(cursor, "RESET statement_timeout") == "57014":
                    pass  # on a busy machine the timeout cancels the reset too
            return codes

        cancelled(100)
        before = held(cursor)
        codes = cancelled(1000)
        after = held(cursor)
        tests.check("1,000 cancelled statements", codes == ["57014"] * 1000, set(codes))
        tests.check("no context grew", after[0] - before[0] < 256 * 1024, (before, after))
        tests.check("the process did not grow", after[1] - before[1] < 8 * MB, (before, after))
        cursor.execute(ANSWER)
        tests.check("an answer after 1,000 cancels", cursor.fetchone() == (400000,))


def killed(tests):
    """`kill -9` of a worker, and of a session."""
    sketches = "SELECT md5(string_agg(strings::text || filter::text || counts::text, ',' ORDER BY part)) FROM many"
    with tests.server("killed") as on:
        with on.session() as session, session.cursor() as cursor:
            cursor.execute("CREATE EXTENSION sketches_rattle")
        prepare(on)
        with on.session() as session, session.cursor() as cursor:
            cursor.execute(sketches)
            kept = cursor.fetchone()
        for number, kind in enumerate(["parallel worker", "client backend"], 1):
            lost = []

            def run():
                with on.session(**WORKERS) as session, session.cursor() as cursor:
                    lost.append(code_of(cursor, LONG["workers"]))

            thread = threading.Thread(target=run)
            thread.start()
            process = process_of(on, kind)
            tests.check(f"there is a {kind}", process is not None)
            time.sleep(0.3)
            os.kill(process, signal.SIGKILL)
            thread.join(timeout=60)
            tests.check(f"the statement of a killed {kind} ends", len(lost) == 1 and lost[0] is not None, lost)
            while on.log().count("all server processes terminated; reinitializing") < number:
                time.sleep(0.05)
            on.wait()
            with on.session() as again, again.cursor() as cursor:
                cursor.execute(sketches)
                tests.check(f"stored sketches after a killed {kind}", cursor.fetchone() == kept)
                cursor.execute(ANSWER)
                tests.check(f"an answer after a killed {kind}", cursor.fetchone() == (400000,))


def process_of(on, kind):
    """Returns a process of some kind that runs the statement with workers."""
    with on.session() as watch, watch.cursor() as cursor:
        for _ in range(500):
            cursor.execute("SELECT pid FROM pg_stat_activity WHERE backend_type = %s AND query = %s", (kind, LONG["workers"]))
            found = cursor.fetchall()
            if found:
                return found[0][0]
            time.sleep(0.02)
    return None


def address_space(process):
    with open(f"/proc/{process}/status", encoding="utf-8") as file:
        return next(int(line.split()[1]) * 1024 for line in file if line.startswith("VmSize"))


def limit_memory(on, process, limit):
    on.run("/usr/bin/prlimit", "--pid", str(process), f"--as={limit}:unlimited")


def out_of_memory(tests):
    """Limits of memory: the system's, lower and lower, and the extension's own."""
    prepare(tests.main)
    statements = {
        "a filter": "SELECT length(sketch_image(bloom_filter_agg_sized(i, 160000000, 5))) FROM generate_series(1::bigint, 9) AS i",
        "counts": "SELECT length(sketch_image(count_min_agg_sized(i, 1, 5, 500000))) FROM generate_series(1::bigint, 9) AS i",
        "frequent bigints": "SELECT (sketch_status(frequent_bigints_agg(i, 1, 1048576))).total_weight FROM rows",
        "frequent strings": "SELECT (sketch_status(frequent_strings_agg(string || 'long' || i, 1, 262144))).total_weight "
                            "FROM rows WHERE i <= 100000",
        "a union": "SELECT sketch_status(bloom_filter_union(filter)) FROM large",
        "a union of two": "SELECT sketch_status(filter | filter) FROM large",
        "a text": "SELECT length(filter::text) FROM large",
        "a sketch of a text": "SELECT sketch_status(filter::text::bloom_filter) FROM large",
        "a query": "SELECT count(*) FROM large WHERE sketch_contains(filter, 7::bigint)",
    }
    with tests.main.session() as session, session.cursor() as cursor:
        cursor.execute("CREATE TABLE large AS SELECT bloom_filter_agg_sized(i, 160000000, 5) AS filter "
                       "FROM generate_series(1::bigint, 9) AS i")
    for name, statement in statements.items():
        settings = {"max_parallel_workers_per_gather": 0, "sketches_rattle__max_frequent_bytes": "32MB"}
        with tests.main.session(**settings) as session, session.cursor() as cursor:
            cursor.execute(statement)
            wanted = cursor.fetchall()
        with tests.main.session(**settings) as session, session.cursor() as cursor:
            cursor.execute("SELECT pg_backend_pid(), sketch_estimate(count_min_agg_sized(1, 1, 1, 9), 1)")
            process = cursor.fetchone()[0]
            codes, answers = [], []
            for room in [1, 4, 8, 12, 16, 20, 24, 32, 40, 48, 64, 100, 200, 400]:
                limit_memory(tests.main, process, address_space(process) + room * MB)
                codes.append(code_of(cursor, statement))
                if codes[-1] is None:
                    answers.append(cursor.fetchall())
                limit_memory(tests.main, process, "unlimited")
            tests.check(f"{name} within limits of memory", set(codes) == {None, "53200"} and codes[0] == "53200"
                        and codes[-1] is None, codes)
            if name in ("a filter", "counts"):
                # No error jumps through the library: it returns this one.
                limit_memory(tests.main, process, address_space(process) + MB)
                detail = detail_of(cursor, statement)
                limit_memory(tests.main, process, "unlimited")
                tests.check(f"the library returns the error of {name}", detail == "The library returned NoMemory.", detail)
            tests.check(f"answers of {name} within limits", all(answer == wanted for answer in answers), answers)
            cursor.execute("SELECT pg_backend_pid()")
            tests.check(f"the session after {name}", cursor.fetchone() == (process,))
            if name not in ("a query", "a text"):
                cursor.execute("SET sketches_rattle.max_image_bytes = '1MB'")
                code = code_of(cursor, statement)
                tests.check(f"{name} above the extension's limit", code == "54000", code)
            if name.startswith("frequent"):
                cursor.execute("RESET sketches_rattle.max_image_bytes; RESET sketches_rattle.max_frequent_bytes")
                code = code_of(cursor, statement)
                tests.check(f"{name} above the limit of frequent items", code == "54000", code)
    with tests.main.session() as session, session.cursor() as cursor:
        cursor.execute("DROP TABLE large")
        cursor.execute(ANSWER)
        tests.check("an answer after limits", cursor.fetchone() == (400000,))
