"""The memory of a statement: `max_statement_memory` bounds what its process takes, by many calls, of many sketches, and of stored forms."""
import server
from ends import MB, code_of
from limits import error_of

FILTER, ROWS = 32 * MB, 12
# What a process takes beside: the pages of the server's shared buffers that it has read, which count for it too, and a block of a call.
BESIDE = 128 * MB + 64 * MB
LARGE = f"""
CREATE TABLE large_filters (number bigint, filter bloom_filter);
INSERT INTO large_filters SELECT i, bloom_filter_agg_sized(i, {FILTER * 8}, 5) FROM generate_series(1::bigint, {ROWS}) AS i GROUP BY i;
CREATE TABLE large_counts AS SELECT i AS number, count_min_agg_sized(i, 7, 4, {FILTER // 64}) AS counts
FROM generate_series(1::bigint, {ROWS}) AS i GROUP BY i;
CREATE ROLE ordinary LOGIN;
GRANT SELECT ON large_filters, large_counts TO ordinary;
"""


def peak(on, limit, statement, *settings):
    """Runs a statement in a session of an ordinary user under a limit. Returns its error, its rows, and how much its process grew."""
    with on.session() as session, session.cursor() as cursor:
        cursor.execute(f"ALTER ROLE ordinary SET sketches_rattle.max_statement_memory = '{limit}'")
    with on.session(user="ordinary", max_parallel_workers_per_gather=0) as session, session.cursor() as cursor:
        cursor.execute("SELECT sketch_contains(bloom_filter_empty(9, 0.1), 7)")
        for setting in settings:
            cursor.execute(f"SET {setting}")
        cursor.execute("SELECT pg_backend_pid()")
        process = cursor.fetchone()[0]
        before = server.memory(process, "VmHWM")
        error = error_of(cursor, statement)
        return error, cursor.fetchall() if error is None else [], server.memory(process, "VmHWM") - before


def statements(tests):
    """Statements of an ordinary user over sketches of 32 MB."""
    on = tests.main
    with on.session() as session, session.cursor() as cursor:
        cursor.execute("SET max_parallel_workers_per_gather = 0;" + LARGE)
    found = [(number,) + tuple(number == key for key in range(1, 10)) for number in range(1, ROWS + 1)]
    calls = ", ".join(f"sketch_contains(filter, {key})" for key in range(1, 10))
    for limit, room in [("1GB", 1024 * MB), ("256MB", 256 * MB), ("100MB", 100 * MB)]:
        error, rows, grown = peak(on, limit, f"SELECT number, {calls} FROM large_filters ORDER BY number", "work_mem = '1GB'")
        tests.check(f"nine calls over 12 filters, {limit}", error is None and rows == found, (error, rows))
        tests.check(f"nine calls over 12 filters keep to half of {limit}", grown < max(room / 2, FILTER) + FILTER + BESIDE, grown)
    estimates = ", ".join(f"sketch_estimate(counts, {key})" for key in range(1, 10))
    error, rows, grown = peak(on, "200MB", f"SELECT number, {estimates} FROM large_counts ORDER BY number", "work_mem = '1GB'")
    tests.check("nine calls over 12 counts", error is None and rows == [(row[0], *[7 * cell for cell in row[1:]]) for row in found], error)
    # Each takes its image and its cells, of 16 MB.
    tests.check("nine calls over 12 counts keep to the limit", grown < 200 * MB + BESIDE, grown)
    sixty = ", ".join(f"sketch_contains(filter, {key})" for key in range(60))
    error, rows, grown = peak(on, "100MB", f"SELECT {sixty} FROM large_filters WHERE number = 7")
    tests.check("60 calls over one row", error is None and rows == [tuple(key == 7 for key in range(60))], error)
    tests.check("60 calls over one row keep to half of the limit", grown < 50 * MB + FILTER + BESIDE, grown)
    for name, call in [("unions as bytes", "length((filter | filter)::bytea)"), ("images", "length(sketch_image(filter))"),
                       ("texts", "length(filter::text)"), ("texts that are read", "length(filter::text::bloom_filter::bytea)"),
                       ("binary forms", "length(bloom_filter_send(filter))")]:
        statement = f"SELECT {', '.join([call] * 9)} FROM large_filters WHERE number = 7"
        error, rows, grown = peak(on, "100MB", statement)
        tests.check(f"nine {name} exceed the limit", error is not None and error[0] == "53200"
                    and "sketches_rattle.max_statement_memory" in error[1], (error, rows))
        # PostgreSQL itself has a copy of a text, and of a value that it reads in parts.
        tests.check(f"nine {name} keep to the limit", grown < 100 * MB + 3 * FILTER + BESIDE, grown)
        error, rows, _ = peak(on, "1GB", statement)
        tests.check(f"nine {name} by default", error is None and len(rows) == 1 and len(set(rows[0])) == 1 and rows[0][0] >= FILTER, error)
    statement = f"SELECT {', '.join(['count(*) FILTER (WHERE filter = filter | filter)'] * 3)} FROM large_filters"
    for repeat in range(2):
        error, rows, grown = peak(on, "200MB", statement)
        tests.check(f"each row has the limit anew, {repeat}", error is None and rows == [(ROWS,) * 3], error)
        tests.check(f"rows keep to the limit, {repeat}", grown < 200 * MB + BESIDE, grown)
    with on.session() as session, session.cursor() as cursor:
        cursor.execute("SET sketches_rattle.max_statement_memory = '200MB'; CREATE FUNCTION pg_temp.grown() RETURNS text "
                       "LANGUAGE plpgsql AS $$DECLARE f bloom_filter; BEGIN "
                       "SELECT filter INTO f FROM large_filters WHERE number = 7; FOR i IN 1 .. 40 LOOP f := sketch_add(f, i); END LOOP; "
                       "RETURN sketch_contains(f, 40) AND NOT sketch_contains(f, 41); END$$")
        code = code_of(cursor, "SELECT pg_temp.grown()")
        tests.check("a variable that grows in a loop", code is None and cursor.fetchone() == ("true",), code)
        cursor.execute("DROP TABLE large_filters, large_counts; DROP ROLE ordinary")
