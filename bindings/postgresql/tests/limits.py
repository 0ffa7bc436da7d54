"""Limits that users and administrators set: of one sketch, of all users, and of all sketches of a statement."""
import time

import psycopg2

from ends import MB, code_of, held

LARGE = "bloom_filter_agg_sized(1::bigint, {bits}, 5)"


def error_of(cursor, statement):
    """Runs a statement. Returns None, or its error's SQLSTATE and message."""
    try:
        cursor.execute(statement)
    except psycopg2.Error as error:
        return error.pgcode, error.diag.message_primary
    return None


def small_images(tests):
    """Short images of large empty sketches: a batch of them counts what they take."""
    with tests.main.session() as session, session.cursor() as cursor:
        # 24 bytes: an empty filter of 16 MB
        image = (bytes([3, 1, 21, 4, 5, 0, 0, 0]) + (9001).to_bytes(8, "little") + (2 * MB).to_bytes(4, "little") + bytes(4)).hex()
        cursor.execute("SET sketches_rattle.max_statement_memory = '80MB';"
                       f"CREATE TEMP TABLE short AS SELECT bloom_filter_from_image('\\x{image}') AS filter FROM generate_series(1, 64)")
        cursor.execute("SELECT max(length(filter::bytea)) FROM short")
        tests.check("the rows are short", cursor.fetchone()[0] < 64)
        error = error_of(cursor, "SELECT sketch_status(bloom_filter_union(filter)) FROM short")
        tests.check("a union of short rows takes the memory of few of them", error is None, error)


def kept_by_use(tests):
    """Sketches that slightly exceed what a function keeps at first, in bytes or in number, are not read again at each row."""
    loops = [("6 large sketches", 6, 90000, 131072, 300), ("40 large sketches", 40, 90000, 131072, 300),
             ("100 small sketches", 100, 12, 16, 20000)]
    for name, count, items, slots, keys in loops:
        with tests.main.session() as session, session.cursor() as cursor:
            cursor.execute(f"CREATE TEMP TABLE loop AS SELECT j, frequent_bigints_agg(i * {count} + j, 1, {slots}) AS sketch "
                           f"FROM generate_series(0::bigint, {count - 1}) AS j, generate_series(1::bigint, {items}) AS i GROUP BY j;"
                           "SET statement_timeout = '60s'")
            seconds = {}
            for memory, table in (("4MB", "loop"), ("512MB", "(SELECT * FROM loop LIMIT 32) AS few")):
                cursor.execute(f"SET work_mem = '{memory}'")
                began = time.monotonic()
                error = error_of(cursor, f"SELECT sum((SELECT sum(sketch_estimate(sketch, k)) FROM {table})) "
                                         f"FROM generate_series({count}::bigint, {count + keys - 1}) AS k")
                seconds[memory] = time.monotonic() - began
                if table == "loop":
                    found = cursor.fetchone()[0] if error is None else error
                    tests.check(f"each key is in one of {name}", found == min(keys, count * items), found)
            tests.check(f"the usual room is enough for {name}", seconds["4MB"] < 5 * seconds["512MB"] + 1, seconds)


def toast_blocks(cursor):
    """Returns how many blocks of values that are stored apart the session has read from its table `loop`."""
    cursor.execute("SELECT pg_stat_force_next_flush()")
    cursor.execute("SELECT toast_blks_read + toast_blks_hit FROM pg_statio_all_tables WHERE relid = 'loop'::regclass")
    return cursor.fetchone()[0]


def kept_in_part(tests):
    """Sketches that take more than there is room for: a part of them is kept, and the others are read again at each row."""
    with tests.main.session(max_parallel_workers_per_gather=0) as session, session.cursor() as cursor:
        cursor.execute("CREATE TEMP TABLE loop (sketch count_min); ALTER TABLE loop ALTER sketch SET STORAGE external;"
                       "INSERT INTO loop SELECT count_min_agg_sized(j, 1, 5, 100000 + j) FROM generate_series(1, 6) AS j GROUP BY j;"
                       "SET sketches_rattle.max_statement_memory = '256MB'")
        calls = ", ".join(f"sum(sketch_estimate(sketch, k + {number}))" for number in range(20))
        error = error_of(cursor, f"SELECT {calls} FROM generate_series(1, 3) AS k, loop")
        tests.check("many calls keep to the memory of a statement", error is None, error)
        row = cursor.fetchone() if error is None else ()
        tests.check("each call finds its keys", list(row) == [max(0, min(3, 6 - number)) for number in range(20)], row)
        # Twelve filters of 2 MB each, of which 16 MB have room for seven.
        cursor.execute("DROP TABLE loop; CREATE TEMP TABLE loop AS SELECT j, bloom_filter_agg_sized(j, 16000000, 5) AS filter "
                       "FROM generate_series(1, 12) AS j GROUP BY j; SET sketches_rattle.max_statement_memory = '64MB'")
        asked = "SELECT sum((SELECT count(*) FROM loop WHERE sketch_contains(filter, k))) FROM generate_series(1, {}) AS k"
        blocks = []
        for keys in (1, 30):
            before = toast_blocks(cursor)
            cursor.execute(asked.format(keys))
            tests.check(f"{keys} keys are found", cursor.fetchone() == (min(keys, 12),))
            blocks.append(toast_blocks(cursor) - before)
        tests.check("a third of the reads of filters or more are spared", 12 * 200 < blocks[0] and blocks[1] < 30 * blocks[0] * 2 / 3, blocks)
        # With room for all, each is read at most twice, in each statement anew: what a statement keeps is not counted after its end.
        cursor.execute("SET sketches_rattle.max_statement_memory = '128MB'")
        for number in range(5):
            before = toast_blocks(cursor)
            cursor.execute(asked.format(30))
            read = toast_blocks(cursor) - before
            tests.check(f"statement {number} has room for all filters", blocks[0] < read <= 2 * blocks[0], (read, blocks))
            cursor.execute("SET statement_timeout = '100ms'")
            code = code_of(cursor, asked.format(10**7))
            tests.check("a cancel of a loop", code == "57014", code)
            cursor.execute("RESET statement_timeout")


def planned(tests):
    """The planner reads a filter within the limit. Beyond it, it takes the default estimate."""
    with tests.main.session() as session, session.cursor() as cursor:
        cursor.execute("CREATE TEMP TABLE one AS SELECT " + LARGE.format(bits=16 * 8 * MB) + " AS filter;"
                       "CREATE TEMP TABLE keys AS SELECT i FROM generate_series(1::bigint, 1000) AS i; ANALYZE keys;"
                       "CREATE FUNCTION pg_temp.made() RETURNS bloom_filter LANGUAGE plpgsql VOLATILE AS "
                       "$$ BEGIN RETURN (SELECT filter FROM one); END $$;"
                       "PREPARE asked (bloom_filter) AS SELECT FROM keys WHERE sketch_contains($1, i); SET plan_cache_mode = force_custom_plan")

        def rows():
            cursor.execute("EXPLAIN (COSTS ON) EXECUTE asked(pg_temp.made())")
            return cursor.fetchall()[0][0]

        known = rows()
        cursor.execute("SET sketches_rattle.max_image_bytes = '1MB'")
        before = held(cursor)
        unknown = rows()
        tests.check("a filter within the limit has an estimate of its own", "rows=1 " in known, known)
        tests.check("a filter beyond the limit has the default estimate", "rows=50 " in unknown, unknown)
        tests.check("the planner keeps nothing", held(cursor)[0] - before[0] < 17 * MB)


def long_strings(tests):
    """Long strings at the default limits, and the limits of tables and of strings, each by its name."""
    with tests.main.session() as session, session.cursor() as cursor:
        cursor.execute("CREATE TEMP TABLE long (sketch frequent_strings)")
        row = "repeat('x', 11000) || i FROM generate_series(1, 3000) AS i"
        error = error_of(cursor, f"INSERT INTO long SELECT frequent_strings_agg(item) FROM (SELECT {row}) AS rows(item)")
        tests.check("3,000 strings of 11 kB", error is None, error)
        for use, wanted in [("sketch", 3000), ("sketch | sketch", 6000), ("frequent_strings_from_image(sketch_image(sketch))", 3000)]:
            error = error_of(cursor, f"SELECT (sketch_status({use})).total_weight FROM long")
            tests.check(f"the total of {use}", error is None and cursor.fetchone() == (wanted,), error)
        cursor.execute("SELECT max(upper_bound), count(*) FROM long, frequent_rows(sketch)")
        bound, count = cursor.fetchone()
        tests.check("rows of long strings", 1 <= bound <= 8 * 3000 // (3 * 1024) + 1 and count <= 768, (bound, count))
        many = "SELECT sketch_status(frequent_strings_agg(repeat('x', 300) || i, 1, {0})) FROM generate_series(1, {0} / 4 * 3) AS i"
        error = error_of(cursor, many.format(65536))
        tests.check("49,152 strings of 300 bytes, of which 64 are counted", error is None, error)
        cursor.execute("SET sketches_rattle.max_frequent_bytes = '16MB'; TRUNCATE long;"
                       "INSERT INTO long SELECT frequent_strings_agg(i::text, 1, 262144) FROM generate_series(1, 150000) AS i;"
                       "RESET sketches_rattle.max_frequent_bytes")
        table = 262144 * 44
        for what, statement, setting, limit, taken in [
                ("a table", "SELECT frequent_strings_agg('a', 1, 262144)", "max_frequent_bytes", 8 * MB, table),
                ("a stored table", "SELECT sketch_status(sketch) FROM long", "max_frequent_bytes", 8 * MB, None),
                ("an image of a table", "SELECT frequent_strings_from_image(sketch_image(sketch)) FROM long", "max_frequent_bytes",
                 8 * MB, None),
                ("many strings", many.format(131072), "max_frequent_bytes", 8 * MB, None),
                ("long strings", "SELECT frequent_strings_agg(repeat('x', 50000) || i) FROM generate_series(1, 768) AS i",
                 "max_image_bytes", 32 * MB, None)]:
            error = error_of(cursor, statement)
            tests.check(f"{what} above its limit", error is not None and error[0] == "54000" and f"sketches_rattle.{setting}" in error[1]
                        and str(limit) in error[1] and (taken is None or str(taken) in error[1]), error)


def administrators(tests):
    """A superuser's settings: users cannot raise them."""
    with tests.main.session() as session, session.cursor() as cursor:
        cursor.execute("CREATE ROLE user_of_sketches; SELECT bloom_filter_agg_sized(1::bigint, 64, 3); "
                       "SET sketches_rattle.max_user_bytes = '4MB'; SET ROLE user_of_sketches")
        for setting in ("max_user_bytes", "max_statement_memory"):
            code = code_of(cursor, f"SET sketches_rattle.{setting} = '1GB'")
            tests.check(f"a user cannot set {setting}", code == "42501", code)
        cursor.execute("SET sketches_rattle.max_image_bytes = '1GB'; SET sketches_rattle.max_frequent_bytes = '1GB'")
        for statement in (LARGE.format(bits=5 * 8 * MB), "frequent_bigints_agg(1, 1, 262144)", "count_min_agg_sized(1, 1, 5, 200000)"):
            error = error_of(cursor, f"SELECT sketch_status({statement})")
            tests.check(f"a user's sketch keeps to the superuser's limit: {statement}",
                        error is not None and error[0] == "54000" and "sketches_rattle.max_user_bytes" in error[1]
                        and str(4 * MB) in error[1], error)
        cursor.execute("RESET ROLE; RESET ALL; SET sketches_rattle.max_statement_memory = '64MB'")
        many = ", ".join(f"({LARGE.format(bits=8 * 8 * MB + 64 * i)})" for i in range(20))
        error = error_of(cursor, f"SELECT {many}")
        tests.check("all sketches of a statement keep to one limit", error is not None and error[0] == "53200"
                    and "sketches_rattle.max_statement_memory" in error[1] and str(64 * MB) in error[1], error)
        # Each has the sketch that the rows make, its stored form and its image: 48 MB together.
        few = ", ".join(f"length(sketch_image({LARGE.format(bits=8 * 8 * MB + 64 * i)}))" for i in range(2))
        for _ in range(20):
            error = error_of(cursor, f"SELECT {few}")
            if error is not None:
                break
        tests.check("each statement has the limit anew", error is None, error)
        cursor.execute("ALTER SYSTEM SET sketches_rattle.max_user_bytes = '4MB'")
        cursor.execute("SELECT pg_reload_conf(), pg_sleep(0.2)")
    with tests.main.session() as session, session.cursor() as cursor:
        cursor.execute("SET ROLE user_of_sketches; SET sketches_rattle.max_user_bytes = '1GB';"
                       "SET sketches_rattle.max_image_bytes = '1GB'")
        error = error_of(cursor, f"SELECT sketch_status({LARGE.format(bits=5 * 8 * MB)})")
        tests.check("a user cannot set it before the library is loaded", error is not None and error[0] == "54000", error)
        cursor.execute("RESET ROLE")
        cursor.execute("ALTER SYSTEM RESET sketches_rattle.max_user_bytes")
        cursor.execute("SELECT pg_reload_conf(), pg_sleep(0.2)")
        cursor.execute("DROP ROLE user_of_sketches")


def settings(tests):
    """Values of settings, and the messages of limits."""
    with tests.main.session() as session, session.cursor() as cursor:
        for setting in ("max_image_bytes", "max_frequent_bytes", "max_user_bytes", "max_statement_memory"):
            error = error_of(cursor, f"SET sketches_rattle.{setting} = '1GB'")
            tests.check(f"{setting} is up to 1 GB", error is None, error)
        cursor.execute("RESET ALL; SET sketches_rattle.max_image_bytes = '1MB'")
        for statement in (LARGE.format(bits=16 * MB), "count_min_agg_sized(1, 1, 5, 200000)", "frequent_bigints_agg(1, 1, 65536)"):
            error = error_of(cursor, f"SELECT sketch_status({statement})")
            tests.check(f"the message names the limit and its value: {statement}", error is not None and error[0] == "54000"
                        and "sketches_rattle.max_image_bytes" in error[1] and str(MB) in error[1], error)
        cursor.execute("RESET ALL")
        error = error_of(cursor, "SELECT sketch_status(frequent_bigints_agg(1, 1, 1048576))")
        tests.check("the message names the limit of frequent items", error is not None and error[0] == "54000"
                    and "sketches_rattle.max_frequent_bytes" in error[1] and str(8 * MB) in error[1], error)
    for value in ("lots", "3", "-1"):
        with tests.main.session() as session, session.cursor() as cursor:
            cursor.execute(f"SET sketches_rattle.max_image_bytes = '{value}'")
            error = error_of(cursor, "SELECT sketch_status(bloom_filter_agg_sized(1::bigint, 64, 3))")
            tests.check(f"a bad value that was set before the library is loaded: {value}",
                        error is not None and error[0] == "22023" and "max_image_bytes" in error[1], error)
            cursor.execute("SET sketches_rattle.max_image_bytes = '2MB'")
            tests.check("a good value after it", code_of(cursor, "SELECT sketch_status(bloom_filter_agg_sized(1::bigint, 64, 3))") is None)


def known(tests):
    """The settings are known before a session's first sketch: after `LOAD`, or with `session_preload_libraries`."""
    names = ["max_frequent_bytes", "max_image_bytes", "max_statement_memory", "max_user_bytes"]
    with tests.main.session() as session, session.cursor() as cursor:
        cursor.execute("LOAD 'sketches_rattle'")
        cursor.execute("ALTER SYSTEM SET sketches_rattle.max_image_bytes = '3MB'")
        cursor.execute("SELECT name FROM pg_settings WHERE name LIKE 'sketches_rattle.%' ORDER BY name")
        tests.check("the settings after LOAD", [name for name, in cursor.fetchall()] == [f"sketches_rattle.{name}" for name in names])
        cursor.execute("SELECT pg_reload_conf(), pg_sleep(0.2)")
    with tests.main.session() as session, session.cursor() as cursor:
        error = error_of(cursor, f"SELECT sketch_status({LARGE.format(bits=4 * 8 * MB)})")
        tests.check("ALTER SYSTEM sets a limit", error is not None and error[0] == "54000" and str(3 * MB) in error[1], error)
        cursor.execute("ALTER SYSTEM RESET sketches_rattle.max_image_bytes")
        cursor.execute("SELECT pg_reload_conf(), pg_sleep(0.2)")
        cursor.execute("CREATE DATABASE preloaded")
        cursor.execute("ALTER DATABASE preloaded SET session_preload_libraries = 'sketches_rattle'; CREATE ROLE reader LOGIN")
    with tests.main.session("preloaded", user="reader") as session, session.cursor() as cursor:
        cursor.execute("SHOW sketches_rattle.max_statement_memory")
        tests.check("a setting as a session's first statement", cursor.fetchone() == ("1GB",))
    with tests.main.session("preloaded") as session, session.cursor() as cursor:
        cursor.execute("CREATE EXTENSION sketches_rattle")
        cursor.execute("SELECT sketch_contains(bloom_filter_agg(7, 9, 0.1), 7)")
        tests.check("a sketch with the library loaded before", cursor.fetchone() == (True,))
    with tests.main.session() as session, session.cursor() as cursor:
        cursor.execute("ALTER DATABASE preloaded SET sketches_rattle.max_image_bytes = 'lots'")
    with tests.main.session("preloaded") as session, session.cursor() as cursor:
        cursor.execute("SHOW sketches_rattle.max_image_bytes")
        tests.check("a bad value of a database does not end its sessions", cursor.fetchone() == ("32MB",))
    with tests.main.session() as session, session.cursor() as cursor:
        cursor.execute("DROP DATABASE preloaded")
        cursor.execute("DROP ROLE reader")
    with tests.server("preloaded", shared_preload_libraries="'sketches_rattle'", **{"sketches_rattle.max_image_bytes": "'5MB'"}) as on:
        with on.session() as session, session.cursor() as cursor:
            cursor.execute("SHOW sketches_rattle.max_image_bytes")
            tests.check("a setting of the server's file", cursor.fetchone() == ("5MB",))
            cursor.execute("ALTER SYSTEM SET sketches_rattle.max_user_bytes = '7MB'")
            cursor.execute("CREATE EXTENSION sketches_rattle")
            cursor.execute("SELECT item, estimate FROM frequent_rows((SELECT frequent_strings_agg(i % 3 || '') FROM generate_series(1, 10) AS i), 1)")
            tests.check("a sketch with the library loaded by the server", cursor.fetchone() == ("1", 4))
