"""Sketches that a session made under settings of its own: dumps, restores and replicas of them keep to the administrator's limit alone."""
import io
import struct
import time

import golden
import server
from ends import MB, code_of
from limits import error_of
from stored import database

SIZES = (50, 60)
MADE = "SET sketches_rattle.max_image_bytes = '100MB'; SET sketches_rattle.max_frequent_bytes = '100MB'"


def make(cursor):
    cursor.execute(f"CREATE TABLE large (size integer PRIMARY KEY, filter bloom_filter, strings frequent_strings); {MADE};")
    for size in SIZES:
        # The images of the last two are short: an empty filter, and few strings of a large table.
        cursor.execute(f"INSERT INTO large SELECT {size}, bloom_filter_agg_sized(i, {size * MB * 8}, 5), "
                       f"frequent_strings_agg('item ' || i, 1, 1048576) FROM generate_series(1, 400000) AS i")
    cursor.execute("RESET ALL")


def digests(cursor):
    cursor.execute("SELECT size, md5(filter::bytea), md5(strings::bytea), sketch_contains(filter, 400000) FROM large ORDER BY size")
    return cursor.fetchall()


def dumps(tests):
    """`pg_dump`, `COPY` and literals, with the settings of another session."""
    on = tests.main
    with database(on, "made") as session, session.cursor() as cursor:
        make(cursor)
        before = digests(cursor)
        tests.check("there are large sketches", [row[0] for row in before] == list(SIZES) and all(row[3] for row in before), before)
        on.run("pg_dump", "-Fc", "-f", f"{on.folder}/large.dump", "made")
        on.run("createdb", "restored")
        on.run("pg_restore", "--exit-on-error", "-d", "restored", f"{on.folder}/large.dump")
        cursor.execute("CREATE TABLE copies (LIKE large)")
        for form in ("text", "binary"):
            file = io.BytesIO()
            cursor.copy_expert(f"COPY large TO STDOUT (FORMAT {form})", file)
            file.seek(0)
            cursor.copy_expert(f"COPY copies FROM STDIN (FORMAT {form})", file)
        cursor.execute("SELECT count(*), count(DISTINCT l.filter), bool_and(c.filter = l.filter) "
                       "FROM copies AS c JOIN large AS l USING (size)")
        tests.check("copies are equal", cursor.fetchone() == (4, 2, True))
        # What a session computes keeps to its own settings, and the error names how to raise them.
        for statement in ("SELECT sketch_status(filter) FROM large", "SELECT filter | filter FROM large",
                          "SELECT filter::bytea::bloom_filter FROM large", "SELECT sketch_status(strings) FROM large"):
            error = error_of(cursor, statement)
            tests.check(f"a session's own limit: {statement}", error is not None and error[0] == "54000", error)
            try:
                cursor.execute(statement)
            except Exception as error:
                hint = str(error.diag.message_hint)
                named = "by SET" in hint and "ALTER DATABASE .. SET sketches_rattle." in hint
                tests.check("the hint names SET and ALTER DATABASE", named, hint)
    with on.session("restored") as session, session.cursor() as cursor:
        tests.check("a dump is restored with the settings of another session", digests(cursor) == before)
        # A session can lower its limits, and still reads what was stored.
        cursor.execute("SET sketches_rattle.max_image_bytes = '1MB'; SET sketches_rattle.max_frequent_bytes = '1MB';"
                       "CREATE TABLE again (LIKE large)")
        code = code_of(cursor, "INSERT INTO again SELECT size, filter::text::bloom_filter, strings::text::frequent_strings FROM large")
        tests.check("a text form under lower settings", code is None, code)
    # The administrator's limit is of a database, and names itself.
    with on.session() as session, session.cursor() as cursor:
        cursor.execute("ALTER DATABASE restored SET sketches_rattle.max_user_bytes = '40MB'")
    with on.session("restored") as session, session.cursor() as cursor:
        for form in ("text", "binary"):
            file = io.BytesIO()
            cursor.copy_expert(f"COPY (SELECT * FROM large WHERE size = 50) TO STDOUT (FORMAT {form})", file)
            file.seek(0)
            try:
                cursor.copy_expert(f"COPY again FROM STDIN (FORMAT {form})", file)
                tests.check(f"the administrator's limit, {form}", False)
            except Exception as error:
                tests.check(f"the administrator's limit, {form}", error.pgcode == "54000" and "max_user_bytes" in error.diag.message_primary
                            and "ALTER DATABASE .. SET sketches_rattle.max_user_bytes" in (error.diag.message_hint or ""), error)
    for name in ("made", "restored"):
        on.run("dropdb", name)


def replicas(tests):
    """Logical replication of large sketches, whose worker has the settings of the subscriber's database."""
    with tests.server("replicated", wal_level="logical", max_wal_size="'1GB'") as on:
        for name in ("source", "replica"):
            with database(on, name):
                pass
        with on.session("source") as source, source.cursor() as cursor, on.session("replica") as replica, replica.cursor() as other:
            cursor.execute("CREATE TABLE large (size integer PRIMARY KEY, filter bloom_filter, strings frequent_strings);"
                           "CREATE PUBLICATION published FOR TABLE large")
            cursor.execute("SELECT pg_create_logical_replication_slot('slot', 'pgoutput')")
            other.execute("CREATE TABLE large (size integer PRIMARY KEY, filter bloom_filter, strings frequent_strings);"
                          f"CREATE SUBSCRIPTION subscribed CONNECTION 'host={on.folder} user=postgres dbname=source' PUBLICATION published "
                          "WITH (create_slot = false, slot_name = 'slot', copy_data = false)")
            cursor.execute(MADE)
            for size in SIZES:
                cursor.execute(f"INSERT INTO large SELECT {size}, bloom_filter_agg_sized(i, {size * MB * 8}, 5), "
                               f"frequent_strings_agg('item ' || i, 1, 1048576) FROM generate_series(1, 400000) AS i")
            arrived, began = [], time.monotonic()
            while len(arrived) < len(SIZES) and time.monotonic() - began < 60:
                time.sleep(0.2)
                other.execute("SELECT size FROM large")
                arrived = other.fetchall()
            tests.check("a subscriber gets large sketches", digests(cursor) == digests(other) != [], (arrived, on.log()[-1500:]))
            other.execute("ALTER SUBSCRIPTION subscribed DISABLE")
            other.execute("ALTER SUBSCRIPTION subscribed SET (slot_name = NONE)")
            other.execute("DROP SUBSCRIPTION subscribed")


def too_large(tests):
    """A sketch whose text form would exceed what `pg_dump` and `COPY` write is refused when it is made."""
    with tests.main.session() as session, session.cursor() as cursor:
        cursor.execute("SET sketches_rattle.max_image_bytes = '1GB'; SET sketches_rattle.max_statement_memory = '4GB'")
        for statement in ("bloom_filter_agg_sized(1, 6442450944, 5)", "bloom_filter_empty_sized(6442450944, 5)",
                          "count_min_agg_sized(1, 5, 20000000)"):
            error = error_of(cursor, f"SELECT sketch_status({statement})")
            tests.check(f"a sketch of more than 750 MB: {statement}", error is not None and error[0] == "54000" and "not stored" in error[1]
                        and str(750 * MB) in error[1], error)
        # 750 MB have 1000 MB as base64, and 24 MB are left to other columns of the row.
        tests.check("the text form is below 1 GB", (750 * MB + 2) // 3 * 4 + 24 * MB <= 2**30)


def table_image(maximum, current, count, items):
    """Returns an image of frequent items of tables of these sizes, as logarithms, with weights of 1."""
    numbers = struct.pack("<BBBBBBHIIQQ", 4, 1, 10, maximum, current, 0, 0, count, 0, count, 0) + struct.pack("<Q", 1) * count
    return numbers + items


STRINGS = struct.pack("<I", 1) + b"a" + struct.pack("<I", 2) + b"bc"
# Short images of sketches of some 700 MB, each with the types of items, and the image that is stored.
WORDS = 700 * MB // 8
SHORT = [
    ("bloom_filter", 0, struct.pack("<BBBBHHQiI", 3, 1, 21, 4, 5, 0, 9001, WORDS, 0), None),
    ("bloom_filter", 1, struct.pack("<BBBBHHQiI", 3, 1, 21, 4, 5, 77, 9001, WORDS, 77) + b"more",
     struct.pack("<BBBBHHQiI", 3, 1, 21, 4, 5, 0, 9001, WORDS, 0)),
    ("count_min", 0, struct.pack("<BBBBIIBHB", 2, 1, 18, 1, 0, WORDS // 4, 4, golden.seed_hash(9001), 0), None),
    ("signed_count_min", 2, struct.pack("<BBBBIIBHB", 2, 1, 18, 1, 77, WORDS // 4, 4, golden.seed_hash(9001), 77),
     struct.pack("<BBBBIIBHB", 2, 1, 18, 1, 0, WORDS // 4, 4, golden.seed_hash(9001), 0)),
    ("frequent_strings", 1, table_image(24, 24, 2, STRINGS), None),
    ("frequent_bigints", 2, table_image(30, 24, 2, struct.pack("<qq", -7, 7)), None),
]
# Short images with a mistake each, and their errors.
WRONG = [
    ("bloom_filter", 1, struct.pack("<BBBBHHQiI", 4, 1, 21, 0, 5, 0, 9001, WORDS, 0), "SK022"),
    ("bloom_filter", 1, struct.pack("<BBBBHHQiI", 3, 1, 21, 4, 0, 0, 9001, WORDS, 0), "22023"),
    ("count_min", 1, struct.pack("<BBBBIIBHB", 2, 1, 18, 1, 0, WORDS // 4, 4, golden.seed_hash(9001) ^ 1, 0), "SK028"),
    ("count_min", 1, struct.pack("<BBBBIIBHB", 2, 1, 18, 0, 0, WORDS // 4, 4, golden.seed_hash(9001), 0), "SK022"),
    ("frequent_strings", 1, table_image(23, 24, 2, STRINGS), "SK034"),
    ("frequent_strings", 1, table_image(31, 24, 2, STRINGS), "SK033"),
    ("frequent_strings", 1, table_image(24, 24, 2, STRINGS[:-1]), "SK022"),
]
# Images of which one byte is changed in turn: each is read, or fails with the same error, below and above the limits of users.
CHANGED = [
    ("bloom_filter", 1, struct.pack("<BBBBHHQiI", 3, 1, 21, 4, 5, 0, 9001, 300, 0)), ("bloom_filter", 1, golden.bloom(["ab"], 140, 5)),
    ("count_min", 1, struct.pack("<BBBBIIBHB", 2, 1, 18, 1, 0, 99, 4, golden.seed_hash(9001), 0)),
    ("count_min", 1, golden.count_min({"ab": 3}, 2, 70)), ("signed_count_min", 2, golden.count_min({7: -3}, 2, 70)),
    ("frequent_strings", 1, table_image(9, 7, 2, STRINGS)), ("frequent_bigints", 2, table_image(9, 7, 2, struct.pack("<qq", -7, 7))),
    ("frequent_strings", 1, bytes([1, 1, 10, 9, 9, 5, 0, 0]) + bytes(12)),
]


def short_texts(tests):
    """Short texts of large sketches, as of empty ones: they are read in little memory, keep their sizes, and keep to the administrator's
    limit. Each check of an image is made."""
    for number, (name, items, image, kept) in enumerate(SHORT):
        text = golden.text(golden.stored(name, items, image))
        with tests.main.session() as session, session.cursor() as cursor:
            cursor.execute("SELECT pg_backend_pid(), sketch_contains(bloom_filter_empty(9, 0.1), 7)")
            process = cursor.fetchone()[0]
            before = server.memory(process, "VmHWM")
            cursor.execute(f"SELECT %s::{name}::bytea", (text,))
            read = bytes(cursor.fetchone()[0])
            tests.check(f"the stored form of short image {number}", read == golden.stored(name, items, kept or image), read)
            grown = server.memory(process, "VmHWM") - before
            tests.check(f"the memory of short image {number}", grown < 16 * MB, grown)
            if kept is None:
                error = error_of(cursor, f"SELECT sketch_status('{text}'::{name})")
                tests.check(f"a query of short image {number}", error is not None and error[0] == "54000", error)
            cursor.execute("SET sketches_rattle.max_user_bytes = '400MB'")
            error = error_of(cursor, f"SELECT '{text}'::{name}")
            tests.check(f"short image {number} above the administrator's limit", error is not None and error[0] == "54000"
                        and "max_user_bytes" in error[1], error)
    with tests.main.session() as session, session.cursor() as cursor:
        for name, items, image, wanted in WRONG:
            code = code_of(cursor, f"SELECT '{golden.text(golden.stored(name, items, image))}'::{name}")
            tests.check(f"a short {name} with the error {wanted}", code == wanted, code)


def without_order(name, stored):
    """Returns the bytes of a stored sketch. Items that are written again have any order: of frequent items, their bytes are sorted."""
    return (stored[:16], stored[20:52], sorted(stored[52:])) if name.startswith("frequent") else stored


def changed_images(tests):
    """Images with one byte changed are read alike below and above the limits of users."""
    with tests.main.session() as session, session.cursor() as cursor:
        for name, items, image in CHANGED:
            unlike, codes = [], set()
            for place in range(min(len(image), 60)):
                for byte in {0, 1, 2, 3, 4, 5, 6, 7, 8, 31, 64, 128, 255, image[place] ^ 1, image[place] ^ 32, image[place] ^ 64}:
                    text = golden.text(golden.stored(name, items, image[:place] + bytes([byte]) + image[place + 1:]))
                    found = []
                    for limit in ("32MB", "1kB"):
                        cursor.execute(f"SET sketches_rattle.max_image_bytes = '{limit}'")
                        code = code_of(cursor, f"SELECT '{text}'::{name}::bytea")
                        found.append(code or without_order(name, bytes(cursor.fetchone()[0])))
                    codes.add(found[0] if isinstance(found[0], str) else None)
                    if found[0] != found[1]:
                        unlike.append((place, byte, *found))
            tests.check(f"changed images of {name} are read alike", not unlike and None in codes and len(codes) > 3, (unlike[:3], codes))
