"""Stored sketches: dumped and restored, copied in binary form, in other encodings and collations, and of other versions."""
import io

import psycopg2

import golden
from ends import code_of

TYPES = {"strings": "frequent_strings", "bigints": "frequent_bigints", "counts": "count_min", "signed_counts": "signed_count_min",
         "filter": "bloom_filter"}
BYTES = ", ".join(f"{name}::bytea" for name in TYPES)

# Sketches of each type: empty ones, short ones, ones that are compressed, ones that are stored apart, and nulls.
SKETCHES = """
CREATE TABLE sketches AS
SELECT size, frequent_strings_agg('é€😀 ' || i, i % 3, 4096) AS strings, frequent_bigints_agg(-i, i, 1024) AS bigints,
    count_min_agg_sized('key ' || i, i, 4, 3 * size + 3) AS counts, signed_count_min_agg_sized(i, -i, 4, 3 * size + 3) AS signed_counts,
    bloom_filter_agg_sized(i, 64 + 64 * size, 5) AS filter
FROM (VALUES (0), (1), (10), (100), (2000)) AS v(size), generate_series(0::bigint, size) AS i GROUP BY size;
INSERT INTO sketches VALUES (-1, NULL, NULL, NULL, NULL, NULL);
ALTER TABLE sketches ADD PRIMARY KEY (size);
CREATE INDEX ON sketches USING hash (filter);
"""


def everything(cursor, table="sketches"):
    cursor.execute(f"SELECT size, {BYTES} FROM {table} ORDER BY size")
    return [tuple(bytes(value) if isinstance(value, memoryview) else value for value in row) for row in cursor.fetchall()]


def database(on, name, *words):
    """Makes a database with the extension, and opens a session in it."""
    on.run("dropdb", "--if-exists", name)
    on.run("createdb", *words, name)
    with on.session(name) as session, session.cursor() as cursor:
        cursor.execute("CREATE EXTENSION IF NOT EXISTS sketches_rattle")
    return on.session(name)


def dump_and_restore(tests):
    """`pg_dump` in each format, restored into another database."""
    with database(tests.main, "dumped") as session, session.cursor() as cursor:
        cursor.execute(SKETCHES)
        before = everything(cursor)
    tests.check("there are sketches of all sizes", len(before) == 6 and sum(row.count(None) for row in before) == 5)
    folder = tests.main.folder
    for name, words in [("plain", ["-Fp"]), ("inserts", ["-Fp", "--inserts"]), ("custom", ["-Fc"]), ("directory", ["-Fd"])]:
        path = f"{folder}/dump {name}"
        tests.main.run("pg_dump", *words, "-f", path, "dumped")
        tests.main.run("createdb", f"restored_{name}")
        if "-Fp" in words:
            tests.main.run("psql", "-X", "-q", "-v", "ON_ERROR_STOP=1", "-d", f"restored_{name}", "-f", path)
        else:
            tests.main.run("pg_restore", "--exit-on-error", "-d", f"restored_{name}", path)
        with tests.main.session(f"restored_{name}") as session, session.cursor() as cursor:
            after = everything(cursor)
            tests.check(f"a dump ({name}) keeps each sketch", after == before)
            cursor.execute("SELECT sketch_lower_bound(strings, 'é€😀 8'), sketch_upper_bound(bigints, -7), sketch_contains(filter, 10::bigint) "
                           "FROM sketches WHERE size = 10")
            tests.check(f"answers after a dump ({name})", cursor.fetchone() == (2, 7, True))
            cursor.execute("SET enable_seqscan = off; SELECT count(*) FROM sketches AS s WHERE filter = "
                           "(SELECT filter FROM sketches WHERE size = 2000)")
            tests.check(f"the restored index ({name})", cursor.fetchone() == (1,))


def copied(tests):
    """`COPY` in binary form, whole, cut at each place, and with bytes changed."""
    with database(tests.main, "copied") as session, session.cursor() as cursor:
        cursor.execute(SKETCHES + "CREATE TABLE copies (LIKE sketches); CREATE TABLE one (LIKE sketches)")
        before = everything(cursor)
        for form in ["binary", "text", "csv"]:
            file = io.BytesIO()
            cursor.copy_expert(f"COPY sketches TO STDOUT (FORMAT {form})", file)
            file.seek(0)
            cursor.execute("TRUNCATE copies")
            cursor.copy_expert(f"COPY copies FROM STDIN (FORMAT {form})", file)
            tests.check(f"COPY, {form}", everything(cursor, "copies") == before)
        file = io.BytesIO()
        cursor.copy_expert("COPY (SELECT * FROM sketches WHERE size = 1) TO STDOUT (FORMAT binary)", file)
        whole = file.getvalue()
        codes = set()
        for number in range(len(whole)):
            for changed in [whole[:number], whole[:number] + bytes([whole[number] ^ 1 << number % 8]) + whole[number + 1:]]:
                try:
                    cursor.copy_expert("COPY one FROM STDIN (FORMAT binary)", io.BytesIO(changed))
                    codes.add(None)
                except psycopg2.Error as error:
                    codes.add(error.pgcode)
        rejected = {"SK001", "22P03", "22P04", "22023", "22003", "54000", "08P01", "XX000"}
        # What comes after the end mark of a file, and the size, which is a number of any value, are not of a sketch.
        tests.check("COPY of damaged files", codes - {None} <= rejected and {"SK001", "22P03"} <= codes, codes)
        cursor.execute(f"SELECT count(*), count(*) FILTER (WHERE ROW({BYTES}) IS DISTINCT FROM (SELECT ROW({BYTES}) FROM sketches "
                       "WHERE size = 1)) FROM one")
        rows, others = cursor.fetchone()
        tests.check("no damaged sketch came in", others == 0 and rows < 60, (rows, others))


def encodings(tests):
    """Databases in LATIN1 and SQL_ASCII: the same images, and errors for what has no meaning there."""
    images = {}
    query = """SELECT sketch_image(bloom_filter_agg_sized(x, 640, 5)), sketch_image(count_min_agg_sized(x, 3, 3, 50)),
        frequent_strings_agg(x)::text, sketch_contains(bloom_filter_agg_sized(x, 640, 5), 'Köln') FROM (VALUES ('é'), ('Köln'), ('a')) AS v(x)"""
    for name in ["UTF8", "LATIN1", "SQL_ASCII"]:
        with database(tests.main, f"in_{name.lower()}", "-E", name, "-T", "template0", "--locale=C") as session:
            with session.cursor() as cursor:
                cursor.execute("SHOW server_encoding")
                tests.check(f"{name}: a database", cursor.fetchone() == (name,))
                cursor.execute(query)
                row = cursor.fetchone()
                images[name] = [bytes(value) for value in row[:2]]
                tests.check(f"{name}: the item is contained", row[3] is True)
                cursor.execute(f"SELECT convert_to(item, '{name}') FROM "
                               f"frequent_rows('{row[2]}'::frequent_strings)")
                items = {bytes(item) for item, in cursor.fetchall()}
                wanted = {"é", "Köln", "a"}
                code = "latin-1" if name == "LATIN1" else "utf-8"
                tests.check(f"{name}: the items", items == {item.encode(code) for item in wanted}, items)
                images[f"{name} text"] = row[2]
    tests.check("equal images in all encodings", images["UTF8"] == images["LATIN1"] == images["SQL_ASCII"], images)
    with tests.main.session("in_utf8") as session, session.cursor() as cursor:
        cursor.execute("SELECT frequent_strings_agg('日本')::text, bloom_filter_agg_sized('日本', 640, 5)::text")
        of_japan, filter_of_japan = cursor.fetchone()
        cursor.execute(f"SELECT item FROM frequent_rows('{images['LATIN1 text']}'::frequent_strings) ORDER BY item COLLATE \"C\"")
        tests.check("a sketch of LATIN1 in UTF8", cursor.fetchall() == [("Köln",), ("a",), ("é",)])
    with tests.main.session("in_latin1") as session, session.cursor() as cursor:
        code = code_of(cursor, f"SELECT * FROM frequent_rows('{of_japan}'::frequent_strings)")
        tests.check("an item without a place in LATIN1", code == "22P05", code)
        cursor.execute(f"SELECT (sketch_status('{of_japan}'::frequent_strings)).total_weight, "
                       f"sketch_contains('{filter_of_japan}'::bloom_filter, 'é')")
        tests.check("the rest of such a sketch", cursor.fetchone() == (1, False))
    with tests.main.session("in_sql_ascii", encoding="SQL_ASCII") as session, session.cursor() as cursor:
        for statement in ["SELECT frequent_strings_agg(E'\\xff')", "SELECT bloom_filter_agg_sized(E'a\\xc3', 640, 5)",
                          "SELECT count_min_agg_sized(E'\\xed\\xa0\\x80', 1, 3, 50)",
                          "SELECT sketch_contains(bloom_filter_agg_sized('a', 640, 5), E'\\xff')"]:
            code = code_of(cursor, statement)
            tests.check(f"SQL_ASCII: {statement}", code == "22021", code)


def collations(tests):
    """Collations: sketches compare bytes, and collations that do otherwise are rejected."""
    with database(tests.main, "collated") as session, session.cursor() as cursor:
        cursor.execute("CREATE COLLATION ignores_case (provider = icu, locale = 'und-u-ks-level2', deterministic = false);"
                       "CREATE TABLE words AS SELECT w FROM (VALUES ('a'), ('A'), ('Ä'), ('ä'), ('z')) AS v(w);"
                       "CREATE TABLE loose (w text COLLATE ignores_case); INSERT INTO loose SELECT * FROM words")
        same = set()
        for collation in ['"C"', '"de-x-icu"', '"en-x-icu"', '"C.utf8"', '"default"', "ucs_basic"]:
            cursor.execute(f"SELECT bloom_filter_agg_sized(w, 640, 5)::text, (sketch_status(frequent_strings_agg(w))).num_active_items, "
                           f"sketch_image(count_min_agg_sized(w, 1, 3, 50)) FROM (SELECT w COLLATE {collation} AS w FROM words) AS t")
            same.add(tuple(bytes(value) if isinstance(value, memoryview) else value for value in cursor.fetchone()))
        tests.check("the same sketches under all deterministic collations", len(same) == 1 and next(iter(same))[1] == 5, same)
        stored = "(SELECT {}(w{}) FROM words)"
        for statement in ["SELECT frequent_strings_agg(w) FROM loose", "SELECT bloom_filter_agg_sized(w, 640, 5) FROM loose",
                          "SELECT count_min_agg_sized(w, 1, 3, 50) FROM loose", "SELECT signed_count_min_agg_sized(w, 1, 3, 50) FROM loose",
                          f"SELECT sketch_contains({stored.format('bloom_filter_agg_sized', ', 640, 5')}, w) FROM loose",
                          f"SELECT sketch_lower_bound({stored.format('frequent_strings_agg', '')}, w) FROM loose",
                          f"SELECT sketch_bounds({stored.format('frequent_strings_agg', '')}, w) FROM loose",
                          f"SELECT sketch_estimate({stored.format('count_min_agg_sized', ', 1, 3, 50')}, w) FROM loose"]:
            code = code_of(cursor, statement)
            tests.check(f"a collation that ignores case: {statement}", code == "0A000", code)
            statement = statement.replace("FROM loose", "FROM (SELECT w COLLATE \"C\" AS w FROM loose) AS t")
            tests.check(f"bytes instead: {statement}", code_of(cursor, statement) is None)


def owned(tests):
    """The owner of a database, who is no superuser, installs the extension and drops it."""
    with tests.main.session() as session, session.cursor() as cursor:
        cursor.execute("CREATE ROLE plain")
        cursor.execute("CREATE DATABASE owned OWNER plain")
    with tests.main.session("owned") as session, session.cursor() as cursor:
        cursor.execute("SET ROLE plain; CREATE EXTENSION sketches_rattle; CREATE SCHEMA kept; CREATE TABLE kept.sketches AS "
                       "SELECT bloom_filter_agg_sized(1, 64, 3) AS filter")
        tests.check("an extension in use is not dropped", code_of(cursor, "DROP EXTENSION sketches_rattle") == "2BP01")
        cursor.execute("RESET ROLE; ALTER EXTENSION sketches_rattle SET SCHEMA kept; SET ROLE plain")
        cursor.execute("SELECT kept.sketch_contains(filter, 1) FROM kept.sketches")
        tests.check("an extension in another schema", cursor.fetchone() == (True,))
        cursor.execute("DROP TABLE kept.sketches; DROP EXTENSION sketches_rattle")
        cursor.execute("SELECT count(*) FROM pg_type WHERE typname IN ('bloom_filter', '_bloom_filter')")
        tests.check("an extension is dropped whole", cursor.fetchone() == (0,))


def versions(tests):
    """Stored sketches of the first format, which each later version reads, and formats that this one does not know."""
    with database(tests.main, "versions") as session, session.cursor() as cursor:
        cursor.execute("SELECT default_version, installed_version FROM pg_available_extensions WHERE name = 'sketches_rattle'")
        offered, installed = cursor.fetchone()
        tests.check("one version", offered == installed, (offered, installed))
        cursor.execute(SKETCHES)
        before = everything(cursor)
        cursor.execute("ALTER EXTENSION sketches_rattle UPDATE")
        cursor.execute(f"ALTER EXTENSION sketches_rattle UPDATE TO '{offered}'")
        tests.check("an update keeps each sketch", everything(cursor) == before)
        cursor.execute("SELECT path FROM pg_extension_update_paths('sketches_rattle') WHERE path IS NOT NULL")
        paths = cursor.fetchall()
        tests.check("no version was published before", paths == [], paths)
        for name, sketch in golden.SKETCHES.items():
            for form, value in [("bytea", sketch), ("text", golden.text(sketch))]:
                literal = cursor.mogrify(f"%s::{form if form == 'bytea' else name}::{name}", (value,)).decode()
                for query, wanted in golden.QUERIES[name]:
                    cursor.execute("SELECT " + query.format(literal))
                    got = cursor.fetchone()
                    tests.check(f"a {name} of the first format, as {form}: {query}", got == wanted, got)
                cursor.execute(f"SELECT ({literal})::bytea")
                tests.check(f"a {name} of the first format keeps its bytes", bytes(cursor.fetchone()[0]) == sketch)
            for what, damaged in golden.unknown(name):
                for form, value in [("bytea", damaged), ("text", golden.text(damaged))]:
                    literal = cursor.mogrify(f"%s::{form if form == 'bytea' else name}::{name}", (value,)).decode()
                    code = code_of(cursor, f"SELECT {literal}")
                    tests.check(f"{name}, as {form}: {what}", code == "SK001", code)
                    if "version" in what:
                        try:
                            cursor.execute(f"SELECT {literal}")
                        except psycopg2.Error as error:
                            tests.check(f"the message of {what}", what in str(error), error)


def compressed(tests):
    """Columns with `lz4`, if the server has it, and without compression: the values are those of other columns."""
    with database(tests.main, "compressed") as session, session.cursor() as cursor:
        cursor.execute("SELECT enumvals FROM pg_settings WHERE name = 'default_toast_compression'")
        methods = cursor.fetchone()[0]
        tests.check("Debian's server has lz4", "lz4" in methods, methods)
        for method in methods:
            cursor.execute(f"DROP TABLE IF EXISTS counted; CREATE TABLE counted (counts count_min COMPRESSION {method});"
                           "INSERT INTO counted SELECT count_min_agg_sized(i, i, 4, 20000) FROM generate_series(1, 1000) AS i")
            cursor.execute("SELECT pg_column_compression(counts), sketch_estimate(counts, 7) >= 7, "
                           "pg_column_size(counts) < length(counts::bytea) / 4, "
                           "counts = (SELECT count_min_agg_sized(i, i, 4, 20000) FROM generate_series(1, 1000) AS i) FROM counted")
            row = cursor.fetchone()
            tests.check(f"a column of counts by {method}", row == (method, True, True, True), row)
