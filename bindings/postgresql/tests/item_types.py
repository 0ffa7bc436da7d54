"""Items of each type, types whose equality is not that of bytes, sketches that are compared, and images of other items."""
import datetime
import decimal
import re
import uuid

import psycopg2

from ends import code_of

# Each of these is an implicit cast to text, by the type's name. Only the first ones compare their texts by bytes.
OWN_TYPES = """
CREATE EXTENSION citext;
CREATE DOMAIN word AS varchar(20);
CREATE DOMAIN loose_word AS citext;
CREATE TYPE mood AS ENUM ('good', 'bad');
CREATE CAST (mood AS text) WITH INOUT AS IMPLICIT;
"""
BYTES = ["text", "varchar", "varchar(9)", "name", "bpchar", "char(9)", '"char"', "word"]
OTHERS = ["citext", "loose_word", "mood"]
CALLS = ["SELECT frequent_strings_agg(x) FROM {table}", "SELECT frequent_strings_agg(x, 1, 0.01) FROM {table}",
         "SELECT count_min_agg_sized(x, 1, 3, 50) FROM {table}", "SELECT signed_count_min_agg_sized(x, 1, 3, 50) FROM {table}",
         "SELECT bloom_filter_agg_sized(x, 640, 5) FROM {table}", "SELECT bloom_filter_agg_sized(x, 640, 5) OVER () FROM {table}",
         "SELECT bloom_filter_agg_sized(x, 640, 5 ORDER BY x) FROM {table}",
         "SELECT bloom_filter_agg_sized(x, 640, 5) FILTER (WHERE x IS NOT NULL) FROM {table} GROUP BY x",
         "SELECT sketch_contains((SELECT bloom_filter_agg_sized('good', 640, 5)), x) FROM {table}",
         "SELECT sketch_estimate((SELECT count_min_agg_sized('good', 1, 3, 50)), x) FROM {table}",
         "SELECT sketch_bounds((SELECT frequent_strings_agg('good')), x) FROM {table}",
         "SELECT sketch_add(frequent_strings_empty(), x) FROM {table}",
         "SELECT signed_count_min_agg_sized(x, 1, 3, 50) OVER (ROWS 1 PRECEDING) FROM {table}"]

# Types that have no items of their own, each with a value.
NO_ITEMS = {"double precision": "1.5", "real": "1.5", "boolean": "true", "json": "'{}'", "jsonb": "'{}'", "interval": "'1 day'",
            "time": "'04:05'", "timetz": "'04:05+01'", "timestamp": "'2026-02-03'", "inet": "'127.0.0.1'", "text[]": "'{a}'", "xid": "'7'",
            "regclass": "'pg_class'", "int4range": "'[1,2)'", "point": "'(1,2)'", "bit(3)": "B'101'", "money": "'1'"}

# Values of each type, in groups of equal ones, with their item as other languages write it: an integer or a string.
EPOCH = datetime.datetime(2026, 2, 3, 3, 5, 6, 7, datetime.timezone.utc)
SECOND = datetime.datetime(2026, 2, 3, 3, 5, 6, 0, datetime.timezone.utc)
UUID = uuid.UUID("f0eebc999c0b4ef8bb6d6bb9bd380a11")
VALUES = {
    "smallint": [(["'-7'", "'-07'"], -7)],
    "integer": [(["'-7'", "'-07'"], -7), (["'2147483647'"], 2**31 - 1)],
    "bigint": [(["'-7'"], -7), (["'9223372036854775807'"], 2**63 - 1)],
    "oid": [(["'7'"], 7), (["'4294967295'", "'-1'"], 2**32 - 1)],
    "text": [(["'a '"], "a "), (["''"], ""), (["'é€😀'"], "é€😀")],
    "varchar(5)": [(["'a '"], "a ")],
    "char(5)": [(["'a'", "'a  '"], "a"), (["''", "'  '"], "")],
    "name": [(["'a '"], "a ")],
    '"char"': [(["'a'"], "a"), (["''"], "")],
    "uuid": [([f"'{UUID}'", f"'{str(UUID).upper()}'", "'{f0eebc999c0b4ef8bb6d6bb9bd380a11}'"], str(UUID)),
             (["'00000000-0000-0000-0000-000000000000'"], str(uuid.UUID(int=0)))],
    "bytea": [(["'\\x00ff'", "'\\000\\377'", "'\\x00FF'"], "\\x" + bytes([0, 255]).hex()), (["''"], "\\x")],
    "date": [(["'2026-02-03'", "'03 Feb 2026'", "'J2461075'"], datetime.date(2026, 2, 3).isoformat()),
             (["'infinity'"], "infinity"), (["'-infinity'"], "-infinity"), (["'0044-03-15 BC'"], "0044-03-15 BC")],
    "timestamptz": [(["'2026-02-03 04:05:06.000007+01'", "'2026-02-02 22:05:06.000007-05'"], EPOCH.isoformat(timespec="microseconds")),
                    (["'2026-02-03 03:05:06Z'"], SECOND.isoformat(timespec="microseconds")), (["'infinity'"], "infinity"),
                    (["'0044-03-15 00:00:00Z BC'"], "0044-03-15T00:00:00.000000+00:00 BC")],
    "numeric": [(["'1.50'", "'1.5'", "'0001.5000'", "'15e-1'"], format(decimal.Decimal("1.50").normalize(), "f")),
                (["'100'", "'1e2'", "'100.00'"], format(decimal.Decimal("100.00").normalize(), "f")), (["'0'", "'-0.00'"], "0"),
                (["'1e30'"], "1" + "0" * 30), (["'-0.001'"], "-0.001"), (["'NaN'"], "NaN"), (["'-Infinity'"], "-Infinity")],
}


def types(tests):
    """Items of each type that is cast to text: those whose equality is not that of bytes are rejected."""
    tests.main.run("createdb", "typed")
    with tests.main.session("typed") as session, session.cursor() as cursor:
        cursor.execute("CREATE EXTENSION sketches_rattle;" + OWN_TYPES)
        cursor.execute("SELECT format_type(castsource, NULL) FROM pg_cast WHERE casttarget = 'text'::regtype AND castcontext = 'i'")
        known = {row[0] for row in cursor.fetchall()}
        # the last ones are of the server's own statistics and trees, of which no value can be written
        listed = {"character varying", "name", "character", '"char"', "citext", "mood", "text",
                  "pg_dependencies", "pg_node_tree", "pg_ndistinct", "pg_mcv_list"}
        tests.check("each type with an implicit cast to text is tested", known <= listed, known - listed)
        for number, name in enumerate(BYTES + OTHERS):
            table = f"of_{number}"
            cursor.execute(f"CREATE TABLE {table} (x {name}); INSERT INTO {table} VALUES ('good'), ('bad')")
            for call in CALLS:
                statement = call.format(table=table)
                code, wanted = code_of(cursor, statement), "0A000" if name in OTHERS else None
                tests.check(f"items of type {name}: {statement}", code == wanted, code)
                of_rows = re.search(r"_agg(_sized)?\(x", statement)
                written = statement.replace("(x", "(x::text", 1) if of_rows else statement.replace(", x)", ", x::text)")
                tests.check(f"items of type {name}, cast to text: {written}", code_of(cursor, written) is None)
        try:
            cursor.execute("SELECT bloom_filter_agg_sized(x, 640, 5) FROM of_8")
        except psycopg2.Error as error:
            tests.check("the hint names a way", "lower(item::text)" in (error.diag.message_hint or ""), error)
        for name, value in NO_ITEMS.items():
            for call in ["frequent_strings_agg({})", "bloom_filter_agg({}, 9, 0.1)", "sketch_contains(bloom_filter_empty(9, 0.1), {})"]:
                code = code_of(cursor, "SELECT " + call.format(f"{value}::{name}"))
                tests.check(f"no items of type {name}: {call}", code == "0A000", code)


# Each way in which a value of citext comes to a function: a query of one boolean, or a statement that raises an error. The filter and the
# counts have 'abc', which equals 'ABC'.
WAYS = {
    "a constant": "SELECT {0}, 'ABC'::citext) FROM built",
    "a prepared statement": "EXECUTE {1}('ABC')",
    "a variable": "DO $$DECLARE v citext := 'ABC'; r text; BEGIN r := (SELECT {0}, v) FROM built); END$$",
    "a field": "DO $$DECLARE v record; r text; BEGIN FOR v IN SELECT 'ABC'::citext AS c LOOP "
               "r := (SELECT {0}, v.c) FROM built); END LOOP; END$$",
    "EXECUTE .. USING": "DO $$DECLARE r text; BEGIN EXECUTE 'SELECT {0}, $1) FROM built' INTO r USING 'ABC'::citext; END$$",
    "a function's parameter": "SELECT by_{1}('ABC')",
    "a subquery": "SELECT {0}, (SELECT 'ABC'::citext)) FROM built",
    "CASE": "SELECT {0}, CASE WHEN random() < 2 THEN 'ABC'::citext ELSE 'x' END) FROM built",
}
FUNCTIONS = {"contains": "sketch_contains(filter", "estimate": "sketch_estimate(counts", "bounds": "sketch_bounds(strings",
             "add": "sketch_add(filter"}


def plans(tests):
    """Values of citext by prepared statements, variables and parameters, with plans for a value and for all, and in windows."""
    tests.main.run("createdb", "planned")
    with tests.main.session("planned") as session, session.cursor() as cursor:
        cursor.execute("CREATE EXTENSION sketches_rattle; CREATE EXTENSION citext; CREATE TABLE built AS SELECT "
                       "bloom_filter_agg('abc', 10, 0.01) AS filter, count_min_agg('abc', 0.1, 0.9) AS counts, "
                       "frequent_strings_agg('abc') AS strings")
        for name, call in FUNCTIONS.items():
            cursor.execute(f"PREPARE {name}(citext) AS SELECT {call}, $1) FROM built;"
                           f"PREPARE text_{name}(text) AS SELECT {call}, $1) FROM built;"
                           f"PREPARE any_{name} AS SELECT {call}, $1) FROM built;"
                           f"CREATE FUNCTION by_{name}(citext) RETURNS text LANGUAGE sql AS $$SELECT ({call}, $1))::text FROM built$$")
        for mode in ("auto", "force_custom_plan", "force_generic_plan"):
            cursor.execute(f"SET plan_cache_mode = {mode}")
            for name, call in FUNCTIONS.items():
                for way, statement in WAYS.items():
                    codes = [code_of(cursor, statement.format(call, name)) for _ in range(8)]
                    tests.check(f"citext by {way}, {mode}: {call}", codes == ["0A000"] * 8, codes)
                for kind in ("text", "any"):
                    answers = set()
                    for _ in range(8):
                        cursor.execute(f"EXECUTE {kind}_{name}('abc')")
                        answers.add(str(cursor.fetchone()[0]))
                    tests.check(f"{kind} by a prepared statement, {mode}: {call}",
                                answers <= {"True", "1", "(1,1,1)"} or name == "add" and len(answers) == 1, answers)
        cursor.execute("CREATE TABLE pairs AS SELECT 'abc' AS t, 'ABC'::citext AS s")
        for one, other, wanted in [("t", "s", "0A000"), ("s", "t", "0A000"), ("t", "t || 'd'", None), ("s::text", "t", None)]:
            for call in ("frequent_strings_agg({})", "bloom_filter_agg_sized({}, 64, 3)", "count_min_agg_sized({}, 3, 64)",
                         "signed_count_min_agg_sized({}, 3, 64)"):
                for window in ("()", "(ROWS 1 PRECEDING)"):
                    code = code_of(cursor, f"SELECT {call.format(one)} OVER w, {call.format(other)} OVER w FROM pairs WINDOW w AS {window}")
                    tests.check(f"{call} of {one} and of {other} over {window}", code == wanted, code)
        cursor.execute("SELECT frequent_rows(a), frequent_rows(b) FROM (SELECT frequent_strings_agg(7::numeric) OVER w AS a, "
                       "frequent_strings_agg(date '2026-02-03') OVER w AS b FROM pairs WINDOW w AS ()) AS s")
        tests.check("two types of items over one window", cursor.fetchall() == [("(7,1,1,1)", "(2026-02-03,1,1,1)")])


def direct(tests):
    """Items of each type: equal values are one item, whichever call they come by, and the one that other languages write."""
    with tests.main.session() as session, session.cursor() as cursor:
        def ask(query, *values):
            cursor.execute(query, values)
            return cursor.fetchone()

        for settings in ("", "SET DateStyle = 'SQL, DMY'; SET TimeZone = 'Asia/Kolkata'; SET bytea_output = 'escape'"):
            cursor.execute(settings or "RESET ALL")
            for name, groups in VALUES.items():
                for literals, item in groups:
                    for literal in literals:
                        value = f"{literal}::{name}"
                        same = ask(f"SELECT bloom_filter_agg({value}, 9, 0.001) = bloom_filter_agg(%s, 9, 0.001), "
                                   f"count_min_agg({value}, 3, 0.1, 0.9) = count_min_agg(%s, 3, 0.1, 0.9), "
                                   f"signed_count_min_agg({value}, 0.1, 0.9) = signed_count_min_agg(%s, 0.1, 0.9), "
                                   f"sketch_add(bloom_filter_empty(9, 0.001), {value}) = bloom_filter_agg(%s, 9, 0.001), "
                                   f"sketch_contains(bloom_filter_agg(%s, 9, 0.001), {value}), "
                                   f"sketch_estimate(count_min_agg(%s, 3, 0.1, 0.9), {value}) = 3, "
                                   f"sketch_upper_bound(signed_count_min_agg(%s, 0.1, 0.9), {value}) >= 1", *[item] * 7)
                        tests.check(f"an item of {value} {settings}", same == (True,) * 7, same)
                        kind = "strings" if isinstance(item, str) else "bigints"
                        rows = ask(f"SELECT item, sketch_estimate(s, {value}), sketch_lower_bound(s, {value}), "
                                   f"(sketch_bounds(s, {value})).upper_bound, sketch_estimate(sketch_add(s, {value}, 4), {value}) "
                                   f"FROM (SELECT frequent_{kind}_agg({value}) AS s) AS t, frequent_rows(s)")
                        tests.check(f"a frequent item of {value} {settings}", rows == (item, 1, 1, 1, 5), rows)
                if len(groups) > 1:
                    one, other = [f"{literals[0]}::{name}" for literals, _ in groups[:2]]
                    missed = ask(f"SELECT sketch_contains(bloom_filter_agg({one}, 9, 0.001), {other})")
                    tests.check(f"unequal items of {name}", missed == (False,), missed)
        for name, code in [("integer", "42804"), ("oid", "42804"), ("smallint", "42804")]:
            found = code_of(cursor, f"SELECT frequent_strings_agg('7'::{name})")
            tests.check(f"frequent strings of {name}", found == code, found)
        cursor.execute("PREPARE untyped AS SELECT sketch_estimate(frequent_bigints_agg(-7::bigint), $1)")
        tests.check("a parameter without a type is a number for frequent bigints", ask("EXECUTE untyped('-7')") == (1,) and
                    code_of(cursor, "EXECUTE untyped('seven')") == "22P02")
        for name in ("uuid", "numeric", "text", "date"):
            value = VALUES[name][0][0][0]
            found = code_of(cursor, f"SELECT frequent_bigints_agg({value}::{name})")
            tests.check(f"frequent bigints of {name}", found == ("22P02" if name == "text" else "42804"), found)
            found = code_of(cursor, f"SELECT sketch_contains(bloom_filter_agg(7, 9, 0.1), {value}::{name})")
            tests.check(f"an item of {name} in a filter of bigints", found == "SK002", found)


def orders(tests):
    """All types are compared by their images: in DISTINCT, ORDER BY, joins, indexes and replicas."""
    makers = {"frequent_strings": "frequent_strings_agg(i % 3 || 'x', 1, 64)", "frequent_bigints": "frequent_bigints_agg(i, 1, 64)",
              "count_min": "count_min_agg_sized(i, 1, 3, 64)", "signed_count_min": "signed_count_min_agg_sized(i, -1, 3, 64)",
              "bloom_filter": "bloom_filter_agg_sized(i, 640, 5)"}
    tests.main.run("createdb", "compared")
    with tests.main.session("compared") as session, session.cursor() as cursor:
        cursor.execute("CREATE EXTENSION sketches_rattle")
        for name, maker in makers.items():
            cursor.execute(f"CREATE TABLE t_{name} AS SELECT j AS number, {maker} AS s "
                           f"FROM generate_series(1, 4) AS j, generate_series(1::bigint, j) AS i GROUP BY j;"
                           f"INSERT INTO t_{name} SELECT number + 10, s FROM t_{name}")
            for what, statement, wanted in [
                    ("DISTINCT", f"SELECT count(*) FROM (SELECT DISTINCT s FROM t_{name}) AS t", 4),
                    ("count(DISTINCT)", f"SELECT count(DISTINCT s) FROM t_{name}", 4),
                    ("GROUP BY", f"SELECT count(*) FROM (SELECT FROM t_{name} GROUP BY s) AS t", 4),
                    ("a join", f"SELECT count(*) FROM t_{name} AS a JOIN t_{name} AS b USING (s)", 16),
                    ("IS DISTINCT FROM", f"SELECT count(*) FROM t_{name} AS a, t_{name} AS b WHERE a.s IS DISTINCT FROM b.s", 48),
                    ("an order", f"SELECT count(*) FROM (SELECT s < lead(s) OVER w OR s = lead(s) OVER w AS up FROM t_{name} "
                                 f"WINDOW w AS (ORDER BY s)) AS t WHERE up", 7)]:
                for setting in ("enable_hashagg = off; SET enable_hashjoin = off", "enable_sort = off; SET enable_mergejoin = off"):
                    cursor.execute(f"RESET ALL; SET {setting}")
                    cursor.execute(statement)
                    found = cursor.fetchone()[0]
                    tests.check(f"{what} of {name}, {setting}", found == wanted, found)
            cursor.execute(f"RESET ALL; CREATE INDEX ON t_{name} (s); ALTER TABLE t_{name} REPLICA IDENTITY FULL;"
                           f"CREATE PUBLICATION of_{name} FOR TABLE t_{name}")
            tests.check(f"an update of a replicated {name}", code_of(cursor, f"UPDATE t_{name} SET number = 0") is None)
        cursor.execute("SELECT proname, provolatile FROM pg_proc WHERE proname IN ('sketch_union', 'sketch_add') AND prorettype IN "
                       "('frequent_strings'::regtype, 'frequent_bigints'::regtype)")
        rows = cursor.fetchall()
        tests.check("changes of frequent items, under a random key, are not immutable",
                    {row[1] for row in rows} == {"s"} and len(rows) == 4, rows)


def image_of(*strings):
    """Returns an image of these strings, written from the format's page alone, as the bytes of a literal."""
    count = len(strings)
    items = b"".join(len(it).to_bytes(4, "little") + it for it in strings)
    numbers = [count | 0 << 32, count, 0, *[1] * count]
    return (bytes([4, 1, 10, 6, 6, 0, 0, 0]) + b"".join(it.to_bytes(8, "little") for it in numbers) + items).hex()


def images_of_other_items(tests):
    """Images with zero bytes, and images of strings that are read as bigints."""
    with tests.main.session() as session, session.cursor() as cursor:
        cursor.execute(f"SELECT count(*) FROM frequent_rows(frequent_strings_from_image('\\x{image_of(b'a', b'bc')}'))")
        tests.check("an image of two strings", cursor.fetchone() == (2,))
        try:
            cursor.execute(f"SELECT frequent_strings_from_image('\\x{image_of(b'a', b'b' + bytes(1) + b'c')}')")
            tests.check("a zero byte is rejected when an image is read", False)
        except Exception as error:
            said = error.diag.message_primary
            tests.check("a zero byte is rejected when an image is read, with its place",
                        error.pgcode == "22021" and "string 2" in said and "byte 58" in said, error)
        for strings in ([b"a"], [b"abcd", b"efghijkl"], [b"123456789"] * 2):
            code = code_of(cursor, f"SELECT frequent_bigints_from_image('\\x{image_of(*strings)}')")
            tests.check(f"an image of strings is not read as bigints: {strings}", code == "SK002", code)


def comments(tests):
    """Each object of the extension has a comment."""
    with tests.main.session() as session, session.cursor() as cursor:
        cursor.execute("SELECT pg_describe_object(classid, objid, 0), obj_description(objid, classid::regclass::name) FROM pg_depend "
                       "JOIN pg_extension ON refobjid = pg_extension.oid AND refclassid = 'pg_extension'::regclass "
                       "WHERE deptype = 'e' AND extname = 'sketches_rattle'")
        rows = cursor.fetchall()
        bare = [name for name, text in rows if not text]
        tests.check("each object has a comment", len(rows) > 200 and not bare, (len(rows), bare))
