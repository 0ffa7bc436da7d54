"""Sketches that are constants of plans: they go to foreign servers whole, are printed short elsewhere, and need no rights of users."""
from ends import code_of
from stored import database


def pushed(tests):
    """Calls of `sketch_contains` on foreign tables, partitions and subqueries of them."""
    on = tests.main
    with database(on, "far") as session, session.cursor() as cursor:
        cursor.execute("CREATE TABLE numbers AS SELECT i FROM generate_series(1::bigint, 1000) AS i")
    with database(on, "near") as session, session.cursor() as cursor:
        cursor.execute(f"""CREATE EXTENSION postgres_fdw;
            CREATE SERVER far FOREIGN DATA WRAPPER postgres_fdw OPTIONS (host '{on.folder}', dbname 'far', extensions 'sketches_rattle');
            CREATE USER MAPPING FOR postgres SERVER far OPTIONS (user 'postgres');
            CREATE FOREIGN TABLE plain (i bigint) SERVER far OPTIONS (table_name 'numbers');
            CREATE TABLE parts (i bigint) PARTITION BY RANGE (i);
            CREATE FOREIGN TABLE part PARTITION OF parts FOR VALUES FROM (0) TO (9999) SERVER far OPTIONS (table_name 'numbers');
            CREATE TABLE own_parts (i bigint) PARTITION BY RANGE (i);
            CREATE TABLE own_part PARTITION OF own_parts FOR VALUES FROM (0) TO (9999);
            INSERT INTO own_parts SELECT i FROM generate_series(1, 1000) AS i""")
        cursor.execute("SELECT bloom_filter_agg(i, 20000, 0.01)::text FROM generate_series(1, 30) AS i")
        filter = cursor.fetchone()[0]
        for table in ("plain", "parts", "own_parts"):
            for form in ("{}", "(SELECT i FROM {} OFFSET 0) AS t", "(SELECT i, count(*) FROM {} GROUP BY i) AS t"):
                statement = f"SELECT count(*) FROM {form.format(table)} WHERE sketch_contains('{filter}', i)"
                cursor.execute(statement)
                found = cursor.fetchone()
                tests.check(f"rows of {table}, {form}", found == (30,), found)
                cursor.execute(f"EXPLAIN (VERBOSE) {statement}")
                plan = "\n".join(row[0] for row in cursor.fetchall())
                if table == "own_parts":
                    short = len(plan) < 2000 < len(filter) and "bytes'::sketch_constant" in plan
                    tests.check(f"a short plan of {table}, {form}", short, plan)
                elif "OFFSET" not in form:
                    whole = f"sketch_contains('{filter}'" in plan.split("Remote SQL")[1]
                    tests.check(f"the filter goes to the server of {table}, {form}", whole, plan[-300:])


def without_rights(tests):
    """A user with no rights to the extension's schema, and an owner who would put another type in the place of the extension's."""
    on = tests.main
    with on.session() as session, session.cursor() as cursor:
        cursor.execute("CREATE ROLE owner_of_all LOGIN; CREATE ROLE reader_of_view LOGIN")
        cursor.execute("CREATE DATABASE guarded OWNER owner_of_all")
    with on.session("guarded", user="owner_of_all") as session, session.cursor() as cursor:
        cursor.execute("CREATE SCHEMA kept; CREATE EXTENSION sketches_rattle SCHEMA kept; SET search_path = kept; "
                       "CREATE TABLE numbers AS SELECT i FROM generate_series(1::bigint, 1000) AS i")
        cursor.execute("SELECT bloom_filter_agg(i, 20000, 0.01)::text FROM generate_series(1, 30) AS i")
        asked = f"SELECT count(*) FROM kept.numbers WHERE kept.sketch_contains('{cursor.fetchone()[0]}', i)"
        cursor.execute(f"CREATE VIEW public.found AS {asked}; GRANT SELECT ON public.found TO reader_of_view")
        for statement in ["ALTER EXTENSION sketches_rattle DROP TYPE sketch_constant", "DROP TYPE sketch_constant CASCADE",
                          "ALTER TYPE sketch_constant RENAME TO other"]:
            tests.check(f"an owner does not {statement}", code_of(cursor, statement) in ("42501", "2BP01"))
    with on.session("guarded", user="reader_of_view") as session, session.cursor() as cursor:
        code = code_of(cursor, "SELECT * FROM found")
        tests.check("a view for a user without rights to the schema", code is None and cursor.fetchone() == (30,), code)
        cursor.execute("EXPLAIN SELECT * FROM found")
        plan = "\n".join(row[0] for row in cursor.fetchall())
        tests.check("its plan is short", "bytes'::" in plan and len(plan) < 2000, plan[:300])
    on.run("dropdb", "guarded")
    with on.session() as session, session.cursor() as cursor:
        cursor.execute("DROP ROLE owner_of_all, reader_of_view")
