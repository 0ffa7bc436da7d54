"""Compares every key's bounds with exact counts: in one process, with workers, by groups and over partitions."""
import json

SERIAL = "SET max_parallel_workers_per_gather = 0"
PARALLEL = ("SET max_parallel_workers_per_gather = 3; SET parallel_setup_cost = 0; SET parallel_tuple_cost = 0; "
            "SET min_parallel_table_scan_size = 0; SET parallel_leader_participation = {}")

# A stream whose items follow a Zipf law, in three partitions, and its exact counts. Each string has characters of 1 to 4 bytes.
STREAM = """
SELECT setseed(0.25);
CREATE TABLE stream (part integer, number bigint, string text, weight bigint) PARTITION BY LIST (part);
CREATE TABLE stream_0 PARTITION OF stream FOR VALUES IN (0) WITH (parallel_workers = 3);
CREATE TABLE stream_1 PARTITION OF stream FOR VALUES IN (1) WITH (parallel_workers = 3);
CREATE TABLE stream_2 PARTITION OF stream FOR VALUES IN (2) WITH (parallel_workers = 3);
INSERT INTO stream SELECT i % 3, number, 'é€😀 ' || number, 1 + i % 7
FROM (SELECT i, floor(power(30000, random()))::bigint AS number FROM generate_series(1, 120000) AS i OFFSET 0) AS numbers;
CREATE TABLE exact AS SELECT number, string, count(*)::bigint AS rows, sum(weight)::bigint AS weight FROM stream GROUP BY 1, 2;
CREATE TABLE exact_parts AS SELECT part, number, string, sum(weight)::bigint AS weight FROM stream GROUP BY 1, 2, 3;
ANALYZE;
"""

# The sketches of each run: sizes that are far too small for all keys, the default, and ones that hold all keys.
COLUMNS = """
    frequent_strings_agg(string, weight, 64) AS strings_64, frequent_strings_agg(string, weight, 4096) AS strings_4096,
    frequent_bigints_agg(number, weight, 64) AS bigints_64, frequent_bigints_agg(number, weight, 65536) AS bigints_65536,
    frequent_strings_agg(string) AS strings_rows, frequent_bigints_agg(number) AS bigints_rows,
    count_min_agg_sized(string, weight, 4, 500) AS count_strings, count_min_agg_sized(number, weight, 4, 500) AS count_bigints,
    signed_count_min_agg_sized(string, weight, 4, 500) AS signed_strings, signed_count_min_agg_sized(number, -weight, 4, 500) AS minus_bigints,
    signed_count_min_agg_sized(number, weight, 4, 500) AS signed_bigints,
    bloom_filter_agg(string, 30000, 0.01) AS filter_strings, bloom_filter_agg(number, 30000, 0.01) AS filter_bigints"""
FREQUENT = [("strings_64", "string", "weight"), ("strings_4096", "string", "weight"), ("bigints_64", "number", "weight"),
            ("bigints_65536", "number", "weight"), ("strings_rows", "string", "rows"), ("bigints_rows", "number", "rows")]
COUNTS = [("count_strings", "string"), ("count_bigints", "number"), ("signed_strings", "string"), ("signed_bigints", "number")]
FILTERS = [("filter_strings", "string"), ("filter_bigints", "number")]


def launched(plan):
    """Returns how many workers the nodes of a plan launched."""
    return plan.get("Workers Launched", 0) + sum(launched(below) for below in plan.get("Plans", []))


def frequent(tests, ask, run, sketches, name, item, weight):
    """Checks the clauses of `docs/GUARANTEES.md` for a sketch of frequent items."""
    status = ask(f"SELECT (sketch_status({name})).* FROM {sketches}")[0]
    total, error, active, capacity, _, size = status
    exact = ask(f"SELECT sum({weight}), count(*) FROM exact")[0]
    tests.check(f"{run}, {name}: the total", total == exact[0], status)
    tests.check(f"{run}, {name}: its size", active <= capacity == size * 3 // 4, status)
    tests.check(f"{run}, {name}: its error", 3 * size * error <= 8 * total if size <= 1024 else 512 * error <= total, status)
    tests.check(f"{run}, {name}: exact if all items fit", (error == 0) == (exact[1] <= capacity), (status, exact))
    wrong = ask(f"""SELECT count(*) FROM {sketches} AS s, exact AS e, sketch_bounds(s.{name}, e.{item}) AS b
        WHERE NOT (b.lower_bound <= e.{weight} AND e.{weight} <= b.upper_bound
            AND b.estimate BETWEEN b.lower_bound AND b.upper_bound AND b.upper_bound = b.lower_bound + {error}
            AND sketch_lower_bound(s.{name}, e.{item}) = b.lower_bound
            AND sketch_upper_bound(s.{name}, e.{item}) = b.upper_bound AND sketch_estimate(s.{name}, e.{item}) = b.estimate)""")[0][0]
    tests.check(f"{run}, {name}: the bounds enclose each weight", wrong == 0, wrong)
    missed = "'none'" if item == "string" else "-1"
    none = ask(f"SELECT (sketch_bounds({name}, {missed})).* FROM {sketches}")[0]
    tests.check(f"{run}, {name}: an item that never came", none[0] == 0 and none[2] <= error, none)
    for threshold in [0, total // 1000, total // 50]:
        rows = f"FROM {sketches} AS s, LATERAL frequent_rows(s.{name}, '%s', {threshold}) AS f"
        missing = ask(f"""SELECT count(*) FROM exact AS e WHERE e.{weight} > greatest({threshold}, {error})
            AND NOT EXISTS (SELECT {rows % 'no_false_negatives'} WHERE f.item = e.{item})""")[0][0]
        tests.check(f"{run}, {name}: no item above {threshold} is missing", missing == 0, missing)
        listed, below = ask(f"""SELECT count(*), count(*) FILTER (WHERE e.{weight} IS NULL OR e.{weight} <= {threshold})
            {rows % 'no_false_positives'} LEFT JOIN exact AS e ON e.{item} = f.item""")[0]
        tests.check(f"{run}, {name}: each listed item is above {threshold}", below == 0 < listed, (listed, below))


def compare(tests, ask, run, sketches):
    """Checks all sketches of a table against the exact counts."""
    for name, item, weight in FREQUENT:
        frequent(tests, ask, run, sketches, name, item, weight)
    total, keys = ask("SELECT sum(weight), count(*) FROM exact")[0]
    for name, item in COUNTS:
        below, above, far = ask(f"""SELECT count(*) FILTER (WHERE sketch_estimate(s.{name}, e.{item}) < e.weight),
                count(*) FILTER (WHERE sketch_estimate(s.{name}, e.{item}) > {total}),
                count(*) FILTER (WHERE sketch_estimate(s.{name}, e.{item}) - e.weight > {total} * exp(1.0) / 500)
            FROM {sketches} AS s, exact AS e""")[0]
        tests.check(f"{run}, {name}: own weight <= estimate <= total", (below, above) == (0, 0), (below, above))
        tests.check(f"{run}, {name}: few estimates are far above", far <= 2 * keys * 0.0184, (far, keys))
    nothing = ask(f"SELECT count(*) FROM {sketches} AS s, exact AS e WHERE e.number < 300 "
                  "AND sketch_estimate(s.signed_bigints | s.minus_bigints, e.number) <> 0")[0][0]
    tests.check(f"{run}: weights and their negatives cancel", nothing == 0, nothing)
    for name, item in FILTERS:
        absent = "'no ' || i" if item == "string" else "-i"
        missed, false = ask(f"""SELECT (SELECT count(*) FROM exact AS e WHERE NOT sketch_contains(s.{name}, e.{item})),
            (SELECT count(*) FROM generate_series(1, 20000) AS i WHERE sketch_contains(s.{name}, {absent})) FROM {sketches} AS s""")[0]
        tests.check(f"{run}, {name}: no item is missed", missed == 0, missed)
        tests.check(f"{run}, {name}: few false positives", false <= 20000 * 0.02, false)


def every_key(tests):
    """Bounds of every key, serial and parallel."""
    with tests.main.session() as session, session.cursor() as cursor:
        def ask(query):
            cursor.execute(query)
            return cursor.fetchall()

        cursor.execute(STREAM)
        by_partition = "; SET enable_partitionwise_aggregate = on"
        runs = [("serial", SERIAL, "FROM stream"), ("parallel", PARALLEL.format("on"), "FROM stream"),
                ("workers alone", PARALLEL.format("off"), "FROM stream"),
                ("partitions", SERIAL + by_partition, "FROM stream"),
                ("partitions by workers", PARALLEL.format("on") + by_partition, "FROM stream"),
                ("stored parts", PARALLEL.format("on"), None)]
        for run, settings, source in runs:
            table = "sketches_" + run.replace(" ", "_")
            cursor.execute(settings)
            if source is None:
                cursor.execute(f"CREATE TABLE parts AS SELECT part, {COLUMNS} FROM stream GROUP BY part")
                unions = ", ".join(f"{kind}_union({name}) AS {name}" for kind, names in [
                    ("frequent_strings", ["strings_64", "strings_4096", "strings_rows"]),
                    ("frequent_bigints", ["bigints_64", "bigints_65536", "bigints_rows"]),
                    ("count_min", ["count_strings", "count_bigints"]),
                    ("signed_count_min", ["signed_strings", "signed_bigints", "minus_bigints"]),
                    ("bloom_filter", ["filter_strings", "filter_bigints"])] for name in names)
                query = f"SELECT {unions} FROM parts"
            else:
                query = f"SELECT {COLUMNS} {source}"
                plan = ask(f"EXPLAIN (ANALYZE, COSTS OFF, FORMAT JSON) {query}")[0][0][0]["Plan"]
                workers = launched(plan)
                tests.check(f"{run}: workers", workers == 0 if settings.startswith(SERIAL) else workers >= 2, workers)
                tests.check(f"{run}: parts", run == "serial" or '"Finalize"' in json.dumps(plan), plan)
            cursor.execute(f"CREATE TABLE {table} AS {query}")
            cursor.execute("RESET enable_partitionwise_aggregate")
            compare(tests, ask, run, table)
            if run != "serial":
                for name, _ in [*COUNTS, *FILTERS, ("minus_bigints", "")]:
                    same = ask(f"SELECT s.{name} = t.{name} FROM sketches_serial AS s, {table} AS t")[0][0]
                    tests.check(f"{run}, {name}: equal to the serial one", same is True)
        unlike_sizes(tests, ask)
        groups(tests, ask, cursor)


def unlike_sizes(tests, ask):
    """Checks merges of frequent items of unlike sizes: both bounds and the error share of the smaller one."""
    for item, small, large in [("string", "strings_64", "strings_4096"), ("number", "bigints_64", "bigints_65536")]:
        for name, union in [("small first", f"{small} | {large}"), ("large first", f"{large} | {small}")]:
            total, error, sized, wrong = ask(f"""
                SELECT (sketch_status(s)).total_weight, (sketch_status(s)).maximum_error, (sketch_status(s)).max_map_size,
                    count(*) FILTER (WHERE NOT 2 * weight BETWEEN sketch_lower_bound(s, {item}) AND sketch_upper_bound(s, {item}))
                FROM (SELECT {union} AS s FROM sketches_serial OFFSET 0) AS merged, exact GROUP BY 1, 2, 3""")[0]
            tests.check(f"unlike sizes of {item}, {name}: bounds", wrong == 0, wrong)
            tests.check(f"unlike sizes of {item}, {name}: error", 3 * 64 * error <= 8 * total, (error, total))
            tests.check(f"unlike sizes of {item}, {name}: size", sized == int(large.split("_")[1]), sized)


def groups(tests, ask, cursor):
    """Checks each key of each of many groups, by hashing, by sorting, with little memory, and with workers."""
    query = """CREATE TABLE {0} AS SELECT number % 1000 AS g, frequent_bigints_agg(number, weight, 8) AS bigints,
        frequent_strings_agg(string, weight, 8) AS strings, count_min_agg_sized(number, weight, 2, 16) AS counts,
        bloom_filter_agg_sized(string, 64, 3) AS filter FROM stream GROUP BY 1"""
    for run, settings in [("by hash", f"{SERIAL}; SET enable_sort = off"), ("by sort", f"{SERIAL}; SET enable_hashagg = off"),
                          ("in little memory", f"{SERIAL}; SET enable_sort = off; SET work_mem = '64kB'"),
                          ("by workers", PARALLEL.format("on"))]:
        table = "groups_" + run.replace(" ", "_")
        cursor.execute(f"{settings}; {query.format(table)}")
        cursor.execute("RESET enable_sort; RESET enable_hashagg; RESET work_mem")
        found = ask(f"""SELECT count(DISTINCT g), count(*), count(*) FILTER (WHERE NOT e.weight BETWEEN sketch_lower_bound(bigints, number)
                    AND sketch_upper_bound(bigints, number)), count(*) FILTER (WHERE NOT e.weight BETWEEN sketch_lower_bound(strings, string)
                    AND sketch_upper_bound(strings, string)), count(*) FILTER (WHERE sketch_estimate(counts, number) < e.weight),
                count(*) FILTER (WHERE NOT sketch_contains(filter, string)) FROM {table} JOIN exact AS e ON g = number % 1000""")[0]
        keys = ask("SELECT count(DISTINCT number % 1000), count(*) FROM exact")[0]
        tests.check(f"groups {run}: bounds of each key", found == (*keys, 0, 0, 0, 0), (found, keys))
        totals = ask(f"SELECT sum((sketch_status(bigints)).total_weight) = (SELECT sum(weight) FROM exact) FROM {table}")[0][0]
        tests.check(f"groups {run}: totals", totals is True)
