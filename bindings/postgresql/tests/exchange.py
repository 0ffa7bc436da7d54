"""The same sketches in SQL, Python, C and the program: each reads the others' images, and answers as they do."""
import io
import itertools
import os
import subprocess
import sys

import golden
import server
from ends import WORKERS, code_of

BINDINGS = os.path.dirname(os.path.dirname(server.HERE))
MAKE = """
CREATE TABLE exchanged AS
SELECT frequent_strings_agg('item-' || i, i + 1, 64) AS strings, frequent_bigints_agg(i, i + 1, 64) AS bigints,
    count_min_agg_sized('item-' || i, i + 1, 4, 500) AS counts, signed_count_min_agg_sized(i, i + 1, 4, 500) AS signed_counts,
    bloom_filter_agg_sized(i, 4096, 5) AS filter, signed_count_min_agg_sized('item-' || i, i + 1, 4, 500) AS signed_strings,
    bloom_filter_agg_sized('item-' || i, 4096, 5) AS filter_strings
FROM generate_series(0::bigint, 99) AS i
"""
TYPES = {"strings": "frequent_strings", "bigints": "frequent_bigints", "counts": "count_min", "signed_counts": "signed_count_min",
         "filter": "bloom_filter", "signed_strings": "signed_count_min", "filter_strings": "bloom_filter"}


def program_lines(program, lines):
    """Returns the program's replies."""
    text = "".join(f"{line}\n" for line in lines).encode()
    ran = subprocess.run([program], input=text, capture_output=True, check=True, timeout=60)
    return ran.stdout.decode().splitlines()


def interfaces(tests):
    """Images from SQL to Python, C and the program, and back."""
    sys.path.insert(0, tests.built)
    import datasketches_rattle as ds

    folder = f"{tests.work}/exchanged"
    os.mkdir(folder)
    with tests.main.session() as session, session.cursor() as cursor:
        cursor.execute(MAKE)
        cursor.execute(f"SELECT {', '.join(f'sketch_image({name})' for name in TYPES)} FROM exchanged")
        images = dict(zip(TYPES, [bytes(image) for image in cursor.fetchone()]))

        def answers(table):
            """Returns what SQL answers for 200 items, of which half were added."""
            cursor.execute(f"""SELECT i, sketch_lower_bound(strings, 'item-' || i), sketch_upper_bound(strings, 'item-' || i),
                sketch_lower_bound(bigints, i), sketch_upper_bound(bigints, i), sketch_estimate(counts, 'item-' || i), sketch_estimate(signed_counts, i),
                sketch_contains(filter, i)::integer,
                sketch_estimate(signed_strings, 'item-' || i), sketch_contains(filter_strings, 'item-' || i)::integer
                FROM {table}, generate_series(0::bigint, 199) AS i ORDER BY i""")
            return cursor.fetchall()

        def imported(name, from_images):
            """Makes a table of the sketches of other images, and checks them against the exact weights and those made in SQL."""
            columns = ", ".join(f"{TYPES[column]}_from_image(%({column})s) AS {column}" if column in from_images else column
                                for column in TYPES)
            cursor.execute(f"CREATE TABLE {name} AS SELECT {columns} FROM exchanged", from_images)
            for column in from_images:
                if column not in ("strings", "bigints"):
                    cursor.execute(f"SELECT a.{column} = b.{column}, sketch_image(a.{column}) = %s "
                                   f"FROM {name} AS a, exchanged AS b", (from_images[column],))
                    tests.check(f"{name}: an equal {column}", cursor.fetchone() == (True, True))
            rows = answers(name)
            weights = [number + 1 if number < 100 else 0 for number in range(200)]
            for column, low, high in [("strings", 1, 2), ("bigints", 3, 4)]:
                within = all(row[low] <= weight <= row[high] for row, weight in zip(rows, weights))
                tests.check(f"{name}: bounds of {column}", within)
                cursor.execute(f"SELECT (sketch_status({column})).total_weight, (sketch_status({column})).max_map_size FROM {name}")
                tests.check(f"{name}: the status of {column}", cursor.fetchone() == (5050, 64))
            return rows

        wanted = answers("exchanged")
        tests.check("answers in SQL", len(wanted) == 200 and all(row[7] == row[9] == 1 for row in wanted[:100]))

        # Python.
        strings = ds.FrequentItemsSketch.deserialize(images["strings"], item=str)
        bigints = ds.FrequentItemsSketch.deserialize(images["bigints"], item=int)
        counts = ds.CountMinSketch.deserialize(images["counts"])
        signed_counts = ds.CountMinSketch.deserialize(images["signed_counts"], signed=True)
        signed_strings = ds.CountMinSketch.deserialize(images["signed_strings"], signed=True)
        filters = [ds.BloomFilter.deserialize(images[name]) for name in ["filter", "filter_strings"]]
        got = []
        for number in range(200):
            item = f"item-{number}"
            of_string, of_bigint = strings.bounds(item), bigints.bounds(number)
            got.append((number, of_string[0], of_string[2], of_bigint[0], of_bigint[2], counts[item], signed_counts[number],
                        int(number in filters[0]), signed_strings[item], int(item in filters[1])))
        tests.check("Python reads what SQL wrote", got == wanted, (got[:3], wanted[:3]))
        of_python = {
            "strings": ds.FrequentItemsSketch(64, item=str), "bigints": ds.FrequentItemsSketch(64, item=int),
            "counts": ds.CountMinSketch(4, 500), "signed_counts": ds.CountMinSketch(4, 500, signed=True),
            "filter": ds.BloomFilter(4096, 5), "signed_strings": ds.CountMinSketch(4, 500, signed=True),
            "filter_strings": ds.BloomFilter(4096, 5)}
        for number in range(100):
            for column in ["strings", "counts", "signed_strings"]:
                of_python[column].update(f"item-{number}", number + 1)
            for column in ["bigints", "signed_counts"]:
                of_python[column].update(number, number + 1)
            of_python["filter"].insert(number)
            of_python["filter_strings"].insert(f"item-{number}")
        rows = imported("from_python", {name: sketch.serialize() for name, sketch in of_python.items()})
        same = all((row[1], row[2], row[3], row[4]) == (*of_python["strings"].bounds(f"item-{row[0]}")[::2],
                                                         *of_python["bigints"].bounds(row[0])[::2]) for row in rows)
        tests.check("SQL reads what Python wrote", same)

        # C.
        for name, image in images.items():
            with open(f"{folder}/{name}", "wb") as file:
                file.write(image)
        reads = f"{folder}/reads"
        subprocess.run(["cc", "-std=c11", "-O1", "-Wall", "-Wextra", "-Werror", "-I", f"{BINDINGS}/c/include",
                        f"{server.HERE}/reads.c", f"{tests.built}/libdatasketches.a", "-lpthread", "-o", reads], check=True)
        ran = subprocess.run([reads, folder], capture_output=True, text=True, timeout=60)
        got = [tuple(int(word) for word in line.split()) for line in ran.stdout.splitlines()]
        tests.check("C reads what SQL wrote", got == [row[:8] for row in wanted], ran.stderr + str(got[:3]))
        of_c = {}
        for name in ["strings", "bigints", "counts", "signed_counts", "filter"]:
            with open(f"{folder}/c_{name}", "rb") as file:
                of_c[name] = file.read()
        imported("from_c", of_c)

        # The program, whose items are strings.
        loads = [("strings", "s", "frequent 1000000"), ("counts", "c", "countu 1000000 9001"),
                 ("signed_strings", "i", "counti 1000000 9001"), ("filter_strings", "f", "bloom 1000000")]
        lines = [f"load {name} {kind} {images[column].hex()}" for column, name, kind in loads]
        asked = [f"ask {name} item-{number}" for number in range(200) for name in "scif"]
        replies = program_lines(tests.program, lines + asked)
        tests.check("the program loads what SQL wrote", replies[:4] == ["ok"] * 4, replies[:4])
        got = []
        for number in range(200):
            frequent, count, signed, found = [reply.split() for reply in replies[4 + 4 * number:8 + 4 * number]]
            named = [dict(zip(reply[::2], reply[1::2])) for reply in (frequent, count, signed)]
            got.append((number, int(named[0]["lower"]), int(named[0]["upper"]), int(named[1]["estimate"]),
                        int(named[2]["estimate"]), int(found == ["yes"])))
        tests.check("the program answers as SQL", got == [(row[0], row[1], row[2], row[5], row[8], row[9]) for row in wanted],
                    (got[:3], wanted[:3]))
        lines = ["frequent s 64", "countu c 4 500 9001", "counti i 4 500 9001", "bloom f 4096 5 9001"]
        for number in range(100):
            lines += [f"add s {number + 1} item-{number}", f"add c {number + 1} item-{number}",
                      f"adds i {number + 1} item-{number}", f"insert f item-{number}"]
        for _, name, _ in loads:
            lines += [f"save {name} p{name}", f"image p{name}"]
        written = [bytes.fromhex(reply.split()[1]) for reply in program_lines(tests.program, lines)[-7::2]]
        imported("from_the_program", {column: image for (column, _, _), image in zip(loads, written)})

        # Another kind's images are no sketches.
        for column, image in images.items():
            for name in {"frequent_strings", "count_min", "bloom_filter"} - {TYPES[column], TYPES[column].removeprefix("signed_")}:
                if column == "bigints" and name == "frequent_strings":
                    continue  # an image of frequent items does not say the type of its items
                try:
                    cursor.execute(f"SELECT {name}_from_image(%s)", (image,))
                    tests.check(f"an image of {column} as {name}", False)
                except server.psycopg2.Error as error:
                    tests.check(f"an image of {column} as {name}", error.pgcode == "SK023", error)


def seeds(tests):
    """Images of Count-Min of any seed, from Python: the stored sketch keeps the seed in each of its forms and in workers."""
    sys.path.insert(0, tests.built)
    import datasketches_rattle as ds

    weights = {"ab": 5, "é€😀": 3, "": 1}
    with tests.main.session(**WORKERS) as session, session.cursor() as cursor:
        for name, seed in itertools.product(["count_min", "signed_count_min"], [0, 7, 2**64 - 1]):
            sketch = ds.CountMinSketch(3, 97, seed, signed=name == "signed_count_min")
            for item, weight in weights.items():
                sketch.update(item, weight)
            image = sketch.serialize()
            tests.check(f"{name}, seed {seed}: the image of Python", image == golden.count_min(weights, 3, 97, seed))
            cursor.execute(f"CREATE TEMP TABLE seeded AS SELECT {name}_from_image(%s, {seed}) AS sketch", (image,))
            stored = golden.stored(name, 3, image, seed=seed)

            def holds(what):
                cursor.execute("SELECT (sketch_status(sketch)).*, sketch_image(sketch), sketch::bytea, "
                               f"{', '.join(f'sketch_estimate(sketch, {chr(39)}{item}{chr(39)})' for item in weights)} FROM seeded")
                row = [bytes(value) if isinstance(value, memoryview) else value for value in cursor.fetchone()]
                tests.check(f"{name}, seed {seed}: {what}",
                            row == [9, 3, 97, seed, "strings or bigints", image, stored, *weights.values()], row)

            holds("its numbers, forms and estimates")
            for form in ("text", "bytea"):
                cursor.execute(f"UPDATE seeded SET sketch = sketch::{form}::{name}")
                holds(f"after the form {form}")
            file = io.BytesIO()
            cursor.copy_expert("COPY seeded TO STDOUT (FORMAT binary)", file)
            file.seek(0)
            cursor.execute("TRUNCATE seeded")
            cursor.copy_expert("COPY seeded FROM STDIN (FORMAT binary)", file)
            holds("after the binary form")

            # Unions: by two, of a group, and of a group whose workers each pass a sketch on.
            cursor.execute("CREATE TABLE many_seeded WITH (parallel_workers = 2) AS "
                           "SELECT sketch FROM seeded, generate_series(1, 5000); ANALYZE many_seeded")
            union = f"SELECT {name}_union(sketch) AS s FROM many_seeded"
            cursor.execute(f"EXPLAIN {union}")
            tests.check("the plan of a union has workers", any("Workers Planned" in row[0] for row in cursor.fetchall()))
            for what, query, wanted in [("by two", "SELECT sketch | sketch AS s FROM seeded", 10), ("of workers", union, 25000),
                                        ("of a group", f"SELECT {name}_union(sketch) AS s FROM seeded, generate_series(1, 9)", 45)]:
                cursor.execute(f"SELECT (sketch_status(s)).seed, sketch_estimate(s, 'ab') FROM ({query}) AS t")
                tests.check(f"{name}, seed {seed}: a union {what}", cursor.fetchone() == (seed, wanted))
            other = f"(SELECT {name}_agg_sized('ab', 1, 3, 97))"
            for query in [f"SELECT sketch | {other} FROM seeded",
                          f"SELECT {name}_union(s) FROM (SELECT sketch FROM seeded UNION ALL {other}) AS t(s)"]:
                code = code_of(cursor, query)
                tests.check(f"{name}, seed {seed}: a union with another seed: {query}", code == "SK016", code)

            # A seed that is not that of the image, and numbers that are no seed.
            read = f"SELECT {name}_from_image(%s"
            for given, wanted in [("", "SK028"), (f", {seed ^ 1}", "SK028"), (", -1", "22023"), (", 18446744073709551616", "22023"),
                                  (", 1e30", "22023"), (", 7.5", "22023"), (", 'NaN'", "22023"), (", 'Infinity'", "22023"),
                                  (", '-Infinity'", "22023"), (f", {seed}.0", None)]:
                code = code_of(cursor, cursor.mogrify(read, (image,)).decode() + f"{given})")
                tests.check(f"{name}, seed {seed}: an image with the seed{given}", code == wanted, code)
            cursor.execute("DROP TABLE seeded, many_seeded")

        # Another seed of the same hash reads the same image as another sketch. A seed whose hash is 0 has no sketches.
        twin = next(seed for seed in itertools.count() if seed != 9001 and golden.seed_hash(seed) == golden.seed_hash(9001))
        image = golden.count_min({"ab": 5}, 3, 97)
        cursor.execute("CREATE TEMP TABLE twins AS SELECT count_min_from_image(%s) AS a, count_min_from_image(%s, %s) AS b",
                       (image, image, twin))
        cursor.execute("SELECT sketch_image(a) = sketch_image(b), a = b, a <> b, (a < b) <> (a > b), a = a, "
                       "(SELECT count(DISTINCT s) FROM (VALUES (a), (b), (a)) AS v(s)) FROM twins")
        row = cursor.fetchone()
        tests.check("sketches of equal images and unequal seeds are not equal", row == (True, False, True, True, True, 2), row)
        code = code_of(cursor, "SELECT a | b FROM twins")
        tests.check("nor have they a union", code == "SK016", code)
        none = next(seed for seed in itertools.count() if golden.seed_hash(seed) == 0)
        code = code_of(cursor, cursor.mogrify("SELECT count_min_from_image(%s, %s)", (image, none)).decode())
        tests.check("a seed whose hash is 0", code == "22023", code)
