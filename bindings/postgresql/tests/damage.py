"""Bytes changed in a table's file while the server is down: each damaged sketch gives an error, and no other row is touched."""
import psycopg2

from ends import code_of

# Rows whose sketches lie in the table's own file, a few hundred bytes each, and rows whose sketches are stored apart.
SHORT = {"frequent_strings": "frequent_strings_agg('item ' || j, j, 64)", "frequent_bigints": "frequent_bigints_agg(j, j, 64)",
         "count_min": "count_min_agg_sized(j, j, 2, 16)", "signed_count_min": "signed_count_min_agg_sized('item ' || j, -j, 2, 16)",
         "bloom_filter": "bloom_filter_agg_sized(j, 2048, 5)"}
# What makes a query read the sketch itself.
READS = {"frequent_strings": "sketch_lower_bound(sketch, 'a')", "frequent_bigints": "sketch_lower_bound(sketch, 1)",
         "count_min": "(sketch_status(sketch)).items", "signed_count_min": "sketch_estimate(sketch, 'a')", "bloom_filter": "sketch_contains(sketch, 1)"}


def damaged_bytes(tests):
    """Every byte of a stored sketch of each type, and bytes of sketches that are stored apart."""
    with tests.server("damaged") as on:
        places = {}
        with on.session() as session, session.cursor() as cursor:
            cursor.execute("CREATE EXTENSION sketches_rattle")
            for name, aggregate in SHORT.items():
                cursor.execute(f"SELECT {aggregate}::bytea FROM generate_series(1::bigint, 10) AS j")
                length = len(bytes(cursor.fetchone()[0]))
                # A row for each byte, one that stays whole between two, and none of them compressed.
                cursor.execute(f"CREATE TABLE of_{name} (id integer, sketch {name}); "
                               f"ALTER TABLE of_{name} ALTER sketch SET STORAGE plain; INSERT INTO of_{name} "
                               f"SELECT i, {aggregate} FROM generate_series(1, {2 * length}) AS i, "
                               "generate_series(1::bigint, 10) AS j GROUP BY i ORDER BY i")
                places[name] = file_of(cursor, f"of_{name}")
            cursor.execute("CREATE TABLE apart AS SELECT i AS id, bloom_filter_agg_sized(j, 80000, 5) AS sketch "
                           "FROM generate_series(1, 60) AS i, generate_series(i * 10000::bigint, i * 10000 + 2000) AS j "
                           "GROUP BY i ORDER BY i")
            cursor.execute("SELECT reltoastrelid::regclass FROM pg_class WHERE relname = 'apart'")
            places["apart"] = file_of(cursor, cursor.fetchone()[0])
            cursor.execute("SELECT sketch_image(sketch) FROM apart ORDER BY id")
            images = [bytes(image) for image, in cursor.fetchall()]
            cursor.execute("CHECKPOINT")
        on.stop()
        changed = {name: change_short(f"{on.data}/{places[name]}") for name in SHORT}
        apart = change_apart(f"{on.data}/{places['apart']}", images)
        on.start()
        with on.session() as session, session.cursor() as cursor:
            for name in SHORT:
                cursor.execute(f"SELECT count(*) FROM of_{name}")
                rows = cursor.fetchone()[0]
                tests.check(f"damaged {name}: every byte", changed[name] == rows // 2 > 100, (changed[name], rows))
                for use in [READS[name], "length(sketch::text)", "(sketch | sketch)::text"]:
                    query = f"SELECT {use} FROM of_{name} WHERE id = "
                    codes = [code_of(cursor, f"{query}{number}") for number in range(1, rows + 1)]
                    whole, damaged = codes[1::2], codes[0::2]
                    tests.check(f"damaged {name}: whole rows, {use}", set(whole) == {None}, set(whole))
                    tests.check(f"damaged {name}: damaged rows, {use}", set(damaged) == {"XX001"}, set(damaged))
                # The fourth byte is the version of the stored form.
                message = message_of(cursor, f"SELECT {READS[name]} FROM of_{name} WHERE id = 7")
                tests.check(f"damaged {name}: another version", "version" in message, message)
            tests.check("filters stored apart are damaged", len(apart) > 10, len(apart))
            for number in range(1, 61):
                code = code_of(cursor, f"SELECT sketch_contains(sketch, {number * 10000 + 7}) FROM apart WHERE id = {number}")
                wanted = "XX001" if number in apart else None
                tests.check(f"a filter stored apart, row {number}", code == wanted, code)
        tests.check("the server ran on", "was terminated by signal" not in on.log(), on.log()[-2000:])


def message_of(cursor, statement):
    """Runs a statement that returns an error. Returns its message."""
    try:
        cursor.execute(statement)
    except psycopg2.Error as error:
        return error.diag.message_primary
    return ""


def file_of(cursor, table):
    cursor.execute("SELECT pg_relation_filepath(%s)", (table,))
    return cursor.fetchone()[0]


def change_short(path):
    """Turns one bit of each other sketch in a file, of one byte after another. Returns how many."""
    with open(path, "r+b") as file:
        data = bytearray(file.read())
        starts, at = [], data.find(b"SKR\x01")
        while at >= 0:
            starts.append(at)
            at = data.find(b"SKR\x01", at + 4)
        # Rows fill a page from its end, and pages follow one another.
        starts.sort(key=lambda start: (start // 8192, -start))
        for number, start in enumerate(starts):
            if number % 2 == 0:
                data[start + number // 2] ^= 1 << number // 2 % 8
        file.seek(0)
        file.write(data)
    return (len(starts) + 1) // 2


def change_apart(path, images):
    """Turns a bit of each third image in a file of sketches that are stored apart. Returns the numbers of these rows."""
    changed = set()
    with open(path, "r+b") as file:
        data = bytearray(file.read())
        for number, image in enumerate(images, 1):
            if number % 3 == 0:
                start = 100 * number
                at = data.find(image[start:start + 64])
                if at >= 0 and data.count(image[start:start + 64]) == 1:
                    data[at + number % 64] ^= 1 << number % 8
                    changed.add(number)
        file.seek(0)
        file.write(data)
    return changed
