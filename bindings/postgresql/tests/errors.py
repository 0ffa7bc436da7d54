"""The list of errors, beside the errors that statements return."""
import os
import re

from ends import code_of

LIST = os.path.join(os.path.dirname(os.path.dirname(os.path.abspath(__file__))), "errors.txt")

# The image of frequent strings with the item "a" and a zero byte.
ZERO_BYTE = ("04010a0303000000" "0100000000000000" "0500000000000000" "0000000000000000" "0500000000000000" "020000006100")

# A statement for each error of the list but those that other files of tests cause.
ERRORS = {
    "SK001": "SELECT filter::bytea::count_min FROM one",
    "SK002": "SELECT sketch_contains(filter, 7) FROM one",
    "SK003": "SELECT bloom_filter_agg_sized(i, 64 * i, 3) FROM generate_series(1, 2) AS i",
    "SK016": "SELECT filter | bloom_filter_agg_sized('b', 128, 3) FROM one GROUP BY filter::text, filter",
    "SK022": "SELECT bloom_filter_from_image('')",
    "0A000": "SELECT bloom_filter_agg_sized('a' COLLATE loose, 64, 3)",
    "22003": "SELECT frequent_strings_agg('a', -1, 64)",
    "22004": "SELECT bloom_filter_agg_sized('a', 64, NULL::integer)",
    "22021": f"SELECT item FROM frequent_rows(frequent_strings_from_image('\\x{ZERO_BYTE}'))",
    "22023": "SELECT frequent_strings_agg('a', 1, 100)",
    "22P02": "SELECT '!'::bloom_filter",
    "22P03": "SELECT set_bit(filter::bytea, 300, 1 - get_bit(filter::bytea, 300))::bloom_filter FROM one",
    "42804": "SELECT frequent_strings_agg('a', 1.5::double precision)",
    "54000": "SELECT frequent_strings_agg('a', 1, 1048576)",
}
ELSEWHERE = {"22P05": "stored.py", "53200": "ends.py", "57014": "ends.py", "XX001": "damage.py", "58000": "none", "XX000": "none"}


def listed_errors(tests):
    """The errors of `errors.txt`: each is returned by a statement."""
    with open(LIST, encoding="utf-8") as file:
        first = " ".join(re.findall(r"^(\S.*?) {2,}", file.read(), re.MULTILINE))
    listed = set(re.findall(r"\b(?:SK\d{3}|[0-9A-Z]{5})\b", first))
    tests.check("the errors of errors.txt", listed == set(ERRORS) | set(ELSEWHERE), listed ^ (set(ERRORS) | set(ELSEWHERE)))
    with tests.main.session() as session, session.cursor() as cursor:
        cursor.execute("CREATE COLLATION loose (provider = icu, locale = 'und-u-ks-level1', deterministic = false);"
                       "CREATE TABLE one AS SELECT bloom_filter_agg_sized('a', 64, 3) AS filter")
        for state, statement in ERRORS.items():
            code = code_of(cursor, statement)
            tests.check(f"errors.txt, error {state}", code == state, code)
