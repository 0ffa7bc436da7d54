"""The numbers of sketches: each one of `datasketches.h` is a column of a status, or is left out on purpose."""
import tables

LEFT_OUT = {
    "kind": "the type of the sketch",
    "num_bits": "the column capacity",
    "sample_size": "always the largest one of the size",
}


def columns(tests):
    """The columns of the rows that `sketch_status` returns."""
    with tests.main.session() as session, session.cursor() as cursor:
        cursor.execute("SELECT DISTINCT attname FROM pg_proc JOIN pg_type ON pg_type.oid = prorettype "
                       "JOIN pg_attribute ON attrelid = typrelid WHERE proname = 'sketch_status'")
        shown = {name for name, in cursor.fetchall()}
        tables.check_shown(tests.check, shown - {"capacity", "items"}, LEFT_OUT)
