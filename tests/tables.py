"""The tables of `datasketches.h`: the errors of sketches and the numbers that sketches have."""
import os
import re

HEADER = f"{os.path.dirname(os.path.dirname(os.path.abspath(__file__)))}/bindings/c/include/datasketches.h"
ROWS = {
    "DS_SKETCH_ERRORS": r'X\((-\d+), (DS_\w+), "(\w+)", "(.*)"\)',
    "DS_SKETCH_NUMBERS": r'X\((\d+), (DS_NUMBER_\w+), (uint\d+_t), (\w+), "(.*)"\)',
}


def rows(table):
    """Returns the rows of a table. A row that is not as the others is an error."""
    with open(HEADER, encoding="utf-8") as it:
        lines = re.search(rf"^#define {table}\(X\) \\\n((?:.*\\\n)*.*\n)", it.read(), re.MULTILINE)[1].splitlines()
    return [re.fullmatch(ROWS[table], line.rstrip("\\").strip()).groups() for line in lines]


def errors():
    """Returns number, constant, name and message of each error."""
    return rows("DS_SKETCH_ERRORS")


def numbers():
    """Returns number, constant, type, member of `ds_status` and meaning of each number."""
    return rows("DS_SKETCH_NUMBERS")


def check_shown(check, shown, left_out):
    """Checks that an interface shows each number, or leaves it out on purpose. Both are collections of members of `ds_status`."""
    members = [member for _, _, _, member, _ in numbers()]
    for member in members:
        check(f"{member}: it is shown, or left out on purpose", (member in shown) != (member in left_out))
    check("what is shown and what is left out are numbers of sketches", {*shown, *left_out} <= {*members}, {*shown, *left_out} - {*members})
