"""Checks the faults of docs/faults.txt and docs/lines.txt against those of the header."""
import os
import re

import tables

TOP = os.path.dirname(os.path.dirname(os.path.dirname(os.path.abspath(__file__))))
OF_SESSIONS = {"NoSuchName", "NameTaken", "SameName", "WrongKind", "BadFraction"}


def read(path):
    with open(f"{TOP}/{path}", encoding="utf-8") as it:
        return it.read()


def named(text):
    """Returns the names of faults in the tables of a text: alone at the end of a line, or at its beginning before a condition."""
    found = re.findall(r"^.* {2,}([A-Z]\w+)$|^([A-Z]\w+[a-z]\w*) {2,}", text, re.MULTILINE)
    return {name for pair in found for name in pair if name}


def check(tests):
    listed = {name for _, _, name, _ in tables.errors()}
    of_images, of_lines = named(read("docs/faults.txt")), named(read("docs/lines.txt"))
    tests.check("docs/faults.txt names faults of the header alone", of_images <= listed, of_images - listed)
    tests.check("docs/lines.txt names faults of the header and of sessions", of_lines <= listed | OF_SESSIONS, of_lines - listed)
    tests.check("both lists name most faults", len((of_images | of_lines) & listed) > 30, len((of_images | of_lines) & listed))
