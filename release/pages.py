"""Ships pages with whole links. It needs Python's standard library alone.

    pages.py tree SOURCE FOLDER           copies the pages for users, with the files that they link to, into FOLDER as in SOURCE
    pages.py page SOURCE PAGE TO FOLDER   writes the page PAGE of SOURCE to TO, with links into FOLDER, a path from TO's folder

SOURCE is the repository.
"""
import glob
import os
import shutil
import sys
import urllib.parse

SOURCE = os.path.abspath(sys.argv[2])
sys.path.insert(0, f"{SOURCE}/tests/docs")

import links  # noqa: E402

FIRST = ["README.md", "release/README.md", "bindings/*/README.md", "bindings/c/example.c"]


def targets(page):
    """Returns the pairs of a link of the page and the path in the repository that it leads to."""
    found = []
    for link in links.links(page):
        path = urllib.parse.unquote(link.partition("#")[0])
        if path:
            found.append((link, os.path.normpath(os.path.join(os.path.dirname(page), path))))
    return found


def all_pages():
    """Returns the paths of the pages for users and of all that they link to, by any number of steps."""
    found = []
    waiting = [os.path.relpath(it, SOURCE) for first in FIRST for it in sorted(glob.glob(f"{SOURCE}/{first}"))]
    while waiting:
        path = waiting.pop()
        if path not in found:
            found.append(path)
            if path.endswith(".md"):
                waiting += [to for _, to in targets(path)]
    return found


def copy_tree(folder):
    for path in all_pages():
        to = os.path.join(folder, path)
        os.makedirs(os.path.dirname(to), exist_ok=True)
        shutil.copyfile(os.path.join(SOURCE, path), to)
        os.chmod(to, 0o644)


def write_page(page, to, folder):
    with open(os.path.join(SOURCE, page), encoding="utf-8") as file:
        text = file.read()
    for link, path in targets(page):
        _, hash_, anchor = link.partition("#")
        text = text.replace(f"]({link})", f"]({os.path.join(folder, path)}{hash_}{anchor})")
    with open(to, "w", encoding="utf-8") as file:
        file.write(text)
    os.chmod(to, 0o644)


if sys.argv[1] == "tree":
    copy_tree(sys.argv[3])
else:
    write_page(*sys.argv[3:])
