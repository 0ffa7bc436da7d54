"""Checks that the manual page of the program has each command, look-up and rejection that docs/lines.txt lists."""
import os

TOP = os.path.dirname(os.path.dirname(os.path.dirname(os.path.abspath(__file__))))


def read(path):
    with open(f"{TOP}/{path}", encoding="utf-8") as it:
        return it.read()


def check(tests):
    page = read("release/datasketches_cli.1").replace("\\-", "-").replace("\\e", "\\").replace("\\&", "")
    blocks = [it for it in read("docs/lines.txt").split("\n\n") if it.startswith(("frequent NAME", "ask NAME", "NoSuchName "))]
    for block in blocks:
        tests.check(f"the manual page has what docs/lines.txt has from '{block[:30]}' on", block.rstrip("\n") + "\n.fi\n" in page)
    tests.check("docs/lines.txt has commands, look-ups and rejections", len(blocks) == 3, len(blocks))
