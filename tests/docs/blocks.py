"""Reads the blocks of a page: those between fences, and those that four spaces indent."""
import re

BLOCK = re.compile(r"^```(?P<kind>\w*)\n(?P<fenced>.*?)^```$|^(?P<indented>(?: {4}[^\n]*\n)+)", re.DOTALL | re.MULTILINE)


def blocks(text):
    """Returns the blocks of a page in order, each a pair of its kind and its text. An indented one has the kind `indented`."""
    return [("indented", re.sub("^    ", "", it["indented"], flags=re.MULTILINE)) if it["kind"] is None else (it["kind"], it["fenced"])
            for it in BLOCK.finditer(text)]


def commands(block):
    """Returns the commands of a transcript, each with the output that it shows. `$ ` begins a command, and `> ` continues it."""
    found = []
    for line in block.splitlines(keepends=True):
        if line.startswith("$ "):
            found.append([line[2:], ""])
        elif line.startswith("> ") and found and not found[-1][1]:
            found[-1][0] += line[2:]
        else:
            found[-1][1] += line
    return [tuple(it) for it in found]


def transcripts(text):
    """Returns the commands of the transcripts of a page, each with its output: those of `console`, and indented ones of `sketches`."""
    return [command for kind, block in blocks(text) if is_transcript(kind, block) for command in commands(block)]


def is_transcript(kind, block):
    return kind == "console" or kind == "indented" and block.startswith("$ sketches ")
