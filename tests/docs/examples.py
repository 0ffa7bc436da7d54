#!/usr/bin/env python3
"""The examples of pages and docs as modules of `crates/examples`, which CI proves.

    python3 tests/docs/examples.py

writes them: a module for each page and each source file with examples, of the functions and imports of its Rust blocks. A block that
another page has is left out. Blocks of docs/CALLING.md without imports have contracts of their own, and are in `callers.rt`, which is
written by hand.

As a test, checks that the files are those and that `src/results/` calls each example, and that each word which docs/words.txt lists is
defined in `specs/`.
"""
import glob
import os
import re
import textwrap

TOP = os.path.dirname(os.path.dirname(os.path.dirname(os.path.abspath(__file__))))
CRATE = f"{TOP}/crates/examples/src"
CALLERS = f"{CRATE}/callers.rt"
USE = re.compile(r"^use ([^;]*);\n?", re.MULTILINE)
WRITTEN = "Written by `tests/docs/examples.py`."
HEAD = "//! Examples of `{}`. " + WRITTEN + "\n"


def read(path):
    with open(path, encoding="utf-8") as it:
        return it.read()


def imports(text):
    """Returns the set of paths that a source imports, one for each name."""
    found = set()
    for whole in USE.findall(text):
        start, brace, names = re.sub(r"\s+", " ", whole).partition("{")
        found |= {start + it.strip() for it in names.strip(" }").split(",") if it.strip()} if brace else {whole}
    return found


def uses(paths):
    """Returns lines that import these paths, in the layout of `rt fmt`: a line for each module, in lines of at most 100 characters."""
    lines, names = [], {}
    for path in sorted(paths):
        start, _, name = path.rpartition("::")
        names.setdefault(start, []).append(name)
    for start, found in names.items():
        line = f"use {start}::{{{', '.join(found)}}};" if len(found) > 1 else f"use {start}::{found[0]};"
        if len(line) > 100:
            words = textwrap.fill(f"{', '.join(found)},", 100, initial_indent="    ", subsequent_indent="    ")
            line = f"use {start}::{{\n{words}\n}};"
        lines.append(f"{line}\n")
    return "".join(sorted(lines))


def functions(text):
    """Returns a source without its imports, its comment lines and `pub`."""
    lines = [it for it in USE.sub("", text).split("\n") if not it.startswith("//")]
    return "\n".join(lines).replace("pub fn", "fn").strip()


def pages():
    """Yields the pages and the source files of crates, each with its Rust blocks in order."""
    for path in [f"{TOP}/README.md", f"{TOP}/docs/CALLING.md", *sorted(glob.glob(f"{TOP}/crates/*/README.md"))]:
        yield path, re.findall(r"^```rust\n(.*?)^```$", read(path), re.DOTALL | re.MULTILINE)
    for path in sorted(glob.glob(f"{TOP}/crates/*/src/**/*.rt", recursive=True)):
        docs = "\n".join(it.strip()[3:].removeprefix(" ") for it in read(path).split("\n") if it.strip().startswith("//"))
        blocks = re.findall(r"^```\n(.*?)^```$", docs, re.DOTALL | re.MULTILINE)
        yield path, [textwrap.dedent(block) for block in blocks]


def module(path):
    """Returns the folder and the name of the module of a page. Neither has the name of a library, which no module may have."""
    crate, rest = re.fullmatch(r"(?:crates/(\w+)/(?:src/)?|(?:docs/)?)([\w/]+)\.\w+", os.path.relpath(path, TOP)).groups()
    name = rest.replace("/", "_").lower()
    return f"{crate}_docs" if crate else "pages", f"{name}_type" if name == crate else name


def modules():
    """Returns the text of each generated file by its path below `src/`."""
    files, seen = {}, set()
    for path, blocks in pages():
        blocks = [it for it in {functions(it): it for it in blocks if imports(it)}.values() if functions(it) not in seen]
        if not blocks:
            continue
        seen |= {functions(it) for it in blocks}
        bodies = re.sub("^fn ", "pub fn ", "\n\n".join(functions(it) for it in blocks), flags=re.MULTILINE)
        folder, name = module(path)
        head = HEAD.format(os.path.relpath(path, TOP))
        files[f"{folder}/{name}.rt"] = f"{head}{uses(set().union(*map(imports, blocks)))}\n{bodies}\n"
    folders = sorted({it.partition("/")[0] for it in files})
    for folder in folders:
        names = sorted(it.removeprefix(f"{folder}/").removesuffix(".rt") for it in files if it.startswith(f"{folder}/"))
        files[f"{folder}.rt"] = HEAD.format(folder.removesuffix("_docs")) + "".join(f"pub mod {it};\n" for it in names)
    return files


def written():
    """Returns the paths below `src/` of the files that this script wrote."""
    paths = glob.glob(f"{CRATE}/**/*.rt", recursive=True)
    return {os.path.relpath(it, CRATE) for it in paths if WRITTEN in read(it).partition("\n")[0]}


def words():
    """Yields the words that docs/words.txt lists, each with its crate and its file in `specs/`. `all` is each word of a file."""
    for crate, name, listed in re.findall(r"^(\w+) (\w+): (.*)$", read(f"{TOP}/docs/words.txt"), re.MULTILINE):
        for word in listed.split(", "):
            yield crate, name, word


def check(tests):
    """Checks the words and the examples against the files, and that there are enough of both."""
    listed = list(words())
    for crate, name, word in listed:
        path = f"{TOP}/crates/{crate}/specs/{name}.antt"
        pattern = r"\w+" if word == "all" else word
        stands = re.search(rf"\bpub (?:data |record |rec )?{pattern}\b", read(path)) if os.path.exists(path) else None
        tests.check(f"{word} stands in {name} of {crate}, as docs/words.txt says", stands)
    tests.check("there are words to be cited", len(listed) > 50)
    wanted = modules()
    for name in sorted(wanted.keys() | written()):
        stands = os.path.exists(f"{CRATE}/{name}") and wanted.get(name) == read(f"{CRATE}/{name}")
        tests.check(f"crates/examples/src/{name} is what tests/docs/examples.py writes", stands)
    results = "".join(map(read, glob.glob(f"{CRATE}/results/*.rt")))
    for name, text in wanted.items():
        for function in re.findall(r"^pub fn (\w+)", text, re.MULTILINE):
            called = re.search(rf"(?<!fn )\b{function}\(", results + text)
            tests.check(f"crates/examples/src/results/ calls {function} of {name}", called)
    callers = functions(read(CALLERS))
    for block in [it for _, blocks in pages() for it in blocks if not imports(it)]:
        tests.check("an example without imports is in crates/examples/src/callers.rt", functions(block) in callers, block)
    tests.check("there are examples", sum(it.count("\npub fn ") for it in wanted.values()) > 100)


def main():
    wanted = modules()
    for name in written() - wanted.keys():
        os.remove(f"{CRATE}/{name}")
    for name, text in wanted.items():
        os.makedirs(os.path.dirname(f"{CRATE}/{name}"), exist_ok=True)
        with open(f"{CRATE}/{name}", "w", encoding="utf-8") as it:
            it.write(text)


if __name__ == "__main__":
    main()
