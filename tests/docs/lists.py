"""Checks lists of pages beside the files: crates, pages, scripts of benchmarks, folders of tests, packages and tested versions."""
import glob
import os
import re

TOP = os.path.dirname(os.path.dirname(os.path.dirname(os.path.abspath(__file__))))


def read(path):
    with open(f"{TOP}/{path}", encoding="utf-8") as it:
        return it.read()


def found(pattern):
    """Returns the names of files below the top."""
    return {os.path.basename(path.rstrip("/")) for path in glob.glob(f"{TOP}/{pattern}")}


def check(tests):
    crates = set(re.findall(r"^(\w+)(?: staticlib)?:", read("crates.txt"), re.MULTILINE))
    folders = {os.path.basename(os.path.dirname(path)) for path in glob.glob(f"{TOP}/crates/*/src")}
    tests.check("crates.txt lists the crates", crates == folders, crates ^ folders)
    rows = re.findall(r"^- (`.*?`): ", read("docs/ARCHITECTURE.md").partition("\n## The data flow")[0], re.MULTILINE)
    mapped = set(re.findall(r"`(\w+)`", " ".join(rows)))
    tests.check("docs/ARCHITECTURE.md maps the crates", mapped == crates, mapped ^ crates)
    rust, python = read("bindings/rust/Cargo.toml"), read("bindings/python/tests/interpreters.py")
    versions = {f"Rust {version}" for version in re.findall(r'^rust-version = "(.*)"', rust, re.MULTILINE)}
    versions |= set(re.findall(r'"(3\.\d+)"', re.search(r"^TESTED = \((.*)\)", python, re.MULTILINE)[1]))
    for page, what, names in [
        ("README.md", "page", {f"(docs/{name}" for name in found("docs/*.md")}),
        ("README.md", "tested version", versions),
        ("bench/README.md", "script", {f"`{name}" for name in found("bench/*.sh")}),
        ("tests/README.md", "folder", {f"`{name}/`" for name in found("tests/*/") - {"__pycache__"}}),
        ("release/README.md", "package", {f"`{name}`" for name in re.findall(r"^Package: (.*)$", read("release/debian/control"), re.MULTILINE)}),
    ]:
        text = read(page)
        tests.check(f"there are {what}s for {page}", len(names) > 2, names)
        for name in sorted(names):
            tests.check(f"{page} lists the {what} {name}", name in text)
