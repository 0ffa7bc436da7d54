"""Checks that each file with the version has that of the file `VERSION`, and that the page on releases lists these files."""
import os
import re

TOP = os.path.dirname(os.path.dirname(os.path.dirname(os.path.abspath(__file__))))

# The files, and what stands around the version there.
FILES = {
    "bindings/c/include/datasketches.h": '#define DS_VERSION "{}"\n',
    "bindings/rust/Cargo.toml": 'version = "{}"\n',
    "bindings/postgresql/sketches_rattle.control": "default_version = '{}'\n",
    "crates/datasketches_cli/src/arguments.rt": 'pub const VERSION: &str = "datasketches_cli {}";\n',
    "crates/sketches/src/arguments/options.rt": '.version("{}")\n',
}


def read(path):
    with open(f"{TOP}/{path}", encoding="utf-8") as it:
        return it.read()


def check(tests):
    version = read("VERSION").strip()
    for path, line in FILES.items():
        tests.check(f"{path} has the version of VERSION, {version}", line.format(version) in read(path))
    header = re.findall(r"^#define DS_VERSION_\w+ (\d+)$", read("bindings/c/include/datasketches.h"), re.MULTILINE)
    tests.check("datasketches.h has the version's numbers", ".".join(header) == version, header)
    tests.check("CHANGELOG.md has the version", f"## [{version}]" in read("CHANGELOG.md"))
    step = re.search(r"^1\. Write the new version into .*?\.$", read("release/README.md"), re.DOTALL | re.MULTILINE)[0]
    listed = set(re.findall(r"`([^`]+)`", step)) - {"VERSION"}
    tests.check("release/README.md lists the files with the version", listed == set(FILES), listed ^ set(FILES))
