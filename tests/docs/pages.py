"""Runs the blocks of pages as a reader copies them, and compares what they print with what the page shows.

    python3 tests/docs/pages.py SKETCHES ARCHIVE [PAGE ..]

SKETCHES is the built program, and ARCHIVE what `rt lib` builds in crates/datasketches_c. From it come the C library, which is installed in
a folder of its own, the Python package, and the extension for PostgreSQL. Its server listens on a unix socket alone. The script prints the
blocks that failed and then 'N passed, M failed'.

The blocks of a page run in order, in one folder, which has only the licence of the repository and the files of docs/recipes at first:

    ```console              commands of bash; the output of each is that of both streams
    indented `$ sketches`   the same
    ```python               examples as those of doctest, by a process of their own
    ```sql                  queries for psql; the block ```text after them is their output

Other blocks are not run. Each of them but an indented one needs the words 'is not run' in the page.
"""
import filecmp
import os
import re
import shutil
import subprocess
import sys
import tempfile

TOP = os.path.dirname(os.path.dirname(os.path.dirname(os.path.abspath(__file__))))
sys.path[:0] = [f"{TOP}/bindings/postgresql/tests", f"{TOP}/tests"]

import blocks  # noqa: E402
import checks  # noqa: E402
import server  # noqa: E402

PAGES = ["README.md", "docs/RECIPES.md", "crates/sketches/README.md"]
PYTHON = "/usr/bin/python3"
TRIED = "import doctest, sys; ran = doctest.testfile(sys.argv[1], module_relative=False); sys.exit(ran.failed > 0 or not ran.attempted)"


def trimmed(text):
    """Returns a text without blanks at the ends of its lines and without empty lines at its end."""
    return "\n".join(line.rstrip() for line in text.rstrip().split("\n"))


class Tests(checks.Checks):
    def __init__(self, program, archive, work):
        super().__init__(work)
        self.ran = 0
        self.build(os.path.abspath(program), os.path.abspath(archive))

    def build(self, program, archive):
        """Builds and installs what the blocks use, below the folder of the tests."""
        work, build = self.work, {**os.environ, "PYTHON": PYTHON}
        for name, words in [("c", ["build.sh", f"{work}/built"]), ("python", ["build.sh", f"{work}/built"])]:
            subprocess.run(["bash", f"{TOP}/bindings/{name}/{words[0]}", *words[1:], archive], check=True, env=build, stdout=subprocess.DEVNULL)
        subprocess.run(["bash", f"{TOP}/bindings/c/install.sh", "--prefix", f"{work}/usr", f"{work}/built"], check=True)
        server.copy_programs(f"{work}/tree")
        server.install(f"{work}/tree", f"{work}/built/libdatasketches.a", work)
        os.mkdir(f"{work}/bin")
        os.symlink(program, f"{work}/bin/sketches")
        self.server = server.Server(f"{work}/tree", f"{work}/server")
        cargo = os.path.dirname(os.environ.get("CARGO", "/usr/bin/cargo"))
        self.env = {"PATH": f"{work}/bin:{self.server.bin}:{cargo}:/usr/bin:/bin", "LANG": "C.UTF-8", "HOME": work,
                    "PKG_CONFIG_PATH": f"{work}/usr/lib/pkgconfig", "LD_LIBRARY_PATH": f"{work}/usr/lib", "PYTHONPATH": f"{work}/built",
                    "PGHOST": self.server.folder, "PGUSER": "postgres", "CARGO_NET_OFFLINE": "true", "CARGO_TARGET_DIR": f"{work}/target"}

    def run(self, words, folder, text="", **settings):
        """Runs a command in a folder. Returns its status and the output of both streams."""
        self.ran += 1
        ran = subprocess.run(words, cwd=folder, env={**self.env, **settings}, input=text, stdout=subprocess.PIPE, stderr=subprocess.STDOUT,
                             encoding="utf-8", errors="replace", timeout=300)
        return ran.returncode, ran.stdout

    def page(self, page):
        """Runs the blocks of a page."""
        with open(f"{TOP}/{page}", encoding="utf-8") as file:
            text = file.read()
        before = self.ran
        database = re.sub(r"\W+", "_", page).lower()
        folder = f"{self.work}/{database}"
        shutil.copytree(f"{TOP}/docs/recipes", folder)
        os.mkdir(f"{folder}/datasketches")
        os.symlink(f"{TOP}/bindings/rust", f"{folder}/datasketches/rust")
        shutil.copy(f"{TOP}/LICENSE", folder)
        found = blocks.blocks(text)
        if any(kind == "sql" for kind, _ in found):
            self.run(["createdb", database], folder)
        for at, (kind, block) in enumerate(found):
            if blocks.is_transcript(kind, block):
                for command, wanted in blocks.commands(block):
                    status, got = self.run(["bash", "-o", "pipefail", "-c", command], folder)
                    self.check(f"{page}: {command.rstrip()}", got == wanted and (status == 0 or wanted != ""), got)
            elif kind == "python":
                with open(f"{folder}/block.txt", "w", encoding="utf-8") as file:
                    file.write(block)
                status, got = self.run([PYTHON, "-c", TRIED, "block.txt"], folder)
                self.check(f"{page}: an example of Python", status == 0, got)
            elif kind == "sql":
                status, got = self.run(["psql", "-X", "-q", "-v", "ON_ERROR_STOP=1", "-d", database], folder, text=block)
                wanted = found[at + 1][1] if at + 1 < len(found) and found[at + 1][0] == "text" else ""
                self.check(f"{page}: {block}", status == 0 and trimmed(got) == trimmed(wanted), got)
            elif kind not in ("indented", "text"):
                self.check(f"{page}: a block of {kind} is run, or the page says that it is not", "is not run" in text)
        self.check(f"{page}: has blocks that run", self.ran > before)

    def pictures(self):
        """Checks that each picture of docs/plots is what the script of its name draws from bench/results."""
        listed = os.listdir(f"{TOP}/docs/plots")
        scripts, drawn = [sorted(name.removesuffix(end) for name in listed if name.endswith(end)) for end in (".py", ".svg")]
        self.check("docs/plots has a script for each picture", len(drawn) > 2 and scripts == drawn, (scripts, drawn))
        for name in scripts:
            path = f"{self.work}/{name}.svg"
            status, said = self.run([PYTHON, f"{TOP}/docs/plots/{name}.py", path], self.work)
            same = status == 0 and name in drawn and filecmp.cmp(f"{TOP}/docs/plots/{name}.svg", path, shallow=False)
            self.check(f"docs/plots/{name}.svg is what docs/plots/{name}.py draws", same, said)


def main():
    words = sys.argv[1:]
    with tempfile.TemporaryDirectory() as work:
        os.chmod(work, 0o755)
        tests = Tests(*words[:2], work)
        with tests.server:
            for page in words[2:] or PAGES:
                tests.page(page)
        tests.pictures()
        tests.end()


main()
