"""Builds the extension, installs it beside a copy of Debian's PostgreSQL, and tests it over a server of its own, which listens on a
unix socket alone and is stopped at the end.

    python3 bindings/postgresql/tests/run.py PROGRAM ARCHIVE

prints the failed tests, a line for each group of tests, and then 'N passed, M failed'.
Words after `--only` name groups. As root, the server runs as the user `postgres` or `nobody`.
"""
import copy
import os
import re
import shutil
import signal
import subprocess
import sys
import tempfile
import threading
import time

HERE = os.path.dirname(os.path.abspath(__file__))
EXTENSION = os.path.dirname(HERE)
BINDINGS = os.path.dirname(EXTENSION)
sys.path[:0] = [HERE, f"{os.path.dirname(BINDINGS)}/tests"]

import bounds  # noqa: E402
import checks  # noqa: E402
import constants  # noqa: E402
import damage  # noqa: E402
import ends  # noqa: E402
import errors  # noqa: E402
import exchange  # noqa: E402
import frames  # noqa: E402
import item_types  # noqa: E402
import limits  # noqa: E402
import memory  # noqa: E402
import page  # noqa: E402
import restored  # noqa: E402
import scripts  # noqa: E402
import server  # noqa: E402
import statuses  # noqa: E402
import stored  # noqa: E402
import versions  # noqa: E402

PYTHON = "/usr/bin/python3"
VALGRIND = ["valgrind", "-q", "--trace-children=yes", "--leak-check=no", "--error-limit=no", "--fullpath-after="]


class Tests(checks.Checks):
    """Counts tests. `main` is the server that most groups use, with the extension in the database `postgres`."""

    def __init__(self, work, program, archive):
        super().__init__(work)
        self.program = program
        self.tree = f"{work}/tree"
        self.built = f"{work}/built"
        self.main = self.checked = None
        subprocess.run(["bash", f"{BINDINGS}/c/build.sh", self.built, archive], check=True, stdout=subprocess.DEVNULL)
        subprocess.run(["bash", f"{BINDINGS}/python/build.sh", self.built, archive], check=True, stdout=subprocess.DEVNULL,
                       env={**os.environ, "PYTHON": PYTHON})
        server.copy_programs(self.tree)
        self.build(self.tree)

    def build(self, tree, **settings):
        """Builds the extension with settings of `make`, and installs it in a tree."""
        server.install(tree, f"{self.built}/libdatasketches.a", self.work, **settings)

    def stop(self):
        """Stops the server under valgrind, so that its tests end."""
        if self.checked is not None:
            self.checked.stop()

    def server(self, name, tree=None, **settings):
        return server.Server(tree or self.tree, f"{self.work}/{name}", **settings)

    def regressions(self, name, on, program="pg_regress", folder=EXTENSION, kind="sql", seconds=300, words=(), without=()):
        """Runs the files of a folder `sql` or `specs` over a server, and compares their output with that in `expected`."""
        files = sorted(file[:-len(kind) - 1] for file in os.listdir(f"{folder}/{'sql' if kind == 'sql' else 'specs'}"))
        if kind == "sql":
            files = re.search(r"^REGRESS = (.*)$", text_of(f"{EXTENSION}/Makefile"), re.MULTILINE)[1].split()
            files = [file for file in files if file not in without]
        inside = tempfile.mkdtemp(dir=self.work)
        for part in ["sql" if kind == "sql" else "specs", "expected"]:
            shutil.copytree(f"{folder}/{part}", f"{inside}/{part}")
        server.give(inside)
        os.chmod(inside, 0o755)
        path = f"{server.asked('--pkglibdir')}/pgxs/src/test/{'regress' if kind == 'sql' else 'isolation'}/{program}"
        ran = on.run(path, f"--inputdir={inside}", f"--outputdir={inside}", f"--bindir={on.bin}", f"--host={on.folder}",
                     "--dbname=regression", *words, *files, check=False, seconds=seconds)
        lines = ran.stdout.decode(errors="replace").splitlines()
        good = {re.split(r"\s+", line)[1] for line in lines if re.match(r"test .*\.\.\. ok", line)}
        differences = f"{inside}/regression.diffs"
        if not os.path.exists(differences):
            differences = f"{inside}/output_iso/regression.diffs"
        said = text_of(differences) if os.path.exists(differences) else "\n".join(lines[-20:]) + ran.stderr.decode()
        for file in files:
            self.check(f"{name} {file}", file in good, said)
            said = "" if file not in good else said


def text_of(path):
    with open(path, encoding="utf-8", errors="replace") as file:
        return file.read()


def queries(tests):
    """The files that are written as users write queries."""
    tests.regressions("sql", tests.main)


def isolation(tests):
    """Sessions that change one stored sketch at once."""
    tests.regressions("isolation", tests.main, program="pg_isolation_regress", folder=HERE, kind="spec",
                      words=["--load-extension=sketches_rattle"])


def reports_of(log):
    """Returns the reports of valgrind that come from the extension or the library, and not from PostgreSQL alone. The last part of
    a report is about the block that an address is in, and does not show where the report comes from."""
    reports = re.split(r"^==\d+== *\n", log, flags=re.MULTILINE)
    stacks = [re.split("Address 0x|Uninitialised value was", report)[0] for report in reports]
    return [stack for stack in stacks if re.search(r"\(/[^)]*/src/\w+\.c:\d+\)|marked\.h:|sketches_rattle\.so", stack)]


def valgrind(tests):
    """Most queries on a server whose processes run under valgrind, with an extension that marks the ends of its memory."""
    tree = f"{tests.work}/checked tree"
    server.copy_programs(tree)
    tests.build(tree, COPT=f"-g -O1 -include {HERE}/marked.h -Wno-pedantic")
    with tests.server("checked", tree=tree, before=[*VALGRIND, f"--log-file={tests.work}/checked/valgrind.%p"]) as checked:
        tests.checked = checked
        tests.regressions("under valgrind,", checked, seconds=900, without=["parallel", "planner"])
        with checked.session("regression", **ends.WORKERS) as session, session.cursor() as cursor:
            cursor.execute("CREATE TABLE spread_rows WITH (parallel_workers = 2) AS SELECT i, 'item ' || i AS string "
                           "FROM generate_series(1::bigint, 5000) AS i")
            cursor.execute("SELECT (sketch_status(frequent_strings_agg(string, i, 64))).total_weight, "
                           "(sketch_status(frequent_bigints_agg(i, i, 64))).total_weight, sketch_estimate(count_min_agg_sized(i, 1, 3, 9000), 7), "
                           "sketch_estimate(signed_count_min_agg_sized(string, -1, 3, 9000), 'item 7'), "
                           "sketch_contains(bloom_filter_agg_sized(i, 99999, 7), 7) FROM spread_rows")
            total = 5000 * 5001 // 2
            row = cursor.fetchone()
            tests.check("workers under valgrind", row[:2] == (total, total) and row[2] >= 1 and row[4] is True, row)
        logs = [text_of(f"{checked.folder}/{name}") for name in os.listdir(checked.folder) if name.startswith("valgrind.")]
        tests.check("processes ran under valgrind", len(logs) > 10, len(logs))
        said = [report for log in logs for report in reports_of(log)]
        tests.check("valgrind reports nothing of the extension", not said, "".join(said))


GROUPS = [scripts.attacks, scripts.schemas, queries, isolation, bounds.every_key, ends.cancels, ends.many_cancels, ends.killed,
          ends.out_of_memory,
          stored.dump_and_restore, stored.copied, stored.encodings, stored.collations, stored.versions, stored.owned, stored.compressed,
          constants.pushed, constants.without_rights, frames.linear, item_types.types, item_types.plans, item_types.direct, item_types.orders, item_types.images_of_other_items,
          item_types.comments, limits.small_images, limits.planned, limits.administrators, limits.settings, limits.known,
          limits.kept_by_use, limits.kept_in_part, limits.long_strings, memory.statements,
          restored.dumps, restored.replicas, restored.too_large, restored.short_texts,
          restored.changed_images,
          exchange.interfaces, exchange.seeds, page.page_queries, page.filter_is_faster, page.items, statuses.columns, errors.listed_errors, damage.damaged_bytes, versions.compiles]


def run_group(tests, group):
    """Runs a group of tests, and prints how many passed and failed."""
    began, before = time.monotonic(), (tests.passed, tests.failed)
    try:
        group(tests)
    except Exception as error:  # a group that ends so is a failed test, and the others still run
        tests.check(group.__name__, False, f"{type(error).__name__}: {error}\n{tests.main.log()[-500:]}")
    print(f"PostgreSQL, {group.__name__.replace('_', ' ')}: {tests.passed - before[0]} passed, "
          f"{tests.failed - before[1]} failed, {time.monotonic() - began:.0f} s", flush=True)


def main():
    words = sys.argv[1:]
    only = []
    if "--only" in words:
        only = words[words.index("--only") + 1:]
        words = words[:words.index("--only")]
    signal.signal(signal.SIGTERM, lambda *_: sys.exit(1))
    program, archive = [os.path.abspath(word) for word in words]
    with tempfile.TemporaryDirectory() as work:
        os.chmod(work, 0o755)
        began = time.monotonic()
        tests = Tests(work, program, archive)
        print(f"PostgreSQL: built in {time.monotonic() - began:.0f} s", flush=True)
        with tests.server("main") as tests.main:
            with tests.main.session() as session, session.cursor() as cursor:
                cursor.execute("CREATE EXTENSION sketches_rattle")
            # The server under valgrind takes as long as all other groups, so it runs beside them.
            beside = copy.copy(tests)
            beside.passed, beside.failed = 0, 0
            thread = threading.Thread(target=run_group, args=(beside, valgrind))
            if not only or "valgrind" in only:
                thread.start()
            try:
                for group in GROUPS:
                    if not only or group.__name__ in only:
                        run_group(tests, group)
            except BaseException:
                beside.stop()
                raise
            finally:
                if thread.ident is not None:
                    thread.join()
    passed, failed = tests.passed + beside.passed, tests.failed + beside.failed
    print(f"{passed} passed, {failed} failed")
    sys.exit(1 if failed else 0)


main()
