"""Builds the module and tests it in servers of its own, each on a unix socket in a temporary folder, which are stopped at the end.
Only a server with a replica listens on a port, of 127.0.0.1: Redis has no other way to a replica.

    python3 bindings/redis/tests/run.py ARCHIVE [--only GROUP ..]

ARCHIVE is what `rt lib` builds from `crates/datasketches_c`. It prints the failed tests, a line for each group of tests, and then
'N passed, M failed'. REDISMODULE_H is that of `build.sh`.
"""
import os
import signal
import subprocess
import sys
import tempfile
import time

HERE = os.path.dirname(os.path.abspath(__file__))
MODULE = os.path.dirname(HERE)
BINDINGS = os.path.dirname(MODULE)
sys.path[:0] = [HERE, f"{os.path.dirname(BINDINGS)}/tests"]

import changes  # noqa: E402
import checked  # noqa: E402
import checks  # noqa: E402
import clients  # noqa: E402
import cluster  # noqa: E402
import commands  # noqa: E402
import counted  # noqa: E402
import damage  # noqa: E402
import exact  # noqa: E402
import full_filters  # noqa: E402
import guards  # noqa: E402
import memory  # noqa: E402
import oracle  # noqa: E402
import planted  # noqa: E402
import redis_page  # noqa: E402
import replicas  # noqa: E402
import results  # noqa: E402
import server  # noqa: E402
import stored  # noqa: E402


class Tests(checks.Checks):
    """Counts tests. `main` is the server that most groups use."""

    def __init__(self, work, archive):
        super().__init__(work)
        self.main = None
        self.built = f"{work}/built"
        subprocess.run(["bash", f"{BINDINGS}/c/build.sh", self.built, archive], check=True, stdout=subprocess.DEVNULL)
        self.library = oracle.Library(f"{self.built}/libdatasketches.so.0")
        self.header = os.environ.get("REDISMODULE_H")
        if not self.header:
            self.header = f"{work}/redismodule.h"
            subprocess.run(["bash", f"{MODULE}/header.sh", self.header], check=True)
        self.module = self.build("module")

    def build(self, name, flags="-O2", sources=MODULE):
        """Builds the module with flags of the compiler, and returns its file."""
        folder = f"{self.work}/{name}"
        env = {**os.environ, "REDISMODULE_H": self.header, "CFLAGS": flags}
        made = subprocess.run(
            ["bash", f"{sources}/build.sh", folder, f"{self.built}/libdatasketches.a"], env=env, capture_output=True, text=True
        )
        if made.returncode:
            raise RuntimeError(made.stderr[-4000:])
        return f"{folder}/rattle_sketches.so"

    def server(self, name, module=None, **settings):
        return server.Server(f"{self.work}/{name.replace(' ', '_')}", module or self.module, **settings)


GROUPS = [
    commands.replies,
    commands.kinds,
    commands.binary,
    commands.lines,
    clients.command_line,
    clients.python,
    commands.documented,
    commands.any_words,
    counted.counted_items,
    counted.random_limits,
    exact.filters,
    exact.counts,
    exact.frequent,
    exact.images,
    exact.interleaved,
    results.sizes,
    results.rates,
    results.top_counts,
    results.top_queries,
    results.large_tables,
    results.first_rows,
    results.halves,
    results.merged_filters,
    results.scripts,
    results.replaced,
    changes.events_and_watch,
    changes.quiet_replicas,
    changes.live_filters,
    changes.live_replicas,
    guards.secrets,
    guards.hashes,
    guards.information,
    guards.numbers,
    guards.parameters,
    guards.damaged_keys,
    full_filters.default_sizes,
    full_filters.small_filters,
    full_filters.full_filters,
    full_filters.full_replicas,
    stored.reloads,
    stored.dumps,
    stored.chunks,
    stored.rewritten,
    stored.killed,
    stored.seeds,
    cluster.slots,
    cluster.migrated,
    cluster.keyed,
    replicas.follows,
    replicas.cut_off,
    damage.damaged_payloads,
    damage.unsound_states,
    damage.damaged_images,
    damage.damaged_files,
    memory.failing,
    memory.limits,
    memory.full,
    memory.freed,
    redis_page.page_commands,
    checked.valgrind,
    planted.wrong_builds,
]


def run_group(tests, group):
    """Runs a group of tests, and prints how many passed and failed."""
    began, before = time.monotonic(), (tests.passed, tests.failed)
    try:
        group(tests)
    except Exception as error:  # a group that ends so is a failed test, and the others still run
        tests.check(group.__name__, False, f"{type(error).__name__}: {error}\n{tests.main.log()[-1500:]}")
    if tests.main.process is not None and not tests.main.runs():
        tests.check(f"the server runs after {group.__name__}", False, tests.main.log()[-3000:])
        tests.main.start()
    print(
        f"Redis, {group.__name__.replace('_', ' ')}: {tests.passed - before[0]} passed, {tests.failed - before[1]} failed, "
        f"{time.monotonic() - began:.1f} s",
        flush=True,
    )


def main():
    words = sys.argv[1:]
    only = []
    if "--only" in words:
        only = words[words.index("--only") + 1 :]
        words = words[: words.index("--only")]
    signal.signal(signal.SIGTERM, lambda *_: sys.exit(1))
    (archive,) = [os.path.abspath(word) for word in words]
    with tempfile.TemporaryDirectory() as work:
        tests = Tests(work, archive)
        with tests.server("main") as tests.main:
            for group in GROUPS:
                if not only or group.__name__ in only:
                    run_group(tests, group)
            tests.check("the server stops", tests.main.stop() == 0)
    tests.end()


main()
