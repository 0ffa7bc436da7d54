"""A session under valgrind: every command, files and copies, with no report of the module or the library."""
import glob
import os
import re

import commands
import damage
import stored

SOURCES = [
    os.path.splitext(name)[0]
    for name in os.listdir(os.path.join(os.path.dirname(os.path.abspath(__file__)), "../src"))
    if name.endswith(".c")
]

VALGRIND = [
    "valgrind",
    "-q",
    "--leak-check=full",
    "--show-leak-kinds=definite",
    "--error-limit=no",
    "--soname-synonyms=somalloc=libjemalloc*",
    "--num-callers=20",
]


def reports_of(log):
    """Returns the reports of valgrind that come from the module or the library, and not from the server alone."""
    reports = re.split(r"^==\d+== *\n", log, flags=re.MULTILINE)
    stacks = [re.split("Address 0x|Uninitialised value was", report)[0] for report in reports]
    return [
        stack
        for stack in stacks
        if "rattle_sketches" in stack
        or re.search(
            rf"\(({'|'.join(SOURCES)})\.c:",
            stack,
        )
    ]


def valgrind(tests):
    module = tests.build("checked", "-g -O1 -DRATTLE_FAILING_ALLOCATIONS")
    on = tests.server("checked server", module, rdbcompression="no")
    on.before = [*VALGRIND, f"--log-file={on.folder}/valgrind.%p"]
    with on, on.client() as client:
        for command, _ in commands.REPLIES:
            client(*command.split())
        client.done("FLUSHALL")
        client.done("FREQ.RESERVE", "r", 64)
        for item in commands.BINARY:
            client.done("BF.ADD", "f", item)
            client.done("FREQ.ADD", "r", item)
        client.done("FREQ.ROWS", "r")
        stored.fill(client, "checked")
        whole = client.done("BF.SCANDUMP", "filter", 0)[1]
        client.done("BF.LOADCHUNK", "parts", 100, whole[:100])
        for key in ["top", "large"]:
            client.done("TOPK.QUERY", key, "item 1 checked", "none")
            client.done("FREQ.ROWS", key, "COUNT", 5)
        before = stored.state(client)
        client.done("DEBUG", "RELOAD")
        for key in stored.KEYS:
            client.done("COPY", key, f"{key} copied")
            client.done("RESTORE", f"{key} restored", 0, client.done("DUMP", key))
        tests.check("under valgrind", stored.state(client) == before)
        client.done("BF.RESERVE", "live", "0.01", 10)
        for end in [100, 300]:  # parts aside, which a new value, an expiry and a second begin free
            client.done("BF.LOADCHUNK", "live", 100, whole[:100])
            client.done("BF.LOADCHUNK", "live", end + 100, whole[100 : end + 100])
        client.done("BF.MADD", "live", *range(5))
        client.done("BF.MERGE", "merged", "live")
        client("BF.MADD", "live", *range(100))
        client("BF.ADDLINES", "live", "\n".join(map(str, range(3000))))
        client.done("BF.ADDLINES", "live", "0\n1\n" * 3000)
        client.done("BF.LOADCHUNK", "live", 100, whole[:100])
        client.done("BF.LOADCHUNK", "live", len(whole), whole)
        client.done("FREQ.HALVE", "large")
        client.done("CONFIG", "SET", "rattle_sketches.max-bytes", "100kb")
        for item in ["x", "y", "z"]:
            client("FREQ.ADD", "large", *[f"{item}{i % 300}".ljust(200, "x") for i in range(2000)], *["item 1 checked"] * 500)
        client("FREQ.ADDLINES", "large", "\n".join(f"new {i}".ljust(50) for i in range(9000)))
        client.done("CONFIG", "SET", "rattle_sketches.max-bytes", "64mb")
        keys = damage.small(client)
        numbers = damage.random.Random(5)
        for key in keys:
            payload = client.done("DUMP", key)
            for _ in range(40):
                client("RESTORE", "damaged", 0, damage.with_checksum(damage.changed(payload[:-10], numbers) + payload[-10:]))
        for allocation in range(4):
            client.done("FREQ.RESERVE", f"fails {allocation}", 256)
            client.done("SKETCH.FAIL", allocation, "for good")
            client("FREQ.ADD", f"fails {allocation}", *range(300))
            client("FREQ.MERGE", f"fails {allocation}", "items")
            client.done("SKETCH.FAIL", -1)
        client.done("UNLINK", *[f"fails {allocation}" for allocation in range(4)])
        client.done("FLUSHALL", "SYNC")
        tests.check("the server under valgrind stops", on.stop() == 0)
    logs = [open(name, encoding="utf-8", errors="replace").read() for name in glob.glob(f"{on.folder}/valgrind.*")]
    tests.check("a server ran under valgrind", len(logs) >= 1)
    said = [report for log in logs for report in reports_of(log)]
    tests.check("valgrind reports nothing of the module", not said, "".join(said))
