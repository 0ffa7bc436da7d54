"""Memory: allocations that fail in the middle of each command, limits, `maxmemory`, and what is freed."""
import time

import oracle
import stored
from resp import Error

# A command, on the keys of `prepare`.
COMMANDS = [
    ("BF.RESERVE", "new", "0.01", 1000),
    ("BF.ADD", "filter", "x"),
    ("BF.ADD", "new", "x"),
    ("BF.MADD", "filter", *range(1000)),
    ("BF.INSERT", "new", "ITEMS", *range(500)),
    ("BF.ADDLINES", "filter", "\n".join(map(str, range(3000)))),
    ("BF.ADDLINES", "new", "\n".join(map(str, range(3000)))),
    ("BF.ADDLINES", "filter", "\n".join(map(str, [*range(2500), *range(2500)]))),
    ("BF.MADD", "filter", *range(4100)),
    ("BF.MERGE", "filter", "more"),
    ("BF.MERGE", "new", "filter", "more"),
    ("BF.EXISTS", "filter", "a"),
    ("BF.MEXISTS", "filter", *range(1000)),
    ("BF.CARD", "filter"),
    ("BF.INFO", "filter"),
    ("BF.SCANDUMP", "filter", 0),
    ("CMS.INITBYDIM", "new", 100, 3),
    ("CMS.INITBYPROB", "new", "0.01", "0.01"),
    ("CMS.INCRBY", "count", *[word for i in range(300) for word in (f"item {i}", i)]),
    ("CMS.ADDLINES", "count", "\n".join(map(str, range(3000)))),
    ("CMS.QUERY", "count", *range(500)),
    ("CMS.INFO", "count"),
    ("CMS.DECAY", "count", 1, 2),
    ("CMS.HALVE", "count"),
    ("CMS.MERGE", "count", 2, "count", "count", "WEIGHTS", 7, 12),
    ("TOPK.RESERVE", "new", 5),
    ("TOPK.ADD", "items", *[f"new {i}" for i in range(300)]),
    ("TOPK.ADD", "empty", *[f"new {i}" for i in range(700)]),
    ("TOPK.INCRBY", "items", *[word for i in range(200) for word in (f"other {i}", i)]),
    ("TOPK.QUERY", "items", "item 1", "b"),
    ("TOPK.QUERY", "top", "item 1", "item 2"),
    ("TOPK.INCRBY", "asked", *[word for i in range(12) for word in (f"item {i}", 100 * i)]),
    ("TOPK.QUERY", "asked", "item 1", "item 2"),
    ("TOPK.COUNT", "items", "item 1"),
    ("TOPK.LIST", "items", "WITHCOUNT"),
    ("TOPK.LIST", "top", "WITHCOUNT"),
    ("FREQ.ROWS", "asked", "COUNT", 1),
    ("TOPK.INFO", "items"),
    ("FREQ.RESERVE", "new", 64),
    ("FREQ.ADD", "items", "item 1", "one more"),
    ("FREQ.ADD", "items", b"\xff" * 100, "x" * 5000, ""),
    ("FREQ.ADDLINES", "empty", "\n".join(map(str, range(700)))),
    ("FREQ.ADDLINES", "items", b"\xff" * 100 + b"\n" + b"x" * 5000 + b"\n\n" + b"\xfe"),
    ("FREQ.INCRBY", "empty", *[word for i in range(600) for word in (f"w {i}", i)]),
    ("FREQ.BOUNDS", "items", *range(200)),
    ("FREQ.ROWS", "items"),
    ("FREQ.ROWS", "items", "COUNT", 3),
    ("FREQ.INFO", "items"),
    ("FREQ.HALVE", "items"),
    ("SKETCH.INFO", "items"),
    ("FREQ.MERGE", "items", "other"),
    ("FREQ.MERGE", "new", "items", "other"),
    ("SKETCH.IMAGE", "items"),
    ("SKETCH.IMAGE", "filter"),
    ("SKETCH.SEED", "filter"),
    ("COPY", "items", "new"),
    ("COPY", "count", "new"),
]


def prepare(client):
    client.done("FLUSHALL")
    for name in ["top", "asked"]:
        client.done("TOPK.RESERVE", name, 2)
        client.done("TOPK.INCRBY", name, *[word for i in range(10) for word in (f"item {i}", 5 + 3 * i)])
    client.done("TOPK.QUERY", "asked", "item 1", "item 8")
    client.done("BF.RESERVE", "filter", "0.01", 4000)
    client.done("BF.RESERVE", "more", "0.01", 4000)
    client.done("BF.MADD", "more", *range(50, 150))
    client.done("CMS.INITBYDIM", "count", 50, 3)
    for name, size in [("items", 256), ("other", 128), ("empty", 1024)]:
        client.done("FREQ.RESERVE", name, size)
    client.done("BF.MADD", "filter", *range(100))
    client.done("CMS.INCRBY", "count", *[word for i in range(50) for word in (f"item {i}", i)])
    # Weights that differ, so that no order of rows is left to the table.
    client.done("FREQ.INCRBY", "items", *[word for i in range(150) for word in (f"item {i}", 1000 + 7 * i)])
    client.done("FREQ.INCRBY", "other", *[word for i in range(60) for word in (f"other {i}", 9000 + 5 * i)])


def seen(client):
    """Returns what a command left. A purge may leave other counters under another key of the table, but the same total."""
    info = [client("FREQ.INFO", key) for key in ["items", "empty", "new"]]
    totals = [it if isinstance(it, Error) else it[7] for it in info]
    purged = any(not isinstance(it, Error) and it[9] > 0 for it in info)
    return totals if purged else [totals, client.done("DEBUG", "DIGEST")]


# Commands that allocate nothing.
SPARING = [
    "BF.CARD",
    "BF.INFO",
    "CMS.INFO",
    "TOPK.INFO",
    "FREQ.INFO",
    "SKETCH.SEED",
    "SKETCH.INFO",
    "BF.EXISTS",
    "CMS.DECAY",
    "CMS.HALVE",
    "BF.ADD",
]


def fail_each(client, command, for_good):
    """Makes each allocation of a command fail in turn, alone or with all after it. Returns how many replies were errors, and what
    was wrong."""
    prepare(client)
    wanted, after = client(*command), seen(client)
    errors, wrong, at = 0, [], 0
    out_of_memory = "ERR module key failed to copy" if command[0] == "COPY" else "OOM out of memory: nothing changed"
    while at < 400:
        prepare(client)
        before = client.done("DEBUG", "DIGEST")
        client.done("SKETCH.FAIL", at, *for_good)
        got = client(*command)
        left = client.done("SKETCH.FAIL", -1)
        if isinstance(got, Error):
            errors += 1
            if str(got) != out_of_memory or client.done("DEBUG", "DIGEST") != before:
                wrong.append((at, got))
        elif got != wanted or seen(client) != after:
            wrong.append((at, got, wanted, seen(client), after))
        if left > 0 or (not for_good and left == 0):
            break
        at += 1 if at < 12 else 7
    return errors, wrong


def failing(tests):
    """Each allocation of each command fails in turn, alone and with all after it. The reply is an error and nothing changed, or the
    reply is right and all of the command is done."""
    module = tests.build("failing", "-O2 -DRATTLE_FAILING_ALLOCATIONS")
    with tests.server("failing server", module) as on, on.client() as client:
        prepare(client)
        more = [("SKETCH.STATE", "new", 0, part) for part in states(client)]
        for kind, key in [("bloom_filter", "filter"), ("frequent_strings", "items")]:
            more.append(("SKETCH.LOAD", "new", kind, client.done("SKETCH.IMAGE", key)))
        whole = client.done("BF.SCANDUMP", "filter", 0)[1]
        more += [("BF.LOADCHUNK", "new", 1000, whole[:1000]), ("BF.LOADCHUNK", "new", len(whole), whole)]
        looked_up = [
            ("FREQ.ADD", "empty", *[f"{i % 50} ".ljust(100, "x") for i in range(600)]),
            ("FREQ.ADDLINES", "empty", "\n".join(f"{i % 150}".ljust(100, "x") for i in range(600))),
            ("FREQ.ADD", "items", *[f"item {i}" for i in range(150)] * 20),
        ]
        for command in COMMANDS + more + looked_up:
            name = " ".join(map(str, command))[:60]
            client.done("CONFIG", "SET", "rattle_sketches.max-bytes", "46000" if command in looked_up else "64mb")
            for for_good in [[], ["for good"]]:
                errors, wrong = fail_each(client, command, for_good)
                tests.check(f"allocations of {name} that fail {for_good}", not wrong, wrong[:2])
                tests.check(f"some allocation of {name} fails", errors > 0 or command[0] in SPARING, errors)


def states(client):
    """Returns the states of a filter and of frequent items, as they are in a payload."""
    client.done("CONFIG", "SET", "rdbcompression", "no")
    found = []
    for key in ["filter", "items"]:
        payload = client.done("DUMP", key)
        state = payload[payload.index(b"RSK") :]
        found.append(state[: int.from_bytes(state[8:16], "little")])
    return found


def limits(tests):
    """Sizes and merges beyond the arguments of the module are errors, and nothing changes."""
    on = tests.server("limited")
    on.words = ["max-bytes", 65536, "max-merge-bytes", 200000]
    with on, on.client() as client:
        too_much = Error("ERR a sketch of this command takes more bytes than the module's max-bytes")
        for command, fits in [
            (("BF.RESERVE", "f", "0.01", 54000), True),
            (("BF.RESERVE", "g", "0.01", 55000), False),
            (("CMS.INITBYDIM", "c", 2047, 4), True),
            (("CMS.INITBYDIM", "d", 2048, 4), False),
            (("FREQ.RESERVE", "r", 1024), True),
            (("FREQ.RESERVE", "s", 2048), False),
            (("TOPK.RESERVE", "t", 96), True),
            (("TOPK.RESERVE", "u", 97), False),
            (("TOPK.RESERVE", "v", 1, 1000, 1, 1), False),
        ]:
            got = client(*command)
            tests.check(f"{command}", got == ("OK" if fits else too_much), got)
        client.done("FREQ.ADD", "r", *[f"item {i}" for i in range(500)])
        before = client.done("DEBUG", "DIGEST")
        tests.check("strings count", client("FREQ.ADD", "r", "x" * 60000) == too_much and client.done("DEBUG", "DIGEST") == before)
        lines = "\n".join(f"{i}".ljust(99, "x") for i in range(600))
        tests.check("lines count", client("FREQ.ADDLINES", "r", lines) == too_much and client.done("DEBUG", "DIGEST") == before)
        tests.check("short ones fit", client("FREQ.ADD", "r", "x" * 10000) == "OK")
        for i in range(30):
            client("FREQ.ADD", "r", f"{i}" + "y" * 7000)
        tests.check(
            "memory stays within the limit", client.done("MEMORY", "USAGE", "r") <= 65536 + 400, client.done("MEMORY", "USAGE", "r")
        )
        large = oracle.frequent(tests.library, 2**30)
        client.done("SKETCH.LOAD", "grows", "frequent_strings", large.image())
        errors = [client("FREQ.ADD", "grows", *[f"{step} {i}" for i in range(100)]) for step in range(30)]
        tests.check(
            "a table grows up to the limit",
            errors[0] == "OK" and errors[-1] == too_much and client.done("MEMORY", "USAGE", "grows") <= 65536 + 400,
        )
        wide = oracle.filter_for(tests.library, 10**6, 100, 1)
        tests.check("an image", client("SKETCH.LOAD", "w", "bloom_filter", wide.image()) == too_much)
        tests.check("an empty image of a large sketch", len(wide.image()) == 24)
        client.done("CMS.INITBYDIM", "e", 2047, 4)
        merge_limit = "module's max-merge-bytes"
        tests.check(
            "a merge",
            client("CMS.MERGE", "e", 1, "c") == "OK"
            and merge_limit in str(client("CMS.MERGE", "e", 4, "c", "c", "c", "c"))
            and merge_limit in str(client("CMS.MERGE", "e", 1, "c", "WEIGHTS", 1000)),
        )
        tests.check("a merge of frequent items", merge_limit in str(client("FREQ.MERGE", "r", "r", "r", "r", "r", "r", "r", "r")))
        client.done("FREQ.RESERVE", "x", 512)
        client.done("FREQ.ADD", "x", *[f"item {i}" for i in range(380)])
        got = [client("FREQ.MERGE", "x", *["x"] * sources) for sources in (3, 4)]
        tests.check("each source and what it is merged into count", got[0] == "OK" and merge_limit in str(got[1]), got)
        began = time.monotonic()
        client("SKETCH.STATE", "p", 0, b"RSK\x01\x01\0\0\0" + (10**12).to_bytes(8, "little") + bytes(100))
        tests.check("a state that claims a length", client.done("EXISTS", "p") == 0 and time.monotonic() - began < 30)


def full(tests):
    """`maxmemory`: what may take memory is an error, nothing changes, and reads go on."""
    with tests.server("full") as on, on.client() as client:
        stored.fill(client, "full")
        used = int(
            dict(line.split(":", 1) for line in client.done("INFO", "memory").decode().split("\r\n") if ":" in line)["used_memory"]
        )
        client.done("CONFIG", "SET", "maxmemory", used + 100000)
        client.done("BF.RESERVE", "wide", "0.001", 1000000)
        denied = Error("OOM command not allowed when used memory > 'maxmemory'.")
        before = client.done("DEBUG", "DIGEST")
        for command in [
            ("BF.ADD", "filter", "x"),
            ("BF.RESERVE", "more", "0.01", 100),
            ("CMS.INCRBY", "count", "x", 1),
            ("CMS.MERGE", "count", 1, "count"),
            ("FREQ.ADD", "items", "x"),
            ("FREQ.ADDLINES", "items", "x"),
            ("FREQ.MERGE", "items", "top"),
            ("TOPK.ADD", "top", "x"),
            ("SKETCH.LOAD", "l", "bloom_filter", "x"),
        ]:
            got = client(*command)
            tests.check(f"{command[0]} above maxmemory", got == denied and client.done("DEBUG", "DIGEST") == before, got)
        for command in [
            ("BF.EXISTS", "filter", "x"),
            ("CMS.QUERY", "count", "x"),
            ("FREQ.ROWS", "items"),
            ("SKETCH.IMAGE", "top"),
            ("CMS.HALVE", "count"),
        ]:
            tests.check(f"{command[0]} above maxmemory", not isinstance(client(*command), Error))
        client.done("CONFIG", "SET", "maxmemory-policy", "allkeys-lru")
        client.done("CONFIG", "SET", "maxmemory", used + 500000)
        got = client("SET", "x", "y")
        tests.check(
            "a sketch is evicted",
            got == "OK" and client.done("EXISTS", *stored.KEYS, "wide") < 6,
            (got, client("EXISTS", *stored.KEYS, "wide")),
        )


def freed(tests):
    """The server counts what sketches take, and gets it back: by DEL, by UNLINK in the background, by a new value, by FLUSHALL."""
    with tests.server("freed", slowlog_log_slower_than=-1) as on, on.client() as meter:

        def number(name):
            lines = meter.done("INFO", "memory").decode().split("\r\n")
            return int(next(line for line in lines if line.startswith(f"{name}:")).split(":")[1])

        empty = None
        for turn in range(2):
            for how in ["DEL", "UNLINK", "FLUSHALL", "FLUSHALL ASYNC", "REPLACE"]:
                with on.client() as client:
                    client.done("BF.RESERVE", "f", "0.001", 1000000)
                    client.done("CMS.INITBYDIM", "c", 10000, 10)
                    client.done("FREQ.RESERVE", "r", 4096)
                    for step in range(50):
                        client.done("FREQ.ADD", "r", *[f"item {i} of {turn}" for i in range(100 * step, 100 * step + 100)])
                    client.done("COPY", "r", "s")
                    filled = number("used_memory")
                    if how == "REPLACE":
                        client.done("BF.ADD", "small", "x")
                        image = client.done("SKETCH.IMAGE", "small")
                        for key in ["f", "c", "r", "s"]:
                            client.done("SKETCH.LOAD", key, "bloom_filter", image, "REPLACE")
                    client.done(
                        *(
                            ["FLUSHALL"]
                            if how == "REPLACE"
                            else [how, "f", "c", "r", "s"]
                            if how in ("DEL", "UNLINK")
                            else how.split()
                        )
                    )
                end = time.monotonic() + 30
                while empty is not None and number("used_memory") - empty > 200000 and time.monotonic() < end:
                    time.sleep(0.02)
                if empty is None:
                    empty = number("used_memory")
                tests.check(f"used, {how}", filled - empty > 10000 * 10 * 8 + 1797000, filled - empty)
                tests.check(f"freed, {how}", number("used_memory") - empty < 200000, number("used_memory") - empty)
        tests.check("UNLINK frees in the background", number("lazyfreed_objects") >= 8, number("lazyfreed_objects"))
