"""Sketches in files: RDB, AOF, DUMP and RESTORE, COPY, and what is left after the server was killed."""
import random
import threading
import time

import oracle

KEYS = ["filter", "count", "items", "top", "large"]
NUMBERS = random.Random(11)


def fill(client, salt=0):
    """Makes a key of each kind, with purges, items of any bytes and a table that is larger than a sample."""
    client.done("FLUSHALL")
    client.done("BF.RESERVE", "filter", "0.01", 30000)
    client.done("CMS.INITBYDIM", "count", 500, 3)
    client.done("FREQ.RESERVE", "items", 64)
    client.done("TOPK.RESERVE", "top", 3, 8, 7, 0.9)
    client.done("FREQ.RESERVE", "large", 2048)
    change(client, salt)


def change(client, salt, count=3000):
    """Adds to each key of `fill`."""
    batch = [f"item {int(NUMBERS.paretovariate(0.5)) % 10000} {salt}" for _ in range(count)]
    for at in range(0, count, 100):
        part = batch[at : at + 100]
        client.many(
            [
                ("BF.MADD", "filter", *part),
                ("CMS.INCRBY", "count", *[word for item in part for word in (item, 3)]),
                ("FREQ.ADD", "items", *part),
                ("TOPK.ADD", "top", b"\xff" + part[0].encode(), *part),
                ("FREQ.ADD", "large", *part),
                ("BF.ADDLINES", "filter", "\n".join(part)),
                ("CMS.ADDLINES", "count", "\r\n".join(part)),
                ("FREQ.ADDLINES", "large", b"\xff\n" + "\n".join(part).encode()),
            ]
        )


def state(client, keys=None):
    """Returns all that a client sees of keys."""
    keys = keys or KEYS
    return {
        key: [
            client.done("SKETCH.IMAGE", key),
            client.done("DEBUG", "DIGEST-VALUE", key),
            client.done("TYPE", key),
            client.done("PTTL", key) > 0,
        ]
        + [client(*command, key) for command in [("BF.INFO",), ("CMS.INFO",), ("TOPK.INFO",), ("FREQ.INFO",), ("SKETCH.SEED",)]]
        for key in keys
    }


def secret(payload):
    """Returns the table's key in the state within a file or a payload, or None."""
    at = payload.find(b"RSK\x01\x06")
    return payload[at + 24 : at + 40] if at >= 0 and payload[at + 5] & 1 else None


def reloads(tests):
    """DEBUG RELOAD after each kind: all stays, also the key of a table, and a purge after it has the same image as before."""
    with tests.server("reloaded", rdbcompression="no") as on, on.client() as client:
        fill(client)
        for key in KEYS:
            before = state(client)
            tests.check("DEBUG RELOAD", client("DEBUG", "RELOAD") == "OK")
            after = state(client)
            for name in KEYS:
                tests.check(f"{name} after DEBUG RELOAD", after[name] == before[name])
            change(client, key, 300)
        client.done("FLUSHALL")
        client.done("FREQ.RESERVE", "alone", 64)
        secrets = set()
        for _ in range(2):
            client.done("SAVE")
            with open(f"{on.folder}/dump.rdb", "rb") as file:
                secrets.add(secret(file.read()))
            client.done("DEBUG", "RELOAD")
        tests.check("the key of a table stays", len(secrets) == 1 and None not in secrets and b"\0" * 16 not in secrets, secrets)
        own = secrets.pop() or b"?"
        said = [
            client.done("DUMP", "alone"),
            client.done("SKETCH.IMAGE", "alone"),
            repr(client.done("FREQ.INFO", "alone")).encode(),
        ]
        tests.check("no client gets the key", not any(own in part for part in said))
        client.done("COPY", "alone", "copy")
        tests.check("all replies without the key", own not in client.done("DUMP", "copy"))


def dumps(tests):
    """DUMP and RESTORE, COPY, RENAME, MOVE, EXPIRE and the rest of what a server does with keys."""
    with tests.main.client() as client:
        fill(client, "dumped")
        before = state(client)
        for key in KEYS:
            payload = client.done("DUMP", key)
            client.done("RESTORE", f"{key} restored", 0, payload)
            client.done("COPY", key, f"{key} copied")
            client.done("RENAME", key, f"{key} renamed")
            client.done("RENAME", f"{key} renamed", key)
            client.done("MOVE", f"{key} restored", 3)
            client.done("SELECT", 3)
            client.done("MOVE", f"{key} restored", 0)
            client.done("SELECT", 0)
        for key in KEYS:
            for name in [f"{key} restored", f"{key} copied"]:
                tests.check(name, state(client, [name])[name] == before[key])
        change(client, "after")
        for key in KEYS:
            tests.check(f"{key} copied stays", state(client, [f"{key} copied"])[f"{key} copied"] == before[key])
        client.done("PEXPIRE", "large", 100000)
        change(client, "purges")
        tests.check("a key with a time to live keeps it", client.done("PTTL", "large") > 0)
        client.done("PEXPIRE", "filter", 1)
        time.sleep(0.01)
        tests.check("a key expires", client.done("BF.EXISTS", "filter", "a") == 0 and client.done("EXISTS", "filter") == 0)
        for key in KEYS[1:]:
            tests.check(f"MEMORY USAGE {key}", client.done("MEMORY", "USAGE", key) > 500)
            tests.check(f"UNLINK {key}", client.done("UNLINK", key) == 1)
        with tests.main.client() as other:
            client.done("BF.ADD", "watched", "a")
            client.done("WATCH", "watched")
            other.done("BF.ADD", "watched", "b")
            client.done("MULTI")
            client.done("BF.ADD", "watched", "c")
            tests.check("WATCH sees a change", client.done("EXEC") is None)


def chunks(tests):
    """BF.SCANDUMP and BF.LOADCHUNK of a filter of several chunks, also in parts of any length, and of a filter that changed."""
    with tests.main.client() as client:
        client.done("FLUSHALL")
        client.done("BF.RESERVE", "large", "0.0001", 10**7)
        client.done("BF.MADD", "large", *[f"key {i}" for i in range(1000)])
        parts, at = [], 0
        while True:
            at, data = client.done("BF.SCANDUMP", "large", at)
            if at == 0:
                break
            parts.append((at, data))
        tests.check(
            "chunks",
            len(parts) == 3 and max(len(data) for _, data in parts) == 8 << 20 and data == b"",
            [len(part) for _, part in parts],
        )
        for at, data in parts:
            client.done("BF.LOADCHUNK", "loaded", at, data)
            if at != parts[-1][0]:
                tests.check(
                    "a filter in parts is no filter yet",
                    "WRONGTYPE" in str(client("BF.ADD", "loaded", "a")) and client.done("TYPE", "loaded") == "rsk-parts",
                )
        tests.check(
            "loaded in chunks",
            client.done("SKETCH.IMAGE", "loaded") == client.done("SKETCH.IMAGE", "large")
            and client.done("BF.CARD", "loaded") == 1000,
        )
        client.done("BF.LOADCHUNK", "torn", *parts[0])
        tests.check(
            "a chunk at the wrong place", str(client("BF.LOADCHUNK", "torn", parts[2][0], parts[2][1])) == "ERR received bad data"
        )
        client.done("BF.LOADCHUNK", "torn", *parts[1])
        damaged = bytes([parts[2][1][0] ^ 1]) + parts[2][1][1:]
        tests.check("a damaged chunk", str(client("BF.LOADCHUNK", "torn", parts[2][0], damaged)) == "ERR received bad data")
        tests.check(
            "the right one after it", client("BF.LOADCHUNK", "torn", *parts[2]) == "OK" and client.done("BF.CARD", "torn") == 1000
        )
        client.done("BF.RESERVE", "small", "0.01", 100)
        client.done("BF.MADD", "small", *range(50))
        whole = client.done("BF.SCANDUMP", "small", 0)[1]
        cuts = [0, 100, 101, 150, len(whole)]
        for start, end in zip(cuts, cuts[1:]):
            client.done("BF.LOADCHUNK", "parts", end, whole[start:end])
            if end == 101:
                client.done("COPY", "parts", "copied")
        tests.check("chunks of any length", client.done("BF.CARD", "parts") == client.done("BF.CARD", "small") > 40)
        for start, end in zip(cuts[2:], cuts[3:]):
            client.done("BF.LOADCHUNK", "copied", end, whole[start:end])
        tests.check("a copy of parts", client.done("SKETCH.IMAGE", "copied") == client.done("SKETCH.IMAGE", "small"))


def rewritten(tests):
    """A file of commands, with a sketch of several parts, and rewritten with and without the server's own format."""
    for preamble in ["yes", "no"]:
        with tests.server(
            f"rewritten {preamble}", appendonly="yes", aof_use_rdb_preamble=preamble, appendfsync="no", proto_max_bulk_len=1 << 20
        ) as on:
            with on.client() as client:
                fill(client, preamble)
                client.done("BF.RESERVE", "wide", "0.001", 1000000)
                client.done("BF.MADD", "wide", *range(1000))
                part = client.done("BF.SCANDUMP", "filter", 0)
                client.done("BF.LOADCHUNK", "begun", 1000, part[1][:1000])
                before = state(client, KEYS + ["wide"])
                for rewrites in [False, True]:
                    if rewrites:
                        client.done("BGREWRITEAOF")
                        while b"aof_rewrite_in_progress:1" in client.done("INFO", "persistence"):
                            time.sleep(0.02)
                    client.done("DEBUG", "LOADAOF")
                    after = state(client, KEYS + ["wide"])
                    for name, said in before.items():
                        tests.check(
                            f"{name} after a file of commands, preamble {preamble}, rewritten {rewrites}", after[name] == said
                        )
                client.done("BF.LOADCHUNK", "begun", part[0], part[1][1000:])
                tests.check(
                    f"parts after it, preamble {preamble}",
                    client.done("SKETCH.IMAGE", "begun") == client.done("SKETCH.IMAGE", "filter"),
                )
            with open(f"{on.folder}/log", encoding="utf-8") as file:
                tests.check("no warning of a sketch", "sketch cannot" not in file.read())


def killed(tests):
    """`kill -9` during writes: what was acknowledged is there with a synchronous file of commands. What a file has is the sketch of
    the commands up to some point: each image is that of the same calls in C."""
    for kind in ["aof", "rdb"]:
        on = tests.server(f"killed {kind}", appendonly="yes" if kind == "aof" else "no", appendfsync="always")
        on.start()
        with on.client() as client:
            client.done("BF.RESERVE", "f", "0.001", 20000, "SEED", 5)
            client.done("CMS.INITBYDIM", "c", 500, 3, "SEED", 5)
            client.done("FREQ.RESERVE", "r", 64)
        acknowledged = 0
        stop = threading.Timer(1.0, on.process.kill)
        stop.start()
        try:
            with on.client() as client:
                while True:
                    if kind == "rdb" and acknowledged % 200 == 100:
                        client("BGSAVE")
                    item = f"item {acknowledged % 3000}"
                    client.many(
                        [("MULTI",), ("BF.ADD", "f", item), ("CMS.INCRBY", "c", item, 1), ("FREQ.ADD", "r", item), ("EXEC",)]
                    )
                    acknowledged += 1
        except (ConnectionError, OSError):
            pass
        stop.join()
        on.process.wait()
        on.start()
        with on.client() as client:
            total = client.done("CMS.INFO", "c")[5]
            if kind == "aof":
                tests.check(
                    "acknowledged commands are there",
                    acknowledged <= total <= acknowledged + 1 and total > 100,
                    (acknowledged, total),
                )
            else:
                tests.check("the last file is there", 0 < total <= acknowledged + 1, (acknowledged, total))
            own = [oracle.filter_for(tests.library, 20000, 1000, 5), oracle.count_min(tests.library, 3, 500, 5)]
            for i in range(total):
                oracle.insert(own[0], f"item {i % 3000}")
                oracle.add(own[1], f"item {i % 3000}")
            tests.check(f"the filter after a kill, {kind}", client.done("SKETCH.IMAGE", "f") == own[0].image())
            tests.check(f"the counts after a kill, {kind}", client.done("SKETCH.IMAGE", "c") == own[1].image())
            asked = [f"item {i}" for i in range(3000)]
            exact = [total // 3000 + (i < total % 3000) for i in range(3000)]
            got = client.done("FREQ.BOUNDS", "r", *asked)
            tests.check(
                f"frequent items after a kill, {kind}",
                client.done("FREQ.INFO", "r")[7] == total and all(low <= true <= high for (low, high), true in zip(got, exact)),
            )
        on.stop()


def seeds(tests):
    """The seed of the configuration: for new keys, and not for those that are there. A drawn one stays with its key after a start."""
    on = tests.server("seeds")
    drawn = None
    for words, seed in [([], b"9001"), (["seed", "123456789012345"], b"123456789012345")]:
        on.words = words
        with on, on.client() as client:
            client.done("BF.ADD", f"f {words}", "a")
            tests.check(f"the seed with {words}", client.done("SKETCH.SEED", f"f {words}") == seed)
            if drawn is None:
                client.done("CMS.INITBYDIM", "c", 100, 3, "KEYED")
                client.done("CMS.INCRBY", "c", "a", 1)
                drawn = client.done("SKETCH.SEED", "c")
            tests.check(
                "a drawn seed stays", client.done("SKETCH.SEED", "c") == drawn != seed and client.done("CMS.QUERY", "c", "a") == [1]
            )
            client.done("SAVE")
    for words in [["seed", "x"], ["what", "1"], ["max-bytes"], ["max-bytes", "-1"]]:
        on = tests.server("bad arguments " + " ".join(words))
        on.words = words
        on.start(wait=False)
        tests.check(
            f"arguments {words}",
            on.process.wait(timeout=20) == 1 and "the arguments of the module are" in on.log(),
            on.log()[-500:],
        )
        on.process = None
