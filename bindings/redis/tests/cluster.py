"""A cluster: keys of several slots, and sketches that nodes created on their own."""
import time

import oracle
import replicas
from resp import Error

DEFAULT_SEED = b"9001"
CROSSSLOT = Error("CROSSSLOT Keys in request don't hash to the same slot")


def slots(tests):
    """A merge of keys in several slots is the error that clients of a cluster know, and changes nothing."""
    port, bus = replicas.free_port(), replicas.free_port()
    on = tests.server("cluster", port=port, bind="127.0.0.1", cluster_enabled="yes", cluster_port=bus)
    with on, on.client() as client:
        client.done("CLUSTER", "ADDSLOTSRANGE", 0, 16383)
        end = time.monotonic() + 30
        while b"cluster_state:ok" not in client.done("CLUSTER", "INFO") and time.monotonic() < end:
            time.sleep(0.05)
        for key in ["x", "y", "{t}x", "{t}y"]:
            client.done("CMS.INITBYDIM", f"{key}c", 100, 3)
            client.done("CMS.INCRBY", f"{key}c", "a", 1)
            client.done("FREQ.RESERVE", f"{key}r", 64)
            client.done("FREQ.ADD", f"{key}r", "a")
            client.done("BF.ADD", f"{key}f", key)
        before = client.done("DEBUG", "DIGEST")
        for command in [
            "CMS.MERGE xc 1 yc",
            "CMS.MERGE xc 2 xc yc WEIGHTS 1 2",
            "CMS.MERGE {t}xc 2 {t}yc yc",
            "CMS.MERGE xc 9 xc yc",
            "FREQ.MERGE xr yr",
            "FREQ.MERGE xr xr yr",
        ]:
            got = client(*command.split())
            tests.check(command, got == CROSSSLOT and client.done("DEBUG", "DIGEST") == before, got)
        tests.check("no number of keys", str(client("CMS.MERGE", "xc", "x", "yc")) == "CMS: invalid numkeys")
        tests.check(
            "merges in one slot",
            client("CMS.MERGE", "{t}xc", 2, "{t}xc", "{t}yc") == "OK"
            and client.done("CMS.QUERY", "{t}xc", "a") == [2]
            and client("FREQ.MERGE", "{t}xr", "{t}yr") == "OK"
            and client.done("FREQ.BOUNDS", "{t}xr", "a") == [[2, 2]],
        )
        tests.check(
            "keys of CMS.MERGE", client.done("COMMAND", "GETKEYS", *"CMS.MERGE d 2 x y WEIGHTS 1 2".split()) == [b"d", b"x", b"y"]
        )


def migrated(tests):
    """A key from another server merges with a new one: the seed is the library's own, or the one of the configuration."""
    for words, seed in [([], DEFAULT_SEED), (["seed", "77"], b"77")]:
        one, two = (tests.server(f"{name} of seed {seed.decode()}") for name in ("one", "other"))
        one.words = two.words = words
        with one, two, one.client() as client, two.client() as other:
            for each in (client, other):
                each.done("CMS.INITBYDIM", "c", 100, 3)
                each.done("CMS.INCRBY", "c", "a", 3)
                each.done("BF.RESERVE", "f", "0.01", 1000)
                tests.check("the seed of a server", [each.done("SKETCH.SEED", key) for key in "cf"] == [seed, seed])
            other.done("RESTORE", "came", 0, client.done("DUMP", "c"))
            got = other("CMS.MERGE", "c", 2, "c", "came")
            tests.check("a migrated key merges with a new one", got == "OK" and other.done("CMS.QUERY", "c", "a") == [6], got)
            own = oracle.count_min(tests.library, 3, 100, int(seed))
            oracle.add(own, "a", 3)
            tests.check("the image is that of C under the seed", client.done("SKETCH.IMAGE", "c") == own.image())
    on = tests.server("zero hash")
    unusable = next(seed for seed in range(10**6) if not usable(tests, seed))
    on.words = ["seed", unusable]
    on.start(wait=False)
    tests.check("a seed that Count-Min does not take", on.process.wait(timeout=20) == 1 and "seed" in on.log(), on.log()[-300:])
    on.process = None


def usable(tests, seed):
    """Returns whether the library takes a seed for a Count-Min sketch."""
    try:
        oracle.count_min(tests.library, 1, 3, seed)
    except ValueError:
        return False
    return True


def keyed(tests):
    """KEYED draws a seed for one sketch, in each command that creates one. It goes with the key, and only copies merge with it."""
    with tests.main.client() as client:
        client.done("FLUSHALL")
        for at, command in enumerate(
            [
                "BF.RESERVE {} 0.01 100 KEYED",
                "BF.INSERT {} KEYED ITEMS a",
                "CMS.INITBYDIM {} 100 3 KEYED",
                "CMS.INITBYPROB {} 0.03 0.1 KEYED",
            ]
        ):
            found = set()
            for turn in range(8):
                client.done(*[word.format(f"{at} {turn}") for word in command.split()])
                found.add(client.done("SKETCH.SEED", f"{at} {turn}"))
            tests.check(command, len(found) == 8 and DEFAULT_SEED not in found, found)
        differ = Error("CMS: seeds differ: sketches to merge are created with one seed")
        client.done("CMS.INCRBY", "2 0", "a", 5)
        client.done("COPY", "2 0", "copy")
        client.done("RESTORE", "restored", 0, client.done("DUMP", "2 0"))
        tests.check(
            "copies merge",
            client("CMS.MERGE", "2 1", 1, "2 0") == differ
            and client("CMS.MERGE", "copy", 2, "2 0", "restored") == "OK"
            and client.done("CMS.QUERY", "copy", "a") == [10],
        )
        tests.check(
            "a seed for another one",
            client("CMS.INITBYDIM", "same", 100, 3, "SEED", client.done("SKETCH.SEED", "2 0")) == "OK"
            and client("CMS.MERGE", "same", 1, "2 0") == "OK",
        )
        for command in ["BF.RESERVE n 0.1 9 KEYED SEED 7", "CMS.INITBYDIM n 9 3 SEED 7 KEYED", "BF.INSERT n SEED 7 KEYED ITEMS a"]:
            tests.check(command, str(client(*command.split())) == "ERR syntax error" and client.done("EXISTS", "n") == 0)
