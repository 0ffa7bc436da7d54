"""Filters that are full: a new item is an error that clients know, nothing is added, and what was added stays right."""
import os

import replicas
import stored
from resp import Error, packed

FULL = Error("ERR non scaling filter is full")


def default_sizes(tests):
    """A filter that an addition creates is for 100,000 items, or for what the arguments of the module say."""
    with tests.main.client() as client:
        client.done("FLUSHALL")
        new = sum(client.done("BF.ADD", "alone", f"item {i}") for i in range(10000))
        tests.check("10,000 items by BF.ADD alone", 9990 <= new <= 10000, new)
        for command in [("BF.MADD", "many", "a"), ("BF.ADDLINES", "lines", "a"), ("BF.INSERT", "insert", "ITEMS", "a")]:
            client.done(*command)
        got = [client.done("BF.INFO", key, "CAPACITY") for key in ["alone", "many", "lines", "insert"]]
        tests.check("the capacity without a size", got == [[100000]] * 4, got)
        client.done("BF.ADDLINES", "alone", "\n".join(f"item {i}" for i in range(10000, 100000)))
        wrong = sum(client.done("BF.MEXISTS", "alone", *[f"other {i}" for i in range(20000)]))
        tests.check("its rate of false positives", 100 <= wrong <= 300, wrong)
    on = tests.server("given sizes")
    on.words = ["capacity", 50, "error", "0.0001"]
    with on, on.client() as client:
        client.done("BF.ADD", "f", "a")
        # at least 4 sqrt(n / rate) bits: 2829 for 50 items and 0.0001, in words of 64
        tests.check(
            "sizes as arguments",
            client.done("BF.INFO", "f", "CAPACITY") == [50] and 354 <= client.done("MEMORY", "USAGE", "f") < 800,
        )
        got = client("BF.MADD", "f", *range(100))
        tests.check(
            "an argument's capacity is a limit", len(got) < 60 and got[-1] == FULL and client.done("BF.CARD", "f") == 50, got
        )
    for words in [["capacity", 0], ["capacity", "x"], ["error", 0], ["error", 1], ["error", "nan"], ["error"]]:
        on = tests.server("bad sizes " + " ".join(map(str, words)))
        on.words = words
        on.start(wait=False)
        tests.check(f"arguments {words}", on.process.wait(timeout=20) == 1 and "the arguments of the module are" in on.log())
        on.process = None


def small_filters(tests):
    """Filters for few items keep their rate."""
    with tests.main.client() as client:
        client.done("FLUSHALL")
        for count in [1, 2, 3, 10]:
            key = f"small {count}"
            client.done("BF.RESERVE", key, "0.001", count)
            client.done("BF.MADD", key, *[f"item {i}" for i in range(count)])
            wrong = sum(client.done("BF.MEXISTS", key, *[f"other {i}" for i in range(50000)]))
            tests.check(f"the rate of a filter for {count}", wrong <= 90, wrong)


def full_filters(tests):
    """Each command on a full filter, item by item beside a model: at most as many new items as the capacity."""
    with tests.main.client() as client:
        client.done("FLUSHALL")
        client.done("BF.RESERVE", "ten", "0.01", 10, "NONSCALING")
        added, seen = [], []
        for i in range(1000):
            before = client.done("DEBUG", "DIGEST-VALUE", "ten")
            got = client("BF.ADD", "ten", f"item {i}")
            seen.append(got)
            if got == 1:
                added.append(f"item {i}")
            elif client.done("DEBUG", "DIGEST-VALUE", "ten") != before:
                tests.check("what is not added changes nothing", False, (i, got))
        tests.check("a filter for 10 takes 10", len(added) == 10 and client.done("BF.CARD", "ten") == 10, len(added))
        tests.check("and then returns an error", seen.count(FULL) + seen.count(0) == 990 and seen.count(FULL) > 900, seen[:40])
        tests.check("items that are there are no error", [client("BF.ADD", "ten", item) for item in added] == [0] * 10)
        tests.check("they are found", client.done("BF.MEXISTS", "ten", *added) == [1] * 10)
        tests.check("BF.INFO FULL", client.done("BF.INFO", "ten", "FULL") == [1])

        client.done("BF.RESERVE", "five", "0.00001", 5)
        tests.check("BF.MADD up to the error", client("BF.MADD", "five", *"abcab") == [1, 1, 1, 0, 0])
        before = client.done("DEBUG", "DIGEST")
        tests.check(
            "BF.ADDLINES adds all or none",
            client("BF.ADDLINES", "five", "d\ne\nf\n") == FULL and client.done("DEBUG", "DIGEST") == before,
        )
        tests.check("lines that are there, and twice", client("BF.ADDLINES", "five", "a\nd\n" * 300 + "b") == 1)
        tests.check("BF.MADD ends at the error", client("BF.MADD", "five", *"aefab") == [0, 1, FULL])
        tests.check(
            "nothing is added from there on",
            client.done("BF.MEXISTS", "five", *"abcdef") == [1] * 5 + [0] and client.done("BF.CARD", "five") == 5,
        )
        before = client.done("DEBUG", "DIGEST")
        for command, wanted in [
            ("BF.ADD five f", FULL),
            ("BF.MADD five f a", [FULL]),
            ("BF.INSERT five ITEMS a f", [0, FULL]),
            ("BF.ADDLINES five f", FULL),
            ("BF.ADDLINES five a", 0),
            ("BF.MADD five a b", [0, 0]),
        ]:
            got = client(*command.split())
            tests.check(command, got == wanted and client.done("DEBUG", "DIGEST") == before, got)
        got = client("BF.INSERT", "made", "CAPACITY", 2, "ERROR", "0.00001", "ITEMS", *"xyz")
        tests.check("BF.INSERT creates and fills", got == [1, 1, FULL] and client.done("BF.CARD", "made") == 2, got)
        client.done("BF.RESERVE", "large", "0.001", 3000)
        got = client.done("BF.MADD", "large", *[f"item {i}" for i in range(2000)])
        more = client("BF.ADDLINES", "large", "\n".join(f"item {i}" for i in range(1500, 2900)))
        tests.check("lines that are known do not need room", 1 <= 900 - more + 10 <= 30 and sum(got) > 1980, (more, sum(got)))
        room = 3000 - client.done("BF.CARD", "large")
        lines = "\n".join(f"last {i}" for i in range(room + 60))
        before = client.done("DEBUG", "DIGEST")
        tests.check(
            "lines beyond the room", client("BF.ADDLINES", "large", lines) == FULL and client.done("DEBUG", "DIGEST") == before
        )
        tests.check(
            "an absent key",
            client("BF.ADDLINES", "none", "\n".join(map(str, range(100001)))) == FULL and client.done("EXISTS", "none") == 0,
        )
        tests.check("an absent key that fits", client("BF.ADDLINES", "none", "\n".join(map(str, range(100000)))) > 99000)
    with tests.main.client(3) as client:
        tests.check("the third version of the protocol", client("BF.MADD", "five", "a", "f") == [False, FULL])


def full_replicas(tests):
    """A replica and a file of commands have what was added, with no error of their own. A file of an earlier version keeps its items."""
    master, replica = replicas.pair(tests, "full")
    master.settings["appendonly"] = "yes"
    with master, replica, master.client() as client, replica.client() as other:
        replicas.same_place(client, other)
        client.done("BF.RESERVE", "f", "0.001", 20)
        for command in ["BF.MADD", "BF.ADD", "BF.ADDLINES", "BF.INSERT"]:
            for at in range(30):
                words = {
                    "BF.MADD": range(at, at + 9),
                    "BF.ADD": [at],
                    "BF.ADDLINES": ["x\ny"],
                    "BF.INSERT": ["ITEMS", at, f"{at} b"],
                }
                client(command, "f", *words[command])
        client("BF.INSERT", "g", "CAPACITY", 3, "ITEMS", *range(9))
        tests.check("a full filter on the replica", replicas.same_place(client, other))
        for key in "fg":
            tests.check(f"{key} on the replica", stored.state(client, [key]) == stored.state(other, [key]))
        tests.check("no error on the replica", "CRITICAL" not in replica.log(), replica.log()[-500:])
        before = stored.state(client, ["f", "g"])
        client.done("DEBUG", "LOADAOF")
        tests.check("after the file of commands", stored.state(client, ["f", "g"]) == before and "CRITICAL" not in master.log())
    on = tests.server("earlier file", appendonly="yes")
    with open(os.path.join(on.folder, "appendonly.aof"), "wb") as file:
        for command in [["BF.RESERVE", "f", "0.01", 10], ["BF.MADD", "f", *range(40)], ["BF.ADDLINES", "f", "a\nb"]]:
            file.write(packed(command))
    with on, on.client() as client:
        tests.check(
            "a file of an earlier version",
            client.done("BF.MEXISTS", "f", *range(40), "a", "b") == [1] * 42 and client("BF.ADD", "f", "more") in (0, FULL),
        )
