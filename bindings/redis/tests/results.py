"""What replies promise, beside formulas and exact counts: sizes, rates, bounds, the first k, halves and merges."""
import collections
import math
import random

import replicas
import stored
from resp import Error

FULL = Error("ERR non scaling filter is full")


def sizes(tests):
    """CMS.INITBYPROB has e / error columns and ln(1 / probability) rows, rounded up."""
    with tests.main.client(3) as client:
        client.done("FLUSHALL")
        wrong = []
        texts = [f"0.{i:02d}" for i in range(1, 100)] + ["0.001", "0.0003", "1e-5", "0.367879", "0.36788"]
        for at, text in enumerate(texts):
            for error, probability in [(text, "0.01"), ("0.1", text)]:
                client.done("CMS.INITBYPROB", "c", error, probability)
                info = client.done("CMS.INFO", "c")
                wanted = (math.ceil(math.e / float(error)), math.ceil(math.log(1 / float(probability))))
                if (info["width"], info["depth"]) != wanted:
                    wrong.append((error, probability, info, wanted))
                client.done("DEL", "c")
        tests.check("sizes of CMS.INITBYPROB", not wrong, (len(wrong), wrong[:3]))
        tests.check(
            "a probability below all", str(client("CMS.INITBYPROB", "c", "0.1", "1e-300")).startswith("CMS: invalid prob value")
        )
        tests.check("an error below all", "max-bytes" in str(client("CMS.INITBYPROB", "c", "1e-300", "0.1")))


def rates(tests):
    """A full filter has the rate that was reserved, by the formula and as it is measured."""
    with tests.main.client(3) as client:
        for rate in [0.9, 0.7, 0.5, 0.4, 1 / 3, 0.3, 0.25, 0.2, 0.125, 0.1, 0.0625, 0.05, 0.01, 0.001, 0.0001]:
            client.done("FLUSHALL")
            client.done("BF.RESERVE", "f", rate, 20000)
            info = client.done("SKETCH.INFO", "f")
            computed = (1 - math.exp(-info["hashes"] * 20000 / info["bits"])) ** info["hashes"]
            tests.check(f"the rate {rate} by the formula", computed <= rate * 1.0101, (computed, info))
            tests.check(
                f"no waste at {rate}",
                rate > 0.5 or info["bits"] <= 20000 * math.log2(math.ceil(1 / rate - 1e-9)) / math.log(2) * 1.08,
                info,
            )
            # Items that the filter contains by mistake when they are added do not count: so it is filled up to its capacity.
            added = 0
            while client.done("BF.CARD", "f") < 20000:
                room = 20000 - client.done("BF.CARD", "f")
                client.done("BF.ADDLINES", "f", "\n".join(f"in {added + i}" for i in range(room)))
                added += room
            wrong = client.done("BF.MEXISTS", "f", *[f"out {i}" for i in range(40000)])
            # Each added item sets its positions, also those that were there: `added` items are in the filter.
            filled = (1 - math.exp(-info["hashes"] * added / info["bits"])) ** info["hashes"]
            limit = 40000 * max(rate, filled)
            tests.check(f"the rate {rate} measured", sum(wrong) <= limit + 5 * math.sqrt(limit), (sum(wrong) / 40000, filled))
    with tests.main.client(3) as client:
        client.done("BF.RESERVE", "half", 0.5, 20000)
        client.done("BF.ADDLINES", "half", "\n".join(f"in {i}" for i in range(20000)))
        wrong = sum(client.done("BF.MEXISTS", "half", *[f"out {i}" for i in range(40000)])) / 40000
        tests.check("20,000 items at the reserved rate 0.5", 0.48 <= wrong <= 0.515, wrong)


def skewed(numbers, count, kinds=400):
    return [f"item {int(numbers.paretovariate(0.7)) % kinds}" for _ in range(count)]


def top_counts(tests):
    """TOPK.COUNT is no less than the true weight of any item, also of one without a counter."""
    numbers = random.Random(51)
    with tests.main.client() as client:
        client.done("FLUSHALL")
        client.done("TOPK.RESERVE", "t", 2)
        true = collections.Counter()
        for _ in range(40):
            batch = skewed(numbers, 100)
            true.update(batch)
            client.done("TOPK.ADD", "t", *batch)
        names = list(true)
        error = client.done("FREQ.INFO", "t")[9]
        counts = client.done("TOPK.COUNT", "t", *names)
        bounds = client.done("FREQ.BOUNDS", "t", *names)
        absent = [count for count, (low, _) in zip(counts, bounds) if low == 0]
        tests.check("items without a counter", error > 0 and len(absent) > 50 and set(absent) == {error}, (error, absent[:5]))
        tests.check("TOPK.COUNT is an upper bound", all(count >= true[name] for count, name in zip(counts, names)))
        tests.check("TOPK.COUNT is the upper bound of FREQ.BOUNDS", counts == [high for _, high in bounds])
        tests.check(
            "an item without a counter is not of the first",
            set(client.done("TOPK.QUERY", "t", *[n for n, (low, _) in zip(names, bounds) if low == 0])) == {0},
        )


def updated(client, numbers, key, names, plain):
    """Updates a sketch at random. A plain one only by additions."""
    how = numbers.randrange(10 if plain else 13)
    if how < 2:
        client.done("TOPK.ADD", key, numbers.choice(names))
    elif how < 4:
        client.done("FREQ.ADD", key, *skewed(numbers, 20))
    elif how < 6:
        client.done("TOPK.ADD", key, *numbers.sample(names, numbers.randrange(1, 60)))
    elif how < 7:
        client.done("TOPK.INCRBY", key, numbers.choice(names), numbers.randrange(50))
    elif how < 9:
        pairs = [(name, numbers.choice([0, 1, 1, 2, 30])) for name in skewed(numbers, 40, 30)]
        client.done("FREQ.INCRBY", key, *[word for pair in pairs for word in pair])
    elif how < 10:
        client.done("FREQ.ADDLINES", key, "\n".join(numbers.choices(names, k=300)))
    elif how < 11:
        client.done("FREQ.HALVE", key)
    elif how < 12:
        client.done("FREQ.MERGE", key, key)
    else:
        client.done("COPY", key, f"{key} copied")
        client.done("RENAME", f"{key} copied", key)


def beside_definition(client, sizes):
    """Returns how TOPK.QUERY, TOPK.LIST and FREQ.ROWS differ from their definitions by all rows of a sketch, for each k of `sizes`."""
    numbers = random.Random(52)
    wrong = []
    client.done("FLUSHALL")
    for turn, k in enumerate(sizes):
        key = f"t {turn}"
        client.done("TOPK.RESERVE", key, k)
        names = [f"item {i}" for i in range(numbers.choice([60, 400, 3000]))]
        for step in range(50):
            updated(client, numbers, key, names, turn % 2)
            if turn % 4 > 1 and numbers.random() < 0.7:  # many updates between queries
                continue
            rows = client.done("FREQ.ROWS", key)
            estimates = {name.decode(): high for name, _, high in rows}
            ordered = sorted(estimates.values(), reverse=True)
            least = ordered[k - 1] if len(ordered) >= k else 1
            some = numbers.sample(names, 6) + [name.decode() for name, _, _ in rows[max(0, k - 3) : k + 3]]
            for part in [some, [numbers.choice(some)]]:
                if client.done("TOPK.QUERY", key, *part) != [int(estimates.get(name, 0) >= least) for name in part]:
                    wrong.append((turn, k, step, "query", part, least))
            if client.done("TOPK.LIST", key, "WITHCOUNT")[1::2] != ordered[:k]:
                wrong.append((turn, k, step, "list"))
            count = numbers.choice([1, 2, k, k + 1])
            if [high for _, _, high in client.done("FREQ.ROWS", key, "COUNT", count)] != ordered[:count]:
                wrong.append((turn, k, step, "rows", count))
    return wrong


def top_queries(tests):
    """TOPK.QUERY beside its definition: an item is one of the first k if its estimate is at least the k-th largest one. Also in a build
    that keeps no more than 4 estimates, so that larger k are as those above 4,096."""
    sizes = [1, 2, 3, 10, 30, 100, 4, 50] * 6
    with tests.main.client() as client:
        wrong = beside_definition(client, sizes)
        tests.check("TOPK.QUERY and TOPK.LIST", not wrong, (len(wrong), wrong[:2]))
        client.done("TOPK.RESERVE", "five", 5)
        client.done("TOPK.INCRBY", "five", "a", 5)
        for item in "abcdefbcdbcd":  # a 6, b, c and d 3, e and f 1
            client.done("TOPK.ADD", "five", item)
        got = client.done("TOPK.QUERY", "five", *"abcdefg")
        tests.check("five first items, one by one", got == [1, 1, 1, 1, 1, 1, 0], got)
        client.done("TOPK.RESERVE", "large", 5000)
        client.done("FREQ.ADDLINES", "large", "\n".join(f"item {i}" for i in range(9000)))
        client.done("FREQ.ADDLINES", "large", "\n".join(f"item {i}" for i in range(4999)))
        got = [client.done("TOPK.QUERY", "large", "item 0", "item 4999")]
        for _ in range(2):
            client.done("TOPK.ADD", "large", "item 4999")
            got.append(client.done("TOPK.QUERY", "large", "item 0", "item 4999", "item 5000"))
        tests.check("5,000 first items", got == [[1, 1], [1, 1, 0], [1, 1, 0]], got)
    with tests.server("few estimates", tests.build("few", "-O2 -DMOST_TOP=4")) as on, on.client() as client:
        wrong = beside_definition(client, sizes)
        tests.check("TOPK.QUERY of many first items", not wrong, (len(wrong), wrong[:2]))


def large_tables(tests):
    """One item of 700,000 counters: neither a query nor the first rows sort the table."""
    with tests.main.client() as client:
        client.done("FLUSHALL")
        client.done("TOPK.RESERVE", "t", 10, 700000, 7, "0.9")
        for start in range(0, 700000, 100000):
            client.done("FREQ.ADDLINES", "t", "\n".join(f"item {i}" for i in range(start, start + 100000)))
        tests.check("700,000 counters", client.done("FREQ.INFO", "t")[5] == 700000)

        def fastest(*commands, turns=5):
            found = []
            for _ in range(turns):
                before = client.server_time()
                for command in commands:
                    client.done(*command)
                found.append(client.server_time() - before)
            return min(found)

        equal = fastest(["TOPK.QUERY", "t", "item 3"], turns=1)
        client.done("FREQ.INCRBY", "t", *[word for i in range(20) for word in (f"item {i}", 100 - i)])
        everything = fastest(["FREQ.ROWS", "t", "ABOVE", 0], turns=1)
        client.done("COPY", "t", "copy")
        first = fastest(["TOPK.QUERY", "copy", "item 3"], turns=1)
        client.done("DEL", "copy")
        again = fastest(["TOPK.QUERY", "t", "item 3", "item 15", "none"])
        mixed = fastest(["TOPK.ADD", "t", "item 77"], ["TOPK.QUERY", "t", "item 3", "item 500000"])
        rows = fastest(["FREQ.ROWS", "t", "COUNT", 10], turns=3)
        times = {
            "all": everything,
            "equal": equal,
            "of a copy": first,
            "again": again,
            "after an addition": mixed,
            "ten rows": rows,
        }
        tests.check("a query does not sort the table", first < everything / 5, times)
        tests.check("what is known is kept", equal < 0.02 and again < 0.002 and mixed < 0.004, times)
        tests.check("ten rows do not sort the table", rows < everything / 4, times)
        tests.check(
            "the first ten",
            [name for name, _, _ in client.done("FREQ.ROWS", "t", "COUNT", 10)] == [b"item %d" % i for i in range(10)],
        )
        client.done("DEL", "t")


def first_rows(tests):
    """FREQ.ROWS COUNT: the first rows of all, above a threshold if one is given."""
    numbers = random.Random(53)
    with tests.main.client() as client:
        client.done("FLUSHALL")
        client.done("FREQ.RESERVE", "r", 64)
        for _ in range(30):
            client.done("FREQ.ADD", "r", *skewed(numbers, 100, 100))
            rows = client.done("FREQ.ROWS", "r")
            for count in [1, 2, 5, len(rows) - 1, len(rows), len(rows) + 1, 2**63 - 1]:
                got = client.done("FREQ.ROWS", "r", "COUNT", max(count, 1))
                wanted = rows[: max(count, 1)]
                tests.check(
                    f"{count} rows", [row[1:] for row in got] == [row[1:] for row in wanted] and all(row in rows for row in got)
                )
            above = rows[len(rows) // 2][2]
            wanted = [row for row in rows if row[2] > above]
            for words in [["ABOVE", above, "COUNT", 4], ["COUNT", 4, "ABOVE", above]]:
                got = client.done("FREQ.ROWS", "r", *words)
                tests.check("rows above a threshold", [row[1:] for row in got] == [row[1:] for row in wanted[:4]])
        for words in [["COUNT"], ["COUNT", 0], ["COUNT", -1], ["COUNT", "x"], ["COUNT", 1, "ABOVE"], ["LIMIT", 1]]:
            tests.check(f"FREQ.ROWS {words}", isinstance(client("FREQ.ROWS", "r", *words), Error))


def halves(tests):
    """FREQ.HALVE: bounds hold for the weights, each halved as often and rounded down each time. Merges and files go on from there."""
    numbers = random.Random(54)
    with tests.main.client() as client:
        for size in [8, 64, 512]:
            client.done("FLUSHALL")
            client.done("FREQ.RESERVE", "r", size)
            true, wrong, total = collections.Counter(), [], 0
            for step in range(60):
                batch = [(item, 1 + numbers.randrange(6)) for item in skewed(numbers, 40)]
                for item, weight in batch:
                    true[item] += weight
                    total += weight
                client.done("FREQ.INCRBY", "r", *[word for pair in batch for word in pair])
                if step % 3 == 0:
                    error = client.done("FREQ.INFO", "r")[9]
                    client.done("FREQ.HALVE", "r")
                    true = collections.Counter({item: weight // 2 for item, weight in true.items()})
                    total //= 2
                    info = client.done("FREQ.INFO", "r")
                    if info[7] != total or info[9] != (error + 1) // 2:
                        wrong.append(("numbers", step, info, total, error))
                names = list(true)
                got = client.done("FREQ.BOUNDS", "r", *names)
                if not all(low <= true[name] <= high for (low, high), name in zip(got, names)):
                    wrong.append(("bounds", step))
            tests.check(f"halves with {size} slots", not wrong, wrong[:3])
        client.done("FREQ.RESERVE", "exact", 64)
        client.done("FREQ.INCRBY", "exact", "a", 7, "b", 2, "c", 1)
        before = client.done("MEMORY", "USAGE", "exact")
        client.done("FREQ.HALVE", "exact")
        tests.check(
            "exact halves",
            client.done("FREQ.ROWS", "exact") == [[b"a", 3, 3], [b"b", 1, 1]]
            and client.done("FREQ.INFO", "exact")[5:10:2] == [2, 5, 0],
        )
        tests.check("halves take no more memory", client.done("MEMORY", "USAGE", "exact") <= before)
        for _ in range(4):
            client.done("FREQ.HALVE", "exact")
        tests.check(
            "down to nothing", client.done("FREQ.ROWS", "exact") == [] and client.done("FREQ.INFO", "exact")[5:10:2] == [0, 0, 0]
        )
        client.done("FREQ.ADD", "exact", "z")
        tests.check("and on", client.done("FREQ.ROWS", "exact") == [[b"z", 1, 1]])
        client.done("FREQ.INCRBY", "exact", b"\xff\x00", 9)
        client.done("FREQ.HALVE", "exact")
        tests.check("halves of any bytes", client.done("FREQ.ROWS", "exact") == [[b"\xff\x00", 4, 4]])
        # Weights and the error of an untrusted image may be as large as the total.
        image = client.done("SKETCH.IMAGE", "exact")
        odd = (
            image[:8]
            + (1).to_bytes(4, "little")
            + image[12:16]
            + (9).to_bytes(8, "little")
            + (3).to_bytes(8, "little")
            + (6).to_bytes(8, "little")
            + image[40:]
        )
        tests.check("an image at its limit", client("SKETCH.LOAD", "odd", "frequent_strings", odd) == "OK")
        tests.check(
            "its halves",
            client("FREQ.HALVE", "odd") == "OK" and client.done("FREQ.BOUNDS", "odd", b"\xff\x00", "x") == [[3, 5], [0, 2]],
        )
    master, replica = replicas.pair(tests, "halved")
    master.settings["appendonly"] = "yes"
    with master, replica, master.client() as client, replica.client() as other:
        stored.fill(client, "halved")
        for turn in range(3):
            client.done("FREQ.HALVE", "items")
            client.done("FREQ.HALVE", "large")
            stored.change(client, f"halved {turn}", 300)
        replicas.compare(tests, "halves", client, other)
        before = stored.state(client)
        client.done("DEBUG", "LOADAOF")
        tests.check("halves in a file of commands", stored.state(client) == before)


def merged_filters(tests):
    """BF.MERGE: the union of the items, in a filter that is there or a new one. What cannot be merged changes nothing."""
    with tests.main.client() as client:
        client.done("FLUSHALL")
        for key, first in [("a", 0), ("b", 300), ("c", 600)]:
            client.done("BF.RESERVE", key, "0.001", 1000)
            client.done("BF.MADD", key, *range(first, first + 350))
        tests.check(
            "a merge into a filter",
            client("BF.MERGE", "a", "b") == "OK" and client.done("BF.MEXISTS", "a", *range(650)) == [1] * 650,
        )
        tests.check(
            "its items",
            630 <= client.done("BF.CARD", "a") <= 670 and client.done("BF.CARD", "b") in range(345, 351),
            client.done("BF.CARD", "a"),
        )
        tests.check(
            "a new filter",
            client("BF.MERGE", "d", "b", "c") == "OK" and client.done("BF.MEXISTS", "d", *range(300, 950)) == [1] * 650,
        )
        tests.check("no more than before", sum(client.done("BF.MEXISTS", "d", *[f"out {i}" for i in range(10000)])) <= 30)
        tests.check(
            "its sizes",
            client.done("BF.INFO", "d", "CAPACITY") == [1000]
            and client.done("SKETCH.SEED", "d") == client.done("SKETCH.SEED", "b"),
        )
        client.done("PEXPIRE", "d", 10**6)
        tests.check("the union is that of additions", client("BF.MERGE", "d", "a", "b") == "OK" and client.done("PTTL", "d") > 0)
        client.done("BF.RESERVE", "added", "0.001", 1000)
        client.done("BF.MADD", "added", *range(950))
        tests.check("its positions", client.done("SKETCH.IMAGE", "d")[24:] == client.done("SKETCH.IMAGE", "added")[24:])
        client.done("BF.RESERVE", "other", "0.001", 2000)
        client.done("BF.RESERVE", "seed", "0.001", 1000, "SEED", 5)
        client.done("BF.RESERVE", "many", "0.001", 1000)
        client.done("BF.MADD", "many", *range(5000, 5900))
        client.done("CMS.INITBYDIM", "count", 9, 3)
        differ = Error("ERR filters to merge must have the same bits, hashes and seed")
        before = client.done("DEBUG", "DIGEST")
        for words, wanted in [
            (["a", "b", "other"], differ),
            (["a", "seed"], differ),
            (["new", "a", "other"], differ),
            (["a", "none"], Error("ERR not found")),
            (["new", "none"], Error("ERR not found")),
            (["a", "count"], Error("WRONGTYPE Operation against a key holding the wrong kind of value")),
            (["count", "a"], Error("WRONGTYPE Operation against a key holding the wrong kind of value")),
            (["a", "many"], FULL),
            (["new", "a", "many"], FULL),
        ]:
            got = client("BF.MERGE", *words)
            tests.check(f"BF.MERGE {words}", got == wanted and client.done("DEBUG", "DIGEST") == before, got)
        tests.check("keys of BF.MERGE", client.done("COMMAND", "GETKEYS", "BF.MERGE", "d", "x", "y") == [b"d", b"x", b"y"])
    master, replica = replicas.pair(tests, "merged")
    master.settings["appendonly"] = "yes"
    with master, replica, master.client() as client, replica.client() as other:
        client.done("BF.MADD", "a", *range(100))
        client.done("BF.MADD", "b", *range(50, 200))
        client.done("BF.MERGE", "a", "b")
        client.done("BF.MERGE", "new", "a", "b")
        keys = ["a", "b", "new"]
        tests.check(
            "merges on a replica", replicas.same_place(client, other) and stored.state(client, keys) == stored.state(other, keys)
        )
        before = stored.state(client, keys)
        client.done("DEBUG", "LOADAOF")
        tests.check("merges in a file of commands", stored.state(client, keys) == before)


def scripts(tests):
    """Names in maps are strings for scripts in the third version of the protocol."""
    with tests.main.client() as client:
        client.done("FLUSHALL")
        client.done("CMS.INITBYDIM", "c", 100, 3)
        client.done("BF.RESERVE", "f", "0.01", 50)
        client.done("TOPK.RESERVE", "t", 4, 8, 7, "0.5")
        for key, command, name, wanted in [
            ("c", "CMS.INFO", "width", 100),
            ("c", "CMS.INFO", "depth", 3),
            ("c", "CMS.INFO", "count", 0),
            ("f", "BF.INFO", "Capacity", 50),
            ("f", "BF.INFO", "Number of items inserted", 0),
            ("t", "TOPK.INFO", "k", 4),
            ("t", "FREQ.INFO", "size", 64),
            ("c", "SKETCH.INFO", "hashes", 3),
        ]:
            got = client(f"EVAL", f"redis.setresp(3) return redis.call('{command}', KEYS[1]).map['{name}']", 1, key)
            tests.check(f"{command} {name} in a script", got == wanted, got)
        got = client("EVAL", "redis.setresp(3) return tostring(redis.call('TOPK.INFO', KEYS[1]).map.decay.double)", 1, "t")
        tests.check("TOPK.INFO decay in a script", got == b"0.5", got)


def replaced(tests):
    """SKETCH.LOAD .. REPLACE puts a new value into the key, without the time to live of the old one: on a replica and in a file, too."""
    master, replica = replicas.pair(tests, "replaced")
    master.settings["appendonly"] = "yes"
    with master, replica, master.client() as client, replica.client() as other:
        client.done("BF.ADD", "f", "a")
        image = client.done("SKETCH.IMAGE", "f")
        client.done("CMS.INITBYDIM", "c", 100, 3)
        for key in ["f", "c"]:
            client.done("PEXPIRE", key, 10**6)
            tests.check("REPLACE", client("SKETCH.LOAD", key, "bloom_filter", image, "REPLACE") == "OK")
            tests.check(f"no time to live of {key}", client.done("PTTL", key) == -1)
        tests.check(
            "nor on the replica", replicas.same_place(client, other) and [other.done("PTTL", key) for key in "fc"] == [-1, -1]
        )
        client.done("DEBUG", "LOADAOF")
        tests.check("nor in a file of commands", [client.done("PTTL", key) for key in "fc"] == [-1, -1])
        client.done("PEXPIRE", "f", 10**6)
        client("SKETCH.LOAD", "f", "bloom_filter", image[:-1], "REPLACE")
        client.done("BF.MERGE", "f", "c")
        tests.check("what is no replacement keeps it", client.done("PTTL", "f") > 0)
