"""Random commands beside exact counts, and beside the same calls of the C library: images are compared byte for byte."""
import collections
import random
import threading

import oracle
from resp import Client, Error, packed


def words(random_numbers, count, many=500):
    """Returns random items, some far more often than others."""
    return [f"item {int(random_numbers.paretovariate(0.6)) % many}" for _ in range(count)]


def filters(tests):
    """Filters: no false negative, the rate of false positives, and the image of the same calls in C."""
    numbers = random.Random(1)
    with tests.main.client() as client:
        client.done("FLUSHALL")
        client.done("BF.RESERVE", "f", "0.01", 10000, "SEED", 77)
        own = oracle.filter_for(tests.library, 10000, 100, 77)
        for _ in range(50):
            batch = [f"key {numbers.randrange(10000)}" for _ in range(100)]
            got = client.done("BF.MADD", "f", *batch)
            tests.check("BF.MADD beside C", got == [1 - oracle.insert(own, item) for item in batch])
            batch = [f"key {numbers.randrange(10000)}" for _ in range(100)]
            got = client.done("BF.ADDLINES", "f", "\n".join(batch))
            tests.check("BF.ADDLINES beside C", got == sum(1 - oracle.insert(own, item) for item in batch))
        tests.check("the image of the filter", client.done("SKETCH.IMAGE", "f") == own.image())
        asked = [f"key {i}" for i in range(20000)]
        got = client.done("BF.MEXISTS", "f", *asked)
        tests.check("BF.MEXISTS beside C", got == [oracle.contains(own, item) for item in asked])
        client.done("BF.RESERVE", "rate", "0.01", 10000)
        client.done("BF.MADD", "rate", *[f"in {i}" for i in range(10000)])
        tests.check("no false negatives", sum(client.done("BF.MEXISTS", "rate", *[f"in {i}" for i in range(10000)])) == 10000)
        wrong = sum(client.done("BF.MEXISTS", "rate", *[f"out {i}" for i in range(20000)]))
        tests.check("false positives", 100 <= wrong <= 300, wrong)
        tests.check("a full filter", client.done("BF.INFO", "rate", "FULL") == [0] and client.done("BF.CARD", "rate") > 9800)
        client("BF.MADD", "rate", *[f"more {i}" for i in range(500)])
        tests.check("a full filter says so", client.done("BF.INFO", "rate", "FULL") == [1])
        for name in ["one", "two"]:
            client.done("BF.RESERVE", name, "0.01", 1000)
        tests.check("one seed for all servers", client.done("SKETCH.SEED", "one") == client.done("SKETCH.SEED", "two") == b"9001")


def counts(tests):
    """Count-Min sketches: never below the exact count, and the image of the same calls in C."""
    numbers = random.Random(2)
    true = collections.Counter()
    with tests.main.client() as client:
        client.done("CMS.INITBYDIM", "c", 1000, 4, "SEED", 99)
        own = oracle.count_min(tests.library, 4, 1000, 99)
        for step in range(60):
            batch = [(item, numbers.randrange(50)) for item in words(numbers, 50)]
            got = client.done("CMS.INCRBY", "c", *[part for pair in batch for part in pair])
            wanted = []
            for item, weight in batch:
                true[item] += weight
                oracle.add(own, item, weight)
                wanted.append(oracle.estimate(own, item))
            tests.check("CMS.INCRBY beside C", got == wanted)
            lines = words(numbers, 50)
            true.update(lines)
            for item in lines:
                oracle.add(own, item)
            tests.check("CMS.ADDLINES", client.done("CMS.ADDLINES", "c", "\n".join(lines)) == len(lines))
            if step % 20 == 19:
                client.done("CMS.HALVE", "c")
                own.call("ds_count_min_u64_halve")
                true = collections.Counter({item: count // 2 for item, count in true.items()})
        tests.check("the image of the counts", client.done("SKETCH.IMAGE", "c") == own.image())
        got = client.done("CMS.QUERY", "c", *true)
        tests.check("counts are not below the exact ones", all(count >= true[item] for count, item in zip(got, true)))
        for name, weight in [("x", 3), ("y", 1000003), ("z", 1)]:
            client.done("CMS.INITBYDIM", name, 1000, 4, "SEED", 99)
            for item in words(numbers, 200):
                client.done("CMS.INCRBY", name, item, weight)
        client.done("CMS.INITBYDIM", "sum", 1000, 4, "SEED", 99)
        factors = [5, 77, 2**40 + 1]
        client.done("CMS.MERGE", "sum", 3, "x", "y", "z", "WEIGHTS", *factors)
        cells = lambda name: cells_of(client.done("SKETCH.IMAGE", name))
        wanted = [sum(cell * factor for cell, factor in zip(of_all, factors)) for of_all in zip(cells("x"), cells("y"), cells("z"))]
        tests.check("CMS.MERGE adds products", cells("sum") == wanted)


def cells_of(image):
    """Returns the total and the cells of an image of Count-Min."""
    return [int.from_bytes(image[at : at + 8], "little") for at in range(16, len(image), 8)]


def frequent(tests):
    """Frequent items: each exact weight lies between its bounds, and each heavy item is in the rows."""
    numbers = random.Random(3)
    true = collections.Counter()
    with tests.main.client() as client:
        client.done("FREQ.RESERVE", "r", 64)
        client.done("TOPK.RESERVE", "t", 5)
        for _ in range(100):
            batch = [(item, 1 + numbers.randrange(9)) for item in words(numbers, 50)]
            for item, weight in batch:
                true[item] += weight
            client.done("FREQ.INCRBY", "r", *[part for pair in batch for part in pair])
            lines = words(numbers, 50)
            true.update(lines)
            for key in ["r", "t"]:
                tests.check("FREQ.ADDLINES", client.done("FREQ.ADDLINES", key, "\n".join(lines)) == len(lines))
            client.done("TOPK.INCRBY", "t", *[part for pair in batch for part in pair])
        total, info = sum(true.values()), client.done("FREQ.INFO", "r")
        tests.check("the total", info[7] == total and info[9] > 0, info)
        names = list(true)
        got = client.done("FREQ.BOUNDS", "r", *names)
        tests.check("bounds hold", all(low <= true[item] <= high for (low, high), item in zip(got, names)))
        tests.check("bounds differ by the error", all(high - low <= info[9] for low, high in got))
        rows = client.done("FREQ.ROWS", "r", "ABOVE", total // 50)
        tests.check(
            "every heavy item is there",
            {item for item in true if true[item] > max(total // 50, info[9])} <= {row[0].decode() for row in rows},
        )
        tests.check("rows are bounds", all(low <= true[item.decode()] <= high for item, low, high in rows))
        first = client.done("TOPK.LIST", "t")
        tests.check(
            "the first five",
            {item.decode() for item in first[:2]} == {item for item, _ in true.most_common(2)} and len(first) == 5,
            first,
        )
        own = oracle.loaded(tests.library, oracle.STRINGS, client.done("SKETCH.IMAGE", "r"))
        tests.check("the image in C", [oracle.bounds(own, item) for item in names] == got)
        other = oracle.frequent(tests.library, 64)
        for item in words(numbers, 300):
            oracle.update(other, item)
            true[item] += 1
        client.done("SKETCH.LOAD", "from C", "frequent_strings", other.image())
        client.done("FREQ.MERGE", "both", "r", "from C")
        got = client.done("FREQ.BOUNDS", "both", *names)
        tests.check("bounds of a merge", all(low <= true[item] <= high for (low, high), item in zip(got, names)))


def images(tests):
    """Images from C, and their limits."""
    with tests.main.client() as client:
        client.done("FLUSHALL")
        own = oracle.filter_for(tests.library, 1000, 100, 9001)
        for i in range(1000):
            oracle.insert(own, f"key {i}")
        client.done("SKETCH.LOAD", "f", "bloom_filter", own.image())
        tests.check(
            "a filter from C", client.done("BF.EXISTS", "f", "key 7") == 1 and client.done("SKETCH.IMAGE", "f") == own.image()
        )
        tests.check(
            "its items",
            950 <= client.done("BF.CARD", "f") <= 1050 and 950 <= client.done("BF.INFO", "f", "CAPACITY")[0] <= 1100,
            client.done("BF.INFO", "f"),
        )
        tests.check(
            "a capacity for an image",
            client("SKETCH.LOAD", "more", "bloom_filter", own.image(), "CAPACITY", 1200) == "OK"
            and client.done("BF.INFO", "more", "CAPACITY") == [1200]
            and sum(client.done("BF.MADD", "more", *[f"new {i}" for i in range(120)])) > 100,
        )
        for words in [["CAPACITY", 0], ["CAPACITY", "x"], ["CAPACITY"]]:
            tests.check(f"{words}", isinstance(client("SKETCH.LOAD", "bad", "bloom_filter", own.image(), *words), Error))
        counted = oracle.count_min(tests.library, 3, 100, 5)
        tests.check(
            "a capacity of counts",
            str(client("SKETCH.LOAD", "bad", "count_min", counted.image(), "CAPACITY", 5)) == "ERR syntax error",
        )
        oracle.add(counted, "a", 9)
        tests.check("another seed", "seed" in str(client("SKETCH.LOAD", "c", "count_min", counted.image())))
        client.done("SKETCH.LOAD", "c", "count_min", counted.image(), "SEED", 5)
        tests.check(
            "counts from C", client.done("CMS.QUERY", "c", "a") == [9] and client.done("SKETCH.IMAGE", "c") == counted.image()
        )
        tests.check(
            "MAXBYTES",
            str(client("SKETCH.LOAD", "d", "bloom_filter", own.image(), "MAXBYTES", 100))
            == "ERR the sketch takes more bytes than MAXBYTES",
        )
        large = oracle.frequent(tests.library, 2**30).image()
        tests.check(
            "an image of an empty sketch that may grow",
            client("SKETCH.LOAD", "g", "frequent_strings", large) == "OK"
            and client("FREQ.ADD", "g", "x") == "OK"
            and client.done("MEMORY", "USAGE", "g") < 2000,
        )
        oracle.add(counted, "b", 2**63)
        tests.check(
            "a total of 2^63", str(client("SKETCH.LOAD", "e", "count_min", counted.image(), "SEED", 5)) == "ERR value out of range"
        )
        tests.check("no key was made", client.done("EXISTS", "d", "e") == 0)


def interleaved(tests):
    """The commands of 1,000 clients, interleaved."""
    with tests.main.client() as client:
        client.done("FLUSHALL")
        client.done("BF.RESERVE", "f", "0.001", 50000)
        client.done("CMS.INITBYDIM", "c", 2000, 4)
        client.done("FREQ.RESERVE", "r", 256)
        client.done("TOPK.RESERVE", "t", 10)
    true, lock, failed = collections.Counter(), threading.Lock(), []

    def of_clients(first):
        own, numbers = collections.Counter(), random.Random(first)
        try:
            clients = [Client(tests.main.socket, 2 + i % 2) for i in range(100)]
            for _ in range(10):
                for client in clients:
                    item = words(numbers, 1, 3000)[0]
                    own[item] += 1
                    client.socket.sendall(b"".join(of_item(item)))
                for client in clients:
                    if [str(client.read()).upper() for _ in range(4)][2] != "OK":
                        failed.append("a reply")
            for client in clients:
                client.close()
        except Exception as error:  # the test below fails then
            failed.append(error)
        with lock:
            true.update(own)

    threads = [threading.Thread(target=of_clients, args=(100 * i,)) for i in range(10)]
    for thread in threads:
        thread.start()
    for thread in threads:
        thread.join()
    with tests.main.client() as client:
        names = list(true)
        tests.check("1,000 clients", not failed and sum(true.values()) == 10000, failed[:3])
        tests.check("filters of 1,000 clients", sum(client.done("BF.MEXISTS", "f", *names)) == len(names))
        counted = client.done("CMS.QUERY", "c", *names)
        tests.check(
            "counts of 1,000 clients",
            client.done("CMS.INFO", "c")[5] == 10000 and all(count >= true[item] for count, item in zip(counted, names)),
        )
        got = client.done("FREQ.BOUNDS", "r", *names)
        tests.check(
            "bounds of 1,000 clients",
            all(low <= true[item] <= high for (low, high), item in zip(got, names)) and client.done("FREQ.INFO", "r")[7] == 10000,
        )
        tests.check("the first of 1,000 clients", client.done("TOPK.LIST", "t")[0].decode() == true.most_common(1)[0][0])


def of_item(item):
    """Returns a command of each kind on an item."""
    return [
        packed(["BF.ADD", "f", item]),
        packed(["CMS.INCRBY", "c", item, 1]),
        packed(["FREQ.ADD", "r", item]),
        packed(["TOPK.ADD", "t", item]),
    ]
