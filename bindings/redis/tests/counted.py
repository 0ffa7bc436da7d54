"""The limit of bytes for frequent items: an item with a counter takes no more, and a batch weighs what it stores."""
import random

from resp import Error

TOO_MUCH = Error("ERR a sketch of this command takes more bytes than the module's max-bytes")
SLOT = 44  # bytes of a slot, as of `ds_memory_bytes`


def slots_for(active):
    """Returns the slots of a table that grew to this number of counters: at least 8, of which 3/4 can be counters."""
    slots = 8
    while slots // 4 * 3 < active:
        slots *= 2
    return slots


def counted_items(tests):
    """Items with counters are no error, in no command and no batch. An error changes nothing."""
    on = tests.server("counted items")
    on.words = ["max-bytes", 4096]
    with on, on.client() as client:
        client.done("FREQ.RESERVE", "q", 64)
        kept = []
        while client("FREQ.ADD", "q", f"{len(kept):03d}" + "x" * 197) == "OK":
            kept.append(f"{len(kept):03d}" + "x" * 197)
        # With n items of 200 bytes and a table for them, one more is beyond the limit.
        count = len(kept)
        tests.check(
            "items up to the limit", 200 * count + SLOT * slots_for(count) <= 4096 < 200 * (count + 1) + SLOT * slots_for(count + 1)
        )
        tests.check("one of them again", client("FREQ.ADD", "q", kept[0]) == "OK")
        tests.check("all of them, often", client("FREQ.ADD", "q", *kept * 30) == "OK")
        tests.check("as lines", client("FREQ.ADDLINES", "q", "\n".join(kept * 30)) == 30 * count)
        tests.check("with weights", client("FREQ.INCRBY", "q", kept[1], 7, "new" + "x" * 4000, 0) == "OK")
        tests.check("by TOPK", client("TOPK.ADD", "q", kept[0]) == [None])
        exact = [62, 61 + 7, *[61] * (count - 2)]
        exact[0] += 1
        got = client.done("FREQ.BOUNDS", "q", *kept)
        tests.check("their weights", got == [[weight, weight] for weight in exact], got)
        client.done("RESTORE", "restored", 0, client.done("DUMP", "q"))
        client.done("SKETCH.LOAD", "loaded", "frequent_strings", client.done("SKETCH.IMAGE", "q"))
        tests.check("copies of it fit, too", all(client.done("FREQ.BOUNDS", key, *kept) == got for key in ["restored", "loaded"]))
        client.done("FREQ.RESERVE", "short", 64)
        short = 0
        while client("FREQ.ADD", "short", f"{short:04d}" * 10) == "OK":
            short += 1
        client.done("RESTORE", "short restored", 0, client.done("DUMP", "short"))
        tests.check(
            "copies of short items fit",
            client.done("FREQ.INFO", "short restored") == client.done("FREQ.INFO", "short") and short > 20,
        )
        before = client.done("DEBUG", "DIGEST")
        for command in [
            ("FREQ.ADD", "q", kept[0], "new" + "x" * 1500),
            ("FREQ.ADDLINES", "q", kept[0] + "\n" + "y" * 1500),
            ("FREQ.INCRBY", "q", "z" * 1500, 1, kept[0], 1),
            ("TOPK.INCRBY", "q", kept[0], 1, "z" * 1500, 1),
        ]:
            tests.check(f"{command[0]} of a new item", client(*command) == TOO_MUCH and client.done("DEBUG", "DIGEST") == before)
        client.done("FREQ.RESERVE", "often", 64)
        tests.check("repeats of a new item weigh once", client("FREQ.ADDLINES", "often", "\n".join(["w" * 300] * 1000)) == 1000)
        tests.check("repeats of new arguments weigh once", client("FREQ.ADD", "often", *["v" * 300] * 1000) == "OK")
        client.done("FREQ.RESERVE", "many", 64)
        lines = [f"line {i}" for i in range(3000)]
        tests.check("a batch beyond the counters", client("FREQ.ADDLINES", "many", "\n".join(lines)) == 3000)
        tests.check("its total", client.done("FREQ.INFO", "many")[7] == 3000)
        client.done("FREQ.RESERVE", "one", 16)
        client.done("FREQ.RESERVE", "two", 64)
        client.done("FREQ.ADD", "one", "u" * 1500)
        tests.check("a merge weighs the table that it makes", client("FREQ.MERGE", "two", "one") == "OK")
        tests.check(
            "memory stays within the limit",
            all(client.done("MEMORY", "USAGE", key) < 4096 + 400 for key in ["q", "often", "many", "two"]),
        )
        client.done("CONFIG", "SET", "rattle_sketches.max-bytes", "64kb")
        client.done("FREQ.RESERVE", "lower", 1024)
        names = [f"item {i}" for i in range(500)]
        client.done("FREQ.ADD", "lower", *names)
        client.done("CONFIG", "SET", "rattle_sketches.max-bytes", "1kb")
        before = client.done("DEBUG", "DIGEST")
        tests.check(
            "new items after many known ones under a lower limit",
            client("FREQ.ADD", "lower", *names, "new") == TOO_MUCH and client.done("DEBUG", "DIGEST") == before,
        )
        tests.check("known items under a lower limit", client("FREQ.ADD", "lower", *names) == "OK")
        tests.check("their number", client.done("FREQ.INFO", "lower")[5:8:2] == [500, 1000])
    with tests.main.client() as client:
        client.done("FLUSHALL")
        client.done("FREQ.RESERVE", "large", 64)
        item = b"x" * (40 << 20)
        tests.check("40 MB, twice", [client("FREQ.ADD", "large", item) for _ in range(2)] == ["OK", "OK"])
        tests.check("its weight", client.done("FREQ.BOUNDS", "large", item) == [[2, 2]])
        tests.check("60 MB in all", client("FREQ.ADD", "large", b"y" * (20 << 20)) == "OK")
        before = client.done("DEBUG", "DIGEST")
        tests.check(
            "68 MB in all", client("FREQ.ADD", "large", b"z" * (8 << 20)) == TOO_MUCH and client.done("DEBUG", "DIGEST") == before
        )
        client.done("DEL", "large")
        for size, parts in [(8, 3 << 20), (8 << 20, 3)]:
            client.done("FREQ.RESERVE", "lines", 64)
            lines = [bytes([97 + i]) * (size - 1) for i in range(3)]
            text = b"\n".join(lines * parts)
            tests.check("72 MB of three lines", len(text) > 70 << 20 and client("FREQ.ADDLINES", "lines", text) == 3 * parts)
            tests.check("their weights", client.done("FREQ.BOUNDS", "lines", *lines) == [[parts, parts]] * 3)
            client.done("DEL", "lines")


def random_limits(tests):
    """2,000 random batches near the limit, beside the exact bytes of what is stored: what fits is taken, what does not is an error."""
    numbers = random.Random(41)
    on = tests.server("random limits")
    limit = 8192
    on.words = ["max-bytes", limit]
    with on, on.client() as client:
        wrong, taken, errors = [], 0, 0
        for turn in range(8):
            client.done("FLUSHALL")
            client.done("FREQ.RESERVE", "r", 128)
            true, slots = {}, 8
            for _ in range(250):
                known = numbers.sample(sorted(true), min(len(true), numbers.randrange(4)))
                new = [f"{numbers.randrange(10**6)} ".ljust(numbers.randrange(7, 300), "x") for _ in range(numbers.randrange(3))]
                batch = known + new + new[:1]
                if not batch:
                    continue
                numbers.shuffle(batch)
                lines = numbers.random() < 0.5
                before = client.done("DEBUG", "DIGEST")
                got = client(*(("FREQ.ADDLINES", "r", "\n".join(batch)) if lines else ("FREQ.ADD", "r", *batch)))
                after = dict(true)
                for item in batch:
                    after[item] = after.get(item, 0) + 1
                needed = sum(map(len, after)) + SLOT * max(slots, slots_for(len(after)))
                if len(after) > 96:  # a purge: the exact table is another one from here on
                    break
                if needed <= limit:
                    if got != (len(batch) if lines else "OK"):
                        wrong.append(("a batch that fits", turn, needed, got))
                    true, slots = after, max(slots, slots_for(len(after)))
                    taken += 1
                else:
                    if got != TOO_MUCH or client.done("DEBUG", "DIGEST") != before:
                        wrong.append(("a batch that does not fit", turn, needed, got))
                    errors += 1
            names = sorted(true)
            if client.done("FREQ.BOUNDS", "r", *names) != [[true[name]] * 2 for name in names]:
                wrong.append(("weights", turn))
            if client.done("MEMORY", "USAGE", "r") > limit + 400:
                wrong.append(("memory", turn))
        tests.check("random batches near the limit", not wrong and taken > 300 and errors > 300, (wrong[:3], taken, errors))
