"""Random scripts: compares the package's results with the replies of the proved program.

`DATASKETCHES_CLI` is the path of the built program. The default is its path in the crate. The tests are skipped without it.
"""
import functools
import os
import random
import subprocess
import unittest

import datasketches_rattle as ds

HERE = os.path.dirname(os.path.abspath(__file__))
PROGRAM = os.environ.get("DATASKETCHES_CLI", os.path.join(HERE, "../../../crates/datasketches_cli/out/datasketches_cli"))
KEY = bytes(range(16))  # the key of the tables of the package and of the program
NAMES = ("f", "g", "h")
JOINS = {"union": "__ior__", "intersect": "__iand__", "difference": "__isub__"}


def script(chance, length):
    """Returns lines on filters, and for each the reply that the package's result gives."""
    filters = {name: ds.BloomFilter(512, 3, seed=chance.choice((1, 1, 1, 2))) for name in NAMES}
    lines = [f"bloom {name} 512 3 {each.seed}" for name, each in filters.items()]
    replies = ["ok"] * len(lines)
    for _ in range(length):
        name, other = chance.sample(NAMES, 2)
        item = chance.choice(("apple", "Grüße", "7", "-7")) + str(chance.randrange(30))
        kind = chance.choice(("insert", "insert", "insert", "ask", "ask", "status", "reset", "image", *JOINS))
        if kind == "reset" and chance.random() < 0.7:
            kind = "ask"
        reply = "ok"
        if kind == "insert":
            lines.append(f"insert {name} {item}")
            filters[name].insert(item)
        elif kind == "ask":
            lines.append(f"ask {name} {item}")
            reply = "yes" if item in filters[name] else "no"
        elif kind == "status":
            lines.append(f"status {name}")
            each = filters[name]
            reply = f"bloom bits {each.bits_used} capacity {each.capacity} hashes {each.num_hashes} seed {each.seed}"
        elif kind == "reset":
            lines.append(f"reset {name}")
            filters[name].reset()
        elif kind == "image":
            key = f"i{len(lines)}"
            lines += [f"save {name} {key}", f"image {key}"]
            replies.append("ok")
            reply = f"image {bytes(filters[name]).hex()}"
        else:
            lines.append(f"{kind} {name} {other}")
            try:
                getattr(filters[name], JOINS[kind])(filters[other])
            except ds.SketchError as error:
                reply = f"refused {error.fault}"
        replies.append(reply)
    return lines, replies


def script_of_counts(chance, length, signed=False):
    """Returns the same for Count-Min sketches."""
    counts = {name: ds.CountMinSketch(3, 64, seed=chance.choice((1, 1, 1, 2)), signed=signed) for name in NAMES}
    make, add = ("counti", "adds") if signed else ("countu", "add")
    weights = (0, 1, -1, -(10**12), 2**62, -(2**62), 2**63 - 1, -(2**63)) if signed else (0, 1, 2**60, 2**64 - 1)
    lines = [f"{make} {name} 3 64 {each.seed}" for name, each in counts.items()]
    replies = ["ok"] * len(lines)
    for _ in range(length):
        name, other = chance.sample(NAMES, 2)
        item = chance.choice(("apple", "Grüße", "7", "-7")) + str(chance.randrange(30))
        kind = chance.choice(("add",) * 6 + ("ask",) * 4 + ("status", "merge", "image") + ((), ("halve", "decay"))[not signed])
        each, reply = counts[name], "ok"
        try:
            if kind == "add":
                weight = chance.choice((*weights, *(chance.randrange(-1000 if signed else 0, 1000) for _ in weights)))
                lines.append(f"{add} {name} {weight} {item}")
                each.update(item, weight)
            elif kind == "ask":
                lines.append(f"ask {name} {item}")
                reply = f"estimate {each[item]} lower {each[item]} upper {each.upper_bound(item)}"
            elif kind == "status":
                lines.append(f"status {name}")
                reply = f"{make} total {each.total_weight} hashes {each.num_hashes} buckets {each.num_buckets} seed {each.seed}"
            elif kind == "merge":
                lines.append(f"merge {name} {other}")
                each += counts[other]
            elif kind == "halve":
                lines.append(f"halve {name}")
                each.halve()
            elif kind == "decay":
                fraction = chance.randrange(4), chance.randrange(4)
                lines.append("decay {} {} {}".format(name, *fraction))
                each.decay(*fraction)
            else:
                key = f"i{len(lines)}"
                lines += [f"save {name} {key}", f"image {key}"]
                replies.append("ok")
                reply = f"image {bytes(each).hex()}"
        except ds.SketchError as error:
            reply = f"refused {error.fault}"
        replies.append(reply)
    return lines, replies


def script_of_texts(chance, length):
    """Returns the same for frequent strings."""
    heavy = {name: ds.FrequentItemsSketch(chance.choice((8, 16)), item=str, key=KEY) for name in NAMES}
    lines = [f"frequent {name} {each.max_map_size}" for name, each in heavy.items()]
    replies = ["ok"] * len(lines)
    for _ in range(length):
        name, other = chance.sample(NAMES, 2)
        item = chance.choice(("apple", "Grüße")) + str(int(chance.paretovariate(0.7)) % 40)
        kind = chance.choice(("add",) * 8 + ("ask",) * 4 + ("merge", "rows", "image"))
        each, reply = heavy[name], "ok"
        try:
            if kind == "add":
                weight = chance.choice((0, 1, chance.randrange(1000), chance.randrange(1000), 2**62))
                lines.append(f"add {name} {weight} {item}")
                each.update(item, weight)
            elif kind == "ask":
                lines.append(f"ask {name} {item}")
                reply = "estimate {1} lower {0} upper {2}".format(*each.bounds(item))
            elif kind == "merge":
                lines.append(f"merge {name} {other}")
                each += heavy[other]
            elif kind == "rows":
                threshold, negatives = chance.choice((0, 5, 500)), chance.random() < 0.5
                lines.append(f"rows {name} {'fn' if negatives else 'fp'} {threshold}")
                rows = each.rows(threshold, no_false="negatives" if negatives else "positives")
                reply = " ".join(["rows", str(len(rows))] + ["{0} {2} {1} {3}".format(*row) for row in rows])
            else:
                key = f"i{len(lines)}"
                lines += [f"save {name} {key}", f"image {key}"]
                replies.append("ok")
                reply = f"image {bytes(each).hex()}"
        except ds.SketchError as error:
            reply = f"refused {error.fault}"
        replies.append(reply)
    return lines, replies


def in_order(reply):
    """Returns a reply with its rows in one order, since rows of equal numbers may come in any order."""
    words = reply.split(" ")
    if words[0] != "rows":
        return reply
    rows = [words[i:i + 4] for i in range(2, len(words), 4)]
    numbers = [row[1:] for row in rows]
    return words[1], numbers, sorted(rows)


@unittest.skipUnless(os.access(PROGRAM, os.X_OK), "the program is not built")
class Program(unittest.TestCase):
    def play(self, make):
        for seed in range(20):
            lines, replies = make(random.Random(seed), 200)
            done = subprocess.run([PROGRAM], input="\n".join(lines).encode(), capture_output=True, timeout=60, check=True,
                                  env={**os.environ, "DATASKETCHES_TABLE_KEY": KEY.hex()})
            said = done.stdout.decode().split("\n")[:-1]
            for line, reply, answer in zip(lines, said, replies):
                self.assertEqual(in_order(reply), in_order(answer), line)
            self.assertEqual(len(said), len(lines))

    def test_random_scripts_of_filters(self):
        self.play(script)

    def test_random_scripts_of_counts(self):
        self.play(script_of_counts)

    def test_random_scripts_of_signed_counts(self):
        self.play(functools.partial(script_of_counts, signed=True))

    def test_random_scripts_of_texts(self):
        self.play(script_of_texts)


if __name__ == "__main__":
    unittest.main()
