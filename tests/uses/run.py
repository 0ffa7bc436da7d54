"""Runs the jobs of `crates/uses` over generated data sets, and compares their reports with exact results.

    python3 tests/uses/run.py crates/uses/out/uses

prints a line for each check that failed, and then 'N passed, M failed'.
"""
import collections
import os
import random
import re
import subprocess
import sys

sys.path.append(os.path.dirname(os.path.dirname(os.path.abspath(__file__))))

import checks  # noqa: E402


class Tests(checks.Checks):
    def __init__(self, program):
        super().__init__()
        self.program = program

    def run(self, words, lines):
        """Runs a job over lines. Returns the exit status and the lines that it wrote."""
        text = "".join(f"{line}\n" for line in lines)
        words = [str(word) for word in words]
        done = subprocess.run([self.program, *words], input=text, capture_output=True, text=True, timeout=120)
        return done.returncode, done.stdout.splitlines()

    def group_by(self):
        """Checks reports on eight shards of one stream, in two orders: the heavy hitters, their bounds, and the tail budget."""
        rng = random.Random(1)
        names = [f"group{n}" for n in range(3000)]
        zipf = [1 / (n + 1) for n in range(3000)]
        rows = [(rng.randrange(8), rng.randrange(1, 50), group) for group in rng.choices(names, zipf, k=30000)]
        exact = collections.Counter()
        for _, weight, group in rows:
            exact[group] += weight
        total = sum(exact.values())
        heaviest = [weight for _, weight in exact.most_common()]
        for size, threshold in [(64, 0), (64, 5000), (1024, 0), (4096, 100)]:
            for order in (range(8), range(7, -1, -1)):
                lines = [f"{order[shard]} {weight} {group}" for shard, weight, group in rows]
                status, report = self.run(["group-by", size, threshold], lines)
                name = f"group by {size} {threshold} {order}"
                last = re.fullmatch(r"groups (\d+) error (\d+) total (\d+)", report[-1] if report else "")
                self.check(f"{name}: the last line", status == 0 and last, report[-1:])
                shown = [line.split() for line in report[:-1]]
                error = int(last[2])
                self.check(f"{name}: how many, and what all weigh", (int(last[1]), int(last[3])) == (len(shown), total))
                bounds = {group: (int(lower), int(upper)) for group, lower, upper, *_ in shown}
                holds = all(lower <= exact[group] <= upper == lower + error for group, (lower, upper) in bounds.items())
                self.check(f"{name}: bounds enclose", holds and len(bounds) == len(shown), shown)
                missing = [g for g, weight in exact.items() if weight > max(threshold, error) and g not in bounds]
                self.check(f"{name}: none is missing", not missing, missing)
                places = min(1024, size * 3 // 4) // 2
                pays = all((places - k) * error <= total - sum(heaviest[:k]) for k in range(places + 1))
                self.check(f"{name}: the tail pays for the error", pays, error)
                uppers = [upper for _, upper in bounds.values()]
                self.check(f"{name}: the heaviest first", uppers == sorted(uppers, reverse=True))
                self.check(f"{name}: bars", all(0 <= len(bar) <= 40 for *_, bar in (row + [""] for row in shown if len(row) == 3)))

    def join_prefilter(self):
        """Checks keys in five parts, and rows. All rows with a matching key are kept, in their order."""
        rng = random.Random(2)
        for bits, keys, rows in [(1 << 14, 1000, 5000), (64, 200, 500), (1 << 16, 0, 100)]:
            have = [str(rng.randrange(10000)) for _ in range(keys)]
            data = [(str(rng.randrange(10000)), str(n)) for n in range(rows)]
            lines = [f"key {rng.randrange(5)} {key}" for key in have] + [f"row {key} {value}" for key, value in data]
            rng.shuffle(lines)
            data = [tuple(line.split()[1:]) for line in lines if line.startswith("row")]
            status, report = self.run(["join-prefilter", bits, 5], lines)
            kept = [tuple(line.split()) for line in report[:-1]]
            name = f"join of {rows} rows with {keys} keys"
            self.check(f"{name}: the last line", (status, report[-1:]) == (0, [f"kept {len(kept)} of {rows} rows"]), report[-1:])
            known = set(have)
            joins = [row for row in data if row[0] in known]
            self.check(f"{name}: what joins is left", [row for row in kept if row[0] in known] == joins)
            rest = iter(data)
            self.check(f"{name}: no row is new, and the order is kept", all(row in rest for row in kept))
        self.check("a join with no keys keeps no row", not kept, kept)

    def takedown(self):
        """Checks claims of ten items each, of which a third is withdrawn."""
        rng = random.Random(3)
        claims = [[f"item{claim}.{n}" for n in range(10)] for claim in range(60)]
        every = [item for claim in claims for item in claim]
        lines = [f"refuse {' '.join(claim)}" for claim in claims] + [f"ask {' '.join(every)}"]
        withdrawn = rng.sample(claims, 20)
        for claim in withdrawn:
            lines += [f"back {' '.join(claim)}", f"ask {' '.join(claim)}"]
        lines += [f"ask {' '.join(every)}"]
        status, report = self.run(["takedown", 1 << 16, 7], lines)
        self.check("takedown: as many answers as questions", (status, len(report)) == (0, 600 + 200 + 600), len(report))
        self.check("takedown: what is refused is refused", report[:600] == ["refused"] * 600)
        self.check("takedown: what was taken back is free", report[600:800] == ["free"] * 200)
        last = dict(zip(every, report[800:]))
        gone = {item for claim in withdrawn for item in claim}
        self.check("takedown: it stays free", all(last[item] == "free" for item in gone))
        refused = sum(last[item] == "refused" for item in every)
        # 1400 of 65536 positions were cleared: an item keeps all its seven positions in about six of seven cases
        self.check("takedown: most others are refused still", 300 < refused <= 400, refused)

    def admission(self):
        """Checks two caches over a stream with a scan against caches with exact counts. The table is so large that no item
        shares all four cells with others."""
        for seed, capacity, window in [(4, 20, 500), (5, 50, 2000), (6, 1, 3)]:
            stream = trace(random.Random(seed), 2000, 8000)
            status, report = self.run(["admission", 4, 1 << 16, window, capacity], stream)
            hits, plain = simulated(stream, window, capacity)
            wanted = [f"uses {len(stream)} hits {hits} without {plain}"]
            self.check(f"admission to {capacity} places", (status, report) == (0, wanted), (report, wanted))

    def refusals(self):
        """Checks that input which a job rejects ends with status 1 and no report."""
        for words, lines in [
            ([], []),
            (["sort", 1], []),
            (["group-by", 64], []),
            (["group-by", 63, 1], []),
            (["group-by", 64, 1], ["0 much a"]),
            (["group-by", 64, 1], ["1024 1 a"]),
            (["group-by", 64, 1], [f"0 {2**64 - 1} a", "0 1 a"]),
            (["join-prefilter", 0, 3], []),
            (["join-prefilter", 64, 3], ["key 0"]),
            (["join-prefilter", 64, 3], ["sort 0 1"]),
            (["join-prefilter", 64, 3], ["key 1024 1"]),
            (["takedown", 64, 0], []),
            (["takedown", 64, 3], ["forget a"]),
            (["admission", 4, 64, 0, 1], []),
            (["admission", 4, 64, 1, 0], []),
            (["admission", 4, 2, 1, 1], []),
            (["admission", 4, 64, 1, 1], ["one"]),
        ]:
            status, report = self.run(words, lines)
            self.check(f"{words} {lines} is refused", (status, report) == (1, []), (status, report))


def trace(rng, items, uses):
    """Returns a Zipf stream of items with a scan of many other items in its middle."""
    weights = [1 / (n + 1) for n in range(items)]
    some = rng.choices(range(items), weights, k=uses)
    scan = list(range(items, items + uses // 4))
    return some[: uses // 2] + scan + some[uses // 2 :]


def simulated(stream, window, capacity):
    """Returns the numbers of hits of two caches: one that admits by exact aged counts, and one that admits every item."""
    counts, total = collections.Counter(), 0
    choosy, plain = collections.OrderedDict(), collections.OrderedDict()
    hits = plain_hits = 0
    for item in stream:
        counts[item] += 1
        total += 1
        if total == window:
            total //= 2
            counts = collections.Counter({key: n // 2 for key, n in counts.items()})
        if item in plain:
            plain_hits += 1
        elif len(plain) == capacity:
            plain.popitem(last=False)
        plain[item] = None
        plain.move_to_end(item)
        if item in choosy:
            hits += 1
            choosy.move_to_end(item)
        elif len(choosy) < capacity:
            choosy[item] = None
        elif counts[item] > counts[next(iter(choosy))]:
            choosy.popitem(last=False)
            choosy[item] = None
    return hits, plain_hits


def main():
    words = sys.argv[1:]
    tests = Tests(words[0])
    tests.group_by()
    tests.join_prefilter()
    tests.takedown()
    tests.admission()
    tests.refusals()
    tests.end()


main()
