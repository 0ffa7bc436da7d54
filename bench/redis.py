"""Times and memory of the module for Redis: see `redis.sh`."""
import datetime
import os
import random
import re
import subprocess
import sys
import tempfile
import time

TOP = os.path.dirname(os.path.dirname(os.path.abspath(__file__)))
sys.path.insert(0, f"{TOP}/bindings/redis/tests")

from resp import packed  # noqa: E402
from server import Server  # noqa: E402

RUNS = 5
RANGE = 1000000
ITEM = "item:__rand_int__"
# A name, the command that makes its key, the command, and its items.
ROWS = [
    ("SET", None, ["SET", f"key:{ITEM}", "x"], 1),
    ("SET, one key", None, ["SET", "key", ITEM], 1),
    ("BF.ADD", ["BF.RESERVE", "f", "0.01", RANGE], ["BF.ADD", "f", ITEM], 1),
    ("BF.EXISTS", None, ["BF.EXISTS", "f", ITEM], 1),
    ("CMS.INCRBY", ["CMS.INITBYPROB", "c", "0.001", "0.01"], ["CMS.INCRBY", "c", ITEM, "1"], 1),
    ("FREQ.ADD", ["FREQ.RESERVE", "r", 1024], ["FREQ.ADD", "r", ITEM], 1),
    ("PFADD", None, ["PFADD", "p", ITEM], 1),
    ("PFADD, 100 items", None, ["PFADD", "p", *[ITEM] * 100], 100),
    ("BF.MADD, 100 items", ["BF.RESERVE", "g", "0.01", RANGE], ["BF.MADD", "g", *[ITEM] * 100], 100),
    ("BF.MADD, 100 items, filter for 100,000", ["BF.RESERVE", "h", "0.01", 100000], ["BF.MADD", "h", *[ITEM] * 100], 100),
    ("FREQ.ADD, 100 items", ["FREQ.RESERVE", "s", 1024], ["FREQ.ADD", "s", *[ITEM] * 100], 100),
    ("FREQ.ADD, 100 items of 500", ["FREQ.RESERVE", "t", 1024], ["FREQ.ADD", "t", *[ITEM] * 100], 100),
    ("BF.ADDLINES, 100 items", ["BF.RESERVE", "i", "0.01", RANGE], ["BF.ADDLINES", "i", "\n".join([ITEM] * 100)], 100),
    ("CMS.ADDLINES, 100 items", ["CMS.INITBYPROB", "d", "0.001", "0.01"], ["CMS.ADDLINES", "d", "\n".join([ITEM] * 100)], 100),
    ("FREQ.ADDLINES, 100 items", ["FREQ.RESERVE", "u", 1024], ["FREQ.ADDLINES", "u", "\n".join([ITEM] * 100)], 100),
    ("FREQ.ADDLINES, 100 items of 500", ["FREQ.RESERVE", "v", 1024], ["FREQ.ADDLINES", "v", "\n".join([ITEM] * 100)], 100),
]


def values_of(name):
    return 500 if name.endswith("of 500") else 100000 if name.endswith("filter for 100,000") else RANGE


def build(work, archive):
    subprocess.run(["bash", f"{TOP}/bindings/c/build.sh", f"{work}/c", archive], check=True, stdout=subprocess.DEVNULL)
    subprocess.run(
        ["bash", f"{TOP}/bindings/redis/build.sh", work, f"{work}/c/libdatasketches.a"], check=True, stdout=subprocess.DEVNULL
    )
    return f"{work}/rattle_sketches.so"


def rate(on, command, requests, values):
    """Returns the requests a second of one connection with pipelines of 16."""
    ran = subprocess.run(
        [
            "redis-benchmark",
            "-s",
            on.socket,
            "-c",
            "1",
            "-P",
            "16",
            "-n",
            str(requests),
            "-r",
            str(values),
            "--csv",
            *map(str, command),
        ],
        capture_output=True,
        text=True,
        check=True,
    )
    return float(ran.stdout.splitlines()[-1].split('","')[1].strip('"'))


def rates(on, requests):
    """Returns the best rate of each row, by turns."""
    with on.client() as client:
        for _, make, _, _ in ROWS:
            if make:
                client.done(*make)
    found = {name: [] for name, _, _, _ in ROWS}
    for _ in range(RUNS):
        for name, _, command, items in ROWS:
            found[name].append(rate(on, command, requests if items == 1 else requests // 20, values_of(name)))
    return {name: max(each) for name, each in found.items()}


def counted(work, module):
    """Returns the server's instructions for an item of each row, as callgrind counts them. A command with too many arguments is an
    error: so the last row is what the server does with any argument."""
    folder = f"{work}/counted"
    on = Server(folder, module, hz=1)
    on.before = ["valgrind", "-q", "--tool=callgrind", "--instr-atstart=no", f"--callgrind-out-file={folder}/counts"]
    numbers, found = random.Random(3), {}

    def filled(word, values):
        return re.sub("__rand_int__", lambda _: f"{numbers.randrange(values):012d}", str(word))

    def send(client, command, values):
        for _ in range(25):
            client.socket.sendall(b"".join(packed([filled(word, values) for word in command]) for _ in range(16)))
            for _ in range(16):
                client.read()

    def control(*words):
        subprocess.run(["callgrind_control", *words, str(on.process.pid)], check=True, capture_output=True)

    with on, on.client() as client:
        for _, make, _, _ in ROWS:
            if make:
                client.done(*make)
        rows = ROWS + [("any 100 arguments", None, ["GET", "key", *[ITEM] * 100], 100)]
        for at, (name, _, command, items) in enumerate(rows, 1):
            values = values_of(name)
            send(client, command, values)
            control("-i", "on")
            send(client, command, values)
            control("-i", "off")
            control("-d")
            with open(f"{folder}/counts.{at}", encoding="utf-8") as file:
                total = int(next(line for line in file if line.startswith("totals:")).split()[1])
            found[name] = total / 400 / items
    return found


def used(client):
    lines = client.done("INFO", "memory").decode().split("\r\n")
    return int(next(line for line in lines if line.startswith("used_memory:")).split(":")[1])


def memories(work, module):
    """Returns pairs of what an exact key and a sketch take for the same items: bytes each."""
    numbers = random.Random(1)
    words = []
    for _ in range(500000):  # half of them few and frequent, half of them many
        words += [f"user:{int(numbers.paretovariate(0.5)) % 10000000}", f"user:{numbers.randrange(10000000)}"]
    cases = [
        (
            "1,000,000 items seen",
            "SET of each",
            lambda i: ["SET", f"seen:user:{i}", ""],
            "BF, 1 %",
            ["BF.RESERVE", "k", "0.01", 1000000],
            lambda i: ["BF.ADD", "k", f"user:{i}"],
            range(1000000),
        ),
        (
            "the most frequent of 1,000,000",
            "ZINCRBY",
            lambda word: ["ZINCRBY", "z", 1, word],
            "FREQ, 1024 slots",
            ["FREQ.RESERVE", "k", 1024],
            lambda word: ["FREQ.ADD", "k", word],
            words,
        ),
        (
            "counts of 1,000,000",
            "ZINCRBY",
            lambda word: ["ZINCRBY", "z", 1, word],
            "CMS, 0.01 %",
            ["CMS.INITBYPROB", "k", "0.0001", "0.01"],
            lambda word: ["CMS.INCRBY", "k", word, 1],
            words,
        ),
    ]
    rows = []
    for name, exact, of_exact, sketch, make, of_sketch, items in cases:
        sizes = []
        for first, each in [(None, of_exact), (make, of_sketch)]:
            with Server(f"{work}/memory{len(rows)}{len(sizes)}", module) as on, on.client() as client:
                client.done("PING")
                before = used(client)
                if first:
                    client.done(*first)
                items = list(items)
                for at in range(0, len(items), 1000):
                    client.many([each(item) for item in items[at : at + 1000]])
                client.close()
                with on.client() as other:
                    sizes.append(used(other) - before)
        rows.append((name, exact, sizes[0], sketch, sizes[1]))
    return rows


def hostile(work, module):
    """Returns the time of chosen strings over that of random ones, for each command."""
    subprocess.run(["cc", "-O2", "-pthread", "-o", f"{work}/items", f"{TOP}/bench/redis_items.c"], check=True)
    chosen = subprocess.run([f"{work}/items"], capture_output=True, check=True).stdout.splitlines()
    numbers = random.Random(2)
    others = [bytes(numbers.choices(b"abcdefghijklmnopqrstuvwxyz0123456789", k=len(chosen[0]))) for _ in chosen]
    commands = {
        "BF.MADD": ["BF.RESERVE", "k", "0.01", 100000],
        "BF.MEXISTS": ["BF.RESERVE", "k", "0.01", 100000],
        "CMS.INCRBY": ["CMS.INITBYPROB", "k", "0.001", "0.01"],
        "FREQ.ADD": ["FREQ.RESERVE", "k", 16384],
    }
    rows = []
    with Server(f"{work}/hostile", module) as on, on.client() as client:
        for name, make in commands.items():
            best = [1e9, 1e9]
            for _ in range(RUNS):
                for side, items in enumerate([others, chosen]):
                    client.done("FLUSHALL")
                    client.done(*make)
                    packs = []
                    for at in range(0, len(items), 64):
                        part = items[at : at + 64]
                        packs.append(
                            packed([name, "k", *([word for item in part for word in (item, 1)] if name == "CMS.INCRBY" else part)])
                        )
                    began = time.perf_counter()
                    for pack in packs:
                        client.socket.sendall(pack)
                        client.read()
                    best[side] = min(best[side], time.perf_counter() - began)
            rows.append((name, best[0] / len(others) * 1e9, best[1] / len(chosen) * 1e9))
    return rows


def plot(rows, path):
    """Draws the memory of each pair, if matplotlib is there."""
    try:
        import matplotlib
    except ImportError:
        return
    matplotlib.use("Agg")
    from matplotlib import pyplot

    figure, axes = pyplot.subplots(figsize=(7, 2.6))
    names = [name for name, *_ in rows]
    for shift, values, label in [(0.2, [row[2] / 1e6 for row in rows], "exact"), (-0.2, [row[4] / 1e6 for row in rows], "sketch")]:
        axes.barh([at + shift for at in range(len(rows))], values, 0.38, label=label)
    axes.set_yticks(range(len(rows)), names)
    axes.set_xscale("log")
    axes.set_xlabel("MB")
    axes.legend(loc="lower left", bbox_to_anchor=(1, 0))
    figure.tight_layout()
    os.makedirs(os.path.dirname(path), exist_ok=True)
    figure.savefig(path, dpi=100)


def main():
    archive = sys.argv[1]
    requests = int(sys.argv[2]) if len(sys.argv) > 2 else 400000
    loads = os.getloadavg()
    print(
        f"{datetime.date.today()}, {os.cpu_count()} processors, load at the start {loads[0]:.1f}, {requests} requests, "
        f"best of {RUNS} runs\n"
    )
    with tempfile.TemporaryDirectory() as work:
        module = build(work, archive)
        with Server(f"{work}/rates", module) as on:
            found = rates(on, requests)
        counts = counted(work, module)
        print("| command, one connection, pipelines of 16 | requests a second | of SET | items a second | instructions an item |")
        print("|---|---|---|---|---|")
        for name, _, _, items in ROWS:
            rates_of = f"{found[name]:,.0f} | {found[name] / found['SET']:.2f} | {found[name] * items:,.0f}"
            print(f"| `{name}` | {rates_of} | {counts[name]:,.0f} |")
        print(f"\nThe server alone, with any of 100 arguments: {counts['any 100 arguments']:.0f} instructions.")
        rows = memories(work, module)
        print("\n| for | exact | MB | sketch | MB |\n|---|---|---|---|---|")
        for name, exact, its, sketch, own in rows:
            print(f"| {name} | {exact} | {its / 1e6:.1f} | {sketch} | {own / 1e6:.2f} |")
        plot(rows, f"{TOP}/bindings/redis/plots/memory.png" if len(sys.argv) == 2 else f"{TOP}/bench/out/redis/memory.png")
        print("\n| command, strings of 416 bytes | random, ns an item | chosen, ns an item | ratio |\n|---|---|---|---|")
        for name, one, other in hostile(work, module):
            print(f"| `{name}` | {one:.0f} | {other:.0f} | {other / one:.2f} |")
        print(f"\nload at the end {os.getloadavg()[0]:.1f}")


main()
