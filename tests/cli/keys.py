"""The environment variable that fixes the key of tables: its values, runs that repeat, and runs under random keys. `run.py` runs
them."""
import os
import subprocess

import cluster
import sessions
from failing import KEY

GIVEN = "000102030405060708090a0b0c0d0e0f"
OTHER = "f0e0d0c0b0a090807060504030201000"
HALVES = [GIVEN[:16] + OTHER[16:], OTHER[:16] + GIVEN[16:]]  # each shares one half with both
ALLOWED = ["plain", GIVEN, GIVEN.upper(), GIVEN[:16] + GIVEN[16:].upper(), OTHER, 32 * "0", 32 * "f"]
BAD = ["", "Plain", "PLAIN", "plain ", " plain", "plainplain", "keyed", "random", "-", "0", GIVEN[:31], GIVEN[:30], f"{GIVEN}0",
       f"{GIVEN}00", f"0x{GIVEN}", f"0x{GIVEN[:30]}", f"{GIVEN[:31]}g", f"g{GIVEN[:31]}", f"{GIVEN[:31]} ", 16 * "é", 5000 * "0"]
MESSAGE = b"DATASKETCHES_TABLE_KEY must be plain or 32 hexadecimal digits\n"
NO_BYTES = b"no random bytes\n"

# Twenty items in a sketch with room for six counters, so it purges. Then its image, bounds and rows.
REPEATED = [
    "frequent s 8",
    *[f"add s {1 + n * n % 7} item{n % 20}" for n in range(200)],
    "save s p",
    "image p",
    "status s",
    *[f"ask s item{n}" for n in range(20)],
    "rows s fn 0",
]
# A sketch that is never purged. Its image has the items in the order of the table.
ORDERED = ["frequent s 1024", *[f"add s {n} item{n}" for n in range(1, 101)], "save s p", "image p"]
ITEMS = [f"item{n}" for n in range(1, 101)]
SHOWN = ["save s p", "image p"]


def filled(name):
    """Returns lines that add each item to a sketch with its own weight."""
    return [f"add {name} {n} {item}" for n, item in enumerate(ITEMS, 1)]


def keyed_jobs(full, empty):
    """Returns jobs whose last reply shows the order of a table, one for each way to a sketch, given two images."""
    other = ["frequent t 1024", *filled("t")]
    ways = {
        "frequent": ["frequent s 1024", *filled("s")],
        "sampled": ["sampled s 1024 100", *filled("s")],
        "reset": ["frequent s 1024", *filled("s"), "reset s", *filled("s")],
        "merge": [*other, "frequent s 1024", "merge s t"],
        "restore": [*other, "save t q", "restore q s"],
        "restore of an empty image": ["frequent t 1024", "save t q", "restore q s", *filled("s")],
        "load": [f"load s frequent 1000000 {full}"],
        "load of an empty image": [f"load s frequent 1000000 {empty}", *filled("s")],
    }
    added = [f"hadd 7 1 {item}" for item in ITEMS]
    reports = {
        "hreport": ["windows 2 1024", *added, "hreport 7 fn 0"],
        "hreport after hturn": ["windows 2 1024", *added, "hturn 7", "hadd 7 1 item1", "hreport 7 fn 1000000", "hreport 7 fn 0"],
    }
    return {**{name: way + SHOWN for name, way in ways.items()}, **reports}


# Names of sketches, images and tenants, and their replies, which show no order of a map.
MANY_NAMES = [
    ("windows 2 8", "ok"),
    *[(line, "ok") for n in range(200) for line in (f"frequent name{n} 8", f"add name{n} {n + 1} x", f"save name{n} image{n}")],
    *[(f"hadd {n} {n + 1} x", "ok") for n in range(200)],
    *[(f"restore image{n} again{n}", "ok") for n in range(200)],
    *[(f"ask {name}{n} x", f"estimate {n + 1} lower {n + 1} upper {n + 1}") for n in range(200) for name in ("name", "again")],
    *[(f"hreport {n} fn 0", f"report total {n + 1} error 0 rows 1 x {n + 1} {n + 1} {n + 1}") for n in range(200)],
    ("hreport 200 fn 0", "report total 0 error 0 rows 0"),
]


def unread(tests, key, **settings):
    """Runs the program over a file. Returns its status, both outputs, and the number of bytes that it read of the file."""
    path = os.path.join(tests.work, "unread")
    with open(path, "wb") as file:
        file.write(sessions.text(["frequent s 8"]))
    env = {"PATH": "/usr/bin:/bin", **settings}
    if key is not None:
        env[KEY] = key
    with open(path, "rb") as file:
        ran = subprocess.run([tests.program], stdin=file, capture_output=True, env=env, timeout=60)
        return ran.returncode, ran.stdout, ran.stderr, os.lseek(file.fileno(), 0, os.SEEK_CUR)


def play(tests, key):
    """Returns a function that plays lines under a key, or under random keys, and returns their replies."""

    def answers(lines):
        status, out, said, _ = tests.run(sessions.text(lines), key=key)
        replies = out.decode().splitlines()
        tests.check(f"replies under {key}", (status, said, len(replies)) == (0, b"", len(lines)), (status, said))
        return replies

    return answers


def check(tests):
    """Checks the forms of the variable, bad values, equal runs under one key, orders under several, and bounds under random keys."""
    lines, replies = sessions.texts_of(sessions.MAIN_JOB + sessions.QUESTIONS[:3])
    names, told = sessions.texts_of(MANY_NAMES)
    for key in [*ALLOWED, None, None]:
        status, out, said, _ = tests.run(lines, key=key)
        tests.check(f"the main job under {key}", (status, out, said) == (0, replies, b""), (status, out, said))
        status, out, said, _ = tests.run(names, key=key)
        tests.check(f"many names under {key}", (status, out, said) == (0, told, b""), (status, out[-1000:], said))
        ran = unread(tests, key)
        tests.check(f"the input is read under {key}", ran == (0, b"ok\n", b"", 13), ran)
    for key in BAD:
        ran = unread(tests, key)
        tests.check(f"no key {key[:40]!r}", ran == (2, b"", MESSAGE, 0), ran)
    preloaded = {"LD_PRELOAD": tests.library, "NO_RANDOM_BYTES": "1"}
    ran = unread(tests, None, **preloaded)
    tests.check("no random bytes", ran == (2, b"", NO_BYTES, 0), ran)
    for key in ["plain", GIVEN]:
        ran = unread(tests, key, **preloaded)
        tests.check(f"no random bytes are needed under {key}", ran == (0, b"ok\n", b"", 13), ran)
    for key in ["plain", GIVEN, OTHER]:
        for name, asked in [("a purged sketch", REPEATED), ("an image", ORDERED)]:
            tests.check(f"{name} twice under {key}", play(tests, key)(asked) == play(tests, key)(asked))
    images = [play(tests, key)(ORDERED)[-1] for key in ["plain", GIVEN, OTHER, None, None, *HALVES]]
    tests.check("keys order the items of an image", len(set(images)) == len(images))
    images_of = [play(tests, "plain")(job)[-1].split()[-1] for job in [ORDERED, ["frequent s 1024", *SHOWN]]]
    for name, job in keyed_jobs(*images_of).items():
        orders = [play(tests, key)(job)[-1] for key in ["plain", GIVEN, OTHER]]
        tests.check(f"keys order the items after {name}", len(set(orders)) == len(orders))
    tests.check("keys are of either case", play(tests, GIVEN.upper())(ORDERED)[-1] == images[1])
    cluster.check(tests, play(tests, None))
