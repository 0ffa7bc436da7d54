"""A stream of which each of many processes counts a part. Other processes load and merge the images in a tree."""
import collections
import functools

ITEMS = [f"item{n * n % 997 % (n % 90 + 10)}" for n in range(4000)]
EXACT = collections.Counter(ITEMS)
MAKE = ["frequent s 16", "countu c 4 64 9001", "bloom b 4096 3 9001"]
HOW = {"s": "frequent 100000", "c": "countu 100000 9001", "b": "bloom 100000"}
JOIN = ["merge s s2", "merge c c2", "union b b2"]


def counted(items):
    """Returns lines that count some items in a sketch of each kind."""
    return MAKE + [line for item in items for line in (f"add s 1 {item}", f"add c 1 {item}", f"insert b {item}")]


def loaded(images, suffix=""):
    return [f"load {name}{suffix} {how} {image}" for (name, how), image in zip(HOW.items(), images)]


def shown(play, lines):
    """Runs lines in a new process. Returns the images of the three sketches after them."""
    replies = play(lines + [f"save {name} {name}" for name in HOW] + [f"image {name}" for name in HOW])
    return [reply.split()[-1] for reply in replies[-3:]]


def joined(play, left, right):
    return shown(play, loaded(left) + loaded(right, "2") + JOIN)


def chain(play, images):
    return functools.reduce(functools.partial(joined, play), images)


def balanced(play, images):
    while len(images) > 1:
        images = [joined(play, *pair) for pair in zip(images[::2], images[1::2])]
    return images[0]


def check(tests, play):
    """Checks the replies of a tree of eight processes against exact counts, and its images against those of one process."""
    parts = [shown(play, counted(ITEMS[at : at + 500])) for at in range(0, 4000, 500)]
    alone = shown(play, counted(ITEMS))
    asks = [f"ask {name} {item}" for item in EXACT for name in "scb"]
    for tree in (chain, balanced):
        images = tree(play, parts)
        replies = [reply.split() for reply in play(loaded(images) + ["status s"] + asks)[3:]]
        told = [(int(reply[3]), int(reply[5])) for reply in replies[1::3]]
        holds = all(lower <= exact <= upper for (lower, upper), exact in zip(told, EXACT.values()))
        tests.check(f"{tree.__name__}: each weight lies between its bounds", holds, told)
        error, total = int(replies[0][4]), int(replies[0][6])
        kept = sum(lower for lower, _ in told)
        tests.check(f"{tree.__name__}: the tail budget", (total, kept + 6 * error <= 4000) == (4000, True), replies[0])
        tests.check(f"{tree.__name__}: counts and filter are those of one process", images[1:] == alone[1:])
        tests.check(f"{tree.__name__}: the filter has all", all(reply == ["yes"] for reply in replies[3::3]), replies)
