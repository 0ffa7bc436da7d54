"""Lines of the program whose allocations are counted. `run.py` runs them.

Names and items are slices of a line. The program allocates nothing for these lines, since a session keeps no name or item of
theirs, and its sketches track the items already. Only `hadd` copies its item, since windows take items that they own.
"""
# The lines before all others. The first ones fill the buffer of replies, so that later replies need no new memory. The others
# make sketches of all four kinds, an item in two of them, an image, and windows of tenants. The windows of tenant 3 together
# weigh more than a report can add up.
MADE = 8000 * ["ask z x"] + [
    "frequent f 8",
    "frequent e 8",
    "countu c 2 16 9001",
    "countu c2 2 16 9001",
    "counti i 2 16 9001",
    "counti i2 2 16 9001",
    "bloom b 128 2 9001",
    "bloom b2 128 2 9001",
    "countu c3 2 17 9001",
    "counti i3 2 17 9001",
    "bloom b3 128 3 9001",
    "add f 5 x",
    "add c 1 x",
    "save f q",
    "windows 2 8",
    "hadd 1 5 a",
    "hadd 3 1 a",
    "hturn 3",
    "hadd 3 18446744073709551615 a",
]

NO_NAME = "refused NoSuchName"
WRONG = "refused WrongKind"
TAKEN = "refused NameTaken"
UNLIKE = "refused Mismatch"
OVERFLOW = "refused WeightOverflow"

# A line, the number of its words that are copied, and its reply.
LINES = [
    # accepted changes
    ("add f 4 x", 0, "ok"),
    ("add f 2 y", 0, "ok"),
    ("add f 0 y", 0, "ok"),
    ("merge f e", 0, "ok"),
    ("reset e", 0, "ok"),
    ("add c 9 x", 0, "ok"),
    ("merge c c2", 0, "ok"),
    ("halve c", 0, "ok"),
    ("decay c 1 2", 0, "ok"),
    ("adds i -7 x", 0, "ok"),
    ("merge i i2", 0, "ok"),
    ("insert b x", 0, "ok"),
    ("union b2 b", 0, "ok"),
    ("intersect b b2", 0, "ok"),
    ("difference b2 b", 0, "ok"),
    ("reset b2", 0, "ok"),
    # queries of a sketch of each kind
    ("ask f x", 0, "estimate 5 lower 5 upper 5"),
    ("ask c x", 0, "estimate 1 lower 1 upper 1"),
    ("ask i x", 0, "estimate 0 lower 0 upper 0"),
    ("ask b x", 0, "no"),
    ("status f", 0, "frequent active 1 error 0 total 5 size 8 max 8 capacity 6"),
    ("status c", 0, "countu total 1 hashes 2 buckets 16 seed 9001"),
    ("status i", 0, "counti total 0 hashes 2 buckets 16 seed 9001"),
    ("status b", 0, "bloom bits 0 capacity 128 hashes 2 seed 9001"),
    # unknown names
    ("add z 1 x", 0, NO_NAME),
    ("adds z 1 x", 0, NO_NAME),
    ("insert z x", 0, NO_NAME),
    ("merge z c", 0, NO_NAME),
    ("merge c z", 0, NO_NAME),
    ("union z b", 0, NO_NAME),
    ("intersect b z", 0, NO_NAME),
    ("difference z b", 0, NO_NAME),
    ("reset z", 0, NO_NAME),
    ("halve z", 0, NO_NAME),
    ("decay z 1 2", 0, NO_NAME),
    ("save z p", 0, NO_NAME),
    ("restore z p", 0, NO_NAME),
    ("image z", 0, NO_NAME),
    ("ask z x", 0, NO_NAME),
    ("status z", 0, NO_NAME),
    ("rows z fn 0", 0, NO_NAME),
    # sketches of the wrong kind
    ("add b 1 x", 0, WRONG),
    ("adds c 1 x", 0, WRONG),
    ("insert f x", 0, WRONG),
    ("merge c i", 0, WRONG),
    ("merge b b2", 0, WRONG),
    ("union f e", 0, WRONG),
    ("intersect b c", 0, WRONG),
    ("difference c b", 0, WRONG),
    ("reset c", 0, WRONG),
    ("halve f", 0, WRONG),
    ("decay i 1 2", 0, WRONG),
    ("rows c fn 0", 0, WRONG),
    # lines that are rejected for other reasons
    ("frequent c 8", 0, TAKEN),
    ("countu i 2 16 9001", 0, TAKEN),
    ("counti f 2 16 9001", 0, TAKEN),
    ("bloom c 128 2 9001", 0, TAKEN),
    ("save c q", 0, TAKEN),
    ("restore q c", 0, TAKEN),
    ("merge f f", 0, "refused SameName"),
    ("union b b", 0, "refused SameName"),
    ("merge c c3", 0, UNLIKE),
    ("merge i i3", 0, UNLIKE),
    ("union b b3", 0, UNLIKE),
    ("intersect b b3", 0, UNLIKE),
    ("difference b b3", 0, UNLIKE),
    ("decay c 0 2", 0, "refused BadFraction"),
    ("decay c 3 2", 0, "refused BadFraction"),
    ("add f 18446744073709551615 x", 0, OVERFLOW),
    ("add c 18446744073709551615 x", 0, OVERFLOW),
    ("adds i -9223372036854775808 x", 0, OVERFLOW),
    # windows
    ("windows 2 8", 0, TAKEN),
    ("hadd 1 3 a", 1, "ok"),
    ("hadd 1 0 c", 1, "ok"),
    ("hadd 2 0 c", 1, "ok"),
    ("hadd 1 18446744073709551615 a", 1, OVERFLOW),
    ("hturn 2", 0, "ok"),
    ("hreport 3 fn 0", 0, OVERFLOW),
]

# Seven items for a window that holds six. The last one causes a purge.
PURGED = [f"hadd 1 1 {item}" for item in "pqrstuv"]

# How often a line is repeated in two runs whose allocations are compared.
FEW, MANY = 2, 12


def text(lines, times):
    """Returns `MADE` and then the lines, repeated `times` times, as bytes."""
    return "".join(f"{line}\n" for line in MADE + times * lines).encode()
