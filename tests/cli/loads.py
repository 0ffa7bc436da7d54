"""Lines that load images: test cases, altered and cut images, and images that one run prints and another one loads.

`run.py` runs them. An image is a word of hexadecimal digits, as the program prints it.
"""
# A filter of one word with one item, saved and printed.
SHOWN = ["bloom f 64 1 9001", "insert f a", "save f p", "image p"]

# The image of a filter of one word with one bit set, up to that word: one hash, the seed 9001 and the count 1.
OF_ONE_BIT = "04011500010000002923000000000000" "0100000000000000" "0100000000000000"

# The string "ab" with a weight of 5 in a sketch of 8 slots, the same with a maximum of 2^30 slots, and an empty sketch.
AB = "04010a0303000000" "0100000000000000" "0500000000000000" "0000000000000000" "0500000000000000" "020000006162"
HUGE = "04010a1e1e000000" + AB[16:]
EMPTY = "01010a0603050000"

# The string "ab" twice, with a weight of 1 each.
TWICE = AB[:16] + 2 * "0200000000000000" + AB[48:64] + 2 * "0100000000000000" + 2 * AB[80:]

# A filter of one word with two bits set, and an empty one.
TWO_BITS = "04011500010000002923000000000000" "0100000000000000" "0200000000000000" "0300000000000000"
NO_BITS = "03011504010000002923000000000000" "0100000000000000"

# Count-Min sketches of the total 5 with one hash, three buckets and the seed 9001: cells 5, 0 and -5; and cells 5, 0 and 5.
SIGNED = "0201120000000000" "0300000001cc9300" "0500000000000000" "0500000000000000" "0000000000000000" "fbffffffffffffff"
UNSIGNED = SIGNED[:80] + "0500000000000000"
NO_WEIGHT = "02011201000000008000000004cc9300"


def worked(shown):
    """Returns the test cases after those that print the filter's image, which is `shown`."""
    other_family = altered(shown, 2, "0a")
    rows = [
        (f"load g bloom 1000 {shown}", "ok"),
        ("ask g a", "yes"),
        ("ask g b", "no"),
        ("ask f b", "no"),
        (f"load g bloom 1000 {shown}", "refused NameTaken"),
        (f"load h bloom 7 {shown}", "refused TableTooLarge"),
        (f"load h bloom 1000 {other_family}", "refused BadFamily"),
        (f"load upper bloom 8 {shown.upper()}", "ok"),
        ("union upper g", "ok"),
        ("status upper", "bloom bits 1 capacity 64 hashes 1 seed 9001"),
        (f"load h frequent 1000 {AB}", "ok"),
        ("ask h ab", "estimate 5 lower 5 upper 5"),
        ("load h frequent 1000 01", "refused NameTaken"),
        ("load k frequent 1000 01", "refused InsufficientData"),
        (f"load k frequent 1000000 {HUGE}", "refused TableTooLarge"),
        (f"load k countu 4000 9001 {NO_WEIGHT}", "refused TableTooLarge"),
        ("status k", "refused NoSuchName"),
        (f"load k countu 10000 9001 {NO_WEIGHT}", "ok"),
        ("status k", "countu total 0 hashes 4 buckets 128 seed 9001"),
        (f"load m countu 10000 1 {NO_WEIGHT}", "refused SeedHashMismatch"),
        (f"load m countu 10000 50541 {NO_WEIGHT}", "refused ZeroSeedHash"),
        # another seed with the same 16-bit hash
        (f"load m counti 4128 37408 {NO_WEIGHT}", "ok"),
        ("status m", "counti total 0 hashes 4 buckets 128 seed 37408"),
        (f"load n counti 4127 37408 {NO_WEIGHT}", "refused TableTooLarge"),
        ("load n bloom 1000 -", "refused InsufficientData"),
        ("load n counti 0 9001 -", "refused InsufficientData"),
        (f"load n frequent 18446744073709551615 {EMPTY}", "ok"),
        ("status n", "frequent active 0 error 0 total 0 size 8 max 64 capacity 6"),
        # eight slots of 44 bytes
        (f"load o frequent 351 {EMPTY}", "refused TableTooLarge"),
        # plus the six bytes of the item, and none after the image
        (f"load o frequent 357 {AB}", "refused TableTooLarge"),
        (f"load o frequent 357 {AB}00", "refused TableTooLarge"),
        (f"load o frequent 358 {AB}00", "ok"),
        (f"load o2 frequent 352 {EMPTY}00", "ok"),
        ("merge n h", "ok"),
        ("ask n ab", "estimate 5 lower 5 upper 5"),
    ]
    rows += [(f"load q frequent 1000 {TWICE}", "ok"), ("ask q ab", "estimate 2 lower 2 upper 2")]
    return rows + [("load m bloom 1000 zz", f"bad line {len(SHOWN) + len(rows) + 1}")]


# Lines that are not a valid `load`.
NO_LOADS = [
    b"load",
    b"load m",
    b"load m bloom",
    b"load m bloom 1000",
    b"load m bloom 1000 z",
    b"load m bloom 1000 0",
    b"load m bloom 1000 0g",
    b"load m bloom 1000 0G",
    b"load m bloom 1000 000",
    b"load m bloom 1000 --",
    b"load m bloom 1000 -0",
    b"load m bloom 1000 \xc3\xa9",
    b"load m bloom 1000 00 00",
    b"load m bloom 1000 9001 00",
    b"load m frequent 1000 9001 00",
    b"load m bloom 18446744073709551616 00",
    b"load m frequent -1 00",
    b"load m countu 1000 00",
    b"load m counti 1000 -1 00",
    b"load m counti 1000 18446744073709551616 00",
    b"load m countu x 9001 00",
    b"load m countu 1000 9001 0",
    b"load m countu 1000 9001 00 00",
    b"load m countu 1000 9001 00 00 00",
    b"load m sampled 1000 00",
    b"load m bloom 1000 0x",
    b"Load m bloom 1000 00",
]


def altered(image, place, digits):
    """Returns the image with these bytes from a place on."""
    return image[: 2 * place] + digits + image[2 * place + len(digits) :]


def frequent(active, total=5, size=8):
    return f"frequent active {active} error 0 total {total} size {size} max {size} capacity {size * 3 // 4}"


def bits(number, hashes=1):
    return f"bloom bits {number} capacity 64 hashes {hashes} seed 9001"


def counts(kind, total):
    return f"{kind} total {total} hashes 1 buckets 3 seed 9001"


# Frequent items with no weight and a maximum of 64 slots.
NOTHING = "frequent active 0 error 0 total 0 size 8 max 64 capacity 6"

# The kind and limit of a load, an image, and its alterations. Each has a place, the bytes from there on, and the result: the
# status of the loaded sketch, or the error.
ALTERED = [
    (
        "frequent 1000",
        AB,
        [
            (0, "04", frequent(1)),
            (0, "44", frequent(1)),
            (5, "020909", frequent(1)),
            (12, "09090909", frequent(1)),
            (0, "01", "EmptyFlagMismatch"),
            (0, "02", "BadPreamble"),
            (1, "02", "BadVersion"),
            (2, "12", "BadFamily"),
            (0, "02021202", "BadFamily"),
            (3, "1f", "LgMaxTooLarge"),
            (3, "02", "LgCurAboveMax"),
            (4, "02", "LgCurTooSmall"),
            (4, "04", "LgCurAboveMax"),
            (3, "0404", frequent(1, size=16)),
            (5, "01", "EmptyFlagMismatch"),
            (8, "07", "TooManyActive"),
            (8, "06", "InsufficientData"),
            (8, "00", frequent(0)),
            (32, "00", frequent(0)),
            (32, "04", frequent(1)),
            (16, "00", "ZeroTotal"),
            (16, "04", "WeightsExceedTotal"),
            (16, "06", frequent(1, total=6)),
            (24, "01", "ErrorExceedsTotal"),
            (24, 8 * "ff", "ErrorExceedsTotal"),
            (40, "03", "InsufficientData"),
            (40, 4 * "ff", "InsufficientData"),
            (40, "00", frequent(1)),
            (45, "ff", "InvalidUtf8"),
            (44, "7879", frequent(1)),
            (46, "09", frequent(1)),
        ],
    ),
    (
        "frequent 1000",
        EMPTY,
        [
            (0, "01", NOTHING),
            (0, "41010a0605", NOTHING),
            (4, "07", "LgCurAboveMax"),
        ],
    ),
    ("frequent 1000", TWICE, [(0, "04", frequent(1, total=2))]),
    (
        "bloom 1000",
        TWO_BITS,
        [
            (0, "04", bits(2)),
            (0, "02", "BadPreamble"),
            (0, "05", "BadPreamble"),
            (0, "03", bits(2)),
            (3, "01", bits(2)),
            (1, "02", "BadVersion"),
            (2, "12", "BadFamily"),
            (1, "02120000", "BadFamily"),
            (3, "04", bits(0)),
            (4, "0000", "BadNumHashes"),
            (4, "0080", "BadNumHashes"),
            (4, "ff7f", bits(2, hashes=32767)),
            (16, "00000000", "BadNumWords"),
            (16, "ffffffff", "BadNumWords"),
            (16, "00000080", "BadNumWords"),
            (16, "02000000", "InsufficientData"),
            (16, "ffffff7f", "InsufficientData"),
            (24, 8 * "ff", bits(2)),
            (24, "03", "BadBitCount"),
            (24, "0a", "BadBitCount"),
            (32, "07", "BadBitCount"),
            (3, "0401000000" "2923000000000000" "ffffff7f", "TableTooLarge"),
            (40, "09", bits(2)),
        ],
    ),
    (
        "counti 32 9001",
        SIGNED,
        [
            (4, "07070707", counts("counti", 5)),
            (0, "01", "BadPreamble"),
            (0, "0102", "BadVersion"),
            (0, "010215", "BadFamily"),
            (3, "01", counts("counti", 0)),
            (3, "02", counts("counti", 5)),
            (15, "07", counts("counti", 5)),
            (13, "cd", "SeedHashMismatch"),
            (12, "00", "BadNumHashes"),
            (8, "02", "BadNumBuckets"),
            (12, "02", "InsufficientData"),
            (8, "04", "InsufficientData"),
            (8, "00000040", "TableTooLarge"),
            (8, "ffffff3f", "InsufficientData"),
            (3, "010000000004", "TableTooLarge"),
            (16, "80", counts("counti", 128)),
            (16, 8 * "ff", "NegativeTotal"),
            (16, "04", "CellAboveTotal"),
            (24, "06", "CellAboveTotal"),
            (24, "80", "CellAboveTotal"),
            (32, "05", counts("counti", 5)),
            (40, "80", "CellAboveTotal"),
            (40, "fa", "CellAboveTotal"),
            (40, 7 * "00" + "80", "CellAboveTotal"),
            (48, "09", counts("counti", 5)),
        ],
    ),
    (
        "countu 32 9001",
        UNSIGNED,
        [
            (0, "02", counts("countu", 5)),
            (40, "fbffffffffffffff", "CellAboveTotal"),
            (16, 8 * "ff", counts("countu", 2**64 - 1)),
            (16, "04", "CellAboveTotal"),
            (3, "01", counts("countu", 0)),
        ],
    ),
]

# The kinds and limits of loads, and images of which every proper prefix is rejected.
CUT = [
    ("frequent 1000", AB),
    ("frequent 1000", EMPTY),
    ("bloom 1000", TWO_BITS),
    ("bloom 1000", NO_BITS),
    ("counti 32 9001", SIGNED),
    ("countu 4128 9001", NO_WEIGHT),
]


# Images that are written as they were loaded, and the images of empty sketches.
WRITTEN = [
    (f"load f bloom 8 {TWO_BITS}", "ok"),
    ("save f two", "ok"),
    ("image two", f"image {TWO_BITS}"),
    ("reset f", "ok"),
    ("save f none", "ok"),
    ("image none", f"image {NO_BITS}"),
    (f"load i counti 32 9001 {SIGNED}", "ok"),
    ("save i cells", "ok"),
    ("image cells", f"image {SIGNED}"),
    ("counti e 4 128 9001", "ok"),
    ("save e weightless", "ok"),
    ("image weightless", f"image {NO_WEIGHT}"),
    (f"load z counti 10000 9001 {NO_WEIGHT[:6]}00{NO_WEIGHT[8:]}{(8 + 8 * 512) * '00'}", "ok"),
    ("save z zeros", "ok"),
    ("image zeros", f"image {NO_WEIGHT}"),
    ("frequent s 64", "ok"),
    ("save s empty", "ok"),
    ("image empty", f"image {EMPTY}"),
]


def image_of_words(num_words, count, word):
    """Returns the image of a filter of `num_words` equal words, with this count of set bits. -1 means that it is not stated."""
    numbers = [num_words, count % 2**64, *[word] * num_words]
    return TWO_BITS[:32] + "".join(number.to_bytes(8, "little").hex() for number in numbers)


def joined():
    """Yields test cases of two filters, with all words 3 and all words 6. Each word of their union is 7, which has three bits. Of
    their intersection it is 2, and of their difference 1."""
    for num_words, count in [(1, 2), (3, -1), (4, -1), (5, 10), (8, -1), (9, -1)]:
        for join, bits, word in [("union", 3, 7), ("intersect", 1, 2), ("difference", 1, 1)]:
            left, right, image = [f"{join}{num_words}{end}" for end in ("l", "r", "p")]
            yield load(left, "bloom 1000", image_of_words(num_words, count, 3)), "ok"
            yield load(right, "bloom 1000", image_of_words(num_words, count, 6)), "ok"
            yield from [(f"{join} {left} {right}", "ok"), (f"save {left} {image}", "ok")]
            yield f"image {image}", f"image {image_of_words(num_words, bits * num_words, word)}"


def many_counts():
    """Returns lines that print the image of a sketch of many weights, and then the image of the sketch restored from it."""
    adds = [f"adds c {n % 7 - 3} {n}" for n in range(2000)]
    return ["counti c 4 4096 7", *adds, "save c p", "restore p d", "save d q", "image p", "image q"]


# Loads of each kind, and loads that are rejected.
IN_TURN = [
    f"load l1 frequent 1000 {AB}",
    "ask l1 ab",
    "merge t l1",
    f"load l2 bloom 8 {TWO_BITS}",
    f"load l3 counti 32 9001 {SIGNED}",
    f"load l4 countu 32 9001 {UNSIGNED}",
    "status l3",
    "halve l4",
    "status l4",
    f"load l5 bloom 7 {TWO_BITS}",
    f"load l4 counti 32 9001 {SIGNED}",
    f"load l6 frequent 1000 {altered(AB, 45, 'ff')}",
    "load l7 bloom 1000 -",
]


def load(name, how, image):
    """Returns the line that loads an image. `how` is the kind, the limit and the seed, if any."""
    return f"load {name} {how} {image or '-'}"


def cut(how, image):
    """Returns test cases of all proper prefixes of an image."""
    return [(load("s", how, image[:length]), "refused InsufficientData") for length in range(0, len(image), 2)]


def of_altered(how, image, answer):
    """Returns test cases of an altered image. If it is accepted, the sketch is saved, and restored with the same status."""
    if " " not in answer:
        return [(load("s", how, image), f"refused {answer}"), ("status s", "refused NoSuchName")]
    rows = [(load("s", how, image), "ok"), ("status s", answer), ("save s p", "ok"), ("restore p r", "ok")]
    return rows + [("status r", answer)]


def questions(how, image):
    """Returns lines that load an image and query the sketch. The last line prints the sketch's image."""
    return [load("s", how, image), "status s", "ask s ab", "ask s xy", "rows s fn 0", "save s p", "image p"]


def large_filter():
    """Returns lines that print an image of more than a mebibyte."""
    return ["bloom f 8388608 3 1", *[f"insert f {n}" for n in range(1000)], "save f p", "image p"]
