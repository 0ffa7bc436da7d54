"""The expected output of the trials of `crates/sketch_tests`. Values were derived by hand from the calls' contracts, but those of `KNOWN`
came from outside."""

SIX = "frequent 6 0 6 6 64 1/1/1 1/1/1 1/1/1 0/0/0"
SEVENTH = "frequent 7 0 7 12 64 1/1/1 1/1/1 1/1/1 1/1/1"
SEVENTH_OF_5 = "frequent 7 0 11 12 64 1/1/1 1/1/1 1/1/1 5/5/5"

# Calls that may return `NoMemory`: the output before the call, the call's results, and the output after it.
CALLS = {
    "frequent_update": [SIX, "call", "accepted", "after", SEVENTH],
    "frequent_update_ref": [SIX, "call", "accepted", "after", SEVENTH],
    "frequent_update_with_count_ref": [SIX, "call", "accepted", "after", SEVENTH_OF_5],
    "frequent_clone_row": ["call", "row a=1"],
    "table_entries": ["call", "entries 6"],
    "bytes_new": ["call", "accepted"],
    "bytes_beyond": ["call", "accepted", "bytes 12 16"],
    # bytes 6, three of 0, and 97 to 102
    "bytes_write_text": ["call", "accepted", "bytes 10 603"],
    "bytes_read_text": ["call", "text abcdef"],
}

# The state after a call that failed, if it is not one of the lines above.
LEFT = {"bytes 12 16": "bytes 4 7", "bytes 10 603": "bytes 0 0"}


QUESTIONS = ["numbers 3 8 3 6 224", "counts 3 0 5 0 3 0"]
WALK = ["walk 3 0 10 0 0", "probed true"]

# Calls that allocate nothing, and that neither the program nor the C library makes.
ALLOCATION_FREE = {
    # lengths of 8, 8 and 4 + 2; 7, 252 and seven of 255, 2, and 97 + 98
    "allocation-free_items": ["sizes 8 8 6", "writes" + 3 * " none", "bytes 22 2241"],
    "allocation-free_texts": [
        "wrong family",
        "Error { kind: InvalidData, fault: BadFamily }",
        "Error {",
        "    kind: InvalidData,",
        "    fault: BadFamily,",
        "}",
        "true",
    ],
    # 97 + 98, 5, 2 + 1, 3, the bytes of -2 (254 and three of 255), 7, and the bytes of -4 (252 and seven of 255)
    "allocation-free_writes": ["writes" + 7 * " none", "bytes 29 3269"],
    "allocation-free_updates_by_reference": ["updates" + 4 * " none", "frequent 1 0 5 6 8 5/5/5"],
    "allocation-free_refused_references": [
        "updates" + 3 * " WeightOverflow",
        "frequent 1 0 18446744073709551615 6 8 18446744073709551615/18446744073709551615/18446744073709551615",
    ],
    # a maximum of 2^6 slots, and 2^3 slots of 28 bytes
    "allocation-free_frequent": ["numbers 6 3 224 0 0 7"],
    # four words
    "allocation-free_filter": ["answers true true true false", "size 32"],
    # three rows of 64 cells of one byte, and 3 seeds of 8
    "allocation-free_counts": ["answers true true false", "size 216"],
    # the median of 0, 3, 3, 3 and 7 is 3
    "allocation-free_table_changes": ["table 5 8 7 3 0", "purged 3", "table 1 8 4 0 0"],
    # 8 slots of 28 bytes
    "allocation-free_table_questions": QUESTIONS,
    # the three entries have the same home slot, so a look-up of an absent key ends at the fourth slot
    "allocation-free_table_looks": ["0 probed 4"],
    "allocation-free_table_walk": WALK,
    "allocation-free_session": ["refused NoSuchName"],
}

# Published hashes of strings, the same however they are cut.
XXH64 = [0xEF46DB3751D8E999, 0x44BC2CF5AD770999, 0xFBCEA83C8A378BF1, 0x0B242D361FDA71BC]
MURMUR3 = [0xE34BBC7BBC071B6C, 0x7A433CA9C49A9347]

# Results that are known from outside. The estimates and cells of Count-Min are those of a program in another language, written from the
# public descriptions, and its printed form is that of a derived `Debug`.
KNOWN = {
    "known_hashes": ["xxh64 {} {} {} {}".format(*XXH64), "murmur3 {} {}".format(*MURMUR3)] * 50,
    "known_weights": [
        "u8 Ok(([false, true, false], [255, 255, 255]))",
        "i8 Ok(([true, false, true], [-127, 127, -125]))",
        "i32 Ok([-2, -8, -8, -8, 4, -2, -8, -3, 9, -8])",
    ],
    "known_images": ["i8 Ok(5)", "u8 Err(ValueOutOfRange)", "i8 Ok(127)", "i8 Err(ValueOutOfRange)"],
    "known_keys": ["ItemBounds { lower_bound: 5, estimate: 5, upper_bound: 5 }", "or 5 5 5"],
    "known_values": [
        "BloomFilterBuilder { num_bits: 100, num_hashes: 3, seed: 5 }",
        "Ok(BloomFilter { capacity: 64, num_hashes: 1, seed: 9001, bits_used: 2, .. })",
        "Ok(CountMinSketch { num_hashes: 4, num_buckets: 7, seed: 9001, total_weight: 8, counts: ["
        "5, 0, 0, -3, 0, 0, 0, -3, 0, 0, 5, 0, 0, 0, 0, 5, 0, 0, -3, 0, 0, 5, 0, 0, 0, -3, 0, 0] })",
        'Insert { name: "visits", item: 7 }',
        'Session { sketches: {"visits"}, images: {}, .. }',
        "row a 1 1 1",
    ],
    "known_refusals": [
        "NoSuchName no such name",
        "NameTaken name is taken",
        "WrongKind wrong kind of sketch",
        "SameName both names are the same",
        "BadFraction fraction not above 0 and at most 1",
        "MapSizeTooSmall map size below 8",
    ],
}

# The middle count of any six of 1, 1, 1, 1, 1, 50 and 100 is 1.
HEAVY = ["row 7 99 100 100", "row 6 49 50 50", "equal false true false"]
ALLOCATION_FREE["feeds-nothing_rows"] = HEAVY

# Calls whose allocations and freed blocks are counted: the number of each, and the output.
COUNTED = {
    "bytes_read_text": (1, 0, CALLS["bytes_read_text"]),
    "bytes_write_text": (1, 0, CALLS["bytes_write_text"]),
    # a table that doubles allocates slots and fingerprints
    "frequent_update": (2, 2, CALLS["frequent_update"]),
}

# Images that are read under a limit: their items, the minimum limit that accepts them, and the bytes of their sketches. A slot
# of numbers takes 28 bytes and a slot of strings 44. A string takes its length in the sketch, and 4 bytes more in the image.
LIMITS = [
    ("numbers", ["0"], 8 * 28, 8 * 28),
    ("numbers", ["6"], 8 * 28, 8 * 28),
    ("numbers", ["1000"], 2048 * 28, 2048 * 28),
    ("numbers", ["12288"], 16384 * 28, 16384 * 28),
    ("strings", ["0", "0"], 8 * 44, 8 * 44),
    ("strings", ["1", "1"], 8 * 44 + 5, 8 * 44 + 1),
    ("strings", ["1", "1000000"], 8 * 44 + 1000004, 8 * 44 + 1000000),
    ("strings", ["1000", "100"], 2048 * 44 + 1000 * 104, 2048 * 44 + 1000 * 100),
    ("strings", ["12288", "10"], 16384 * 44 + 12288 * 14, 16384 * 44 + 12288 * 10),
]

# Tables: the number of slots, and the number of bytes by the formula.
TABLES = [
    ("table-of-u8", 32, 32 * 14),
    ("table-of-u32", 32, 32 * 20),
    ("table-of-u64", 32, 32 * 28),
    ("table-of-strings", 32, 32 * 44),
]

SKETCH = [
    "frequent 4 0 16 6 8 1/1/1 5/5/5 0/0/0 1/1/1",
    "frequent 5 0 36 6 8 1/1/1 5/5/5 0/0/0 1/1/1",
    "frequent 5 0 36 6 8 1/1/1 5/5/5 0/0/0 1/1/1",
    "rows 34=20 3=9 2=5",
    "frequent 0 2 14 6 8 0/0/2 0/0/2 0/0/2 0/0/2",
]
MARKED_ALONE = "frequent 1 0 2 6 8 0/0/0 0/0/0 2/2/2 0/0/0"
CLONES = [
    "accepted",
    "frequent 2 0 5 6 8 0/0/0 1/1/1 4/4/4 0/0/0",
    "accepted",
    "frequent 2 0 7 6 8 0/0/0 1/1/1 6/6/6 0/0/0",
]
MARKED = ["accepted"] * 4 + [MARKED_ALONE]
REFUSED = "refused memory NoMemory"
WITHOUT_MARKED = "frequent 1 0 1 6 8 0/0/0 1/1/1 0/0/0 0/0/0"
ENTRIES = ["table 6 8 13 6 2 3 3 2", "purged 2", "table 2 8 2 2 0 1 1 0", "table 6 32 13 6 2 3 3 2"]

# Items with unusual hashing, cloning, writing or equality.
ITEMS = {
    "feeds-nothing_sketch": SKETCH,
    "feeds-nothing_clones": CLONES,
    "feeds-nothing_marked": MARKED,
    "feeds-nothing_table": ENTRIES,
    "unclonable_sketch": SKETCH,
    "unclonable_clones": [REFUSED, WITHOUT_MARKED] * 2,
    "unclonable_marked": ["accepted", REFUSED, REFUSED, "accepted", MARKED_ALONE],
    "unclonable_table": [ENTRIES[0], REFUSED, ENTRIES[3]],
    "unwritable_sketch": SKETCH,
    "unwritable_clones": CLONES,
    "unwritable_marked": ["accepted"] * 3 + ["refused argument BadItem", MARKED_ALONE],
    "unwritable_table": ENTRIES,
    # 33 equals 1 here, and 34 equals 2
    "letter_sketch": [
        "frequent 3 0 16 6 8 2/2/2 5/5/5 0/0/0 2/2/2",
        "frequent 3 0 36 6 8 2/2/2 25/25/25 0/0/0 2/2/2",
        "frequent 3 0 36 6 8 2/2/2 25/25/25 0/0/0 2/2/2",
        "rows 2=25 3=9 1=2",
        "frequent 0 2 14 6 8 0/0/2 0/0/2 0/0/2 0/0/2",
    ],
    "letter_clones": CLONES,
    "letter_marked": MARKED,
    "letter_table": ["table 5 8 13 5 4 3 3 4", "purged 3", "table 1 8 1 1 1 0 0 1", "table 5 32 13 5 4 3 3 4"],
}
for item in ["feeds-nothing", "unclonable", "unwritable", "letter"]:
    ITEMS[f"{item}_rows"] = HEAVY
    ITEMS[f"{item}_questions"] = QUESTIONS
    ITEMS[f"{item}_walk"] = WALK
# 38 equals 6 here
ITEMS["letter_rows"] = HEAVY[:2] + ["equal false true true"]
