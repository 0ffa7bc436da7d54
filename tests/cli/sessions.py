"""Runs of the program over lines, and the replies to them.

A row is a line and its reply, which is empty if there is none. `run.py` runs them.
"""

# The main job: seven items, once each, in a sketch with room for six counters.
MAIN_JOB = [
    ("frequent s 8", "ok"),
    ("add s 1 a", "ok"),
    ("add s 1 b", "ok"),
    ("add s 1 c", "ok"),
    ("add s 1 d", "ok"),
    ("add s 1 e", "ok"),
    ("add s 1 f", "ok"),
    ("add s 1 g", "ok"),
    ("status s", "frequent active 0 error 1 total 7 size 8 max 8 capacity 6"),
]

# Queries after the main job, and a line that is not a command.
QUESTIONS = [
    ("ask s a", "estimate 0 lower 0 upper 1"),
    ("rows s fn 0", "rows 0"),
    ("frequent s 8", "refused NameTaken"),
    ("decay s", "bad line 13"),
    ("status s", ""),
]

THREE_LINES = [
    ("frequent s 8", "ok"),
    ("add s 1 a", "ok"),
    ("ask s a", "estimate 1 lower 1 upper 1"),
]

# Merges and resets after the main job.
MERGES_AND_RESETS = [
    ("frequent t 64", "ok"),
    ("add t 5 a", "ok"),
    ("merge s t", "ok"),
    ("ask s a", "estimate 6 lower 5 upper 6"),
    ("status s", "frequent active 1 error 1 total 12 size 8 max 8 capacity 6"),
    ("merge s s", "refused SameName"),
    ("reset s", "ok"),
    ("status s", "frequent active 0 error 0 total 0 size 8 max 8 capacity 6"),
    ("merge s u", "refused NoSuchName"),
    ("merge u s", "refused NoSuchName"),
    ("merge u u", "refused NoSuchName"),
    ("reset u", "refused NoSuchName"),
    ("add t 18446744073709551610 b", "ok"),
    ("add s 1 a", "ok"),
    ("merge s t", "refused WeightOverflow"),
    ("merge t s", "refused WeightOverflow"),
    ("ask s a", "estimate 1 lower 1 upper 1"),
    ("ask t a", "estimate 5 lower 5 upper 5"),
]

# Rows in descending order of estimates.
ROWS = [
    ("frequent s 64", "ok"),
    ("add s 1 b", "ok"),
    ("add s 5 a", "ok"),
    ("rows s fn 0", "rows 2 a 5 5 5 b 1 1 1"),
    ("rows s fp 3", "rows 1 a 5 5 5"),
    ("rows s fp 5", "rows 0"),
    ("ask s a", "estimate 5 lower 5 upper 5"),
    ("ask s c", "estimate 0 lower 0 upper 0"),
]

ORDER_OF_REFUSALS = [
    ("add s 1 a", "refused NoSuchName"),
    ("ask s a", "refused NoSuchName"),
    ("status s", "refused NoSuchName"),
    ("rows s fn 0", "refused NoSuchName"),
    ("frequent s 12", "refused MapSizeNotPowerOfTwo"),
    ("frequent s 4", "refused MapSizeTooSmall"),
    ("frequent s 2147483648", "refused MapSizeTooLarge"),
    ("frequent s 8", "ok"),
    ("frequent s 12", "refused NameTaken"),
    ("sampled t 8 3", "refused BadSampleSize"),
    ("sampled t 8 2", "ok"),
    ("sampled t 8 2", "refused NameTaken"),
    ("add s 18446744073709551615 a", "ok"),
    ("add s 1 b", "refused WeightOverflow"),
    ("add s 0 b", "ok"),
    ("status s", "frequent active 1 error 0 total 18446744073709551615 size 8 max 8 capacity 6"),
]

FILTERS = [
    ("bloom f 65 1 9001", "ok"),
    ("ask f a", "no"),
    ("insert f a", "ok"),
    ("status f", "bloom bits 1 capacity 128 hashes 1 seed 9001"),
    ("union f f", "refused SameName"),
    ("add f 1 a", "refused WrongKind"),
    ("bloom g 0 1 9001", "refused BadNumBits"),
    ("ask f a", "yes"),
    ("bloom g 128 1 9001", "ok"),
    ("union g f", "ok"),
    ("ask g a", "yes"),
    ("intersect g f", "ok"),
    ("ask g a", "yes"),
    ("difference g f", "ok"),
    ("ask g a", "no"),
    ("status g", "bloom bits 0 capacity 128 hashes 1 seed 9001"),
    ("reset f", "ok"),
    ("ask f a", "no"),
    ("status f", "bloom bits 0 capacity 128 hashes 1 seed 9001"),
]

COUNTS = [
    ("countu c 4 128 9001", "ok"),
    ("add c 100 x", "ok"),
    ("decay c 99 100", "ok"),
    ("ask c x", "estimate 99 lower 99 upper 101"),
    ("status c", "countu total 99 hashes 4 buckets 128 seed 9001"),
    ("decay c 0 5", "refused BadFraction"),
    ("decay c 2 1", "refused BadFraction"),
    ("halve c", "ok"),
    ("ask c x", "estimate 49 lower 49 upper 50"),
    ("counti d 4 128 9001", "ok"),
    ("adds d -3 x", "ok"),
    ("ask d x", "estimate -3 lower -3 upper -3"),
    ("merge c d", "refused WrongKind"),
    ("add d 1 x", "refused WrongKind"),
    ("merge c nobody", "refused NoSuchName"),
    ("status d", "counti total 3 hashes 4 buckets 128 seed 9001"),
]

FILTERS_AND_COUNTS_THAT_REFUSE = [
    ("bloom f 137438953153 1 1", "refused BadNumBits"),
    ("bloom f 64 0 1", "refused BadNumHashes"),
    ("bloom f 64 32768 1", "refused BadNumHashes"),
    ("bloom f 64 1 1", "ok"),
    ("bloom g 128 1 1", "ok"),
    ("union f g", "refused Mismatch"),
    ("intersect f g", "refused Mismatch"),
    ("difference f g", "refused Mismatch"),
    ("counti c 0 3 1", "refused BadNumHashes"),
    ("counti c 1 2 1", "refused BadNumBuckets"),
    ("countu c 4 268435456 1", "refused TableTooLarge"),
    ("counti c 1 3 1", "ok"),
    ("counti c 1 2 1", "refused NameTaken"),
    ("adds c -9223372036854775808 a", "refused WeightOverflow"),
    ("adds c -9223372036854775807 a", "ok"),
    ("adds c 1 a", "refused WeightOverflow"),
    ("ask c a", "estimate -9223372036854775807 lower -9223372036854775807 upper -866130501888233029"),
    ("adds c -0 b", "ok"),
    ("counti d 1 4 1", "ok"),
    ("merge c d", "refused Mismatch"),
    ("countu u 1 3 1", "ok"),
    ("countu v 1 3 1", "ok"),
    ("add u 18446744073709551615 a", "ok"),
    ("add v 1 a", "ok"),
    ("merge u v", "refused WeightOverflow"),
    ("merge v u", "refused WeightOverflow"),
    ("ask u a", "estimate 18446744073709551615 lower 18446744073709551615 upper 18446744073709551615"),
    ("halve u", "ok"),
    ("merge u v", "ok"),
    ("status u", "countu total 9223372036854775808 hashes 1 buckets 3 seed 1"),
]

# Each kind rejects the commands of other kinds.
WRONG_KINDS = [
    ("frequent s 8", "ok"),
    ("counti i 1 3 9001", "ok"),
    ("countu u 1 3 9001", "ok"),
    ("bloom f 64 1 9001", "ok"),
    ("adds s 1 a", "refused WrongKind"),
    ("insert s a", "refused WrongKind"),
    ("halve s", "refused WrongKind"),
    ("decay s 1 2", "refused WrongKind"),
    ("add i 1 a", "refused WrongKind"),
    ("insert i a", "refused WrongKind"),
    ("reset i", "refused WrongKind"),
    ("halve i", "refused WrongKind"),
    ("decay i 0 1", "refused WrongKind"),
    ("rows i fn 0", "refused WrongKind"),
    ("adds u 1 a", "refused WrongKind"),
    ("insert u a", "refused WrongKind"),
    ("reset u", "refused WrongKind"),
    ("rows u fp 0", "refused WrongKind"),
    ("add f 1 a", "refused WrongKind"),
    ("adds f 1 a", "refused WrongKind"),
    ("halve f", "refused WrongKind"),
    ("decay f 1 1", "refused WrongKind"),
    ("rows f fn 0", "refused WrongKind"),
    ("merge s i", "refused WrongKind"),
    ("merge i u", "refused WrongKind"),
    ("merge f f", "refused SameName"),
    ("merge f s", "refused WrongKind"),
    ("union s f", "refused WrongKind"),
    ("union f s", "refused WrongKind"),
    ("intersect i u", "refused WrongKind"),
    ("difference f u", "refused WrongKind"),
]

# An image stays as it was saved. Images and sketches have separate names.
IMAGES = [
    ("bloom f 64 1 9001", "ok"),
    ("save f p", "ok"),
    ("image p", "image 030115040100000029230000000000000100000000000000"),
    ("insert f a", "ok"),
    ("restore p g", "ok"),
    ("ask g a", "no"),
    ("union g f", "ok"),
    ("ask g a", "yes"),
    ("merge f g", "refused WrongKind"),
    ("save f p", "refused NameTaken"),
    ("restore q h", "refused NoSuchName"),
    ("save q p", "refused NoSuchName"),
    ("restore p f", "refused NameTaken"),
    ("image f", "refused NoSuchName"),
    ("frequent s 8", "ok"),
    ("add s 3 ab", "ok"),
    ("save s f", "ok"),
    ("image f", "image 04010a03030000000100000000000000030000000000000000000000000000000300000000000000020000006162"),
    ("restore f t", "ok"),
    ("ask t ab", "estimate 3 lower 3 upper 3"),
    ("status t", "frequent active 1 error 0 total 3 size 8 max 8 capacity 6"),
    ("merge s t", "ok"),
]

# Two windows of each tenant, and their heavy hitters.
WINDOWS = [
    ("hturn 1", "refused NoSuchName"),
    ("hadd 1 5 a", "refused NoSuchName"),
    ("hreport 1 fn 0", "refused NoSuchName"),
    ("windows 0 8", "refused BadWindows"),
    ("windows 2 9", "refused MapSizeNotPowerOfTwo"),
    ("windows 2 8", "ok"),
    ("windows 2 8", "refused NameTaken"),
    ("hadd 1 5 a", "ok"),
    ("hturn 1", "ok"),
    ("hadd 1 7 a", "ok"),
    ("hadd 1 2 b", "ok"),
    ("hadd 2 9 a", "ok"),
    ("hreport 1 fn 0", "report total 14 error 0 rows 2 a 12 12 12 b 2 2 2"),
    ("hturn 1", "ok"),
    ("hreport 1 fn 0", "report total 9 error 0 rows 2 a 7 7 7 b 2 2 2"),
    ("hreport 3 fp 0", "report total 0 error 0 rows 0"),
    ("hadd 2 18446744073709551615 b", "refused WeightOverflow"),
    ("hreport 2 fp 1", "report total 9 error 0 rows 1 a 9 9 9"),
    ("hturn x", "bad line 19"),
]

# Sketches that are saved, restored and merged.
SAVED_AND_MERGED = [
    ("frequent a 8", "ok"),
    ("add a 5 x", "ok"),
    ("save a p", "ok"),
    ("add a 2 x", "ok"),
    ("restore p b", "ok"),
    ("merge a b", "ok"),
    ("ask a x", "estimate 12 lower 12 upper 12"),
    ("ask b x", "estimate 5 lower 5 upper 5"),
    ("merge a a", "refused SameName"),
    ("save a p", "refused NameTaken"),
    ("halve a", "refused WrongKind"),
    ("status a", "frequent active 1 error 0 total 12 size 8 max 8 capacity 6"),
]

# Weights in sketches of three kinds.
WEIGHED = [
    ("frequent f 8", "ok"),
    ("counti i 4 128 9001", "ok"),
    ("countu u 4 128 9001", "ok"),
    ("add f 5 x", "ok"),
    ("rows f fp 0", "rows 1 x 5 5 5"),
    ("reset f", "ok"),
    ("ask f x", "estimate 0 lower 0 upper 0"),
    ("adds i -5 x", "ok"),
    ("ask i x", "estimate -5 lower -5 upper -5"),
    ("add u 100 x", "ok"),
    ("decay u 99 100", "ok"),
    ("ask u x", "estimate 99 lower 99 upper 101"),
    ("halve u", "ok"),
    ("ask u x", "estimate 49 lower 49 upper 50"),
]

# Filters that are saved and combined.
COMBINED = [
    ("bloom b 64 1 9001", "ok"),
    ("save b p", "ok"),
    ("image p", "image 030115040100000029230000000000000100000000000000"),
    ("insert b x", "ok"),
    ("restore p c", "ok"),
    ("ask c x", "no"),
    ("union c b", "ok"),
    ("intersect c b", "ok"),
    ("ask c x", "yes"),
    ("difference c b", "ok"),
    ("ask c x", "no"),
    ("ask b x", "yes"),
]

# Commands that are rejected for their names, which are checked first.
REFUSED_NAMES = [
    ("frequent f 8", "ok"),
    ("save f p", "ok"),
    ("frequent f 12", "refused NameTaken"),
    ("merge g g", "refused NoSuchName"),
    ("union f g", "refused NoSuchName"),
    ("union f f", "refused SameName"),
    ("save g p", "refused NoSuchName"),
    ("restore q f", "refused NoSuchName"),
    ("restore p f", "refused NameTaken"),
    ("ask p x", "refused NoSuchName"),
    ("image f", "refused NoSuchName"),
]

# Commands that are rejected for the kinds of their sketches, which are checked before other arguments.
REFUSED_KINDS = [
    ("countu u 4 128 9001", "ok"),
    ("bloom b 64 1 9001", "ok"),
    ("bloom c 128 1 9001", "ok"),
    ("frequent f 12", "refused MapSizeNotPowerOfTwo"),
    ("sampled f 8 3", "refused BadSampleSize"),
    ("sampled f 8 2", "ok"),
    ("sampled f 8 3", "refused NameTaken"),
    ("merge b c", "refused WrongKind"),
    ("union b c", "refused Mismatch"),
    ("decay b 2 1", "refused WrongKind"),
    ("decay u 2 1", "refused BadFraction"),
    ("rows u fp 0", "refused WrongKind"),
]

# Maximum sizes and sample sizes.
SIZES = [
    ("frequent s 0", "refused MapSizeNotPowerOfTwo"),
    ("frequent s 4", "refused MapSizeTooSmall"),
    ("frequent s 12", "refused MapSizeNotPowerOfTwo"),
    ("frequent s 2147483648", "refused MapSizeTooLarge"),
    ("frequent s 8", "ok"),
    ("sampled t 12 2", "refused MapSizeNotPowerOfTwo"),
    ("sampled t 8 0", "refused BadSampleSize"),
    ("sampled t 8 3", "refused BadSampleSize"),
    ("sampled t 8 8", "refused BadSampleSize"),
    ("sampled t 2048 1026", "refused BadSampleSize"),
    ("sampled t 8 2", "ok"),
    ("sampled u 8 6", "ok"),
    ("sampled v 2048 1024", "ok"),
]

# Only item 7 is left, whichever six counters are sampled.
HEAVY = [
    ("frequent s 8", "ok"),
    *[(f"add s 1 {n}", "ok") for n in range(1, 7)],
    ("add s 100 7", "ok"),
    ("status s", "frequent active 1 error 1 total 106 size 8 max 8 capacity 6"),
    ("ask s 7", "estimate 100 lower 99 upper 100"),
    ("ask s 1", "estimate 0 lower 0 upper 1"),
]

# A light sketch of 8 slots and a heavy one of 64, each merged into the other.
UNEQUAL = [
    ("frequent light 8", "ok"),
    *[(f"add light 1 {n}", "ok") for n in range(1, 8)],
    ("save light light", "ok"),
    ("frequent heavy 64", "ok"),
    ("add heavy 5 1", "ok"),
    ("merge light heavy", "ok"),
    ("status light", "frequent active 1 error 1 total 12 size 8 max 8 capacity 6"),
    ("ask light 1", "estimate 6 lower 5 upper 6"),
    ("restore light again", "ok"),
    ("merge heavy again", "ok"),
    ("status heavy", "frequent active 1 error 1 total 12 size 8 max 64 capacity 6"),
    ("ask heavy 1", "estimate 6 lower 5 upper 6"),
    ("reset heavy", "ok"),
    ("status heavy", "frequent active 0 error 0 total 0 size 8 max 64 capacity 6"),
]

# Totals up to the maximum.
TOTALS = [
    ("frequent s 8", "ok"),
    ("add s 18446744073709551615 1", "ok"),
    ("frequent t 8", "ok"),
    ("add t 1 2", "ok"),
    ("add s 1 2", "refused WeightOverflow"),
    ("merge s t", "refused WeightOverflow"),
    ("add s 0 2", "ok"),
    ("status s", "frequent active 1 error 0 total 18446744073709551615 size 8 max 8 capacity 6"),
    ("status t", "frequent active 1 error 0 total 1 size 8 max 8 capacity 6"),
]

# The maximum weights of Count-Min sketches, decayed by the fraction nearest to 1, and halved.
GREATEST_WEIGHTS = [
    ("countu u 1 3 9001", "ok"),
    ("add u 18446744073709551615 x", "ok"),
    ("decay u 18446744073709551614 18446744073709551615", "ok"),
    ("ask u x", "estimate 18446744073709551614 lower 18446744073709551614 upper 18446744073709551615"),
    ("halve u", "ok"),
    ("status u", "countu total 9223372036854775807 hashes 1 buckets 3 seed 9001"),
]

# A purge of seven heavy items.
GREAT_PURGE = [
    ("frequent s 8", "ok"),
    *[(f"add s 2305843009213693952 {n}", "ok") for n in range(7)],
    ("status s", "frequent active 0 error 2305843009213693952 total 16140901064495857664 size 8 max 8 capacity 6"),
    ("ask s 0", "estimate 0 lower 0 upper 2305843009213693952"),
]

# With little memory: a filter of 16 GiB, a Count-Min sketch of 8 GiB, and frequent items with a maximum of 2^30 slots.
GREATEST_SIZES = [
    ("bloom f 137438953152 1 9001", "refused NoMemory"),
    ("counti c 255 4210751 9001", "refused NoMemory"),
    ("frequent s 1073741824", "ok"),
    ("add s 1 a", "ok"),
    ("ask s a", "estimate 1 lower 1 upper 1"),
]

# A sketch of 4096 slots with the maximum number of items, which is saved, restored and merged into another; and queries of the
# other.
THOUSANDS = [
    "frequent s 4096",
    *[f"add s 1 {n}" for n in range(1, 3073)],
    "save s p",
    "restore p t",
    "frequent u 4096",
    "merge u t",
    "image p",
    "ask u 3072",
    "ask u 1",
    "ask u 3073",
    "rows u fn 0",
]

# Bad shapes, in the order of the checks, and sketches of different shapes.
SHAPES = [
    ("bloom f 0 0 1", "refused BadNumBits"),
    ("bloom f 959 7 9001", "ok"),
    ("status f", "bloom bits 0 capacity 960 hashes 7 seed 9001"),
    ("bloom g 64 32767 9001", "ok"),
    ("status g", "bloom bits 0 capacity 64 hashes 32767 seed 9001"),
    ("countu c 0 2 50541", "refused BadNumHashes"),
    ("countu c 1 2 50541", "refused BadNumBuckets"),
    ("countu c 4 268435456 50541", "refused TableTooLarge"),
    ("countu c 4 128 50541", "refused ZeroSeedHash"),
    ("counti c 4 128 9001", "ok"),
    ("counti d 4 64 9001", "ok"),
    ("merge c d", "refused Mismatch"),
    ("counti e 3 128 9001", "ok"),
    ("merge c e", "refused Mismatch"),
    ("counti h 4 128 9002", "ok"),
    ("merge c h", "refused Mismatch"),
    ("bloom k 960 7 9002", "ok"),
    ("union f k", "refused Mismatch"),
    ("intersect f k", "refused Mismatch"),
    ("difference f k", "refused Mismatch"),
]

# Weights that are halved.
HALVED = [
    ("countu u 4 128 9001", "ok"),
    ("add u 3 x", "ok"),
    ("halve u", "ok"),
    ("ask u x", "estimate 1 lower 1 upper 1"),
    ("halve u", "ok"),
    ("ask u x", "estimate 0 lower 0 upper 0"),
    ("status u", "countu total 0 hashes 4 buckets 128 seed 9001"),
    ("add u 128 x", "ok"),
    ("ask u x", "estimate 128 lower 128 upper 130"),
]

# A maximum size, the number of items that were added once each, and the sketch's status. If there is one item more than three
# quarters of the maximum size, a purge subtracts 1 from all counts and leaves none.
DISTINCT = [
    (8, 0, "active 0 error 0 total 0 size 8 max 8 capacity 6"),
    (8, 6, "active 6 error 0 total 6 size 8 max 8 capacity 6"),
    (8, 7, "active 0 error 1 total 7 size 8 max 8 capacity 6"),
    (16, 7, "active 7 error 0 total 7 size 16 max 16 capacity 12"),
    (64, 7, "active 7 error 0 total 7 size 16 max 64 capacity 12"),
    (4096, 3072, "active 3072 error 0 total 3072 size 4096 max 4096 capacity 3072"),
    (4096, 3073, "active 0 error 1 total 3073 size 4096 max 4096 capacity 3072"),
    (65536, 24577, "active 24577 error 0 total 24577 size 65536 max 65536 capacity 49152"),
    (65536, 49152, "active 49152 error 0 total 49152 size 65536 max 65536 capacity 49152"),
    (65536, 49153, "active 0 error 1 total 49153 size 65536 max 65536 capacity 49152"),
]

# A weight of item 7, and the possible status of its sketch with item 7's lower bound. The items 1 to 6 were added once each to
# a sketch of 8 slots whose purges sample two counters. The error is the larger sampled count: 1, or 100 if item 7 is sampled.
SAMPLED = [
    (1, [("active 0 error 1 total 7", "lower 0")]),
    (100, [("active 1 error 1 total 106", "lower 99"), ("active 0 error 100 total 106", "lower 0")]),
]

# Sketches of six and of seven items, once each, saved and restored. A heavy item is added to the first. The second is merged
# into a sketch of more slots.
PURGED = [
    "frequent six 8",
    *[f"add six 1 {n}" for n in range(1, 7)],
    "save six six",
    "restore six heavy",
    "add heavy 100 7",
    "frequent seven 8",
    *[f"add seven 1 {n}" for n in range(1, 8)],
    "save seven seven",
    "restore seven light",
    "frequent large 64",
    "add large 5 1",
    "merge large light",
]

# A sketch, the first item of a range up to item 7, the sum of the range's lower bounds, and the sketch's error, total and maximum
# size. The smallest maximum size is 8, so h = 3: the kept counts + 3 · error are at most the total. For S = {1}, the kept counts
# of the other items + 2 · error are at most 6, their weight.
KEPT = [
    ("heavy", 1, 99, (1, 106, 8)),
    ("large", 1, 5, (1, 12, 64)),
    ("large", 2, 0, (1, 12, 64)),
]

# Windows of tenants, of which the last two are reported. Each has 8 slots and so room for six items. Seven items, once each,
# leave an error of 1.
LAST_TWO_WINDOWS = [
    ("windows 2 8", "ok"),
    ("hturn 1", "ok"),
    ("hreport 1 fn 0", "report total 0 error 0 rows 0"),
    ("hadd 1 5 x", "ok"),
    ("hreport 1 fn 0", "report total 5 error 0 rows 1 x 5 5 5"),
    ("hturn 1", "ok"),
    ("hreport 1 fn 0", "report total 5 error 0 rows 1 x 5 5 5"),
    ("hadd 1 7 x", "ok"),
    ("hreport 1 fn 0", "report total 12 error 0 rows 1 x 12 12 12"),
    ("hadd 1 2 y", "ok"),
    ("hreport 1 fn 0", "report total 14 error 0 rows 2 x 12 12 12 y 2 2 2"),
    ("hadd 2 9 x", "ok"),
    ("hreport 2 fn 0", "report total 9 error 0 rows 1 x 9 9 9"),
    ("hturn 1", "ok"),
    ("hreport 1 fn 0", "report total 9 error 0 rows 2 x 7 7 7 y 2 2 2"),
    ("hadd 3 0 x", "ok"),
    ("hreport 3 fn 0", "report total 0 error 0 rows 0"),
    *[(f"hadd 4 1 {n}", "ok") for n in range(1, 8)],
    ("hreport 4 fn 0", "report total 7 error 1 rows 0"),
    ("hturn 4", "ok"),
    ("hreport 4 fn 0", "report total 7 error 1 rows 0"),
    *[(f"hadd 4 1 {n}", "ok") for n in range(1, 8)],
    ("hreport 4 fn 0", "report total 14 error 2 rows 0"),
    ("hadd 5 18446744073709551615 x", "ok"),
    (
        "hreport 5 fn 0",
        "report total 18446744073709551615 error 0 rows 1"
        " x 18446744073709551615 18446744073709551615 18446744073709551615",
    ),
    ("hturn 5", "ok"),
    ("hadd 5 1 y", "ok"),
    ("hreport 5 fn 0", "refused WeightOverflow"),
    ("hturn 5", "ok"),
    ("hreport 5 fn 0", "report total 1 error 0 rows 1 y 1 1 1"),
    ("hturn 5", "ok"),
    ("hreport 5 fn 0", "report total 0 error 0 rows 0"),
    ("hadd 2 0 x", "ok"),
    ("hreport 2 fn 0", "report total 9 error 0 rows 1 x 9 9 9"),
]

# Limits of windows. A run has one set of windows.
LIMITS = [
    ("windows 0 8", "refused BadWindows"),
    ("windows 1025 4", "refused BadWindows"),
    ("windows 2 12", "refused MapSizeNotPowerOfTwo"),
    ("windows 2 4", "refused MapSizeTooSmall"),
    ("windows 2 2147483648", "refused MapSizeTooLarge"),
    ("windows 1024 8", "ok"),
]


def windows_of_eight_tenants(limit):
    """Returns test cases of thirty windows of each of eight tenants, of which `limit` are kept, and a report on each tenant. Each
    window has one item, its number. The item's weight is the sum of the tenant's number and the window's."""
    tenants = range(1, 9)
    rows = [(f"windows {limit} 64", "ok")]
    for n in range(30):
        for tenant in tenants:
            rows += [(f"hturn {tenant}", "ok"), (f"hadd {tenant} {tenant + n} {n}", "ok")]
    for tenant in tenants:
        kept = [(n, tenant + n) for n in range(29, 29 - limit, -1)]
        shown = "".join(f" {n} {weight} {weight} {weight}" for n, weight in kept)
        total = sum(weight for _, weight in kept)
        rows.append((f"hreport {tenant} fn 0", f"report total {total} error 0 rows {limit}{shown}"))
    return rows


# The name of a run, its rows and its exit status: 1 after a bad line, else 0.
SESSIONS = [
    ("questions behind the main job", MAIN_JOB + QUESTIONS, 1),
    ("merges and resets", MAIN_JOB + MERGES_AND_RESETS, 0),
    ("windows", WINDOWS, 1),
    ("rows", ROWS, 0),
    ("the order of refusals", ORDER_OF_REFUSALS, 0),
    ("filters", FILTERS, 0),
    ("counts", COUNTS, 0),
    ("filters and counts that refuse", FILTERS_AND_COUNTS_THAT_REFUSE, 0),
    ("wrong kinds", WRONG_KINDS, 0),
    ("images", IMAGES, 0),
    ("saved and merged", SAVED_AND_MERGED, 0),
    ("weighed", WEIGHED, 0),
    ("combined", COMBINED, 0),
    ("refused names", REFUSED_NAMES, 0),
    ("refused kinds", REFUSED_KINDS, 0),
    ("sizes", SIZES, 0),
    ("a heavy item", HEAVY, 0),
    ("merges of unequal sizes", UNEQUAL, 0),
    ("totals", TOTALS, 0),
    ("the greatest weights", GREATEST_WEIGHTS, 0),
    ("shapes", SHAPES, 0),
    ("weights that are halved", HALVED, 0),
    ("a purge of great weights", GREAT_PURGE, 0),
    ("the last two windows", LAST_TWO_WINDOWS, 0),
    ("limits of windows", LIMITS, 0),
    *[(f"{limit} windows of each tenant", windows_of_eight_tenants(limit), 0) for limit in (1, 5, 24)],
]


def distinct_items(size, last):
    """Returns lines that add the items 1 to `last` once each to a sketch, and then query its status."""
    return text([f"frequent s {size}", *[f"add s 1 {n}" for n in range(1, last + 1)], "status s"])


def sampled_items(weight):
    """Returns lines that add the items 1 to 6 once each and 7 with a weight, and then query the status and item 7."""
    return text(["sampled s 8 2", *[f"add s 1 {n}" for n in range(1, 7)], f"add s {weight} 7", "status s", "ask s 7"])


def text(lines):
    return "".join(line + "\n" for line in lines).encode()


def texts_of(rows):
    """Returns the lines of some rows, and their replies."""
    return text(line for line, _ in rows), text(reply for _, reply in rows if reply)
