/* datasketches.h: Bloom filters, Count-Min sketches and frequent items, proved to meet their contracts.
 *
 * A handle is a `ds_sketch`: one word that C keeps and the library fills. Each call but `ds_free` returns a number: 0 or more
 * if it was done, and an error below 0 otherwise. A call that returns an error leaves sketches, buffers and results as they were,
 * unless its comment says otherwise. `ds_result_name` and `ds_result_message` return the number's name and message.
 *
 * A number is hashed as 8 bytes, lowest first. So a number from 0 to 2^63 - 1 is the same item as `uint64_t` and as `int64_t`.
 * A string is bytes and their number, without an end mark. It must be valid UTF-8.
 *
 * A call on one item takes a `ds_item`: a number, a string, or the bytes that are hashed. `datasketches_typed.h`, which this header
 * includes, has a function for each such call and each type of an item, as `ds_bloom_insert_u64`. A call on many items takes a
 * `ds_items`, which says where they are: numbers, strings in one of three forms, the words or the lines of a string, or the bytes
 * that are hashed. The library reads items during the call, and keeps no pointer to them.
 *
 * A call returns the first error in this order:
 *
 *  1. DS_BAD_ARGUMENT, by the checks of `datasketches_checks.h` (see below). Without these checks it comes, too, for a number that
 *     names nothing: the `kind` of a `ds_item` or a `ds_items`, and `which`, `join` and `size` of calls. A bitmap with too few bits
 *     is an error, and so is one of words or lines.
 *  2. Errors of arguments: DS_BAD_OFFSETS, DS_INVALID_UTF8, DS_NO_ROOM if items and their weights or results differ in number,
 *     DS_BAD_FRACTION. Records of `ds_update_fields` are read after the errors of handles.
 *  3. Errors of handles: DS_NO_SKETCH if the handle has no sketch. DS_SHARED if the call changes the handle's sketch, and this is
 *     shared, of whatever kind. DS_WRONG_KIND if its kind does not have this call. Of several handles, the first one's that has
 *     such an error, in the order of arguments and of an array. All calls return these but `ds_free`, those whose names end in
 *     `_new`, `ds_deserialize` and `ds_deserialize_prefix`, those on images in place, `ds_num_items`, and `ds_suggest`. Calls with
 *     a `kind` return DS_WRONG_KIND for one that they do not take.
 *  4. The errors in the call's comment, in their order there. DS_NO_MEMORY comes when an allocation fails, which may be earlier.
 *     DS_NO_ROOM of `serialize` and `rows` comes last.
 *
 * The library's proofs assume that C keeps these rules:
 *
 *  1. A handle is created as `DS_NONE`, is changed by these calls alone, and is not copied. What it holds belongs to the
 *     library: `ds_free` frees it, and so does a call that puts another sketch into the handle.
 *  2. Pointers are not null, but for those of `ds_free` and of keys, are aligned for their type, and point to as many values as
 *     their count says. This holds for all pointers of a `ds_item` or a `ds_items`, also for those that its kind does not use. A
 *     caller may read these values, and write them where there is no `const`. No two arguments of a call overlap. The strings of an
 *     array may overlap one another, but not the array or another argument. The pointer of an empty string is not null either.
 *     While a call runs, nothing else writes what it reads or writes, also in a file that is mapped, and nothing unmaps or
 *     truncates it.
 *  3. One call at a time uses a handle. Another thread may use it later if a lock, a thread's start or a join lies between.
 *     Two threads may use two handles at once, also two of one shared sketch. So threads that read one sketch at once have a
 *     handle each: see `ds_share`.
 *  4. No call is made from a signal handler, or by the child of a `fork` that was made while a call ran.
 *  5. The program has one `malloc`, `realloc` and `free`, which the library calls, or those of `ds_set_allocator` do as it says.
 *  6. A `bool` that the library reads is 0 or 1.
 *
 * `datasketches_checks.h`, which this header includes, checks parts of rule 2, at next to no cost. A call returns DS_BAD_ARGUMENT
 * for the same handle twice, and for a handle that is also in the array of others. It returns it, too, for a null pointer with a
 * count above 0, and for one in a `ds_item`, a `ds_items` or its array of strings. The result of a call on one item and the
 * options of an image must not be null either. A null pointer with the count 0 means no values. These checks are macros of the
 * calls' names, so callers from other languages have none. `(ds_equal)(a, b)`, in brackets, is the call without them. Define
 * `DS_NO_CHECKS` before this header to leave all out.
 *
 * The interface of the library file is fixed within a soname (`libdatasketches.so.0`). A call keeps its name, its result and its
 * parameters, with their types and order. A result keeps its number. A structure keeps its members, their types and order, and
 * its size: it never grows. A call that writes other numbers gets another structure and another name, so the name of a call is
 * the version of what it writes. A later library of the same soname may have more calls, more errors and other messages. So take
 * each number below 0 as an error, also one that this header does not name. The functions and macros of these headers, and
 * `DS_MIN_RESULT`, are compiled into a program: they are no part of that interface and may change with each version. The
 * functions of `datasketches_typed.h` are also calls of the library, and fixed as these, for callers without the headers.
 */
#ifndef DATASKETCHES_H
#define DATASKETCHES_H

#include <stdbool.h>
#include <stddef.h>
#include <stdint.h>

#ifdef __cplusplus
extern "C" {
#endif

/* The version of this header. `ds_version` returns that of the library. */
#define DS_VERSION_MAJOR 0
#define DS_VERSION_MINOR 3
#define DS_VERSION_PATCH 0
#define DS_VERSION "0.3.0"

/* Returns the version of the library, as "0.3.0". The string is static: do not free it. */
const char *ds_version(void);

/* A sketch of some kind, or none if `sketch` is null. Never read or write the pointer. */
typedef struct ds_sketch {
    void *sketch;
} ds_sketch;

/* The handle of no sketch: `ds_sketch filter = DS_NONE;` */
#define DS_NONE {0}

/* A string. The pointer is not null, even if the length is 0. */
typedef struct ds_string {
    const uint8_t *bytes;
    size_t length;
} ds_string;

/* The results of calls, beside the errors of sketches. */
enum {
    DS_OK = 0,             /* the call was done */
    DS_NO = 0,             /* no, as the result of a test */
    DS_YES = 1,            /* yes */
    DS_NO_SKETCH = -1,     /* the handle has no sketch */
    DS_WRONG_KIND = -2,    /* no call for this kind, or no such kind */
    DS_NO_ROOM = -3,       /* a buffer of the caller has not the length that the call needs */
    DS_BAD_FRACTION = -4,  /* a fraction is not above 0 and at most 1 */
    DS_BAD_ARGUMENT = -5,  /* items of no kind or with a wrong bitmap; from checks: the same handle twice, or null where there are
                            * values or options */
    DS_NO_RANDOM = -7,     /* a key was to be drawn, and the system has no random bytes */
    DS_SHARED = -8,        /* the sketch is shared, and the call changes it */
    DS_NOT_SHARED = -9     /* the sketch is not shared, and the call takes shared ones alone */
};

/* The errors of sketches: number, constant, name and message of each. The last one has the least number. */
#define DS_SKETCH_ERRORS(X) \
    X(-11, DS_BAD_NUM_BITS, "BadNumBits", "num_bits out of range") \
    X(-12, DS_BAD_NUM_HASHES, "BadNumHashes", "num_hashes out of range") \
    X(-13, DS_BAD_NUM_BUCKETS, "BadNumBuckets", "num_buckets below 3") \
    X(-14, DS_TABLE_TOO_LARGE, "TableTooLarge", "table too large") \
    X(-15, DS_ZERO_SEED_HASH, "ZeroSeedHash", "seed hash is zero") \
    X(-16, DS_MISMATCH, "Mismatch", "shapes or seeds differ") \
    X(-17, DS_WEIGHT_OVERFLOW, "WeightOverflow", "total weight overflow") \
    X(-18, DS_MAP_SIZE_NOT_POWER_OF_TWO, "MapSizeNotPowerOfTwo", "map size is not a power of two") \
    X(-19, DS_MAP_SIZE_TOO_SMALL, "MapSizeTooSmall", "map size below 8") \
    X(-20, DS_MAP_SIZE_TOO_LARGE, "MapSizeTooLarge", "map size above 2^30") \
    X(-21, DS_ITEM_TOO_LONG, "ItemTooLong", "item too long") \
    X(-22, DS_INSUFFICIENT_DATA, "InsufficientData", "insufficient data") \
    X(-23, DS_BAD_FAMILY, "BadFamily", "wrong family") \
    X(-24, DS_BAD_VERSION, "BadVersion", "wrong serial version") \
    X(-25, DS_BAD_PREAMBLE, "BadPreamble", "wrong preamble longs") \
    X(-26, DS_BAD_NUM_WORDS, "BadNumWords", "number of words below 1") \
    X(-27, DS_BAD_BIT_COUNT, "BadBitCount", "wrong number of set bits") \
    X(-28, DS_SEED_HASH_MISMATCH, "SeedHashMismatch", "seed hashes differ") \
    X(-29, DS_VALUE_OUT_OF_RANGE, "ValueOutOfRange", "value out of range") \
    X(-30, DS_NEGATIVE_TOTAL, "NegativeTotal", "total weight is negative") \
    X(-31, DS_CELL_ABOVE_TOTAL, "CellAboveTotal", "counter exceeds total weight") \
    X(-32, DS_LG_CUR_TOO_SMALL, "LgCurTooSmall", "current map size below 8") \
    X(-33, DS_LG_MAX_TOO_LARGE, "LgMaxTooLarge", "greatest map size above 2^30") \
    X(-34, DS_LG_CUR_ABOVE_MAX, "LgCurAboveMax", "current map size above greatest") \
    X(-35, DS_EMPTY_FLAG_MISMATCH, "EmptyFlagMismatch", "empty flag does not match preamble") \
    X(-36, DS_TOO_MANY_ACTIVE, "TooManyActive", "too many active items") \
    X(-37, DS_ZERO_TOTAL, "ZeroTotal", "total weight is zero") \
    X(-38, DS_WEIGHTS_EXCEED_TOTAL, "WeightsExceedTotal", "weights exceed total weight") \
    X(-39, DS_ERROR_EXCEEDS_TOTAL, "ErrorExceedsTotal", "weights and error exceed total weight") \
    X(-40, DS_INVALID_UTF8, "InvalidUtf8", "invalid UTF-8") \
    X(-41, DS_BAD_ITEM, "BadItem", "bad item") \
    X(-42, DS_NO_MEMORY, "NoMemory", "out of memory") \
    X(-43, DS_BAD_SAMPLE_SIZE, "BadSampleSize", "sample size out of range") \
    X(-44, DS_BAD_WINDOWS, "BadWindows", "windows out of range") \
    X(-6, DS_BAD_OFFSETS, "BadOffsets", "offsets missing, descending or out of range") \
    X(-45, DS_BAD_WEIGHT, "BadWeight", "weight missing or no number in range")

#define DS_AS_CONSTANT(number, constant, name, message) constant = number,
enum { DS_SKETCH_ERRORS(DS_AS_CONSTANT) DS_AFTER_ERRORS, DS_MIN_RESULT = DS_AFTER_ERRORS - 1 };
#undef DS_AS_CONSTANT

/* Returns the name of a result, as "Mismatch", and its message, as "shapes or seeds differ". They are never null, and are never
 * freed. A result of 0 or more is "Ok" and "ok". A number below 0 that is no result is "Unknown" and "unknown". */
const char *ds_result_name(int32_t result);
const char *ds_result_message(int32_t result);

/* --- Sketches of any kind. The calls of this section take each kind, unless they say otherwise. --- */

/* The kinds of sketches. */
enum {
    DS_BLOOM = 1,                /* a Bloom filter */
    DS_COUNT_MIN_U64 = 2,        /* a Count-Min sketch with weights in uint64_t */
    DS_COUNT_MIN_I64 = 3,        /* a Count-Min sketch with weights in int64_t */
    DS_FREQUENT_ITEMS_U64 = 4,   /* frequent items that are uint64_t */
    DS_FREQUENT_ITEMS_I64 = 5,   /* frequent items that are int64_t */
    DS_FREQUENT_ITEMS_STRING = 6 /* frequent items that are strings */
};

/* Frees the handle's sketch, if any. The handle is then DS_NONE, and may be freed again. `ds_free(NULL)` does nothing. */
void ds_free(ds_sketch *handle);

/* Puts a copy of the other handle's sketch into this handle. The other handle keeps its own. The copy of a shared sketch is not
 * shared. Returns DS_NO_SKETCH if the other handle has none, and DS_NO_MEMORY if memory runs out. */
int32_t ds_clone(ds_sketch *handle, ds_sketch *other);

/* Removes all items and weights. Sizes, seed and key stay as they were. Does not allocate. */
int32_t ds_reset(ds_sketch *handle);

/* How two sketches are combined. `ds_join` returns DS_BAD_ARGUMENT for another number. */
enum {
    DS_JOIN_MERGE = 1,        /* the sketch then stands for both histories */
    DS_JOIN_INTERSECTION = 2, /* a filter keeps the positions that both have */
    DS_JOIN_DIFFERENCE = 3    /* a filter loses the other's positions */
};

/* Combines the other handle's sketch, of the same kind, with this one. The other sketch stays as it was. `datasketches_typed.h` has
 * `ds_merge(handle, other)`, `ds_bloom_intersect` and `ds_bloom_difference`.
 *
 * In a merge a filter gets the other's positions, as a union. A Count-Min sketch gets the other's cells and total. A sketch of
 * frequent items keeps its own sizes. Returns DS_WRONG_KIND if the kinds differ, or an intersection or a difference gets one that is
 * no filter. Returns DS_MISMATCH if two filters differ in bits, hashes or seed, or two Count-Min sketches in hashes, buckets or seed.
 * Returns DS_WEIGHT_OVERFLOW if the totals together exceed 2^64 - 1, or 2^63 - 1 for weights in int64_t. Only frequent items
 * allocate, and return DS_NO_MEMORY. */
int32_t ds_join(ds_sketch *handle, ds_sketch *other, int32_t join);

/* Merges the sketches of all other handles, of an array, into this one, in order and in one call. All are of the same kind. A
 * sketch of frequent items is copied once, where a merge for each copies it each time. The others stay as they were. Returns
 * DS_NO_MEMORY, for a list of two words a sketch, and then the errors of a merge: DS_MISMATCH if one differs, and
 * DS_WEIGHT_OVERFLOW if all totals together exceed the limit. */
int32_t ds_merge_all(ds_sketch *handle, ds_sketch *others, size_t count);

/* Returns DS_YES if both sketches, of one kind, are equal, and DS_NO otherwise. Both stay as they were. Filters are equal if they
 * have the same bits, hashes, seed and positions. Count-Min sketches are equal if they have the same hashes, buckets, seed, total
 * and cells. Sketches of frequent items are not compared: DS_WRONG_KIND. */
int32_t ds_equal(ds_sketch *handle, ds_sketch *other);

/* Writes how many bytes the handle's sketch takes, by a formula. A filter takes 8 for each 64 bits. A Count-Min sketch takes 8
 * for each cell and each row. A frequent-items sketch takes 28 for each slot of a table of numbers, or 44 for each slot of a
 * table of strings and the bytes of the strings. Returns DS_NO_SKETCH if the handle has none. */
int32_t ds_memory_bytes(ds_sketch *handle, size_t *bytes);

/* The numbers that sketches have: number, constant, member of `ds_status` with its type, and what it is, of which kinds. */
#define DS_SKETCH_NUMBERS(X) \
    X(1, DS_NUMBER_SEED, uint64_t, seed, "the seed of a filter or a Count-Min sketch") \
    X(2, DS_NUMBER_NUM_BITS, uint64_t, num_bits, "all bits of a filter") \
    X(3, DS_NUMBER_BITS_USED, uint64_t, bits_used, "the set bits of a filter") \
    X(4, DS_NUMBER_TOTAL_WEIGHT, uint64_t, total_weight, "the total weight of a Count-Min sketch or frequent items") \
    X(5, DS_NUMBER_MAXIMUM_ERROR, uint64_t, maximum_error, "the difference between the bounds of each item of frequent items") \
    X(6, DS_NUMBER_NUM_ACTIVE_ITEMS, uint64_t, num_active_items, "the tracked items of frequent items, each with a counter") \
    X(7, DS_NUMBER_MAXIMUM_MAP_CAPACITY, uint64_t, maximum_map_capacity, "the maximum number of counters, at max_map_size") \
    X(8, DS_NUMBER_CURRENT_MAP_CAPACITY, uint64_t, current_map_capacity, "the number of counters at which the table grows") \
    X(9, DS_NUMBER_MAX_MAP_SIZE, uint64_t, max_map_size, "the maximum number of slots of the table of frequent items") \
    X(10, DS_NUMBER_SAMPLE_SIZE, uint64_t, sample_size, "the number of counters that a purge samples") \
    X(11, DS_NUMBER_NUM_BUCKETS, uint32_t, num_buckets, "the cells in a row of a Count-Min sketch") \
    X(12, DS_NUMBER_NUM_HASHES, uint16_t, num_hashes, "the positions of an item in a filter, or the rows of a Count-Min sketch") \
    X(13, DS_NUMBER_KIND, uint16_t, kind, "the kind of the sketch: DS_BLOOM ..")

#define DS_AS_CONSTANT(number, constant, type, member, text) constant = number,
enum { DS_SKETCH_NUMBERS(DS_AS_CONSTANT) };
#undef DS_AS_CONSTANT

/* Writes a number of the sketch, in constant time: `ds_number(&sketch, DS_NUMBER_TOTAL_WEIGHT, &total)`. Does not allocate. Returns
 * DS_BAD_ARGUMENT if there is no such number, DS_NO_SKETCH, or DS_WRONG_KIND if sketches of this kind do not have the number. */
int32_t ds_number(ds_sketch *handle, int32_t which, uint64_t *value);

/* All numbers of a sketch. Those that its kind does not have are 0. */
#define DS_AS_MEMBER(number, constant, type, member, text) type member;
typedef struct ds_status {
    DS_SKETCH_NUMBERS(DS_AS_MEMBER)
} ds_status;
#undef DS_AS_MEMBER

/* Writes all numbers of the sketch, by `ds_number`, in constant time. Does not allocate. */
int32_t ds_get_status(ds_sketch *handle, ds_status *status);

/* Writes the length in bytes of the sketch's image. A filter's is 24 if no bit is set, and otherwise 32 and 8 for each word of 64
 * bits. A Count-Min sketch's is 16 if the total is 0, and otherwise 24 and 8 for each cell. That of frequent items is 8 if the
 * total is 0, and otherwise 32, and for each counter 16 for a number, or 12 and the bytes of a string. It takes one pass over
 * a table of frequent strings, and returns DS_ITEM_TOO_LONG if a string has 2^32 bytes or more. Does not allocate. */
int32_t ds_serialized_bytes(ds_sketch *handle, size_t *bytes);

/* Writes the sketch's image to the front of `out`, and the image's length in bytes to `written`. The rest of `out` stays as it
 * was. The image of a Count-Min sketch is without its seed, and that of frequent items without its sample size and its key.
 * Returns the error of the call above, or DS_NO_ROOM if the image is longer than `capacity`: then `written` is its length. Does
 * not allocate. */
int32_t ds_serialize(ds_sketch *handle, uint8_t *out, size_t capacity, size_t *written);

/* A key of two words, under which the table of a sketch of frequent items hashes. */
typedef struct ds_key {
    uint64_t k0;
    uint64_t k1;
} ds_key;

/* The seed of filters and Count-Min sketches unless another is chosen. */
#define DS_DEFAULT_SEED 9001

/* What an image does not say. */
typedef struct ds_image_options {
    size_t max_bytes;  /* how many bytes the sketch may take, by the formula of `ds_memory_bytes` */
    uint64_t seed;     /* of a Count-Min sketch, ignored for other kinds */
    const ds_key *key; /* of a sketch of frequent items, or null: then one is drawn. Ignored for other kinds */
} ds_image_options;

/* The options with a limit, the default seed and no key: `ds_image_options options = DS_IMAGE_OPTIONS(1 << 20);` */
#define DS_IMAGE_OPTIONS(max_bytes) {(max_bytes), DS_DEFAULT_SEED, NULL}

/* Reads a sketch of a kind from its image and puts it into the handle. The bytes after the image are ignored. A sketch of
 * frequent items gets the largest sample size.
 *
 * Returns DS_WRONG_KIND if `kind` is no kind. Returns DS_NO_RANDOM if a key is drawn and the system has no random bytes. Returns
 * the error of the image's first failed check. Returns DS_TABLE_TOO_LARGE if the sketch takes more than `max_bytes`, where a
 * string counts the bytes that it takes in the image, 4 more than its own. Returns DS_NO_MEMORY. Both come after the checks of
 * the image's length and fields. The checks of the number of set bits, of the total and the cells, or of the weights and the
 * items come last. */
int32_t ds_deserialize(ds_sketch *handle, int32_t kind, const uint8_t *image, size_t length, const ds_image_options *options);

/* Reads a sketch from the image at the front of `image` and puts it into the handle, as `ds_deserialize` does. Writes the number
 * of bytes that the image takes to `used`. The bytes after it are ignored, so images can stand one after another. */
int32_t ds_deserialize_prefix(ds_sketch *handle, int32_t kind, const uint8_t *image, size_t length,
                              const ds_image_options *options, size_t *used);

/* --- Sharing: several handles of one sketch, as for threads that read it at once. Calls that read a sketch take a shared one:
 * queries, statuses, images, rows, clones and comparisons, and merges as one of the others. They need no lock. Calls that change
 * a shared sketch return DS_SHARED. `ds_free` drops the handle's share, and frees the sketch with the last one. --- */

/* Makes the handle's sketch shared, so that `ds_share` takes it and no call changes it until `ds_thaw`. Does nothing to a shared
 * sketch. Returns DS_NO_SKETCH, or DS_NO_MEMORY for a sketch that is not shared. */
int32_t ds_freeze(ds_sketch *handle);

/* Puts one more share of the sketch of `shared` into the handle, without a copy. The handle may then go to another thread.
 * Returns DS_NO_SKETCH if `shared` has no sketch, DS_NOT_SHARED if its sketch is not shared, and DS_NO_MEMORY. */
int32_t ds_share(ds_sketch *handle, ds_sketch *shared);

/* Returns DS_YES if no other handle shares the handle's sketch: calls may then change it again. Returns DS_NO if another one
 * shares it: then nothing changes. A sketch that is not shared stays so, with DS_YES. Returns DS_NO_SKETCH. Does not allocate. */
int32_t ds_thaw(ds_sketch *handle);

/* --- The heap. --- */

/* The functions from which the library allocates, and a pointer that they get. Blocks are aligned as those of `malloc`, and sizes
 * are above 0. `reallocate` keeps the first `kept` bytes of the block, which may move. On failure, `allocate` and `reallocate`
 * return null, and the old block stays. Threads call these functions at once. They call nothing of this library. */
typedef struct ds_allocator {
    void *(*allocate)(void *context, size_t size);
    void *(*reallocate)(void *context, void *block, size_t kept, size_t size);
    void (*deallocate)(void *context, void *block);
    void *context;
} ds_allocator;

/* Sets the allocator, in place of `malloc`, `realloc` and `free`, for the rest of the process. The structure is copied. Call it
 * before all other calls, and while no other thread makes one. Returns DS_BAD_ARGUMENT if a function is null, or if the library
 * has asked for memory before. Then nothing changes. */
int32_t ds_set_allocator(const ds_allocator *allocator);

/* --- One item, the argument of a call on it. The functions of this section create it:
 *
 *     ds_item item = ds_item_u64(42);
 *     int32_t result = ds_bloom_insert(&filter, &item);
 *
 * They take a null pointer with the length 0 as no bytes. --- */

/* The kinds of an item. A call returns DS_BAD_ARGUMENT for another number. */
enum {
    DS_ITEM_U64 = 0,    /* a number in uint64_t */
    DS_ITEM_I64 = 1,    /* a number in int64_t */
    DS_ITEM_STRING = 2, /* a string */
    DS_ITEM_FED = 3     /* an item given by the bytes that are hashed */
};

/* An item of one kind. A member of other kinds is 0, or a pointer to no values, and never null. */
typedef struct ds_item {
    int32_t kind;
    uint64_t number;      /* of int64_t: its two's complement, `(uint64_t)item` */
    const uint8_t *bytes; /* of a string, or those that are hashed */
    size_t length;        /* the number of bytes */
} ds_item;

/* Returns a pointer to no values. */
static inline void *ds_no_values(void)
{
    static uint64_t none;
    return &none;
}

/* Return a number as an item. To filters and Count-Min sketches, a number in int64_t is the same item as that of the same bits in
 * uint64_t. */
static inline ds_item ds_item_u64(uint64_t number)
{
    ds_item item = {DS_ITEM_U64, number, (const uint8_t *)ds_no_values(), 0};
    return item;
}

static inline ds_item ds_item_i64(int64_t number)
{
    ds_item item = {DS_ITEM_I64, (uint64_t)number, (const uint8_t *)ds_no_values(), 0};
    return item;
}

/* Returns a string as an item. Calls return DS_INVALID_UTF8 if it is not UTF-8. */
static inline ds_item ds_item_string(const uint8_t *bytes, size_t length)
{
    ds_item item = {DS_ITEM_STRING, 0, bytes || length ? bytes : (const uint8_t *)ds_no_values(), length};
    return item;
}

/* Returns an item that is given by the bytes that are hashed. They need not be UTF-8. Filters and Count-Min sketches take it.
 * Frequent items need the item itself, and return DS_WRONG_KIND.
 *
 * A number of 64 bits is hashed as its eight bytes, the lowest first. A string is hashed as its bytes and then the byte 255. Rust's
 * `Hash` feeds a hasher these bytes, and others for other types. */
static inline ds_item ds_item_fed(const uint8_t *bytes, size_t length)
{
    ds_item item = {DS_ITEM_FED, 0, bytes || length ? bytes : (const uint8_t *)ds_no_values(), length};
    return item;
}

/* --- Many items, the argument of one call on all of them. The functions of this section create it:
 *
 *     uint64_t numbers[3] = {3, 4, 3};
 *     ds_items items = ds_items_u64(numbers, 3);
 *     int32_t result = ds_bloom_insert_all(&filter, &items);
 *
 * They take a null pointer with the count 0 as no items. --- */

/* The kinds of items. A call returns DS_BAD_ARGUMENT for another number. */
enum {
    DS_ITEMS_U64 = 0,       /* numbers in uint64_t */
    DS_ITEMS_I64 = 1,       /* numbers in int64_t */
    DS_ITEMS_OFFSETS = 2,   /* strings in one buffer, by offsets of 64 bits */
    DS_ITEMS_OFFSETS32 = 3, /* strings in one buffer, by offsets of 32 bits */
    DS_ITEMS_STRINGS = 4,   /* strings in an array of ds_string */
    DS_ITEMS_WORDS = 5,     /* the words of a string */
    DS_ITEMS_LINES = 6,     /* the lines of a string */
    DS_ITEMS_FED = 7        /* items given by the bytes that are hashed */
};

/* Many items of one kind, where they are. The members of other kinds are pointers to no values, and never null.
 *
 * Numbers, strings and hashed bytes are rows. Some may be missing, as nulls in a column of Arrow. Row i is there if bit `first_bit`
 * + i of the bitmap is set. Bit k is the bit k % 8, lowest first, of byte k / 8. Without a bitmap each row is there.
 *
 * Missing rows are neither inserted nor counted, and their weights are not read. Their results are false, and their estimates and
 * bounds 0. The number of items that a call needs includes missing rows. Their offsets and strings are checked like those of other
 * rows. Calls return DS_BAD_ARGUMENT if the bitmap has fewer than n bits from `first_bit` on for n rows, or if words or lines have
 * a bitmap. */
typedef struct ds_items {
    int32_t kind;
    const uint64_t *u64s;
    size_t num_u64s;
    const int64_t *i64s;
    size_t num_i64s;
    const uint8_t *bytes; /* of strings by offsets, and of the string that has words or lines */
    size_t num_bytes;
    const uint64_t *offsets;
    size_t num_offsets;
    const uint32_t *offsets32;
    size_t num_offsets32;
    const ds_string *strings;
    size_t num_strings;
    const ds_string *fed;
    size_t num_fed;
    const uint8_t *validity; /* the bitmap of rows */
    size_t num_validity;     /* its number of bytes: 0 if there is no bitmap */
    size_t first_bit;        /* the bit of the first row */
} ds_items;

/* Returns a structure of a kind whose pointers are to no values. */
static inline ds_items ds_no_items(int32_t kind)
{
    void *none = ds_no_values();
    ds_items items = {kind, (uint64_t *)none, 0, (int64_t *)none, 0, (uint8_t *)none, 0, (uint64_t *)none, 0, (uint32_t *)none, 0,
                      (ds_string *)none, 0, (ds_string *)none, 0, (uint8_t *)none, 0, 0};
    return items;
}

/* Return numbers in an array as items. */
static inline ds_items ds_items_u64(const uint64_t *numbers, size_t count)
{
    ds_items items = ds_no_items(DS_ITEMS_U64);
    if (numbers || count) items.u64s = numbers;
    items.num_u64s = count;
    return items;
}

static inline ds_items ds_items_i64(const int64_t *numbers, size_t count)
{
    ds_items items = ds_no_items(DS_ITEMS_I64);
    if (numbers || count) items.i64s = numbers;
    items.num_i64s = count;
    return items;
}

/* Returns strings in an array as items. Calls return DS_INVALID_UTF8 if a string is not UTF-8. */
static inline ds_items ds_items_strings(const ds_string *strings, size_t count)
{
    ds_items items = ds_no_items(DS_ITEMS_STRINGS);
    if (strings || count) items.strings = strings;
    items.num_strings = count;
    return items;
}

/* Returns items in an array, each given by the bytes that are hashed, as `ds_item_fed` takes one. */
static inline ds_items ds_items_fed(const ds_string *items_as_bytes, size_t count)
{
    ds_items items = ds_no_items(DS_ITEMS_FED);
    if (items_as_bytes || count) items.fed = items_as_bytes;
    items.num_fed = count;
    return items;
}

/* Returns items of a kind whose bytes are one buffer. */
static inline ds_items ds_items_in(int32_t kind, const uint8_t *bytes, size_t num_bytes)
{
    ds_items items = ds_no_items(kind);
    if (bytes || num_bytes) items.bytes = bytes;
    items.num_bytes = num_bytes;
    return items;
}

/* Return the strings of one buffer of bytes as items. String i is the bytes from offset i up to offset i + 1, so there is one
 * more offset than strings. The first offset may be above 0. Offsets of 64 bits are those of Arrow's `large_utf8`, and offsets of
 * 32 bits those of its `utf8`. Pass offsets in `int64_t` or `int32_t` by a cast of the pointer: one below 0 is then at least 2^63
 * or 2^31, and an error unless there are as many bytes. Calls return DS_BAD_OFFSETS if there is no offset, an offset is below the
 * one before it, or the last offset exceeds the number of bytes. They return DS_INVALID_UTF8 if a string is not UTF-8. */
static inline ds_items ds_items_offsets(const uint8_t *bytes, size_t num_bytes, const uint64_t *offsets, size_t num_offsets)
{
    ds_items items = ds_items_in(DS_ITEMS_OFFSETS, bytes, num_bytes);
    if (offsets || num_offsets) items.offsets = offsets;
    items.num_offsets = num_offsets;
    return items;
}

static inline ds_items ds_items_offsets32(const uint8_t *bytes, size_t num_bytes, const uint32_t *offsets, size_t num_offsets)
{
    ds_items items = ds_items_in(DS_ITEMS_OFFSETS32, bytes, num_bytes);
    if (offsets || num_offsets) items.offsets32 = offsets;
    items.num_offsets32 = num_offsets;
    return items;
}

/* Return the words or the lines of a string as items, in order. A word is a longest run of bytes that are not ASCII white space
 * (space, tab, LF, FF or CR). A line ends at LF or at the end of the string. It has neither the LF nor a CR before it. Calls
 * return DS_INVALID_UTF8 if the string is not UTF-8. */
static inline ds_items ds_items_words(const uint8_t *text, size_t length)
{
    return ds_items_in(DS_ITEMS_WORDS, text, length);
}

static inline ds_items ds_items_lines(const uint8_t *text, size_t length)
{
    return ds_items_in(DS_ITEMS_LINES, text, length);
}

/* Returns the number of rows, or 0 for words and lines. It checks nothing: see `ds_num_items`. */
static inline size_t ds_num_rows(const ds_items *items)
{
    switch (items->kind) {
    case DS_ITEMS_U64: return items->num_u64s;
    case DS_ITEMS_I64: return items->num_i64s;
    case DS_ITEMS_OFFSETS: return items->num_offsets - (items->num_offsets > 0);
    case DS_ITEMS_OFFSETS32: return items->num_offsets32 - (items->num_offsets32 > 0);
    case DS_ITEMS_STRINGS: return items->num_strings;
    case DS_ITEMS_FED: return items->num_fed;
    default: return 0;
    }
}

/* Returns numbers, strings or hashed bytes with a bitmap of their rows. It has at least `first_bit` + n bits for n rows. Null is no
 * bitmap.
 * For a slice of a column of Arrow, pass a pointer to its first number or offset, and the slice's start as `first_bit`:
 *
 *     ds_items rows = ds_items_offsets32(bytes, num_bytes, (const uint32_t *)offsets + start, num_rows + 1);
 *     rows = ds_items_with_validity(rows, validity, start);
 *
 * With words or lines, calls return DS_BAD_ARGUMENT. */
static inline ds_items ds_items_with_validity(ds_items items, const uint8_t *validity, size_t first_bit)
{
    size_t rows = ds_num_rows(&items), num_bytes = first_bit / 8 + rows / 8 + (first_bit % 8 + rows % 8 + 7) / 8;
    bool of_text = items.kind == DS_ITEMS_WORDS || items.kind == DS_ITEMS_LINES;
    items.validity = validity ? validity : (const uint8_t *)ds_no_values();
    items.num_validity = !validity ? 0 : of_text ? 1 : num_bytes;
    items.first_bit = validity ? first_bit : 0;
    return items;
}

/* --- Fields of records: a field of each line or record of CSV is an item, and another one may have its weight. --- */

/* The formats of records. Calls return DS_BAD_ARGUMENT for another number. */
enum {
    DS_FIELDS_WORDS = 0,     /* a record is a line, as of `ds_items_lines`, and its fields are its words, as of `ds_items_words` */
    DS_FIELDS_DELIMITED = 1, /* a record is a line, and its fields stand between single bytes of ASCII. Some may be empty */
    DS_FIELDS_CSV = 2        /* a record of RFC 4180, read leniently: line ends and delimiters in quotes belong to its field, and two
                              * quotes there stand for one. A record without bytes has no field */
};

/* The index that names no field. */
#define DS_NO_FIELD UINT32_MAX

/* Which fields are taken. Calls return DS_BAD_ARGUMENT for a delimiter from 128 on between fields of lines, also if no field is taken,
 * for a quote, LF or CR between those of CSV, and for a whole record of CSV. */
typedef struct ds_fields {
    int32_t format;
    uint8_t delimiter; /* the byte between fields. Words have none */
    uint32_t item;     /* the index of the field that is the item, from 0. In a line, DS_NO_FIELD is the whole line */
    uint32_t weight;   /* the index of the field with the weight. With DS_NO_FIELD each item has the weight 1 */
} ds_fields;

/* What a call read of records. It writes both numbers once all records are read, and the offset alone if a record has an error. After
 * other errors all three stay as they were. */
typedef struct ds_fields_read {
    size_t num_records; /* of all records */
    size_t num_items;   /* of those with an item. The others are left out */
    size_t offset;      /* the index of the byte at which the first record with an error begins */
} ds_fields_read;

/* Writes the number of items: of rows with the missing ones, of words, or of lines. Returns DS_BAD_ARGUMENT, DS_BAD_OFFSETS or
 * DS_INVALID_UTF8 as each call with these items: then `count` stays as it was. Takes no handle and does not allocate. */
int32_t ds_num_items(const ds_items *items, size_t *count);

/* --- Bloom filters: sets of items. An item that was inserted is contained, unless a later intersection, difference or reset
 * removed some of its positions. An item that was not inserted may be contained too: a false positive. --- */

/* Puts an empty filter into the handle, with at least `num_bits` bits, from 1 to 137438953152, rounded up to words of 64, and
 * with 1 to 32767 hashes. Returns DS_BAD_NUM_BITS, DS_BAD_NUM_HASHES, or DS_NO_MEMORY. */
int32_t ds_bloom_new(ds_sketch *handle, uint64_t num_bits, uint16_t num_hashes, uint64_t seed);

/* Inserts an item. */
int32_t ds_bloom_insert(ds_sketch *handle, const ds_item *item);

/* Inserts many items, as one after another. */
int32_t ds_bloom_insert_all(ds_sketch *handle, const ds_items *items);

/* Returns DS_YES if the filter contains the item, and DS_NO otherwise. */
int32_t ds_bloom_contains(ds_sketch *handle, const ds_item *item);

/* Writes for each item whether the filter contains it. Returns DS_NO_ROOM unless `num_results` is the number of items. */
int32_t ds_bloom_contains_all(ds_sketch *handle, const ds_items *items, bool *results, size_t num_results);

/* Inserts an item. Returns DS_YES if the filter contained it before, and DS_NO otherwise. */
int32_t ds_bloom_contains_and_insert(ds_sketch *handle, const ds_item *item);

/* Inserts many items, as one after another. Writes for each whether the filter contained it before, so also whether an earlier
 * item of the same call put it there. Returns DS_NO_ROOM unless `num_results` is the number of items. */
int32_t ds_bloom_contains_and_insert_all(ds_sketch *handle, const ds_items *items, bool *results, size_t num_results);

/* Returns DS_YES if the filter in an image contains the item, and DS_NO otherwise. The image is read in place, at any address, as
 * in a mapped file, to which rule 2 applies, too. Returns the error of the image's first failed check: each of
 * `ds_deserialize` but those of `max_bytes` and of the number of set bits, in constant time. Does not allocate. */
int32_t ds_bloom_image_contains(const uint8_t *image, size_t length, const ds_item *item);

/* Writes for each item whether the filter in an image contains it. Returns DS_NO_ROOM unless `num_results` is the number of
 * items, and then the errors of the call above. Does not allocate. */
int32_t ds_bloom_image_contains_all(const uint8_t *image, size_t length, const ds_items *items, bool *results,
                                    size_t num_results);

/* Writes the positions of the results that are true to the front of `positions`, in ascending order, and returns their number:
 * a selection vector. `positions` has room for `count` positions. What is behind the written positions may be overwritten. */
static inline size_t ds_select(const bool *results, size_t count, size_t *positions)
{
    size_t found = 0;
    for (size_t i = 0; i < count; i++) {
        positions[found] = i;
        found += results[i];
    }
    return found;
}

/* --- Weights of items, of Count-Min sketches and of frequent items. A Count-Min sketch takes items of each kind. A sketch of
 * frequent items takes numbers of its own type, or strings, words and lines, and returns DS_WRONG_KIND for other items. --- */

/* Adds a weight to the item's, in a Count-Min sketch with weights in uint64_t or in frequent items. A weight of 0 changes nothing.
 * Returns DS_WEIGHT_OVERFLOW if the total would exceed 2^64 - 1. Frequent items return DS_NO_MEMORY if the table cannot grow, or a
 * string that is not tracked cannot be copied. */
int32_t ds_update(ds_sketch *handle, const ds_item *item, uint64_t weight);

/* Adds 1 to the weight of each item, in order. Returns the error of the first item whose own update returns one: then the items
 * before it are added, and no others. It is DS_WEIGHT_OVERFLOW if the total would exceed 2^64 - 1, or 2^63 - 1 for weights in
 * int64_t. It may be DS_NO_MEMORY for frequent items. */
int32_t ds_update_all(ds_sketch *handle, const ds_items *items);

/* Adds a weight to each item's, in order, in a Count-Min sketch with weights in uint64_t or in frequent items. Returns DS_NO_ROOM
 * unless `num_weights` is the number of items. Returns DS_WEIGHT_OVERFLOW if the total would exceed 2^64 - 1 with all weights:
 * then none is added. Frequent items return DS_NO_MEMORY for the first item without memory: then the items before it are added,
 * and no others. With a bitmap, the call copies the weights of the rows that are there. It allocates 8 bytes for each row, and
 * returns DS_NO_MEMORY if that fails, after DS_NO_SKETCH and DS_SHARED and before DS_WRONG_KIND. Then nothing changes. */
int32_t ds_update_all_weighted(ds_sketch *handle, const ds_items *items, const uint64_t *weights, size_t num_weights);

/* Adds the weight of each record to that of the record's item, in order, in a Count-Min sketch or in frequent strings. Inserts the
 * items into a filter, of which weights are only read. A weight is a number in decimal digits, below 2^64. For weights in int64_t it
 * is from -2^63 to 2^63 - 1, and may begin with a minus sign.
 *
 * Bytes need not be UTF-8, but items do. Returns the first of these errors, and then changes no sketch:
 *
 *  - DS_BAD_ARGUMENT for the fields, DS_NO_SKETCH, DS_SHARED, DS_WRONG_KIND.
 *  - The error of the first record with one: DS_INVALID_UTF8 if its item is not UTF-8, and DS_BAD_WEIGHT if it has an item and no
 *    weight. DS_NO_MEMORY comes in place of it if the items and weights before it cannot be allocated.
 *  - DS_WEIGHT_OVERFLOW if the total has no room for all weights.
 *
 * Frequent items return DS_NO_MEMORY for the first item without memory: then the items before it are added, and no others. */
int32_t ds_update_fields(ds_sketch *handle, const uint8_t *bytes, size_t length, const ds_fields *fields, ds_fields_read *read);

/* --- Count-Min sketches with weights in uint64_t. An estimate is at most the total, and at least the item's own weight: what
 * was added for the item, halved and decayed as often as the sketch, and rounded down each time. --- */

/* Puts an empty sketch into the handle, of the kind DS_COUNT_MIN_U64 or DS_COUNT_MIN_I64, with 1 to 255 hashes, a row each, and 3
 * or more buckets in a row, fewer than 2^30 cells in all. Returns DS_WRONG_KIND for another kind, DS_BAD_NUM_HASHES,
 * DS_BAD_NUM_BUCKETS, DS_TABLE_TOO_LARGE, DS_ZERO_SEED_HASH, or DS_NO_MEMORY. */
int32_t ds_count_min_new(ds_sketch *handle, int32_t kind, uint8_t num_hashes, uint32_t num_buckets, uint64_t seed);

/* Writes the estimate of the item's weight: the minimum of its cells. */
int32_t ds_count_min_u64_estimate(ds_sketch *handle, const ds_item *item, uint64_t *estimate);

/* Writes the estimate of each item's weight. Returns DS_NO_ROOM unless `num_estimates` is the number of items. */
int32_t ds_count_min_u64_estimate_all(ds_sketch *handle, const ds_items *items, uint64_t *estimates, size_t num_estimates);

/* Writes the estimate plus a margin: e times the total over the buckets, rounded down. The sum stops at 2^64 - 1. */
int32_t ds_count_min_u64_upper_bound(ds_sketch *handle, const ds_item *item, uint64_t *bound);

/* Halves each cell and the total, rounded down. */
int32_t ds_count_min_u64_halve(ds_sketch *handle);

/* Multiplies each cell and the total by a fraction, rounded down. Returns DS_BAD_FRACTION unless the fraction is above 0 and at
 * most 1. */
int32_t ds_count_min_u64_decay(ds_sketch *handle, uint64_t numerator, uint64_t denominator);

/* Writes the estimate of the item's weight by the sketch in an image, which was written under this seed. The image is read in
 * place, at any address, as in a mapped file, to which rule 2 applies, too. Returns the error of the image's first failed check:
 * each of `ds_deserialize` but those of `max_bytes` and of the cells, in constant time. A cell that it rejects is read as the
 * nearest that it accepts. Each call hashes a number for each row first, so many estimates are faster from a sketch that was
 * read. Does not allocate. */
int32_t ds_count_min_u64_image_estimate(const uint8_t *image, size_t length, uint64_t seed, const ds_item *item,
                                        uint64_t *estimate);

/* --- Count-Min sketches with weights in int64_t, which may be below 0. --- */

/* As `ds_update`, `ds_update_all_weighted` and the calls in uint64_t, with weights, estimates and bounds in int64_t. The total
 * counts each weight without its sign, and DS_WEIGHT_OVERFLOW is returned if it would exceed 2^63 - 1. An estimate is at least the
 * item's own weight if no weight is below 0. If some weight is below 0, it may be less. There is no halving and no decay. */
int32_t ds_count_min_i64_update(ds_sketch *handle, const ds_item *item, int64_t weight);
int32_t ds_count_min_i64_update_all_weighted(ds_sketch *handle, const ds_items *items, const int64_t *weights,
                                             size_t num_weights);
int32_t ds_count_min_i64_estimate(ds_sketch *handle, const ds_item *item, int64_t *estimate);
int32_t ds_count_min_i64_estimate_all(ds_sketch *handle, const ds_items *items, int64_t *estimates, size_t num_estimates);
int32_t ds_count_min_i64_upper_bound(ds_sketch *handle, const ds_item *item, int64_t *bound);
int32_t ds_count_min_i64_image_estimate(const uint8_t *image, size_t length, uint64_t seed, const ds_item *item, int64_t *estimate);

/* --- Frequent items: the items of the largest weights, in at most three quarters of `max_map_size` counters.
 *
 * A sketch's table hashes items by SipHash-1-3 under a key of two words. With a secret key, no way is known to choose items that
 * slow the sketch down. This holds for callers who see no images, rows, walks or times of calls of sketches under the key. A
 * clone has the key of its original. A merge keeps the handle's own key. An image has no key.
 *
 * `ds_frequent_items_new`, `ds_deserialize` and `ds_deserialize_prefix` draw a key if the caller gives none. The first call of a
 * process asks the system for two random words. Each call counts the first word up, so no two sketches of a process get the same
 * key. After a `fork`, the child draws words of its own. If the system has no random bytes, these calls return DS_NO_RANDOM. Only
 * DS_BAD_ARGUMENT and DS_WRONG_KIND come before.
 *
 * With the same keys a run is reproducible: the same calls have the same results. Runs with drawn keys may differ in the counters
 * that purges remove, so in bounds and rows, within the same guarantees. They also differ in the order of rows of equal estimates
 * and of the items in an image. If others choose the items, choose both words at random and keep them secret. --- */

/* An item's bounds. Its true weight lies between the lower and the upper one, which differ by the sketch's error. */
typedef struct ds_item_bounds {
    uint64_t lower_bound;
    uint64_t estimate;
    uint64_t upper_bound;
} ds_item_bounds;

/* Puts an empty sketch into the handle, of the kind DS_FREQUENT_ITEMS_U64, DS_FREQUENT_ITEMS_I64 or DS_FREQUENT_ITEMS_STRING,
 * under a key, or under a drawn one if `key` is null. Its table may grow to `max_map_size` slots, a power of two from 8 to 2^30.
 * Its purges sample `sample_size` counters, an even number from 2 to three quarters of `max_map_size`, at most 1024. The largest
 * sample has the strongest guarantee: see `ds_frequent_items_max_sample_size`. Returns DS_WRONG_KIND for another kind,
 * DS_NO_RANDOM, DS_MAP_SIZE_NOT_POWER_OF_TWO, DS_MAP_SIZE_TOO_SMALL, DS_MAP_SIZE_TOO_LARGE, DS_BAD_SAMPLE_SIZE, or
 * DS_NO_MEMORY. */
int32_t ds_frequent_items_new(ds_sketch *handle, int32_t kind, size_t max_map_size, size_t sample_size, const ds_key *key);

/* Returns the largest sample size for a `max_map_size`. */
static inline size_t ds_frequent_items_max_sample_size(size_t max_map_size)
{
    return max_map_size / 4 * 3 < 1024 ? max_map_size / 4 * 3 : 1024;
}

/* Writes the bounds of an item of the sketch's own type. Returns DS_WRONG_KIND for another item. Does not allocate. */
int32_t ds_frequent_items_bounds(ds_sketch *handle, const ds_item *item, ds_item_bounds *bounds);

/* Writes the bounds of each item, in frequent items of every kind, which take the items that they take for `ds_update_all`.
 * Returns DS_NO_ROOM unless `num_bounds` is the number of items. Does not allocate. */
int32_t ds_frequent_items_bounds_all(ds_sketch *handle, const ds_items *items, ds_item_bounds *bounds, size_t num_bounds);

/* Sets how many counters later purges sample: an even number from 2 to three quarters of `max_map_size`, at most 1024. So a
 * sketch that was read from an image, which has no sample size, gets back the one that it had. Nothing else changes. Returns
 * DS_BAD_SAMPLE_SIZE for another number. */
int32_t ds_frequent_items_set_sample_size(ds_sketch *handle, size_t sample_size);

/* Writes the items whose bound exceeds both the threshold and the sketch's error, in rows of descending estimates: an item and
 * its bounds each, at the front of both buffers, and the number of rows to `count`. The rest of the buffers stays as it was.
 * With `no_false_negatives` the upper bound is compared: each item is there whose true weight exceeds both. Otherwise the
 * lower bound is compared: no other item is there.
 *
 * Writes the first `limit` rows, or all if there are fewer: `SIZE_MAX` is no limit. Rows of equal estimates are in any order, so it
 * is open which of these a limit leaves out. Returns DS_NO_MEMORY, or DS_NO_ROOM if a buffer has fewer places than rows: then
 * `count` is the number of rows. Buffers with `limit` places have room. */
int32_t ds_frequent_items_u64_rows(ds_sketch *handle, bool no_false_negatives, uint64_t threshold, size_t limit, uint64_t *items,
                                   size_t num_items, ds_item_bounds *bounds, size_t num_bounds, size_t *count);
int32_t ds_frequent_items_i64_rows(ds_sketch *handle, bool no_false_negatives, uint64_t threshold, size_t limit, int64_t *items,
                                   size_t num_items, ds_item_bounds *bounds, size_t num_bounds, size_t *count);

/* The same for strings. They stand one after another at the front of `bytes`: string i from offset i up to offset i + 1, the
 * first offset is 0, and there is one more offset than rows. `num_bytes` is the number of bytes of the rows' strings. It is
 * written with `count`. */
int32_t ds_frequent_items_string_rows(ds_sketch *handle, bool no_false_negatives, uint64_t threshold, size_t limit,
                                      uint8_t *bytes, size_t room_for_bytes, uint64_t *offsets, size_t num_offsets,
                                      ds_item_bounds *bounds, size_t num_bounds, size_t *count, size_t *num_bytes);

/* --- Chunks of a stream. These calls take no handle, and return a number of bytes, never an error. With the checks they return 0
 * at null, whatever the length. --- */

/* What the chunks of a stream have. `ds_finished` returns 0 for another number. */
enum {
    DS_CHUNK_WORDS = 1,       /* words: what is finished ends with the last byte of ASCII white space */
    DS_CHUNK_LINES = 2,       /* lines: it ends with the last LF */
    DS_CHUNK_CSV_RECORDS = 3, /* records of CSV, of which the first begins the chunk: it ends with the end of the last whole one */
    DS_CHUNK_UTF8 = 4         /* characters: it ends before the first byte that is not part of valid UTF-8 */
};

/* Returns the number of bytes of a chunk that are finished, or 0 if none are. What begins after them may go on in the next chunk: pass
 * on the bytes before, and put the rest before the next chunk. The delimiter is that of CSV, and not read otherwise.
 * `datasketches_typed.h` has `ds_finished_words(text, length)`, `ds_finished_lines` and `ds_finished_csv_records`. */
size_t ds_finished(int32_t chunk, const uint8_t *bytes, size_t length, uint8_t delimiter);

/* Returns the number of bytes before the first that is not part of valid UTF-8, or `length` if all are UTF-8: `ds_finished` of
 * DS_CHUNK_UTF8. */
size_t ds_valid_utf8(const uint8_t *text, size_t length);

/* --- Items that others choose. This call takes no handle, and returns a hash, never an error. With the checks, null means no
 * bytes, whatever the length. --- */

/* Returns SipHash-1-3 of bytes under a key of two words. A caller who chooses the items of a sketch can choose ones whose hashes
 * collide. Insert this hash in place of such an item, as a `uint64_t`: without the key, no way is known to choose items that
 * collide. Choose both words at random and keep them secret. Sketches that are merged need the same key. */
uint64_t ds_keyed_hash(const uint8_t *bytes, size_t length, uint64_t k0, uint64_t k1);

/* --- Sizes from error targets. --- */

/* What `ds_suggest` writes for its targets. It returns DS_BAD_ARGUMENT for another number. */
enum {
    /* The smallest `max_map_size` whose guarantee is an error of at most the total over `first`, for every stream, at the largest sample
     * size. DS_MAP_SIZE_TOO_LARGE above 512. */
    DS_SIZE_MAX_MAP_SIZE = 1,

    /* The buckets of Count-Min by the published formula: e times `first`, rounded up. Take the hashes of the next size for a number
     * of questions. Then an estimate exceeds the item's own weight by more than the total over `first` with probability at most 1 in
     * that number. This needs ideal hashes and no weight below 0. DS_BAD_NUM_BUCKETS for 0, and DS_TABLE_TOO_LARGE for 2^30 buckets and
     * more. */
    DS_SIZE_NUM_BUCKETS = 2,

    /* The hashes of Count-Min by the published formula: the natural logarithm of `first` questions, rounded up. At most 255.
     * DS_BAD_NUM_HASHES for 0 and 1. */
    DS_SIZE_COUNT_HASHES = 3,

    /* The bits of a filter by the published formula: `first` items times ln `second` over the square of ln 2. The binary logarithm of
     * `second` is rounded up to 64ths, so there are never fewer bits than the formula asks for. Under ideal hashes the false-positive
     * rate is about 1 in `second`. With few items or a low rate it is higher: see the next size. DS_BAD_NUM_BITS for 0 items, for 0
     * and 1 as `second`, and above 137438953152 bits. */
    DS_SIZE_NUM_BITS = 4,

    /* The least bits of a filter for `first` items and the rate of 1 in `second`: 4 times the square root of their product, rounded up.
     * The positions of an item are two hashes modulo the bits. In fewer bits they repeat those of another item more often than the
     * rate allows. Make a filter of the larger one of this number and the one above, with the hashes of the one above. Its rate is
     * not proved. Measured for up to 3000 items and rates from 1/10 to 1/1000000, it is at most 1.3 in `second`. DS_BAD_NUM_BITS above
     * 137438953152 bits. */
    DS_SIZE_MIN_NUM_BITS = 5,

    /* The hashes of a filter by the published formula: `first` bits over `second` items times ln 2, rounded up. At most 32767.
     * DS_BAD_NUM_BITS unless there are 1 to 137438953152 bits, and DS_BAD_NUM_HASHES for 0 items and above 32767 hashes. */
    DS_SIZE_FILTER_HASHES = 6
};

/* Writes a size for error targets, and returns DS_OK. After an error of the size nothing is written. The sizes 1 to 3 have the target
 * `first` alone. `datasketches_typed.h` has a function for each size, as `ds_bloom_suggest_num_bits(num_items, questions, &num_bits)`. */
int32_t ds_suggest(int32_t size, uint64_t first, uint64_t second, uint64_t *found);

#ifdef __cplusplus
}
#endif

#include "datasketches_checks.h"

#endif
