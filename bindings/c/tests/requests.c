/* Counts the allocations of calls and the blocks that they free. A row has both expected numbers, the expected result and the
 * call. The numbers were derived by hand from the header. Prints the rows that differ, and exits with 1 if there is any.
 *
 * It is linked with `--wrap` for malloc, calloc, realloc and free. */
#include <datasketches.h>
#include <stdio.h>
#include <stdlib.h>

#include "options.h"

static int rows, failures, is_counting;
static long asked, given_back;

void *__real_malloc(size_t size);
void *__real_calloc(size_t count, size_t size);
void *__real_realloc(void *block, size_t size);
void __real_free(void *block);
void *__wrap_malloc(size_t size);
void *__wrap_calloc(size_t count, size_t size);
void *__wrap_realloc(void *block, size_t size);
void __wrap_free(void *block);

void *__wrap_malloc(size_t size)
{
    asked += is_counting;
    return __real_malloc(size);
}

void *__wrap_calloc(size_t count, size_t size)
{
    asked += is_counting;
    return __real_calloc(count, size);
}

void *__wrap_realloc(void *block, size_t size)
{
    asked += is_counting;
    return __real_realloc(block, size);
}

void __wrap_free(void *block)
{
    given_back += is_counting && block;
    __real_free(block);
}

/* A call with its expected numbers of allocations and freed blocks, and its expected result. */
#define ROW(asks, gives_back, wanted, call) \
    do { \
        int32_t answer; \
        asked = given_back = 0; \
        is_counting = 1; \
        answer = (call); \
        is_counting = 0; \
        rows++; \
        if (answer != (wanted) || asked != (asks) || given_back != (gives_back)) { \
            failures++; \
            printf("%s:%d: %s: answer %d, asked %ld, gave back %ld\n", __FILE__, __LINE__, #call, (int)answer, asked, given_back); \
        } \
    } while (0)

/* A call that allocates nothing. */
#define FREE(wanted, call) ROW(0, 0, wanted, call)

/* A call that is not counted. */
#define DO(call) \
    do { \
        if ((call) < 0) exit(2); \
    } while (0)

static const uint64_t ITEMS[3] = {3, 5, 1};
static const int64_t SIGNED[3] = {3, 5, 1};
static const uint64_t WEIGHTS[3] = {1, 2, 3};
static const int64_t DIFFERENCES[3] = {1, -2, 3};

/* Three strings, `ab`, `cde` and `f`. */
static const uint8_t STRINGS[6] = "abcdef";
static const uint64_t OFFSETS[4] = {0, 2, 5, 6};
static const uint32_t OFFSETS32[4] = {0, 2, 5, 6};
static const ds_string PAIRS[3] = {{STRINGS, 2}, {STRINGS + 2, 3}, {STRINGS + 5, 1}};
static const uint8_t TEXT[9] = "ab\ncde\nf\n";

/* Three items of each kind. */
enum { ITEM_KINDS = 7 };

static ds_items items[ITEM_KINDS];

static void make_items(void)
{
    items[DS_ITEMS_U64] = ds_items_u64(ITEMS, 3);
    items[DS_ITEMS_I64] = ds_items_i64(SIGNED, 3);
    items[DS_ITEMS_OFFSETS] = ds_items_offsets(STRINGS, 6, OFFSETS, 4);
    items[DS_ITEMS_OFFSETS32] = ds_items_offsets32(STRINGS, 6, OFFSETS32, 4);
    items[DS_ITEMS_STRINGS] = ds_items_strings(PAIRS, 3);
    items[DS_ITEMS_WORDS] = ds_items_words(TEXT, 9);
    items[DS_ITEMS_LINES] = ds_items_lines(TEXT, 9);
}

/* The image of an empty filter of four words and three hashes. */
static const uint8_t FILTER[24] = {3, 1, 21, 4, 3, 0, 0, 0, 0x29, 0x23, 0, 0, 0, 0, 0, 0, 4, 0, 0, 0, 0, 0, 0, 0};

/* The image of an empty Count-Min sketch of three hashes and 64 buckets under the seed 9001. */
static const uint8_t COUNTS[16] = {2, 1, 18, 1, 0, 0, 0, 0, 64, 0, 0, 0, 3, 0xcc, 0x93, 0};

/* The image of an empty sketch of frequent items with a maximum of 64 slots. */
static const uint8_t FREQUENT[8] = {1, 1, 10, 6, 3, 5, 0, 0};

/* The image of one string whose stated length is 4 GiB - 1, with no byte after the length. */
static const uint8_t HOSTILE[44] = {4, 1, 10, 3, 3, 0, 0, 0, 1, 0, 0, 0, 0, 0, 0, 0, 1, 0, 0,    0,    0,    0,
                                    0, 0, 0,  0, 0, 0, 0, 0, 0, 0, 1, 0, 0, 0, 0, 0, 0, 0, 0xff, 0xff, 0xff, 0xff};

static void filters(void)
{
    ds_sketch filter = DS_NONE, same = DS_NONE, unlike = DS_NONE, none = DS_NONE, count = DS_NONE;
    ds_status numbers;
    bool answers[3];
    uint8_t image[64];
    size_t written;
    DO(ds_bloom_new(&filter, 256, 3, 9001));
    DO(ds_bloom_new(&same, 256, 3, 9001));
    DO(ds_bloom_new(&unlike, 256, 3, 7));
    DO(ds_count_min_new(&count, DS_COUNT_MIN_U64, 3, 64, 9001));
    FREE(DS_OK, ds_bloom_insert_u64(&filter, 3));
    FREE(DS_OK, ds_bloom_insert_i64(&filter, -1));
    FREE(DS_OK, ds_bloom_insert_string(&filter, STRINGS, 5));
    for (int32_t kind = 0; kind < ITEM_KINDS; kind++) FREE(DS_OK, ds_bloom_insert_all(&filter, &items[kind]));
    FREE(DS_YES, ds_bloom_contains_u64(&filter, 5));
    FREE(DS_YES, ds_bloom_contains_i64(&filter, -1));
    FREE(DS_YES, ds_bloom_contains_string(&filter, STRINGS, 2));
    for (int32_t kind = 0; kind < ITEM_KINDS; kind++) {
        FREE(DS_OK, ds_bloom_contains_all(&filter, &items[kind], answers, 3));
        FREE(DS_NO_ROOM, ds_bloom_contains_all(&filter, &items[kind], answers, 2));
    }
    FREE(DS_NO, ds_bloom_contains_and_insert_u64(&filter, 77));
    FREE(DS_NO, ds_bloom_contains_and_insert_i64(&filter, -77));
    FREE(DS_YES, ds_bloom_contains_and_insert_string(&filter, STRINGS, 2));
    for (int32_t kind = 0; kind < ITEM_KINDS; kind++)
        FREE(DS_OK, ds_bloom_contains_and_insert_all(&filter, &items[kind], answers, 3));
    FREE(DS_OK, ds_merge(&same, &filter));
    FREE(DS_OK, ds_bloom_intersect(&same, &filter));
    FREE(DS_OK, ds_bloom_difference(&same, &filter));
    FREE(DS_MISMATCH, ds_merge(&filter, &unlike));
    FREE(DS_MISMATCH, ds_bloom_intersect(&filter, &unlike));
    FREE(DS_MISMATCH, ds_bloom_difference(&filter, &unlike));
    FREE(DS_NO, ds_equal(&filter, &same));
    FREE(DS_OK, ds_memory_bytes(&filter, &written));
    FREE(DS_OK, ds_get_status(&filter, &numbers));
    FREE(DS_OK, ds_serialize(&same, image, sizeof image, &written));
    FREE(DS_NO_ROOM, ds_serialize(&same, image, written - 1, &written));
    FREE(DS_OK, ds_serialized_bytes(&same, &written));
    FREE(DS_OK, ds_serialize(&filter, image, sizeof image, &written));
    FREE(DS_YES, ds_bloom_image_contains_u64(image, written, 5));
    FREE(DS_YES, ds_bloom_image_contains_i64(image, written, -1));
    FREE(DS_YES, ds_bloom_image_contains_string(image, written, STRINGS, 2));
    for (int32_t kind = 0; kind < ITEM_KINDS; kind++)
        FREE(DS_OK, ds_bloom_image_contains_all(image, written, &items[kind], answers, 3));
    FREE(DS_NO, ds_bloom_image_contains_u64(FILTER, sizeof FILTER, 5));
    FREE(DS_INSUFFICIENT_DATA, ds_bloom_image_contains_u64(image, written - 1, 5));
    FREE(DS_OK, ds_reset(&filter));
    FREE(DS_YES, ds_equal(&filter, &same));
    FREE(DS_NO, ds_bloom_contains_u64(&filter, 5));
    FREE(DS_TABLE_TOO_LARGE, ds_deserialize(&filter, DS_BLOOM, FILTER, sizeof FILTER, WITHIN(31)));
    FREE(DS_BAD_FAMILY, ds_deserialize(&filter, DS_BLOOM, COUNTS, sizeof COUNTS, WITHIN(1 << 20)));
    FREE(DS_INSUFFICIENT_DATA, ds_deserialize(&filter, DS_BLOOM, FILTER, 0, WITHIN(1 << 20)));
    FREE(DS_TABLE_TOO_LARGE, ds_deserialize_prefix(&filter, DS_BLOOM, FILTER, sizeof FILTER, WITHIN(31), &written));
    FREE(DS_INSUFFICIENT_DATA, ds_deserialize_prefix(&filter, DS_BLOOM, FILTER, 23, WITHIN(1 << 20), &written));
    /* the handle's block and the words, in place of those that were there */
    ROW(2, 2, DS_OK, ds_deserialize(&filter, DS_BLOOM, FILTER, sizeof FILTER, WITHIN(32)));
    ROW(2, 2, DS_OK, ds_deserialize_prefix(&filter, DS_BLOOM, FILTER, sizeof FILTER, WITHIN(32), &written));
    FREE(DS_NO_SKETCH, ds_bloom_insert_u64(&none, 3));
    FREE(DS_NO_SKETCH, ds_merge(&filter, &none));
    FREE(DS_NO_SKETCH, ds_serialize(&none, image, sizeof image, &written));
    FREE(DS_WRONG_KIND, ds_bloom_difference(&filter, &count));
    FREE(DS_WRONG_KIND, ds_equal(&filter, &count));
    FREE(DS_WRONG_KIND, ds_frequent_items_set_sample_size(&filter, 2));
    FREE(DS_WRONG_KIND, ds_deserialize(&filter, 0, FILTER, sizeof FILTER, WITHIN(32)));
    FREE(DS_WRONG_KIND, ds_deserialize_prefix(&filter, 7, FILTER, sizeof FILTER, WITHIN(32), &written));
    FREE(DS_WRONG_KIND, ds_bloom_insert_u64(&count, 3));
    for (int32_t kind = 0; kind < ITEM_KINDS; kind++) FREE(DS_WRONG_KIND, ds_bloom_insert_all(&count, &items[kind]));
    for (int32_t kind = 0; kind < ITEM_KINDS; kind++) FREE(DS_WRONG_KIND, ds_update_all(&filter, &items[kind]));
    FREE(DS_WRONG_KIND, ds_merge(&filter, &count));
    ds_free(&filter);
    ds_free(&same);
    ds_free(&unlike);
    ds_free(&count);
}

static void counts(void)
{
    ds_sketch count = DS_NONE, same = DS_NONE, unlike = DS_NONE, none = DS_NONE, filter = DS_NONE;
    ds_status numbers;
    uint64_t estimates[3], estimate;
    uint8_t image[2048];
    size_t written;
    DO(ds_count_min_new(&count, DS_COUNT_MIN_U64, 3, 64, 9001));
    DO(ds_count_min_new(&same, DS_COUNT_MIN_U64, 3, 64, 9001));
    DO(ds_count_min_new(&unlike, DS_COUNT_MIN_U64, 3, 65, 9001));
    DO(ds_bloom_new(&filter, 256, 3, 9001));
    FREE(DS_OK, ds_count_min_u64_update_u64(&count, 3, 250));
    FREE(DS_OK, ds_count_min_u64_update_i64(&count, -1, 7));
    FREE(DS_OK, ds_count_min_u64_update_string(&count, STRINGS, 5, 9));
    for (int32_t kind = 0; kind < ITEM_KINDS; kind++) {
        FREE(DS_OK, ds_update_all(&count, &items[kind]));
        FREE(DS_OK, ds_update_all_weighted(&count, &items[kind], WEIGHTS, 3));
    }
    FREE(DS_OK, ds_count_min_u64_estimate_u64(&count, 5, &estimate));
    FREE(DS_OK, ds_count_min_u64_estimate_i64(&count, -1, &estimate));
    FREE(DS_OK, ds_count_min_u64_estimate_string(&count, STRINGS, 2, &estimate));
    for (int32_t kind = 0; kind < ITEM_KINDS; kind++) {
        FREE(DS_OK, ds_count_min_u64_estimate_all(&count, &items[kind], estimates, 3));
        FREE(DS_NO_ROOM, ds_count_min_u64_estimate_all(&count, &items[kind], estimates, 2));
    }
    FREE(DS_OK, ds_count_min_u64_upper_bound_u64(&count, 5, &estimate));
    FREE(DS_OK, ds_count_min_u64_upper_bound_i64(&count, -1, &estimate));
    FREE(DS_OK, ds_count_min_u64_upper_bound_string(&count, STRINGS, 2, &estimate));
    FREE(DS_OK, ds_merge(&same, &count));
    FREE(DS_YES, ds_equal(&same, &count));
    FREE(DS_NO, ds_equal(&count, &unlike));
    FREE(DS_MISMATCH, ds_merge(&count, &unlike));
    FREE(DS_OK, ds_count_min_u64_halve(&same));
    FREE(DS_OK, ds_count_min_u64_decay(&same, 9, 10));
    FREE(DS_BAD_FRACTION, ds_count_min_u64_decay(&same, 3, 2));
    FREE(DS_OK, ds_get_status(&count, &numbers));
    FREE(DS_OK, ds_serialize(&count, image, sizeof image, &written));
    FREE(DS_NO_ROOM, ds_serialize(&count, image, written - 1, &written));
    FREE(DS_OK, ds_serialized_bytes(&count, &written));
    FREE(DS_OK, ds_count_min_u64_image_estimate_u64(image, written, 9001, 5, &estimate));
    FREE(DS_OK, ds_count_min_u64_image_estimate_i64(image, written, 9001, -1, &estimate));
    FREE(DS_OK, ds_count_min_u64_image_estimate_string(image, written, 9001, STRINGS, 2, &estimate));
    FREE(DS_OK, ds_count_min_u64_image_estimate_u64(COUNTS, sizeof COUNTS, 9001, 5, &estimate));
    FREE(DS_SEED_HASH_MISMATCH, ds_count_min_u64_image_estimate_u64(image, written, 9002, 5, &estimate));
    FREE(DS_WEIGHT_OVERFLOW, ds_count_min_u64_update_u64(&count, 3, UINT64_MAX));
    FREE(DS_OK, ds_count_min_u64_update_u64(&unlike, 3, UINT64_MAX));
    for (int32_t kind = 0; kind < ITEM_KINDS; kind++) {
        FREE(DS_WEIGHT_OVERFLOW, ds_update_all(&unlike, &items[kind]));
        FREE(DS_WEIGHT_OVERFLOW, ds_update_all_weighted(&unlike, &items[kind], WEIGHTS, 3));
    }
    FREE(DS_TABLE_TOO_LARGE, ds_deserialize(&count, DS_COUNT_MIN_U64, COUNTS, sizeof COUNTS, WITHIN(1559)));
    FREE(DS_SEED_HASH_MISMATCH, ds_deserialize(&count, DS_COUNT_MIN_U64, COUNTS, sizeof COUNTS, WITHIN_SEED(1 << 20, 9002)));
    FREE(DS_INSUFFICIENT_DATA, ds_deserialize(&count, DS_COUNT_MIN_U64, COUNTS, 0, WITHIN(1 << 20)));
    FREE(DS_TABLE_TOO_LARGE, ds_deserialize_prefix(&count, DS_COUNT_MIN_U64, COUNTS, sizeof COUNTS, WITHIN(1559), &written));
    FREE(DS_INSUFFICIENT_DATA, ds_deserialize_prefix(&count, DS_COUNT_MIN_U64, COUNTS, 15, WITHIN(1 << 20), &written));
    FREE(DS_WRONG_KIND, ds_count_min_new(&count, DS_BLOOM, 3, 64, 9001));
    FREE(DS_NO_SKETCH, ds_reset(&none));
    FREE(DS_NO_SKETCH, ds_count_min_u64_update_u64(&none, 3, 1));
    FREE(DS_NO_SKETCH, ds_merge(&count, &none));
    FREE(DS_WRONG_KIND, ds_count_min_u64_update_u64(&filter, 3, 1));
    FREE(DS_WRONG_KIND, ds_merge(&count, &filter));
    FREE(DS_OK, ds_reset(&count));
    ds_free(&count);
    ds_free(&same);
    ds_free(&unlike);
    ds_free(&filter);
}

static void signed_counts(void)
{
    ds_sketch count = DS_NONE, same = DS_NONE, unlike = DS_NONE, heavy = DS_NONE;
    ds_status numbers;
    int64_t estimates[3], estimate;
    uint8_t image[2048];
    size_t written;
    DO(ds_count_min_new(&count, DS_COUNT_MIN_I64, 3, 64, 9001));
    DO(ds_count_min_new(&same, DS_COUNT_MIN_I64, 3, 64, 9001));
    DO(ds_count_min_new(&heavy, DS_COUNT_MIN_I64, 3, 64, 9001));
    DO(ds_count_min_new(&unlike, DS_COUNT_MIN_I64, 3, 65, 9001));
    FREE(DS_OK, ds_count_min_i64_update_u64(&count, 3, 250));
    FREE(DS_OK, ds_count_min_i64_update_i64(&count, -1, -7));
    FREE(DS_OK, ds_count_min_i64_update_string(&count, STRINGS, 5, 9));
    for (int32_t kind = 0; kind < ITEM_KINDS; kind++) {
        FREE(DS_OK, ds_update_all(&count, &items[kind]));
        FREE(DS_OK, ds_count_min_i64_update_all_weighted(&count, &items[kind], DIFFERENCES, 3));
    }
    FREE(DS_OK, ds_count_min_i64_estimate_u64(&count, 5, &estimate));
    FREE(DS_OK, ds_count_min_i64_estimate_i64(&count, -1, &estimate));
    FREE(DS_OK, ds_count_min_i64_estimate_string(&count, STRINGS, 2, &estimate));
    for (int32_t kind = 0; kind < ITEM_KINDS; kind++)
        FREE(DS_OK, ds_count_min_i64_estimate_all(&count, &items[kind], estimates, 3));
    FREE(DS_OK, ds_count_min_i64_upper_bound_u64(&count, 5, &estimate));
    FREE(DS_OK, ds_count_min_i64_upper_bound_i64(&count, -1, &estimate));
    FREE(DS_OK, ds_count_min_i64_upper_bound_string(&count, STRINGS, 2, &estimate));
    FREE(DS_OK, ds_merge(&same, &count));
    FREE(DS_MISMATCH, ds_merge(&count, &unlike));
    FREE(DS_OK, ds_get_status(&count, &numbers));
    FREE(DS_OK, ds_serialize(&count, image, sizeof image, &written));
    FREE(DS_NO_ROOM, ds_serialize(&count, image, written - 1, &written));
    FREE(DS_OK, ds_serialized_bytes(&count, &written));
    FREE(DS_OK, ds_count_min_i64_image_estimate_u64(image, written, 9001, 5, &estimate));
    FREE(DS_OK, ds_count_min_i64_image_estimate_i64(image, written, 9001, -1, &estimate));
    FREE(DS_OK, ds_count_min_i64_image_estimate_string(image, written, 9001, STRINGS, 2, &estimate));
    FREE(DS_OK, ds_count_min_i64_update_u64(&heavy, 3, INT64_MAX));
    FREE(DS_WEIGHT_OVERFLOW, ds_count_min_i64_update_u64(&count, 3, INT64_MIN));
    for (int32_t kind = 0; kind < ITEM_KINDS; kind++) FREE(DS_WEIGHT_OVERFLOW, ds_update_all(&heavy, &items[kind]));
    FREE(DS_WEIGHT_OVERFLOW, ds_merge(&heavy, &count));
    FREE(DS_TABLE_TOO_LARGE, ds_deserialize(&count, DS_COUNT_MIN_I64, COUNTS, sizeof COUNTS, WITHIN(1559)));
    FREE(DS_SEED_HASH_MISMATCH, ds_deserialize(&count, DS_COUNT_MIN_I64, COUNTS, sizeof COUNTS, WITHIN_SEED(1 << 20, 9002)));
    FREE(DS_INSUFFICIENT_DATA, ds_deserialize(&count, DS_COUNT_MIN_I64, COUNTS, 0, WITHIN(1 << 20)));
    FREE(DS_SEED_HASH_MISMATCH,
         ds_deserialize_prefix(&count, DS_COUNT_MIN_I64, COUNTS, sizeof COUNTS, WITHIN_SEED(1 << 20, 9002), &written));
    FREE(DS_OK, ds_reset(&count));
    ds_free(&count);
    ds_free(&same);
    ds_free(&heavy);
    ds_free(&unlike);
}

/* A shared sketch is in a block of its own, and each handle has a block. */
static void shares(void)
{
    ds_sketch filter = DS_NONE, share = DS_NONE, copy = DS_NONE, none = DS_NONE;
    uint8_t image[64];
    size_t written;
    DO(ds_bloom_new(&filter, 256, 3, 9001));
    FREE(DS_NOT_SHARED, ds_share(&share, &filter));
    FREE(DS_YES, ds_thaw(&filter));
    ROW(1, 0, DS_OK, ds_freeze(&filter));
    FREE(DS_OK, ds_freeze(&filter));
    ROW(1, 0, DS_OK, ds_share(&share, &filter));
    FREE(DS_NO, ds_bloom_contains_u64(&share, 3));
    FREE(DS_OK, ds_serialize(&share, image, sizeof image, &written));
    FREE(DS_SHARED, ds_bloom_insert_u64(&share, 3));
    FREE(DS_NO, ds_thaw(&filter));
    /* the handle's block and the words */
    ROW(2, 0, DS_OK, ds_clone(&copy, &share));
    ROW(0, 1, DS_OK, (ds_free(&share), DS_OK));
    ROW(0, 1, DS_YES, ds_thaw(&filter));
    FREE(DS_OK, ds_bloom_insert_u64(&filter, 3));
    ROW(1, 0, DS_OK, ds_freeze(&filter));
    FREE(DS_NO_SKETCH, ds_freeze(&none));
    FREE(DS_NO_SKETCH, ds_thaw(&none));
    FREE(DS_NO_SKETCH, ds_share(&filter, &none));
    /* the words of the sketch that the share replaces */
    ROW(1, 2, DS_OK, ds_share(&copy, &filter));
    ROW(0, 1, DS_OK, (ds_free(&filter), DS_OK));
    /* the last share: its handle's block, the sketch's and the words */
    ROW(0, 3, DS_OK, (ds_free(&copy), DS_OK));
}

/* A sketch of six numbers: its table of 8 slots has no room for a seventh. */
static void frequent_numbers(void)
{
    ds_sketch six = DS_NONE, empty = DS_NONE, heavy = DS_NONE, none = DS_NONE;
    ds_status numbers;
    ds_item_bounds bounds[3];
    uint8_t image[256];
    size_t written;
    DO(ds_frequent_items_new(&six, DS_FREQUENT_ITEMS_U64, 64, 48, NULL));
    DO(ds_frequent_items_new(&empty, DS_FREQUENT_ITEMS_U64, 64, 48, NULL));
    DO(ds_frequent_items_new(&heavy, DS_FREQUENT_ITEMS_U64, 8, 6, NULL));
    for (uint64_t i = 0; i < 6; i++) FREE(DS_OK, ds_frequent_items_u64_update(&six, i, 1));
    FREE(DS_OK, ds_frequent_items_u64_update(&six, 5, 2));
    FREE(DS_OK, ds_frequent_items_u64_update(&six, 7, 0));
    FREE(DS_OK, ds_update_all(&six, &items[DS_ITEMS_U64]));
    FREE(DS_OK, ds_update_all_weighted(&six, &items[DS_ITEMS_U64], WEIGHTS, 3));
    for (int32_t kind = DS_ITEMS_I64; kind < ITEM_KINDS; kind++) FREE(DS_WRONG_KIND, ds_update_all(&six, &items[kind]));
    FREE(DS_OK, ds_frequent_items_u64_bounds(&six, 5, bounds));
    FREE(DS_OK, ds_frequent_items_u64_bounds(&six, 7, bounds));
    FREE(DS_OK, ds_frequent_items_bounds_all(&six, &items[DS_ITEMS_U64], bounds, 3));
    FREE(DS_NO_ROOM, ds_frequent_items_bounds_all(&six, &items[DS_ITEMS_U64], bounds, 2));
    FREE(DS_OK, ds_merge(&six, &empty));
    FREE(DS_OK, ds_get_status(&six, &numbers));
    FREE(DS_OK, ds_serialized_bytes(&six, &written));
    FREE(DS_OK, ds_serialize(&six, image, sizeof image, &written));
    FREE(DS_NO_ROOM, ds_serialize(&six, image, written - 1, &written));
    FREE(DS_OK, ds_frequent_items_u64_update(&heavy, 3, UINT64_MAX));
    FREE(DS_WEIGHT_OVERFLOW, ds_frequent_items_u64_update(&six, 3, UINT64_MAX));
    FREE(DS_WEIGHT_OVERFLOW, ds_frequent_items_u64_update(&heavy, 5, 1));
    FREE(DS_WEIGHT_OVERFLOW, ds_update_all(&heavy, &items[DS_ITEMS_U64]));
    FREE(DS_WEIGHT_OVERFLOW, ds_update_all_weighted(&heavy, &items[DS_ITEMS_U64], WEIGHTS, 3));
    FREE(DS_WEIGHT_OVERFLOW, ds_merge(&heavy, &six));
    FREE(DS_TABLE_TOO_LARGE, ds_deserialize(&six, DS_FREQUENT_ITEMS_U64, FREQUENT, sizeof FREQUENT, WITHIN(223)));
    FREE(DS_BAD_FAMILY, ds_deserialize(&six, DS_FREQUENT_ITEMS_U64, FILTER, sizeof FILTER, WITHIN(1 << 20)));
    FREE(DS_INSUFFICIENT_DATA, ds_deserialize(&six, DS_FREQUENT_ITEMS_U64, FREQUENT, 0, WITHIN(1 << 20)));
    FREE(DS_TABLE_TOO_LARGE, ds_deserialize_prefix(&six, DS_FREQUENT_ITEMS_U64, FREQUENT, sizeof FREQUENT, WITHIN(223), &written));
    FREE(DS_INSUFFICIENT_DATA, ds_deserialize_prefix(&six, DS_FREQUENT_ITEMS_U64, FREQUENT, 7, WITHIN(1 << 20), &written));
    /* slots and fingerprints of a table of 16 replace those of 8 */
    ROW(2, 2, DS_OK, ds_frequent_items_u64_update(&six, 7, 1));
    FREE(DS_OK, ds_reset(&six));
    FREE(DS_NO_SKETCH, ds_frequent_items_u64_update(&none, 3, 1));
    FREE(DS_OK, ds_frequent_items_set_sample_size(&six, 4));
    FREE(DS_BAD_SAMPLE_SIZE, ds_frequent_items_set_sample_size(&six, 3));
    FREE(DS_WRONG_KIND, ds_frequent_items_new(&six, DS_COUNT_MIN_U64, 64, 48, NULL));
    FREE(DS_WRONG_KIND, ds_frequent_items_i64_update(&six, 3, 1));
    ds_free(&six);
    ds_free(&empty);
    ds_free(&heavy);
}

/* Adds the maximum number of items of a sketch of 2048 slots, once each. */
static int32_t fill(ds_sketch *handle)
{
    int32_t answer = DS_OK;
    for (int64_t i = 0; i < 1536 && answer == DS_OK; i++) answer = ds_frequent_items_i64_update(handle, i, 1);
    return answer;
}

/* A full sketch, one counter more than it holds, and the same after a reset. From 8 to 2048 slots a table doubles eight times. */
static void full(void)
{
    ds_sketch sketch = DS_NONE, other = DS_NONE;
    ds_status numbers;
    ds_item_bounds bounds[3];
    DO(ds_frequent_items_new(&sketch, DS_FREQUENT_ITEMS_I64, 2048, 1024, NULL));
    DO(ds_frequent_items_new(&other, DS_FREQUENT_ITEMS_I64, 8, 6, NULL));
    ROW(16, 16, DS_OK, fill(&sketch));
    FREE(DS_OK, ds_frequent_items_i64_update(&sketch, 5, 1));
    FREE(DS_OK, ds_update_all(&sketch, &items[DS_ITEMS_I64]));
    FREE(DS_OK, ds_update_all_weighted(&sketch, &items[DS_ITEMS_I64], WEIGHTS, 3));
    FREE(DS_OK, ds_frequent_items_i64_bounds(&sketch, 5, bounds));
    FREE(DS_OK, ds_frequent_items_i64_bounds(&sketch, -1, bounds));
    FREE(DS_OK, ds_frequent_items_bounds_all(&sketch, &items[DS_ITEMS_I64], bounds, 3));
    FREE(DS_OK, ds_merge(&sketch, &other));
    FREE(DS_OK, ds_get_status(&sketch, &numbers));
    FREE(DS_OK, ds_frequent_items_i64_update(&sketch, 1536, 1));
    if (ds_get_status(&sketch, &numbers) != DS_OK || numbers.maximum_error == 0) failures++;
    FREE(DS_OK, ds_reset(&sketch));
    ROW(16, 16, DS_OK, fill(&sketch));
    FREE(DS_OK, ds_reset(&sketch));
    FREE(DS_TABLE_TOO_LARGE, ds_deserialize(&sketch, DS_FREQUENT_ITEMS_I64, FREQUENT, sizeof FREQUENT, WITHIN(223)));
    FREE(DS_INSUFFICIENT_DATA, ds_deserialize(&sketch, DS_FREQUENT_ITEMS_I64, FREQUENT, 0, WITHIN(1 << 20)));
    ds_free(&sketch);
    ds_free(&other);
}

static void frequent_strings(void)
{
    ds_sketch sketch = DS_NONE, empty = DS_NONE, three = DS_NONE;
    ds_status numbers;
    ds_item_bounds bounds[3];
    uint8_t image[256];
    size_t written;
    DO(ds_frequent_items_new(&sketch, DS_FREQUENT_ITEMS_STRING, 64, 48, NULL));
    DO(ds_frequent_items_new(&empty, DS_FREQUENT_ITEMS_STRING, 64, 48, NULL));
    /* a string is copied only if it is not tracked */
    FREE(DS_OK, ds_frequent_items_string_update(&sketch, STRINGS, 5, 0));
    ROW(1, 0, DS_OK, ds_frequent_items_string_update(&sketch, STRINGS, 5, 1));
    FREE(DS_OK, ds_frequent_items_string_update(&sketch, STRINGS, 5, 1));
    FREE(DS_WEIGHT_OVERFLOW, ds_frequent_items_string_update(&sketch, STRINGS, 2, UINT64_MAX));
    for (int32_t kind = DS_ITEMS_OFFSETS; kind < ITEM_KINDS; kind++) {
        DO(ds_frequent_items_new(&three, DS_FREQUENT_ITEMS_STRING, 64, 48, NULL));
        ROW(3, 0, DS_OK, ds_update_all(&three, &items[kind]));
        FREE(DS_OK, ds_update_all(&three, &items[kind]));
        FREE(DS_OK, ds_update_all_weighted(&three, &items[kind], WEIGHTS, 3));
        FREE(DS_OK, ds_frequent_items_bounds_all(&three, &items[kind], bounds, 3));
        FREE(DS_OK, ds_frequent_items_bounds_all(&sketch, &items[kind], bounds, 3));
    }
    FREE(DS_OK, ds_frequent_items_string_bounds(&sketch, STRINGS, 5, bounds));
    FREE(DS_OK, ds_frequent_items_string_bounds(&sketch, STRINGS, 2, bounds));
    FREE(DS_OK, ds_get_status(&sketch, &numbers));
    FREE(DS_OK, ds_memory_bytes(&sketch, &written));
    FREE(DS_OK, ds_merge(&sketch, &empty));
    FREE(DS_OK, ds_serialized_bytes(&sketch, &written));
    FREE(DS_OK, ds_serialize(&sketch, image, sizeof image, &written));
    FREE(DS_NO_ROOM, ds_serialize(&sketch, image, written - 1, &written));
    FREE(DS_WRONG_KIND, ds_equal(&sketch, &empty));
    FREE(DS_TABLE_TOO_LARGE, ds_deserialize(&sketch, DS_FREQUENT_ITEMS_STRING, FREQUENT, sizeof FREQUENT, WITHIN(223)));
    FREE(DS_INSUFFICIENT_DATA, ds_deserialize(&sketch, DS_FREQUENT_ITEMS_STRING, FREQUENT, 0, WITHIN(1 << 20)));
    /* only the table is allocated, and nothing for the string */
    ROW(2, 2, DS_INSUFFICIENT_DATA, ds_deserialize(&sketch, DS_FREQUENT_ITEMS_STRING, HOSTILE, sizeof HOSTILE, WITHIN(1 << 20)));
    ROW(2, 2, DS_INSUFFICIENT_DATA,
        ds_deserialize_prefix(&sketch, DS_FREQUENT_ITEMS_STRING, HOSTILE, sizeof HOSTILE, WITHIN(1 << 20), &written));
    FREE(DS_OK, ds_reset(&empty));
    ds_free(&sketch);
    ds_free(&empty);
    ds_free(&three);
}

/* Combining many sketches allocates two lists: of the sketches, and of their addresses. A merge of frequent items also copies the
 * slots and the fingerprints of the sketch that it changes, once, if its table may grow. */
static void many(void)
{
    ds_sketch filter = DS_NONE, count = DS_NONE, frequent = DS_NONE, growing = DS_NONE, none[1] = {DS_NONE};
    ds_sketch filters[3] = {DS_NONE}, counts[3] = {DS_NONE}, others[3] = {DS_NONE};
    DO(ds_bloom_new(&filter, 256, 3, 9001));
    DO(ds_count_min_new(&count, DS_COUNT_MIN_I64, 3, 64, 9001));
    DO(ds_frequent_items_new(&frequent, DS_FREQUENT_ITEMS_U64, 8, 6, NULL));
    DO(ds_frequent_items_new(&growing, DS_FREQUENT_ITEMS_U64, 16, 6, NULL));
    for (int i = 0; i < 3; i++) {
        DO(ds_bloom_new(&filters[i], 256, 3, 9001));
        DO(ds_count_min_new(&counts[i], DS_COUNT_MIN_I64, 3, 64, 9001));
        DO(ds_frequent_items_new(&others[i], DS_FREQUENT_ITEMS_U64, 8, 6, NULL));
    }
    ROW(2, 2, DS_OK, ds_merge_all(&filter, filters, 3));
    FREE(DS_OK, ds_merge_all(&filter, NULL, 0));
    FREE(DS_NO_SKETCH, ds_merge_all(&filter, none, 1));
    FREE(DS_WRONG_KIND, ds_merge_all(&filter, counts, 3));
    DO(ds_bloom_new(&filters[2], 256, 3, 7));
    ROW(2, 2, DS_MISMATCH, ds_merge_all(&filter, filters, 3));
    ROW(2, 2, DS_OK, ds_merge_all(&count, counts, 3));
    FREE(DS_NO_SKETCH, ds_merge_all(&count, none, 1));
    FREE(DS_WRONG_KIND, ds_merge_all(&count, filters, 3));
    /* nothing is copied if the others are empty */
    ROW(2, 2, DS_OK, ds_merge_all(&frequent, others, 3));
    for (int i = 0; i < 3; i++) DO(ds_frequent_items_u64_update(&others[i], ITEMS[i], 1));
    /* nor into a table of the maximum size, since clones of numbers need no memory */
    ROW(2, 2, DS_OK, ds_merge_all(&frequent, others, 3));
    ROW(4, 4, DS_OK, ds_merge_all(&growing, others, 3));
    ROW(4, 4, DS_OK, ds_merge_all(&growing, others, 3));
    FREE(DS_WRONG_KIND, ds_merge_all(&frequent, counts, 3));
    DO(ds_frequent_items_u64_update(&others[2], 7, UINT64_MAX - 1));
    ROW(2, 2, DS_WEIGHT_OVERFLOW, ds_merge_all(&frequent, others, 3));
    for (int i = 0; i < 3; i++) {
        ds_free(&filters[i]);
        ds_free(&counts[i]);
        ds_free(&others[i]);
    }
    ds_free(&filter);
    ds_free(&count);
    ds_free(&frequent);
    ds_free(&growing);
}

/* Rows of which the second is missing. Only the weights of the others are copied. */
static void bitmaps(void)
{
    static const uint8_t validity[1] = {5};
    ds_sketch filter = DS_NONE, count = DS_NONE, with_sign = DS_NONE, frequent = DS_NONE, none = DS_NONE;
    ds_item_bounds bounds[3];
    uint64_t estimates[3];
    int64_t signed_estimates[3];
    bool answers[3];
    size_t number;
    DO(ds_bloom_new(&filter, 256, 3, 9001));
    DO(ds_count_min_new(&count, DS_COUNT_MIN_U64, 3, 64, 9001));
    DO(ds_count_min_new(&with_sign, DS_COUNT_MIN_I64, 3, 64, 9001));
    for (int32_t kind = 0; kind <= DS_ITEMS_STRINGS; kind++) {
        const ds_items all = ds_items_with_validity(items[kind], validity, 0);
        int32_t of_frequent = DS_FREQUENT_ITEMS_U64 + (kind < DS_ITEMS_OFFSETS ? kind : 2);
        FREE(DS_OK, ds_num_items(&all, &number));
        FREE(DS_OK, ds_bloom_insert_all(&filter, &all));
        FREE(DS_OK, ds_bloom_contains_all(&filter, &all, answers, 3));
        FREE(DS_OK, ds_bloom_contains_and_insert_all(&filter, &all, answers, 3));
        FREE(DS_OK, ds_update_all(&count, &all));
        ROW(1, 1, DS_OK, ds_update_all_weighted(&count, &all, WEIGHTS, 3));
        FREE(DS_NO_ROOM, ds_update_all_weighted(&count, &all, WEIGHTS, 2));
        FREE(DS_NO_SKETCH, ds_update_all_weighted(&none, &all, WEIGHTS, 3));
        FREE(DS_OK, ds_count_min_u64_estimate_all(&count, &all, estimates, 3));
        ROW(1, 1, DS_OK, ds_count_min_i64_update_all_weighted(&with_sign, &all, DIFFERENCES, 3));
        ROW(1, 1, DS_WRONG_KIND, ds_count_min_i64_update_all_weighted(&count, &all, DIFFERENCES, 3));
        FREE(DS_OK, ds_count_min_i64_estimate_all(&with_sign, &all, signed_estimates, 3));
        DO(ds_frequent_items_new(&frequent, of_frequent, 64, 48, NULL));
        DO(ds_update_all(&frequent, &all));
        ROW(1, 1, DS_OK, ds_update_all_weighted(&frequent, &all, WEIGHTS, 3));
        FREE(DS_OK, ds_frequent_items_bounds_all(&frequent, &all, bounds, 3));
    }
    ds_free(&filter);
    ds_free(&count);
    ds_free(&with_sign);
    ds_free(&frequent);
}

int main(void)
{
    make_items();
    filters();
    counts();
    signed_counts();
    shares();
    frequent_numbers();
    full();
    frequent_strings();
    many();
    bitmaps();
    printf("%d of %d rows hold\n", rows - failures, rows);
    return failures != 0;
}
