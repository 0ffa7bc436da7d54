/* Known results of calls on filters, Count-Min sketches and frequent items, and of their images. Prints the checks that failed.
 * Exits with 1 if there is any. */
#include <datasketches.h>
#include <string.h>

#include "check.h"
#include "options.h"

/* The image of a filter of one word and one hash under the seed 9001 with the bits 0 and 1. */
static const uint8_t TWO_BITS[40] = {4, 1, 21, 0, 1, 0, 0, 0, 0x29, 0x23, 0, 0, 0, 0, 0, 0, 1, 0, 0, 0,
                                     0, 0, 0,  0, 2, 0, 0, 0, 0,    0,    0, 0, 3, 0, 0, 0, 0, 0, 0, 0};

/* The place of a byte and its new value, the image's length, the limit, and the result. */
struct alteration {
    size_t place;
    uint8_t byte;
    size_t length, max_bytes;
    int32_t answer;
};

static const struct alteration ALTERATIONS[] = {
    {0, 4, 40, 8, DS_OK},
    {0, 3, 40, 8, DS_OK},
    {0, 4, 3, 8, DS_INSUFFICIENT_DATA},
    {2, 10, 40, 8, DS_BAD_FAMILY},
    {1, 2, 40, 8, DS_BAD_VERSION},
    {0, 2, 40, 8, DS_BAD_PREAMBLE},
    {0, 4, 5, 8, DS_INSUFFICIENT_DATA},
    {4, 0, 40, 8, DS_BAD_NUM_HASHES},
    {0, 4, 23, 8, DS_INSUFFICIENT_DATA},
    {16, 0, 40, 8, DS_BAD_NUM_WORDS},
    {0, 4, 39, 8, DS_INSUFFICIENT_DATA},
    {0, 4, 40, 7, DS_TABLE_TOO_LARGE},
    {24, 3, 40, 8, DS_BAD_BIT_COUNT},
};

static void damaged_images(void)
{
    ds_sketch filter = DS_NONE;
    ds_status numbers;
    for (size_t i = 0; i < sizeof ALTERATIONS / sizeof *ALTERATIONS; i++) {
        const struct alteration *it = &ALTERATIONS[i];
        uint8_t image[40];
        size_t used = 77;
        memcpy(image, TWO_BITS, sizeof image);
        image[it->place] = it->byte;
        CHECK(ds_deserialize(&filter, DS_BLOOM, image, it->length, WITHIN(it->max_bytes)) == it->answer);
        CHECK(ds_deserialize_prefix(&filter, DS_BLOOM, image, it->length, WITHIN(it->max_bytes), &used) == it->answer);
        CHECK(used == (it->answer == DS_OK ? 40 : 77));
        /* after an error the handle keeps its filter */
        CHECK(ds_get_status(&filter, &numbers) == DS_OK && numbers.bits_used == 2 && numbers.num_bits == 64);
    }
    CHECK(ds_deserialize(&filter, DS_BLOOM, NULL, 0, WITHIN(8)) == DS_INSUFFICIENT_DATA);
    CHECK(ds_deserialize(&filter, DS_BLOOM, NULL, 1, WITHIN(8)) == DS_BAD_ARGUMENT);
    ds_free(&filter);
}

static void filters(void)
{
    ds_sketch a = DS_NONE, b = DS_NONE, other = DS_NONE;
    ds_status numbers;
    uint64_t items[100], far[2] = {1, UINT64_MAX};
    int64_t same[100], below[2] = {-1, 7};
    const ds_items all = ds_items_u64(items, 100), signed_ones = ds_items_i64(same, 100), two_more = ds_items_i64(below, 2);
    const ds_items nothing = ds_items_u64(NULL, 0), null = ds_items_u64(NULL, 1);
    bool answers[100];
    uint8_t one[1 << 10], two[1 << 10];
    size_t length, again;

    for (int i = 0; i < 100; i++) same[i] = (int64_t)(items[i] = (uint64_t)i * 1000003u);
    CHECK(ds_bloom_insert_u64(&a, 1) == DS_NO_SKETCH && ds_merge(&a, &b) == DS_NO_SKETCH);
    CHECK(ds_bloom_new(&a, 0, 7, 9001) == DS_BAD_NUM_BITS && !a.sketch);
    CHECK(ds_bloom_new(&a, 959, 0, 9001) == DS_BAD_NUM_HASHES && !a.sketch);
    CHECK(ds_bloom_new(&a, 959, 7, 9001) == DS_OK && ds_bloom_new(&b, 959, 7, 9001) == DS_OK);
    CHECK(ds_get_status(&a, &numbers) == DS_OK && numbers.bits_used == 0 && numbers.num_bits == 960);
    CHECK(numbers.seed == 9001 && numbers.num_hashes == 7);
    CHECK(ds_serialized_bytes(&a, &length) == DS_OK && length == 24);
    CHECK(ds_bloom_insert_all(&a, &all) == DS_OK);
    for (int i = 0; i < 100; i++) CHECK(ds_bloom_insert_i64(&b, same[i]) == DS_OK);
    CHECK(ds_serialized_bytes(&a, &length) == DS_OK && length == 32 + 120);
    CHECK(ds_serialize(&a, one, sizeof one, &length) == DS_OK && length == 32 + 120);
    CHECK(ds_serialize(&b, two, sizeof two, &again) == DS_OK && again == length);
    /* equal numbers are one item: signed or unsigned, one by one or in one call */
    CHECK(memcmp(one, two, length) == 0);
    CHECK(ds_serialize(&a, two, length - 1, &again) == DS_NO_ROOM && again == length);
    CHECK(memcmp(one, two, length) == 0);
    /* an image is written to as many bytes as it has */
    memset(two, 7, sizeof two);
    CHECK(ds_serialize(&a, two, length, &again) == DS_OK && again == length);
    CHECK(memcmp(one, two, length) == 0 && two[length] == 7);
    CHECK(ds_bloom_contains_all(&a, &all, answers, 100) == DS_OK);
    for (int i = 0; i < 100; i++) CHECK(answers[i] && ds_bloom_contains_u64(&a, items[i]) == DS_YES);
    CHECK(ds_bloom_contains_all(&a, &signed_ones, answers, 99) == DS_NO_ROOM);
    CHECK(ds_bloom_contains_all(&a, &signed_ones, answers, 100) == DS_OK && answers[99]);
    CHECK(ds_bloom_contains_all(&a, &nothing, NULL, 0) == DS_OK);
    CHECK(ds_bloom_contains_all(&a, &null, answers, 1) == DS_BAD_ARGUMENT);
    CHECK(ds_bloom_insert_all(&a, &nothing) == DS_OK && ds_bloom_insert_all(&a, &null) == DS_BAD_ARGUMENT);

    CHECK(ds_reset(&b) == DS_OK && ds_bloom_contains_i64(&b, same[3]) == DS_NO);
    CHECK(ds_bloom_insert_all(&b, &two_more) == DS_OK && ds_bloom_contains_i64(&b, -1) == DS_YES);
    /* -1 and 2^64 - 1 have the same eight bytes */
    CHECK(ds_bloom_contains_u64(&b, far[1]) == DS_YES);
    CHECK(ds_bloom_insert_string(&b, (const uint8_t *)"apple", 5) == DS_OK);
    CHECK(ds_bloom_contains_string(&b, (const uint8_t *)"apple", 5) == DS_YES);
    CHECK(ds_bloom_contains_string(&b, (const uint8_t *)"\xff", 1) == DS_INVALID_UTF8);
    CHECK(ds_bloom_insert_string(&b, (const uint8_t *)"\xc0\x80", 2) == DS_INVALID_UTF8);
    CHECK(ds_clone(&other, &b) == DS_OK && ds_clone(&other, &other) == DS_BAD_ARGUMENT);
    CHECK(ds_bloom_contains_i64(&other, 7) == DS_YES && ds_bloom_contains_i64(&b, 7) == DS_YES);
    CHECK(ds_merge(&a, &b) == DS_OK && ds_bloom_contains_i64(&a, 7) == DS_YES);
    CHECK(ds_bloom_contains_string(&b, (const uint8_t *)"apple", 5) == DS_YES);
    CHECK(ds_bloom_intersect(&a, &b) == DS_OK && ds_serialize(&a, one, sizeof one, &length) == DS_OK);
    CHECK(ds_serialize(&b, two, sizeof two, &again) == DS_OK && memcmp(one, two, length) == 0);
    CHECK(ds_bloom_difference(&a, &b) == DS_OK && ds_get_status(&a, &numbers) == DS_OK && numbers.bits_used == 0);
    CHECK(ds_merge(&a, &a) == DS_BAD_ARGUMENT && ds_bloom_intersect(&a, &a) == DS_BAD_ARGUMENT);
    CHECK(ds_bloom_new(&other, 959, 7, 1) == DS_OK && ds_merge(&a, &other) == DS_MISMATCH);
    CHECK(ds_count_min_u64_halve(&other) == DS_WRONG_KIND && ds_count_min_u64_update_u64(&other, 1, 1) == DS_WRONG_KIND);
    /* a filter of another shape replaces it */
    CHECK(ds_bloom_new(&other, 64, 1, 9001) == DS_OK && ds_get_status(&other, &numbers) == DS_OK);
    CHECK(numbers.num_bits == 64);
    ds_free(&a);
    ds_free(&a);
    ds_free(&b);
    ds_free(&other);
    CHECK(!a.sketch && ds_bloom_contains_u64(&a, 1) == DS_NO_SKETCH);
}

static void counts(void)
{
    ds_sketch a = DS_NONE, b = DS_NONE, filter = DS_NONE;
    uint64_t estimate = 0, bound = 0, items[3] = {5, 5, 5};
    int64_t with_sign[2] = {5, 5};
    const ds_items three = ds_items_u64(items, 3), two = ds_items_i64(with_sign, 2);

    CHECK(ds_count_min_new(&a, DS_COUNT_MIN_U64, 0, 128, 9001) == DS_BAD_NUM_HASHES &&
          ds_count_min_new(&a, DS_COUNT_MIN_U64, 4, 2, 9001) == DS_BAD_NUM_BUCKETS);
    CHECK(ds_count_min_new(&a, DS_COUNT_MIN_U64, 255, UINT32_MAX, 9001) == DS_TABLE_TOO_LARGE);
    CHECK(ds_count_min_new(&a, DS_COUNT_MIN_U64, 4, 128, 50541) == DS_ZERO_SEED_HASH);
    CHECK(ds_count_min_new(&a, DS_COUNT_MIN_U64, 4, 128, 9001) == DS_OK &&
          ds_count_min_new(&b, DS_COUNT_MIN_U64, 4, 128, 9001) == DS_OK);
    CHECK(ds_count_min_u64_update_u64(&a, 9, 100) == DS_OK && ds_count_min_u64_decay(&a, 99, 100) == DS_OK);
    CHECK(ds_count_min_u64_estimate_u64(&a, 9, &estimate) == DS_OK && estimate == 99);
    /* the margin is e * 99 / 128, rounded down */
    CHECK(ds_count_min_u64_upper_bound_i64(&a, 9, &bound) == DS_OK && bound == 101);
    CHECK(ds_count_min_u64_halve(&a) == DS_OK && ds_count_min_u64_estimate_i64(&a, 9, &estimate) == DS_OK && estimate == 49);
    CHECK(ds_count_min_u64_decay(&a, 0, 1) == DS_BAD_FRACTION && ds_count_min_u64_decay(&a, 2, 1) == DS_BAD_FRACTION);
    CHECK(ds_update_all(&b, &three) == DS_OK && ds_update_all(&b, &two) == DS_OK);
    CHECK(ds_count_min_u64_update_i64(&b, -3, 2) == DS_OK && ds_count_min_u64_estimate_i64(&b, -3, &estimate) == DS_OK);
    CHECK(estimate >= 2 && ds_merge(&a, &b) == DS_OK);
    CHECK(ds_count_min_u64_estimate_u64(&a, 5, &estimate) == DS_OK && estimate >= 5 && estimate <= 56);
    CHECK(ds_count_min_u64_upper_bound_u64(&b, 5, &bound) == DS_OK && bound >= 5 && bound <= 7);
    CHECK(ds_merge(&a, &a) == DS_BAD_ARGUMENT);
    CHECK(ds_count_min_u64_update_u64(&b, 1, UINT64_MAX - 8) == DS_OK);
    /* room for one more */
    CHECK(ds_update_all(&b, &three) == DS_WEIGHT_OVERFLOW);
    CHECK(ds_count_min_u64_update_u64(&b, 1, 1) == DS_WEIGHT_OVERFLOW && ds_merge(&a, &b) == DS_WEIGHT_OVERFLOW);
    CHECK(ds_count_min_new(&b, DS_COUNT_MIN_U64, 3, 128, 9001) == DS_OK && ds_merge(&a, &b) == DS_MISMATCH);
    CHECK(ds_bloom_new(&filter, 64, 1, 9001) == DS_OK && ds_merge(&a, &filter) == DS_WRONG_KIND);
    CHECK(ds_merge(&filter, &a) == DS_WRONG_KIND);
    estimate = 11;
    CHECK(ds_count_min_u64_estimate_u64(&filter, 5, &estimate) == DS_WRONG_KIND && estimate == 11);
    ds_free(&a);
    ds_free(&b);
    ds_free(&filter);
}

/* One hash and three buckets under the seed 9001: the total 5, and the cells 5, 0 and 5. */
static const uint8_t FIVE[48] = {2, 1, 18, 0, 0, 0, 0, 0, 3, 0, 0, 0, 1, 0xcc, 0x93, 0, 5, 0, 0, 0, 0, 0, 0, 0,
                                 5, 0, 0,  0, 0, 0, 0, 0, 0, 0, 0, 0, 0, 0,    0,    0, 5, 0, 0, 0, 0, 0, 0, 0};

static const struct alteration COUNTS_ALTERED[] = {
    {0, 2, 48, 32, DS_OK},
    {0, 2, 7, 32, DS_INSUFFICIENT_DATA},
    {2, 21, 48, 32, DS_BAD_FAMILY},
    {1, 2, 48, 32, DS_BAD_VERSION},
    {0, 3, 48, 32, DS_BAD_PREAMBLE},
    {12, 0, 48, 32, DS_BAD_NUM_HASHES},
    {8, 2, 48, 32, DS_BAD_NUM_BUCKETS},
    {13, 0, 48, 32, DS_SEED_HASH_MISMATCH},
    {0, 2, 47, 32, DS_INSUFFICIENT_DATA},
    {0, 2, 48, 31, DS_TABLE_TOO_LARGE},
    {24, 6, 48, 32, DS_CELL_ABOVE_TOTAL},
};

static void images_of_counts(void)
{
    ds_sketch count = DS_NONE;
    ds_status numbers;
    uint8_t image[48];
    size_t length;
    for (size_t i = 0; i < sizeof COUNTS_ALTERED / sizeof *COUNTS_ALTERED; i++) {
        const struct alteration *it = &COUNTS_ALTERED[i];
        memcpy(image, FIVE, sizeof image);
        image[it->place] = it->byte;
        length = 77;
        CHECK(ds_deserialize(&count, DS_COUNT_MIN_U64, image, it->length, WITHIN(it->max_bytes)) == it->answer);
        CHECK(ds_deserialize_prefix(&count, DS_COUNT_MIN_U64, image, it->length, WITHIN(it->max_bytes), &length) == it->answer);
        CHECK(length == (it->answer == DS_OK ? 48 : 77));
        CHECK(ds_get_status(&count, &numbers) == DS_OK && numbers.total_weight == 5 && numbers.num_buckets == 3);
    }
    CHECK(ds_deserialize(&count, DS_COUNT_MIN_U64, FIVE, 48, WITHIN_SEED(32, 1)) == DS_SEED_HASH_MISMATCH);
    CHECK(numbers.seed == 9001 && numbers.num_hashes == 1);
    CHECK(ds_serialize(&count, NULL, 0, &length) == DS_NO_ROOM && length == 48);
    CHECK(ds_serialized_bytes(&count, &length) == DS_OK && length == 48);
    CHECK(ds_serialize(&count, image, 48, &length) == DS_OK && length == 48 && memcmp(image, FIVE, 48) == 0);
    ds_free(&count);
}

/* Counts of signed weights, and estimates of strings and of many signed and unsigned numbers. */
static void more_counts(void)
{
    ds_sketch a = DS_NONE, b = DS_NONE;
    ds_status numbers;
    const uint8_t *apple = (const uint8_t *)"apple";
    uint64_t items[2] = {3, 4}, estimates[2] = {0, 0}, bound;
    int64_t same[2] = {3, 4}, with_sign[2] = {0, 0}, estimate = 0;
    const ds_items unsigned_ones = ds_items_u64(items, 2), signed_ones = ds_items_i64(same, 2);
    uint8_t image[1 << 13];
    size_t length;

    CHECK(ds_count_min_new(&a, DS_COUNT_MIN_U64, 4, 128, 9001) == DS_OK &&
          ds_count_min_u64_update_string(&a, apple, 5, 90) == DS_OK);
    CHECK(ds_count_min_u64_estimate_string(&a, apple, 5, &estimates[0]) == DS_OK && estimates[0] == 90);
    CHECK(ds_count_min_u64_upper_bound_string(&a, apple, 5, &bound) == DS_OK && bound == 91);
    CHECK(ds_count_min_u64_update_string(&a, (const uint8_t *)"\xff", 1, 1) == DS_INVALID_UTF8);
    CHECK(ds_count_min_new(&a, DS_COUNT_MIN_U64, 4, 128, 9001) == DS_OK && ds_count_min_u64_update_u64(&a, 4, 7) == DS_OK);
    CHECK(ds_count_min_u64_estimate_all(&a, &unsigned_ones, estimates, 2) == DS_OK && estimates[1] == 7);
    estimates[1] = 0;
    CHECK(ds_count_min_u64_estimate_all(&a, &signed_ones, estimates, 2) == DS_OK && estimates[1] == 7);
    CHECK(ds_count_min_u64_estimate_all(&a, &signed_ones, estimates, 1) == DS_NO_ROOM);

    CHECK(ds_count_min_new(&b, DS_COUNT_MIN_I64, 4, 128, 9001) == DS_OK && ds_count_min_i64_update_u64(&b, 4, -7) == DS_OK);
    CHECK(ds_count_min_i64_update_i64(&b, 4, 2) == DS_OK && ds_count_min_i64_estimate_i64(&b, 4, &estimate) == DS_OK);
    CHECK(estimate == -5 && ds_count_min_i64_estimate_u64(&b, 4, &estimate) == DS_OK && estimate == -5);
    CHECK(ds_get_status(&b, &numbers) == DS_OK && numbers.total_weight == 9 && numbers.num_buckets == 128);
    CHECK(ds_count_min_i64_estimate_all(&b, &unsigned_ones, with_sign, 2) == DS_OK && with_sign[1] == -5);
    with_sign[1] = 0;
    CHECK(ds_count_min_i64_estimate_all(&b, &signed_ones, with_sign, 2) == DS_OK && with_sign[1] == -5);
    CHECK(ds_update_all(&b, &unsigned_ones) == DS_OK && ds_update_all(&b, &signed_ones) == DS_OK);
    CHECK(ds_count_min_i64_upper_bound_u64(&b, 4, &estimate) == DS_OK && estimate == -3);
    CHECK(ds_count_min_i64_upper_bound_i64(&b, 4, &estimate) == DS_OK && estimate == -3);
    CHECK(ds_count_min_i64_update_string(&b, apple, 5, INT64_MAX) == DS_WEIGHT_OVERFLOW);
    CHECK(ds_merge(&b, &a) == DS_WRONG_KIND && ds_merge(&a, &b) == DS_WRONG_KIND);
    CHECK(ds_serialized_bytes(&b, &length) == DS_OK && length == 24 + 8 * 512);
    memset(image, 7, sizeof image);
    CHECK(ds_serialize(&b, image, length, &length) == DS_OK && length == 24 + 8 * 512 && image[length] == 7);
    ds_free(&a);
    CHECK(ds_serialized_bytes(&a, &length) == DS_NO_SKETCH && length == 24 + 8 * 512);
    CHECK(ds_deserialize_prefix(&a, DS_COUNT_MIN_I64, image, length - 1, WITHIN(1 << 14), &length) == DS_INSUFFICIENT_DATA);
    CHECK(!a.sketch && ds_deserialize_prefix(&a, DS_COUNT_MIN_I64, image, sizeof image, WITHIN(1 << 14), &length) == DS_OK);
    CHECK(length == 24 + 8 * 512 && ds_deserialize(&a, DS_COUNT_MIN_I64, image, length, WITHIN(1 << 14)) == DS_OK);
    CHECK(ds_merge(&b, &a) == DS_OK);
    CHECK(ds_count_min_i64_estimate_u64(&b, 4, &estimate) == DS_OK && estimate == -6);
    ds_free(&b);
    CHECK(ds_count_min_new(&b, DS_COUNT_MIN_I64, 4, 128, 9001) == DS_OK &&
          ds_count_min_i64_update_string(&b, apple, 5, -90) == DS_OK);
    CHECK(ds_count_min_i64_estimate_string(&b, apple, 5, &estimate) == DS_OK && estimate == -90);
    CHECK(ds_count_min_i64_upper_bound_string(&b, apple, 5, &estimate) == DS_OK && estimate == -89);
    ds_free(&a);
    ds_free(&b);
}

/* Images of sketches of frequent items with a maximum of 64 slots: one without weight, one with the weight 5 of the item 7. */
static const uint8_t NOTHING[8] = {1, 1, 10, 6, 3, 5, 0, 0};
static const uint8_t OF_SEVEN[48] = {4, 1, 10, 6, 3, 0, 0, 0, 1, 0, 0, 0, 0, 0, 0, 0, 5, 0, 0, 0, 0, 0, 0, 0,
                                     0, 0, 0,  0, 0, 0, 0, 0, 5, 0, 0, 0, 0, 0, 0, 0, 7, 0, 0, 0, 0, 0, 0, 0};

static const struct alteration FREQUENT_ALTERED[] = {
    {0, 4, 48, 1 << 20, DS_OK},
    {0, 4, 7, 1 << 20, DS_INSUFFICIENT_DATA},
    {2, 18, 48, 1 << 20, DS_BAD_FAMILY},
    {1, 2, 48, 1 << 20, DS_BAD_VERSION},
    {0, 2, 48, 1 << 20, DS_BAD_PREAMBLE},
    {3, 31, 48, 1 << 20, DS_LG_MAX_TOO_LARGE},
    {4, 2, 48, 1 << 20, DS_LG_CUR_TOO_SMALL},
    {4, 7, 48, 1 << 20, DS_LG_CUR_ABOVE_MAX},
    {5, 5, 48, 1 << 20, DS_EMPTY_FLAG_MISMATCH},
    {8, 7, 48, 1 << 20, DS_TOO_MANY_ACTIVE},
    {0, 4, 47, 1 << 20, DS_INSUFFICIENT_DATA},
    {0, 4, 48, 100, DS_TABLE_TOO_LARGE},
    {16, 0, 48, 1 << 20, DS_ZERO_TOTAL},
    {32, 6, 48, 1 << 20, DS_WEIGHTS_EXCEED_TOTAL},
    {24, 1, 48, 1 << 20, DS_ERROR_EXCEEDS_TOTAL},
};

#define FREQUENT_IMAGES(function, type, form, prefix, number) \
    static void function##_images(ds_sketch *a) \
    { \
        ds_status numbers; \
        ds_item_bounds bounds = {0, 0, 0}; \
        ds_item_bounds rows[3]; \
        const type items[3] = {7, 7, 8}; \
        const ds_items many = ds_items_##form(items, 3), nothing = ds_items_##form(NULL, 0); \
        type found[2]; \
        uint8_t image[48]; \
        size_t length = 0; \
        CHECK(ds_deserialize(a, number, NOTHING, 8, WITHIN(1 << 20)) == DS_OK && ds_get_status(a, &numbers) == DS_OK); \
        CHECK(numbers.max_map_size == 64 && numbers.sample_size == 48 && numbers.maximum_map_capacity == 48); \
        CHECK(numbers.current_map_capacity == 6 && numbers.total_weight == 0 && numbers.maximum_error == 0); \
        CHECK(ds_update_all(a, &many) == DS_OK && prefix##_bounds(a, 7, &bounds) == DS_OK && bounds.estimate == 2); \
        CHECK(ds_get_status(a, &numbers) == DS_OK && numbers.num_active_items == 2 && numbers.total_weight == 3); \
        CHECK(prefix##_update(a, 8, 6) == DS_OK && prefix##_rows(a, true, 0, SIZE_MAX, NULL, 0, NULL, 0, &length) == DS_NO_ROOM); \
        CHECK(length == 2 && prefix##_rows(a, true, 0, SIZE_MAX, found, 2, rows, 3, &length) == DS_OK && length == 2); \
        CHECK(found[0] == 8 && rows[0].estimate == 7 && found[1] == 7 && rows[1].lower_bound == 2); \
        CHECK(ds_frequent_items_bounds_all(a, &many, rows, 3) == DS_OK && rows[0].upper_bound == 2 && rows[2].lower_bound == 7); \
        CHECK(ds_frequent_items_bounds_all(a, &many, &bounds, 1) == DS_NO_ROOM && bounds.estimate == 2); \
        CHECK(ds_frequent_items_bounds_all(a, &many, NULL, 3) == DS_BAD_ARGUMENT); \
        CHECK(ds_frequent_items_bounds_all(a, &nothing, NULL, 0) == DS_OK); \
        CHECK(prefix##_rows(a, false, 2, SIZE_MAX, found, 2, rows, 3, &length) == DS_OK && length == 1 && found[0] == 8); \
        found[0] = 1, found[1] = 2; \
        CHECK(prefix##_rows(a, true, 0, 1, found, 1, rows, 1, &length) == DS_OK && length == 1 && found[0] == 8 && found[1] == 2); \
        CHECK(prefix##_rows(a, true, 0, 0, NULL, 0, NULL, 0, &length) == DS_OK && length == 0); \
        CHECK(prefix##_rows(a, true, 0, 2, found, 1, rows, 2, &length) == DS_NO_ROOM && length == 2); \
        CHECK(ds_reset(a) == DS_OK && prefix##_update(a, 7, 5) == DS_OK); \
        CHECK(ds_serialize(a, NULL, 0, &length) == DS_NO_ROOM && length == 48); \
        length = 0; \
        CHECK(ds_serialized_bytes(a, &length) == DS_OK && length == 48); \
        CHECK(ds_serialize(a, image, 48, &length) == DS_OK && memcmp(image, OF_SEVEN, 48) == 0); \
        for (size_t i = 0; i < sizeof FREQUENT_ALTERED / sizeof *FREQUENT_ALTERED; i++) { \
            const struct alteration *it = &FREQUENT_ALTERED[i]; \
            memcpy(image, OF_SEVEN, sizeof image); \
            image[it->place] = it->byte; \
            length = 77; \
            CHECK(ds_deserialize(a, number, image, it->length, WITHIN(it->max_bytes)) == it->answer); \
            CHECK(ds_deserialize_prefix(a, number, image, it->length, WITHIN(it->max_bytes), &length) == it->answer); \
            CHECK(length == (it->answer == DS_OK ? 48 : 77)); \
            CHECK(prefix##_bounds(a, 7, &bounds) == DS_OK && bounds.lower_bound == 5 && bounds.upper_bound == 5); \
        } \
    }

FREQUENT_IMAGES(frequent_numbers, uint64_t, u64, ds_frequent_items_u64, DS_FREQUENT_ITEMS_U64)
FREQUENT_IMAGES(frequent_signed_numbers, int64_t, i64, ds_frequent_items_i64, DS_FREQUENT_ITEMS_I64)

/* Frequent items of a type. Seven items of weight 1 in a sketch of eight slots cause one purge, whose result is determined. */
#define FREQUENT(function, type, prefix, number) \
    static void function(void) \
    { \
        ds_sketch a = DS_NONE, b = DS_NONE; \
        ds_item_bounds bounds = {0, 0, 0}; \
        CHECK(ds_frequent_items_new(&a, number, 9, 2, NULL) == DS_MAP_SIZE_NOT_POWER_OF_TWO && \
              ds_frequent_items_new(&a, number, 4, 2, NULL) == DS_MAP_SIZE_TOO_SMALL); \
        CHECK(ds_frequent_items_new(&a, number, (size_t)1 << 31, 2, NULL) == DS_MAP_SIZE_TOO_LARGE && \
              ds_frequent_items_new(&a, number, 8, 5, NULL) == DS_BAD_SAMPLE_SIZE); \
        CHECK(prefix##_update(&a, 1, 1) == DS_NO_SKETCH); \
        CHECK(ds_frequent_items_new(&a, number, 8, ds_frequent_items_max_sample_size(8), NULL) == DS_OK && \
              ds_frequent_items_new(&b, number, 64, 48, NULL) == DS_OK); \
        for (type item = 0; item < 7; item++) CHECK(prefix##_update(&a, item, 1) == DS_OK); \
        CHECK(prefix##_bounds(&a, 3, &bounds) == DS_OK && bounds.lower_bound == 0 && bounds.upper_bound == 1); \
        CHECK(prefix##_update(&b, 5, 5) == DS_OK && prefix##_update(&b, 5, 0) == DS_OK); \
        CHECK(prefix##_bounds(&b, 5, &bounds) == DS_OK && bounds.lower_bound == 5 && bounds.upper_bound == 5); \
        CHECK(ds_merge(&a, &b) == DS_OK && prefix##_bounds(&a, 5, &bounds) == DS_OK); \
        CHECK(bounds.lower_bound == 5 && bounds.estimate == 6 && bounds.upper_bound == 6); \
        CHECK(ds_merge(&a, &a) == DS_BAD_ARGUMENT); \
        CHECK(prefix##_update(&a, 1, UINT64_MAX) == DS_WEIGHT_OVERFLOW); \
        CHECK(ds_bloom_new(&b, 64, 1, 9001) == DS_OK && ds_merge(&a, &b) == DS_WRONG_KIND); \
        CHECK(prefix##_bounds(&b, 5, &bounds) == DS_WRONG_KIND && bounds.estimate == 6); \
        ds_free(&b); \
        CHECK(ds_merge(&a, &b) == DS_NO_SKETCH); \
        function##_images(&a); \
        ds_free(&a); \
    }

FREQUENT(frequent_numbers, uint64_t, ds_frequent_items_u64, DS_FREQUENT_ITEMS_U64)
FREQUENT(frequent_signed_numbers, int64_t, ds_frequent_items_i64, DS_FREQUENT_ITEMS_I64)

/* Frequent strings: the same purge, and which bytes are a string. */
static void frequent_strings(void)
{
    static const char *const words[7] = {"a", "b", "c", "d", "e", "f", "g"};
    ds_sketch a = DS_NONE, b = DS_NONE, copy = DS_NONE;
    ds_item_bounds bounds = {0, 0, 0};
    ds_status numbers;
    uint8_t image[256];
    size_t length;
    CHECK(ds_frequent_items_new(&a, DS_FREQUENT_ITEMS_STRING, 8, 6, NULL) == DS_OK &&
          ds_frequent_items_new(&b, DS_FREQUENT_ITEMS_STRING, 64, 48, NULL) == DS_OK);
    for (int i = 0; i < 7; i++) CHECK(ds_frequent_items_string_update(&a, (const uint8_t *)words[i], 1, 1) == DS_OK);
    CHECK(ds_frequent_items_string_bounds(&a, (const uint8_t *)"c", 1, &bounds) == DS_OK && bounds.lower_bound == 0);
    CHECK(bounds.upper_bound == 1 && ds_frequent_items_string_update(&b, (const uint8_t *)"a", 1, 5) == DS_OK);
    CHECK(ds_merge(&a, &b) == DS_OK && ds_clone(&copy, &a) == DS_OK);
    CHECK(ds_frequent_items_string_bounds(&copy, (const uint8_t *)"a", 1, &bounds) == DS_OK && bounds.lower_bound == 5);
    CHECK(bounds.estimate == 6 && bounds.upper_bound == 6);
    CHECK(ds_frequent_items_string_update(&a, (const uint8_t *)"\xff", 1, 1) == DS_INVALID_UTF8);
    CHECK(ds_frequent_items_string_bounds(&a, (const uint8_t *)"\xff", 1, &bounds) == DS_INVALID_UTF8 && bounds.estimate == 6);
    CHECK(ds_frequent_items_string_update(&a, NULL, 0, 2) == DS_OK &&
          ds_frequent_items_string_update(&a, NULL, 1, 2) == DS_BAD_ARGUMENT);
    CHECK(ds_frequent_items_u64_update(&a, 1, 1) == DS_WRONG_KIND && ds_merge(&a, &a) == DS_BAD_ARGUMENT);
    CHECK(ds_serialized_bytes(&copy, &length) == DS_OK && length == 32 + 8 + 5);
    CHECK(ds_serialize(&copy, image, sizeof image, &length) == DS_OK && length == 32 + 8 + 5);
    CHECK(ds_deserialize(&b, DS_FREQUENT_ITEMS_STRING, image, length - 1, WITHIN(1 << 20)) == DS_INSUFFICIENT_DATA);
    CHECK(ds_deserialize_prefix(&b, DS_FREQUENT_ITEMS_STRING, image, sizeof image, WITHIN(1 << 20), &length) == DS_OK &&
          length == 32 + 8 + 5);
    image[length - 1] = 0xff;
    CHECK(ds_deserialize(&b, DS_FREQUENT_ITEMS_STRING, image, length, WITHIN(1 << 20)) == DS_INVALID_UTF8);
    image[length - 1] = 'z';
    CHECK(ds_deserialize(&b, DS_FREQUENT_ITEMS_STRING, image, length, WITHIN(1 << 20)) == DS_OK);
    CHECK(ds_frequent_items_string_bounds(&b, (const uint8_t *)"z", 1, &bounds) == DS_OK && bounds.lower_bound == 5);
    CHECK(ds_get_status(&a, &numbers) == DS_OK && numbers.total_weight == 14 && numbers.maximum_error == 1);
    CHECK(numbers.max_map_size == 8 && numbers.sample_size == 6 && ds_reset(&a) == DS_OK);
    CHECK(ds_get_status(&a, &numbers) == DS_OK && numbers.total_weight == 0 && numbers.sample_size == 6);
    CHECK(ds_frequent_items_set_sample_size(&copy, 4) == DS_OK &&
          ds_frequent_items_set_sample_size(&copy, 3) == DS_BAD_SAMPLE_SIZE);
    CHECK(ds_frequent_items_set_sample_size(&copy, 8) == DS_BAD_SAMPLE_SIZE);
    CHECK(ds_get_status(&copy, &numbers) == DS_OK && numbers.sample_size == 4 && numbers.total_weight == 12);
    CHECK(ds_frequent_items_string_bounds(&copy, (const uint8_t *)"a", 1, &bounds) == DS_OK && bounds.lower_bound == 5);
    ds_free(&a);
    CHECK(ds_frequent_items_set_sample_size(&a, 4) == DS_NO_SKETCH);
    ds_free(&b);
    ds_free(&copy);
}

/* If several errors apply, the first in the header's order is returned. `items.c` has those of many items. */
static void first_errors(void)
{
    ds_sketch a = DS_NONE, b = DS_NONE, filter = DS_NONE;
    const uint8_t *bad = (const uint8_t *)"\xff";

    CHECK(ds_count_min_u64_decay(&a, 2, 1) == DS_BAD_FRACTION && ds_bloom_insert_string(&a, bad, 1) == DS_INVALID_UTF8);
    CHECK(ds_bloom_new(&filter, 64, 1, 9001) == DS_OK && ds_merge(&filter, &a) == DS_NO_SKETCH);
    CHECK(ds_frequent_items_set_sample_size(&filter, 3) == DS_WRONG_KIND && ds_equal(&filter, &a) == DS_NO_SKETCH);
    CHECK(ds_merge(&a, &filter) == DS_NO_SKETCH && ds_count_min_new(&a, DS_COUNT_MIN_U64, 4, 128, 9001) == DS_OK);
    CHECK(ds_merge(&a, &filter) == DS_WRONG_KIND && ds_count_min_new(&b, DS_COUNT_MIN_U64, 3, 128, 9001) == DS_OK);
    CHECK(ds_count_min_u64_update_u64(&a, 1, UINT64_MAX) == DS_OK && ds_count_min_u64_update_u64(&b, 1, 1) == DS_OK);
    CHECK(ds_merge(&a, &b) == DS_MISMATCH);
    ds_free(&a);
    ds_free(&b);
    ds_free(&filter);
}

/* The bytes that sketches take: 28 for a slot of numbers, 44 for a slot of strings, and the bytes of the strings. */
static void bytes_taken(void)
{
    ds_sketch a = DS_NONE;
    const uint8_t *apple = (const uint8_t *)"apple";
    uint8_t image[64];
    size_t bytes = 77, length;

    CHECK(ds_memory_bytes(&a, &bytes) == DS_NO_SKETCH && bytes == 77);
    CHECK(ds_bloom_new(&a, 959, 7, 9001) == DS_OK && ds_memory_bytes(&a, &bytes) == DS_OK && bytes == 120);
    CHECK(ds_count_min_new(&a, DS_COUNT_MIN_U64, 4, 128, 9001) == DS_OK && ds_memory_bytes(&a, &bytes) == DS_OK &&
          bytes == 4 * 128 * 8 + 4 * 8);
    CHECK(ds_count_min_new(&a, DS_COUNT_MIN_I64, 3, 7, 9001) == DS_OK && ds_memory_bytes(&a, &bytes) == DS_OK &&
          bytes == 3 * 7 * 8 + 3 * 8);
    CHECK(ds_frequent_items_new(&a, DS_FREQUENT_ITEMS_I64, 64, 48, NULL) == DS_OK && ds_memory_bytes(&a, &bytes) == DS_OK &&
          bytes == 8 * 28);
    CHECK(ds_frequent_items_new(&a, DS_FREQUENT_ITEMS_U64, 64, 48, NULL) == DS_OK && ds_memory_bytes(&a, &bytes) == DS_OK &&
          bytes == 8 * 28);
    for (uint64_t item = 0; item < 7; item++) CHECK(ds_frequent_items_u64_update(&a, item, 1) == DS_OK);
    CHECK(ds_memory_bytes(&a, &bytes) == DS_OK && bytes == 16 * 28);
    CHECK(ds_frequent_items_new(&a, DS_FREQUENT_ITEMS_STRING, 64, 48, NULL) == DS_OK && ds_memory_bytes(&a, &bytes) == DS_OK &&
          bytes == 8 * 44);
    CHECK(ds_frequent_items_string_update(&a, apple, 5, 2) == DS_OK && ds_frequent_items_string_update(&a, apple, 5, 1) == DS_OK);
    CHECK(ds_frequent_items_string_update(&a, NULL, 0, 1) == DS_OK && ds_memory_bytes(&a, &bytes) == DS_OK && bytes == 8 * 44 + 5);
    /* in the image the two strings take 4 and 9 bytes; bytes after the image do not count */
    CHECK(ds_serialize(&a, image, sizeof image, &length) == DS_OK && length == 32 + 2 * 8 + 13);
    CHECK(ds_deserialize(&a, DS_FREQUENT_ITEMS_STRING, image, length, WITHIN(8 * 44 + 12)) == DS_TABLE_TOO_LARGE);
    CHECK(ds_deserialize(&a, DS_FREQUENT_ITEMS_STRING, image, length, WITHIN(8 * 44 + 13)) == DS_OK);
    CHECK(ds_deserialize(&a, DS_FREQUENT_ITEMS_STRING, image, length + 1, WITHIN(8 * 44 + 13)) == DS_OK);
    CHECK(ds_deserialize_prefix(&a, DS_FREQUENT_ITEMS_STRING, image, length + 1, WITHIN(8 * 44 + 12), &bytes) ==
          DS_TABLE_TOO_LARGE);
    CHECK(ds_deserialize_prefix(&a, DS_FREQUENT_ITEMS_STRING, image, length + 1, WITHIN(8 * 44 + 13), &bytes) == DS_OK &&
          bytes == length);
    CHECK(ds_memory_bytes(&a, &bytes) == DS_OK && bytes == 8 * 44 + 5);
    CHECK(ds_reset(&a) == DS_OK && ds_memory_bytes(&a, &bytes) == DS_OK && bytes == 8 * 44);
    CHECK(ds_deserialize(&a, DS_FREQUENT_ITEMS_U64, OF_SEVEN, 48, WITHIN(8 * 28 - 1)) == DS_TABLE_TOO_LARGE);
    CHECK(ds_deserialize(&a, DS_FREQUENT_ITEMS_U64, OF_SEVEN, 48, WITHIN(8 * 28)) == DS_OK);
    ds_free(&a);
}

static void names(void)
{
    CHECK(strcmp(ds_result_name(DS_MISMATCH), "Mismatch") == 0);
    CHECK(strcmp(ds_result_message(DS_MISMATCH), "shapes or seeds differ") == 0);
    CHECK(strcmp(ds_result_name(DS_YES), "Ok") == 0 && strcmp(ds_result_name(-99), "Unknown") == 0);
}

int main(void)
{
    damaged_images();
    filters();
    counts();
    images_of_counts();
    more_counts();
    frequent_numbers();
    frequent_signed_numbers();
    frequent_strings();
    first_errors();
    bytes_taken();
    names();
    return report();
}
