/* Items given by the bytes that are hashed, beside the same numbers and strings. Prints the checks that failed. Exits with 1 if there
 * is any. */
#include <datasketches.h>
#include <string.h>

#include "check.h"

enum { ITEMS = 5, ALL = 64 };

static const uint64_t NUMBERS[ITEMS] = {0, 1, 255, 1u << 20, UINT64_MAX};
static const char *const STRINGS[ITEMS] = {"", "a", "\xc3\xa4", "tea", "a longer string than one of 32 bytes, by some"};

/* The bytes of numbers, and of strings with the byte after them, and where each item's are. */
static uint8_t bytes[2][ITEMS][ALL];
static ds_string fed[2][ITEMS];

static void make_items(void)
{
    for (size_t i = 0; i < ITEMS; i++) {
        size_t length = strlen(STRINGS[i]);
        for (size_t k = 0; k < 8; k++) bytes[0][i][k] = (uint8_t)(NUMBERS[i] >> 8 * k);
        memcpy(bytes[1][i], STRINGS[i], length);
        bytes[1][i][length] = 255;
        fed[0][i] = (ds_string){bytes[0][i], 8};
        fed[1][i] = (ds_string){bytes[1][i], length + 1};
    }
}

/* Returns the same items as numbers or as strings. */
static ds_items plain(int form)
{
    static ds_string strings[ITEMS];
    for (size_t i = 0; i < ITEMS; i++) strings[i] = (ds_string){(const uint8_t *)STRINGS[i], strlen(STRINGS[i])};
    return form == 0 ? ds_items_u64(NUMBERS, ITEMS) : ds_items_strings(strings, ITEMS);
}

/* Filters that got the same items in both ways are equal, also with a row missing. */
static void filters(int form)
{
    const uint8_t all_but_one = 0x17;
    for (int missing = 0; missing < 2; missing++) {
        ds_sketch one = DS_NONE, other = DS_NONE;
        ds_items as_fed = ds_items_fed(fed[form], ITEMS), as_plain = plain(form);
        bool results[ITEMS] = {false};
        size_t count = 0;
        if (missing) {
            as_fed = ds_items_with_validity(as_fed, &all_but_one, 0);
            as_plain = ds_items_with_validity(as_plain, &all_but_one, 0);
        }
        CHECK(ds_num_items(&as_fed, &count) == DS_OK && count == ITEMS);
        CHECK(ds_bloom_new(&one, 4096, 5, 9001) == DS_OK && ds_bloom_new(&other, 4096, 5, 9001) == DS_OK);
        CHECK(ds_bloom_insert_all(&one, &as_fed) == DS_OK && ds_bloom_insert_all(&other, &as_plain) == DS_OK);
        CHECK(ds_equal(&one, &other) == DS_YES);
        CHECK(ds_bloom_contains_all(&one, &as_fed, results, ITEMS) == DS_OK);
        for (size_t i = 0; i < ITEMS; i++) CHECK(results[i] == !(missing && i == 3));
        CHECK(ds_bloom_contains_and_insert_all(&one, &as_fed, results, ITEMS) == DS_OK);
        for (size_t i = 0; i < ITEMS; i++) CHECK(results[i] == !(missing && i == 3));
        CHECK(ds_equal(&one, &other) == DS_YES);
        CHECK(ds_bloom_contains_all(&one, &as_fed, results, ITEMS - 1) == DS_NO_ROOM);
        ds_free(&one);
        ds_free(&other);
    }
}

/* So are filters that got them one by one, and each answer is that of the plain item. */
static void single(int form)
{
    ds_sketch one = DS_NONE, other = DS_NONE, counts = DS_NONE, signs = DS_NONE, plain_counts = DS_NONE, plain_signs = DS_NONE;
    const ds_items as_plain = plain(form);
    const uint64_t weights[ITEMS] = {3, 1, 4, 1, 5};
    const int64_t differences[ITEMS] = {3, -1, 4, -1, 5};
    uint64_t estimates[ITEMS], estimate = 0, bound = 0, plain_bound = 0;
    int64_t signed_estimates[ITEMS], signed_estimate = 0, signed_bound = 0;
    uint8_t image[1 << 15];
    size_t written = 0;
    CHECK(ds_bloom_new(&one, 4096, 5, 9001) == DS_OK && ds_bloom_new(&other, 4096, 5, 9001) == DS_OK);
    CHECK(ds_bloom_insert_all(&other, &as_plain) == DS_OK);
    for (size_t i = 0; i < ITEMS; i++) {
        const uint8_t *item = fed[form][i].bytes;
        const size_t length = fed[form][i].length;
        CHECK(ds_bloom_contains_fed(&one, item, length) == DS_NO);
        if (i % 2) CHECK(ds_bloom_insert_fed(&one, item, length) == DS_OK);
        else CHECK(ds_bloom_contains_and_insert_fed(&one, item, length) == DS_NO);
        CHECK(ds_bloom_contains_fed(&one, item, length) == DS_YES);
        CHECK(ds_bloom_contains_and_insert_fed(&one, item, length) == DS_YES);
    }
    CHECK(ds_equal(&one, &other) == DS_YES);
    CHECK(ds_count_min_new(&counts, DS_COUNT_MIN_U64, 4, 512, 9001) == DS_OK);
    CHECK(ds_count_min_new(&signs, DS_COUNT_MIN_I64, 4, 512, 9001) == DS_OK);
    CHECK(ds_count_min_new(&plain_counts, DS_COUNT_MIN_U64, 4, 512, 9001) == DS_OK);
    CHECK(ds_count_min_new(&plain_signs, DS_COUNT_MIN_I64, 4, 512, 9001) == DS_OK);
    CHECK(ds_update_all_weighted(&plain_counts, &as_plain, weights, ITEMS) == DS_OK);
    CHECK(ds_count_min_i64_update_all_weighted(&plain_signs, &as_plain, differences, ITEMS) == DS_OK);
    for (size_t i = 0; i < ITEMS; i++) {
        CHECK(ds_count_min_u64_update_fed(&counts, fed[form][i].bytes, fed[form][i].length, weights[i]) == DS_OK);
        CHECK(ds_count_min_i64_update_fed(&signs, fed[form][i].bytes, fed[form][i].length, differences[i]) == DS_OK);
    }
    CHECK(ds_equal(&counts, &plain_counts) == DS_YES && ds_equal(&signs, &plain_signs) == DS_YES);
    CHECK(ds_count_min_u64_estimate_all(&plain_counts, &as_plain, estimates, ITEMS) == DS_OK);
    CHECK(ds_count_min_i64_estimate_all(&plain_signs, &as_plain, signed_estimates, ITEMS) == DS_OK);
    CHECK(ds_count_min_u64_upper_bound_u64(&counts, 7, &plain_bound) == DS_OK);
    CHECK(ds_count_min_u64_estimate_u64(&counts, 7, &estimate) == DS_OK);
    plain_bound -= estimate; /* the margin */
    for (size_t i = 0; i < ITEMS; i++) {
        const uint8_t *item = fed[form][i].bytes;
        const size_t length = fed[form][i].length;
        CHECK(ds_count_min_u64_estimate_fed(&counts, item, length, &estimate) == DS_OK && estimate == estimates[i]);
        CHECK(ds_count_min_u64_upper_bound_fed(&counts, item, length, &bound) == DS_OK && bound == estimate + plain_bound);
        CHECK(ds_count_min_i64_estimate_fed(&signs, item, length, &signed_estimate) == DS_OK);
        CHECK(signed_estimate == signed_estimates[i]);
        CHECK(ds_count_min_i64_upper_bound_fed(&signs, item, length, &signed_bound) == DS_OK);
        CHECK(signed_bound == signed_estimate + (int64_t)plain_bound);
        CHECK(ds_serialize(&counts, image, sizeof image, &written) == DS_OK);
        CHECK(ds_count_min_u64_image_estimate_fed(image, written, 9001, item, length, &estimate) == DS_OK);
        CHECK(estimate == estimates[i]);
        CHECK(ds_serialize(&signs, image, sizeof image, &written) == DS_OK);
        CHECK(ds_count_min_i64_image_estimate_fed(image, written, 9001, item, length, &signed_estimate) == DS_OK);
        CHECK(signed_estimate == signed_estimates[i]);
        CHECK(ds_bloom_insert_fed(&counts, item, length) == DS_WRONG_KIND);
        CHECK(ds_count_min_u64_update_fed(&one, item, length, 1) == DS_WRONG_KIND);
        CHECK(ds_count_min_u64_update_fed(&counts, item, length, UINT64_MAX) == DS_WEIGHT_OVERFLOW);
    }
    ds_free(&one);
    ds_free(&other);
    ds_free(&counts);
    ds_free(&signs);
    ds_free(&plain_counts);
    ds_free(&plain_signs);
}

/* So are counts, with weights and without. */
static void counts(int form)
{
    const uint64_t weights[ITEMS] = {3, 1, 4, 1, 5};
    uint64_t estimates[ITEMS];
    ds_sketch one = DS_NONE, other = DS_NONE;
    const ds_items as_fed = ds_items_fed(fed[form], ITEMS), as_plain = plain(form);
    CHECK(ds_count_min_new(&one, DS_COUNT_MIN_U64, 4, 512, 9001) == DS_OK);
    CHECK(ds_count_min_new(&other, DS_COUNT_MIN_U64, 4, 512, 9001) == DS_OK);
    CHECK(ds_update_all(&one, &as_fed) == DS_OK && ds_update_all(&other, &as_plain) == DS_OK);
    CHECK(ds_update_all_weighted(&one, &as_fed, weights, ITEMS) == DS_OK);
    CHECK(ds_update_all_weighted(&other, &as_plain, weights, ITEMS) == DS_OK);
    CHECK(ds_equal(&one, &other) == DS_YES);
    CHECK(ds_count_min_u64_estimate_all(&one, &as_fed, estimates, ITEMS) == DS_OK);
    for (size_t i = 0; i < ITEMS; i++) CHECK(estimates[i] >= weights[i] + 1);
    ds_free(&one);
    ds_free(&other);
}

/* Bytes need not be UTF-8, and nothing follows them: a prefix is another item. Frequent items take none. */
static void others(void)
{
    static const uint8_t raw[3] = {0xff, 0, 0xfe};
    const ds_string whole = {raw, 3}, prefix = {raw, 2}, none = {raw, 0};
    const ds_items one = ds_items_fed(&whole, 1), two = ds_items_fed(&prefix, 1), empty = ds_items_fed(&none, 1);
    ds_sketch filter = DS_NONE;
    bool found = true;
    CHECK(ds_bloom_new(&filter, 4096, 5, 9001) == DS_OK && ds_bloom_insert_all(&filter, &one) == DS_OK);
    CHECK(ds_bloom_contains_all(&filter, &one, &found, 1) == DS_OK && found);
    CHECK(ds_bloom_contains_all(&filter, &two, &found, 1) == DS_OK && !found);
    CHECK(ds_bloom_contains_all(&filter, &empty, &found, 1) == DS_OK && !found);
    CHECK(ds_bloom_insert_all(&filter, &empty) == DS_OK);
    CHECK(ds_bloom_contains_all(&filter, &empty, &found, 1) == DS_OK && found);
    ds_free(&filter);
    for (int32_t kind = DS_FREQUENT_ITEMS_U64; kind <= DS_FREQUENT_ITEMS_STRING; kind++) {
        ds_sketch sketch = DS_NONE;
        ds_item_bounds bounds;
        const uint64_t weight = 1;
        CHECK(ds_frequent_items_new(&sketch, kind, 64, ds_frequent_items_max_sample_size(64), NULL) == DS_OK);
        CHECK(ds_update_all(&sketch, &one) == DS_WRONG_KIND);
        CHECK(ds_update_all_weighted(&sketch, &one, &weight, 1) == DS_WRONG_KIND);
        CHECK(ds_frequent_items_bounds_all(&sketch, &one, &bounds, 1) == DS_WRONG_KIND);
        ds_free(&sketch);
    }
}

int main(void)
{
    make_items();
    for (int form = 0; form < 2; form++) {
        filters(form);
        single(form);
        counts(form);
    }
    others();
    return report();
}
