/* Merges and unions of many sketches in one call, compared with one call for each sketch and with exact counts. Prints the checks
 * that failed, and exits with 1 if there is any. */
#include <datasketches.h>
#include <string.h>

#include "check.h"

enum { MOST = 24, ITEMS = 40, ROUNDS = 60 };

static uint64_t chance_state = 27;

/* Returns a pseudo-random number below `n`. */
static uint64_t chance(uint64_t n)
{
    chance_state = chance_state * 6364136223846793005u + 1442695040888963407u;
    return (chance_state >> 33) % n;
}

static void free_all(ds_sketch *sketches, size_t count)
{
    for (size_t i = 0; i < count; i++) ds_free(&sketches[i]);
}

/* Returns whether two arrays hold the same sketches. */
static bool are_equal(ds_sketch *some, ds_sketch *others, size_t count)
{
    for (size_t i = 0; i < count; i++)
        if (ds_equal(&some[i], &others[i]) != DS_YES) return false;
    return true;
}

static void filters_in_turn(void)
{
    ds_sketch all = DS_NONE, one = DS_NONE, others[MOST] = {DS_NONE}, copies[MOST] = {DS_NONE};
    for (int round = 0; round < ROUNDS; round++) {
        size_t count = chance(MOST + 1);
        CHECK(ds_bloom_new(&all, 640, 3, 9001) == DS_OK && ds_bloom_insert_u64(&all, chance(ITEMS)) == DS_OK);
        CHECK(ds_clone(&one, &all) == DS_OK);
        for (size_t i = 0; i < count; i++) {
            CHECK(ds_bloom_new(&others[i], 640, 3, 9001) == DS_OK);
            for (uint64_t n = chance(9); n > 0; n--) CHECK(ds_bloom_insert_u64(&others[i], 1000 * i + n) == DS_OK);
            CHECK(ds_clone(&copies[i], &others[i]) == DS_OK && ds_merge(&one, &others[i]) == DS_OK);
        }
        CHECK(ds_merge_all(&all, others, count) == DS_OK && ds_equal(&all, &one) == DS_YES);
        CHECK(are_equal(others, copies, count));
    }
    ds_free(&all);
    ds_free(&one);
    free_all(others, MOST);
    free_all(copies, MOST);
}

#define COUNTS_IN_TURN(prefix, number, weight_type, least) \
    static void prefix##_in_turn(void) \
    { \
        ds_sketch all = DS_NONE, one = DS_NONE, others[MOST] = {DS_NONE}, copies[MOST] = {DS_NONE}; \
        for (int round = 0; round < ROUNDS; round++) { \
            size_t count = chance(MOST + 1); \
            CHECK(ds_count_min_new(&all, number, 3, 16, 9001) == DS_OK && prefix##_update_u64(&all, 7, 5) == DS_OK); \
            CHECK(ds_clone(&one, &all) == DS_OK); \
            for (size_t i = 0; i < count; i++) { \
                CHECK(ds_count_min_new(&others[i], number, 3, 16, 9001) == DS_OK); \
                for (uint64_t n = chance(9); n > 0; n--) { \
                    weight_type weight = (weight_type)chance(1000) + (least); \
                    CHECK(prefix##_update_u64(&others[i], chance(ITEMS), weight) == DS_OK); \
                } \
                CHECK(ds_clone(&copies[i], &others[i]) == DS_OK && ds_merge(&one, &others[i]) == DS_OK); \
            } \
            CHECK(ds_merge_all(&all, others, count) == DS_OK && ds_equal(&all, &one) == DS_YES); \
            CHECK(are_equal(others, copies, count)); \
        } \
        ds_free(&all); \
        ds_free(&one); \
        free_all(others, MOST); \
        free_all(copies, MOST); \
    }

COUNTS_IN_TURN(ds_count_min_u64, DS_COUNT_MIN_U64, uint64_t, 0)
COUNTS_IN_TURN(ds_count_min_i64, DS_COUNT_MIN_I64, int64_t, -500)

/* Adds a weight to the item of this number: a string of three letters, or the number. */
static int32_t add_string(ds_sketch *handle, uint64_t item, uint64_t weight)
{
    const uint8_t text[3] = {'a', (uint8_t)('a' + item / 26), (uint8_t)('a' + item % 26)};
    return ds_frequent_items_string_update(handle, text, sizeof text, weight);
}

static int32_t bounds_of_string(ds_sketch *handle, uint64_t item, ds_item_bounds *bounds)
{
    const uint8_t text[3] = {'a', (uint8_t)('a' + item / 26), (uint8_t)('a' + item % 26)};
    return ds_frequent_items_string_bounds(handle, text, sizeof text, bounds);
}

static int32_t add_u64(ds_sketch *handle, uint64_t item, uint64_t weight)
{
    return ds_frequent_items_u64_update(handle, item, weight);
}

static int32_t bounds_of_u64(ds_sketch *handle, uint64_t item, ds_item_bounds *bounds)
{
    return ds_frequent_items_u64_bounds(handle, item, bounds);
}

static int32_t add_i64(ds_sketch *handle, uint64_t item, uint64_t weight)
{
    return ds_frequent_items_i64_update(handle, -(int64_t)item, weight);
}

static int32_t bounds_of_i64(ds_sketch *handle, uint64_t item, ds_item_bounds *bounds)
{
    return ds_frequent_items_i64_bounds(handle, -(int64_t)item, bounds);
}

/* The bounds hold for the exact counts of all sketches, whether the table is too small for all items or not. A table for all
 * items has exact counts, as merges one by one. */
#define FREQUENT_IN_TURN(kind, number) \
    static void frequent_##kind##_in_turn(void) \
    { \
        ds_sketch all = DS_NONE, one = DS_NONE, others[MOST] = {DS_NONE}; \
        for (int round = 0; round < ROUNDS; round++) { \
            size_t count = chance(MOST + 1), size = round % 2 ? 8 : 64; \
            uint64_t exact[ITEMS] = {0}, weights = 5; \
            ds_status before[MOST], status, in_turn; \
            CHECK(ds_frequent_items_new(&all, number, size, size / 2, NULL) == DS_OK && add_##kind(&all, 7, 5) == DS_OK); \
            CHECK(ds_clone(&one, &all) == DS_OK); \
            exact[7] = 5; \
            for (size_t i = 0; i < count; i++) { \
                CHECK(ds_frequent_items_new(&others[i], number, 64, 2, NULL) == DS_OK); \
                for (uint64_t n = chance(60); n > 0; n--) { \
                    uint64_t item = chance(ITEMS), weight = chance(9); \
                    CHECK(add_##kind(&others[i], item, weight) == DS_OK); \
                    exact[item] += weight; \
                    weights += weight; \
                } \
                CHECK(ds_merge(&one, &others[i]) == DS_OK); \
                CHECK(ds_get_status(&others[i], &before[i]) == DS_OK); \
            } \
            CHECK(ds_merge_all(&all, others, count) == DS_OK); \
            CHECK(ds_get_status(&all, &status) == DS_OK && status.total_weight == weights); \
            CHECK(ds_get_status(&one, &in_turn) == DS_OK && in_turn.total_weight == weights); \
            CHECK(status.max_map_size == size && status.sample_size == size / 2); \
            for (uint64_t item = 0; item < ITEMS; item++) { \
                ds_item_bounds bounds, singly; \
                CHECK(bounds_of_##kind(&all, item, &bounds) == DS_OK && bounds_of_##kind(&one, item, &singly) == DS_OK); \
                CHECK(bounds.lower_bound <= exact[item] && exact[item] <= bounds.upper_bound); \
                CHECK(singly.lower_bound <= exact[item] && exact[item] <= singly.upper_bound); \
                if (size == 64) CHECK(bounds.estimate == exact[item] && memcmp(&bounds, &singly, sizeof bounds) == 0); \
            } \
            for (size_t i = 0; i < count; i++) { \
                ds_status after; \
                CHECK(ds_get_status(&others[i], &after) == DS_OK); \
                CHECK(memcmp(&after, &before[i], sizeof after) == 0); \
            } \
        } \
        ds_free(&all); \
        ds_free(&one); \
        free_all(others, MOST); \
    }

FREQUENT_IN_TURN(u64, DS_FREQUENT_ITEMS_U64)
FREQUENT_IN_TURN(i64, DS_FREQUENT_ITEMS_I64)
FREQUENT_IN_TURN(string, DS_FREQUENT_ITEMS_STRING)

/* Errors come in their order, and leave all handles as they were. */
static void errors_of_filters(void)
{
    ds_sketch filter = DS_NONE, was = DS_NONE, others[4] = {DS_NONE}, copies[4] = {DS_NONE}, group[2] = {DS_NONE};
    void *count;
    CHECK(ds_merge_all(&filter, NULL, 0) == DS_NO_SKETCH && ds_merge_all(&filter, NULL, 1) == DS_BAD_ARGUMENT);
    CHECK(ds_count_min_new(&filter, DS_COUNT_MIN_U64, 3, 16, 9001) == DS_OK && ds_merge_all(&filter, others, 4) == DS_NO_SKETCH);
    CHECK(ds_bloom_new(&filter, 640, 3, 9001) == DS_OK && ds_bloom_insert_u64(&filter, 7) == DS_OK);
    CHECK(ds_merge_all(&filter, NULL, 0) == DS_OK && ds_merge_all(&filter, others, 0) == DS_OK);
    CHECK(ds_clone(&was, &filter) == DS_OK);
    for (int i = 0; i < 4; i++) CHECK(ds_bloom_new(&others[i], 640, 3, 9001) == DS_OK);
    for (int i = 0; i < 4; i++) CHECK(ds_bloom_insert_u64(&others[i], (uint64_t)i) == DS_OK);
    /* the last filter is of another seed */
    CHECK(ds_bloom_new(&others[3], 640, 3, 1) == DS_OK);
    for (int i = 0; i < 4; i++) CHECK(ds_clone(&copies[i], &others[i]) == DS_OK);
    CHECK(ds_merge_all(&filter, others, 4) == DS_MISMATCH);
    CHECK(ds_equal(&filter, &was) == DS_YES && are_equal(others, copies, 4));
    /* no sketch, and then one of another kind */
    ds_free(&others[1]);
    CHECK(ds_count_min_new(&others[2], DS_COUNT_MIN_U64, 3, 16, 9001) == DS_OK);
    count = others[2].sketch;
    CHECK(ds_merge_all(&filter, others, 4) == DS_NO_SKETCH && !others[1].sketch && others[2].sketch == count);
    CHECK(ds_merge_all(&filter, others + 2, 2) == DS_WRONG_KIND && others[2].sketch == count);
    CHECK(ds_equal(&filter, &was) == DS_YES && ds_equal(&others[0], &copies[0]) == DS_YES);
    CHECK(ds_equal(&others[3], &copies[3]) == DS_YES);
    /* the first filter alone can be added */
    CHECK(ds_merge_all(&filter, others, 1) == DS_OK && ds_bloom_contains_u64(&filter, 0) == DS_YES);
    CHECK(ds_bloom_new(&group[0], 640, 3, 9001) == DS_OK && ds_bloom_new(&group[1], 640, 3, 9001) == DS_OK);
    CHECK(ds_merge_all(&group[0], group, 2) == DS_BAD_ARGUMENT && ds_merge_all(&group[1], group, 2) == DS_BAD_ARGUMENT);
    CHECK(ds_merge_all(&group[0], group + 1, 1) == DS_OK && ds_merge_all(&group[1], group, 1) == DS_OK);
    ds_free(&filter);
    ds_free(&was);
    free_all(others, 4);
    free_all(copies, 4);
    free_all(group, 2);
}

#define ERRORS_OF_COUNTS(prefix, number, top) \
    static void errors_of_##prefix(void) \
    { \
        ds_sketch sketch = DS_NONE, was = DS_NONE, others[3] = {DS_NONE}, copies[3] = {DS_NONE}; \
        CHECK(ds_merge_all(&sketch, others, 3) == DS_NO_SKETCH); \
        CHECK(ds_count_min_new(&sketch, number, 3, 16, 9001) == DS_OK && prefix##_update_u64(&sketch, 7, 5) == DS_OK); \
        CHECK(ds_clone(&was, &sketch) == DS_OK && ds_merge_all(&sketch, NULL, 1) == DS_BAD_ARGUMENT); \
        CHECK(ds_merge_all(&sketch, NULL, 0) == DS_OK && ds_merge_all(&sketch, others, 1) == DS_NO_SKETCH); \
        for (int i = 0; i < 3; i++) CHECK(ds_count_min_new(&others[i], number, 3, 16, 9001) == DS_OK); \
        /* two totals have room, and all three have not */ \
        CHECK(prefix##_update_u64(&others[0], 1, (top) / 2) == DS_OK && prefix##_update_u64(&others[2], 1, (top) / 2) == DS_OK); \
        for (int i = 0; i < 3; i++) CHECK(ds_clone(&copies[i], &others[i]) == DS_OK); \
        CHECK(ds_merge_all(&sketch, others, 3) == DS_WEIGHT_OVERFLOW); \
        CHECK(ds_equal(&sketch, &was) == DS_YES && are_equal(others, copies, 3)); \
        /* a sketch of another shape is found first */ \
        CHECK(ds_count_min_new(&others[1], number, 3, 17, 9001) == DS_OK && ds_merge_all(&sketch, others, 3) == DS_MISMATCH); \
        CHECK(ds_bloom_new(&others[1], 64, 1, 9001) == DS_OK && ds_merge_all(&sketch, others, 3) == DS_WRONG_KIND); \
        CHECK(ds_merge_all(&others[0], others, 3) == DS_BAD_ARGUMENT && ds_equal(&sketch, &was) == DS_YES); \
        CHECK(ds_merge_all(&sketch, others, 1) == DS_OK && ds_merge(&was, &copies[0]) == DS_OK); \
        CHECK(ds_equal(&sketch, &was) == DS_YES); \
        ds_free(&sketch); \
        ds_free(&was); \
        free_all(others, 3); \
        free_all(copies, 3); \
    }

ERRORS_OF_COUNTS(ds_count_min_u64, DS_COUNT_MIN_U64, UINT64_MAX)
ERRORS_OF_COUNTS(ds_count_min_i64, DS_COUNT_MIN_I64, INT64_MAX)

#define ERRORS_OF_FREQUENT(kind, number, other_number) \
    static void errors_of_frequent_##kind(void) \
    { \
        ds_sketch sketch = DS_NONE, others[3] = {DS_NONE}; \
        ds_item_bounds bounds; \
        CHECK(ds_merge_all(&sketch, others, 3) == DS_NO_SKETCH); \
        CHECK(ds_frequent_items_new(&sketch, number, 8, 6, NULL) == DS_OK && add_##kind(&sketch, 7, 5) == DS_OK); \
        CHECK(ds_merge_all(&sketch, NULL, 0) == DS_OK); \
        CHECK(ds_merge_all(&sketch, NULL, 1) == DS_BAD_ARGUMENT); \
        CHECK(ds_merge_all(&sketch, others, 1) == DS_NO_SKETCH); \
        for (int i = 0; i < 3; i++) CHECK(ds_frequent_items_new(&others[i], number, 8, 6, NULL) == DS_OK); \
        CHECK(ds_merge_all(&sketch, others, 3) == DS_OK); \
        CHECK(add_##kind(&others[0], 7, UINT64_MAX - 9) == DS_OK && add_##kind(&others[2], 8, 9) == DS_OK); \
        CHECK(ds_merge_all(&sketch, others, 3) == DS_WEIGHT_OVERFLOW); \
        CHECK(bounds_of_##kind(&sketch, 7, &bounds) == DS_OK && bounds.estimate == 5); \
        CHECK(bounds_of_##kind(&sketch, 8, &bounds) == DS_OK && bounds.estimate == 0); \
        CHECK(ds_merge_all(&others[2], others, 3) == DS_BAD_ARGUMENT); \
        CHECK(ds_frequent_items_new(&others[1], other_number, 8, 6, NULL) == DS_OK); \
        CHECK(ds_merge_all(&sketch, others, 3) == DS_WRONG_KIND); \
        CHECK(ds_merge_all(&sketch, others + 2, 1) == DS_OK); \
        CHECK(bounds_of_##kind(&sketch, 8, &bounds) == DS_OK && bounds.estimate == 9); \
        ds_free(&sketch); \
        free_all(others, 3); \
    }

ERRORS_OF_FREQUENT(u64, DS_FREQUENT_ITEMS_U64, DS_FREQUENT_ITEMS_I64)
ERRORS_OF_FREQUENT(i64, DS_FREQUENT_ITEMS_I64, DS_FREQUENT_ITEMS_STRING)
ERRORS_OF_FREQUENT(string, DS_FREQUENT_ITEMS_STRING, DS_FREQUENT_ITEMS_U64)

int main(void)
{
    filters_in_turn();
    ds_count_min_u64_in_turn();
    ds_count_min_i64_in_turn();
    frequent_u64_in_turn();
    frequent_i64_in_turn();
    frequent_string_in_turn();
    errors_of_filters();
    errors_of_ds_count_min_u64();
    errors_of_ds_count_min_i64();
    errors_of_frequent_u64();
    errors_of_frequent_i64();
    errors_of_frequent_string();
    return report();
}
