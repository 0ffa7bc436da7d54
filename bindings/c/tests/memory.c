/* A list of calls of the C library, some of which allocate. This program itself allocates nothing. If an allocation of a call
 * fails, the sketch is unchanged, and the call succeeds when it is made again. Otherwise the program exits with 1. */
#include <datasketches.h>
#include <stdlib.h>
#include <string.h>

#include "forms.h"
#include "options.h"

static uint8_t before[1 << 12], after[1 << 12];

/* Returns the total weight of a sketch, and 0 for a filter or no sketch. */
static uint64_t weight_of(ds_sketch *handle)
{
    ds_status numbers;
    return ds_get_status(handle, &numbers) == DS_OK ? numbers.total_weight : 0;
}

/* Returns whether a result is as expected: success, or DS_NO_MEMORY with an unchanged sketch. */
static int is_due(int32_t answer, ds_sketch *handle, uint64_t weight)
{
    ds_status numbers;
    size_t length;
    if (answer >= 0) return 1;
    if (answer != DS_NO_MEMORY || weight_of(handle) != weight) return 0;
    answer = ds_get_status(handle, &numbers);
    if (answer == DS_NO_SKETCH) return 1;
    if (answer != DS_OK || ds_serialized_bytes(handle, &length) != DS_OK) return 0;
    if (numbers.kind != DS_BLOOM) return 1;
    return ds_serialize(handle, after, sizeof after, &length) == DS_OK && memcmp(before, after, length) == 0;
}

/* Stores the filter's image for later comparisons. */
static void keep(ds_sketch *filter)
{
    size_t length;
    if (ds_serialize(filter, before, sizeof before, &length) != DS_OK) exit(1);
}

/* Makes a call, and makes it again if an allocation failed. */
#define DONE(handle, call) \
    do { \
        uint64_t weight = weight_of(handle); \
        int32_t answer = call; \
        if (!is_due(answer, handle, weight)) return 1; \
        if (answer < 0 && (call) < 0) return 1; \
    } while (0)

/* 64 strings of two letters each, and the kind of items as which they are passed. */
static struct forms forms;
static int32_t kind_of_items;

/* Room for a report of them. */
static uint8_t shown[128];
static uint64_t starts[65];
static ds_item_bounds bounds[64];

static void write_strings(void)
{
    clear_forms(&forms);
    for (size_t i = 0; i < 64; i++) add_string(&forms, (const uint8_t[]){(uint8_t)('a' + i / 8), (uint8_t)('a' + i % 8)}, 2);
}

/* Adds the strings from index `from` on, each with the weight 1 or with its weight of `weights`. */
static int32_t add_strings(ds_sketch *handle, size_t from, const uint64_t *weights)
{
    const ds_items items = strings_of(&forms, kind_of_items, from, 64 - from);
    return weights ? ds_update_all_weighted(handle, &items, weights + from, 64 - from) : ds_update_all(handle, &items);
}

/* Adds all strings, and returns whether all were added. If an allocation fails for a string, those before it must have been
 * added, and a second call adds the rest. */
static int adds_strings(ds_sketch *handle, const uint64_t *weights)
{
    uint64_t start = weight_of(handle), whole = weights ? 128 : 64;
    int32_t answer = add_strings(handle, 0, weights);
    if (answer == DS_NO_MEMORY) {
        uint64_t added = weight_of(handle) - start;
        if (added >= whole || added % (whole / 64)) return 0;
        answer = add_strings(handle, (size_t)(added / (whole / 64)), weights);
    }
    return answer == DS_OK && weight_of(handle) == start + whole;
}

/* Returns whether all strings get their bounds. The call does not allocate, so it succeeds whichever allocation fails. */
static int tells_of_strings(ds_sketch *handle)
{
    const ds_items items = strings_of(&forms, kind_of_items, 0, 64);
    if (ds_frequent_items_bounds_all(handle, &items, bounds, 64) != DS_OK) return 0;
    for (size_t i = 0; i < 64; i++)
        if (bounds[i].upper_bound < 4 || bounds[i].lower_bound > 4) return 0;
    return 1;
}

/* Combines many sketches in one call each. If an allocation fails, the other sketches stay as they were, too. */
static int combine_many(void)
{
    ds_sketch filter = DS_NONE, count = DS_NONE, frequent = DS_NONE, filters[3] = {DS_NONE}, counts[3] = {DS_NONE};
    ds_sketch others[3] = {DS_NONE};
    uint64_t estimate;
    DONE(&filter, ds_bloom_new(&filter, 959, 7, 9001));
    DONE(&count, ds_count_min_new(&count, DS_COUNT_MIN_U64, 4, 128, 9001));
    DONE(&frequent, ds_frequent_items_new(&frequent, DS_FREQUENT_ITEMS_STRING, 64, 48, NULL));
    for (uint64_t i = 0; i < 3; i++) {
        DONE(&filters[i], ds_bloom_new(&filters[i], 959, 7, 9001));
        DONE(&filters[i], ds_bloom_insert_u64(&filters[i], i));
        DONE(&counts[i], ds_count_min_new(&counts[i], DS_COUNT_MIN_U64, 4, 128, 9001));
        DONE(&counts[i], ds_count_min_u64_update_u64(&counts[i], 7, i + 1));
        DONE(&others[i], ds_frequent_items_new(&others[i], DS_FREQUENT_ITEMS_STRING, 64, 48, NULL));
        DONE(&others[i], ds_frequent_items_string_update(&others[i], forms.strings[i].bytes, 4, i + 1));
    }
    keep(&filter);
    DONE(&filter, ds_merge_all(&filter, filters, 3));
    DONE(&count, ds_merge_all(&count, counts, 3));
    DONE(&frequent, ds_merge_all(&frequent, others, 3));
    if (ds_count_min_u64_estimate_u64(&count, 7, &estimate) != DS_OK || estimate != 6 || weight_of(&frequent) != 6) return 1;
    for (uint64_t i = 0; i < 3; i++) {
        if (ds_bloom_contains_u64(&filter, i) != DS_YES || ds_bloom_contains_u64(&filters[i], i) != DS_YES) return 1;
        if (ds_count_min_u64_estimate_u64(&counts[i], 7, &estimate) != DS_OK || estimate != i + 1) return 1;
        if (weight_of(&others[i]) != i + 1) return 1;
        ds_free(&filters[i]);
        ds_free(&counts[i]);
        ds_free(&others[i]);
    }
    ds_free(&filter);
    ds_free(&count);
    ds_free(&frequent);
    return 0;
}

/* Adds weights to rows of which every second one is missing. If the copy of the weights fails, nothing is added. If an allocation
 * fails for a string, those before it must have been added, and a second call adds the rest. */
static int adds_rows(void)
{
    static const uint8_t every_second[8] = {0x55, 0x55, 0x55, 0x55, 0x55, 0x55, 0x55, 0x55};
    static uint64_t weights[64];
    static int64_t with_sign[64];
    ds_sketch count = DS_NONE, signs = DS_NONE, frequent = DS_NONE;
    DONE(&count, ds_count_min_new(&count, DS_COUNT_MIN_U64, 4, 128, 9001));
    DONE(&signs, ds_count_min_new(&signs, DS_COUNT_MIN_I64, 4, 128, 9001));
    DONE(&frequent, ds_frequent_items_new(&frequent, DS_FREQUENT_ITEMS_STRING, 128, 96, &(ds_key){7, 8}));
    for (size_t i = 0; i < 64; i++) {
        weights[i] = i % 2 ? UINT64_MAX : 3;
        with_sign[i] = i % 2 ? INT64_MIN : -3;
    }
    for (int32_t kind = DS_ITEMS_OFFSETS; kind <= DS_ITEMS_STRINGS; kind++) {
        const ds_items rows = ds_items_with_validity(strings_of(&forms, kind, 0, 64), every_second, 0);
        DONE(&count, ds_update_all_weighted(&count, &rows, weights, 64));
        DONE(&signs, ds_count_min_i64_update_all_weighted(&signs, &rows, with_sign, 64));
        if (weight_of(&count) != 96 * (uint64_t)(kind - 1) || weight_of(&signs) != 96 * (uint64_t)(kind - 1)) return 1;
        uint64_t start = weight_of(&frequent);
        int32_t answer = ds_update_all_weighted(&frequent, &rows, weights, 64);
        if (answer == DS_NO_MEMORY) {
            size_t from = 2 * (size_t)((weight_of(&frequent) - start) / 3);
            const ds_items rest = ds_items_with_validity(strings_of(&forms, kind, from, 64 - from), every_second, from);
            answer = ds_update_all_weighted(&frequent, &rest, weights + from, 64 - from);
        }
        if (answer != DS_OK || weight_of(&frequent) != start + 96) return 1;
        if (ds_frequent_items_bounds_all(&frequent, &rows, bounds, 64) != DS_OK) return 1;
        for (size_t i = 0; i < 64; i++)
            if (bounds[i].estimate != (i % 2 ? 0 : 3 * (uint64_t)(kind - 1))) return 1;
    }
    ds_free(&count);
    ds_free(&signs);
    ds_free(&frequent);
    return 0;
}

/* Freezes a sketch and shares it. If an allocation fails, the sketch is as before, shared or not, and each handle keeps its own. */
static int share_one(ds_sketch *one)
{
    ds_sketch share = DS_NONE, other = DS_NONE;
    uint64_t weight = weight_of(one);
    DONE(&other, ds_bloom_new(&other, 64, 1, 9001));
    int32_t answer = ds_freeze(one);
    if (!is_due(answer, one, weight)) return 1;
    if (answer < 0 && (ds_share(&share, one) != DS_NOT_SHARED || ds_freeze(one) != DS_OK)) return 1;
    answer = ds_share(&share, one);
    if (!is_due(answer, one, weight)) return 1;
    if (answer < 0) {
        /* no share was counted */
        if (share.sketch || ds_thaw(one) != DS_YES || ds_freeze(one) != DS_OK || ds_share(&share, one) != DS_OK) return 1;
    }
    /* over a handle that has a sketch */
    answer = ds_share(&other, one);
    if (answer < 0) {
        if (answer != DS_NO_MEMORY || ds_bloom_insert_u64(&other, 1) != DS_OK || ds_share(&other, one) != DS_OK) return 1;
    }
    if (weight_of(&share) != weight || ds_thaw(one) != DS_NO) return 1;
    ds_free(&share);
    ds_free(&other);
    return ds_thaw(one) != DS_YES || !is_due(DS_NO_MEMORY, one, weight);
}

int main(void)
{
    ds_sketch filter = DS_NONE, other = DS_NONE, count = DS_NONE, second = DS_NONE;
    ds_sketch frequent = DS_NONE, many = DS_NONE, copy = DS_NONE;
    ds_status numbers;
    uint8_t image[1 << 13];
    size_t length = 0, used = 0;
    uint64_t items[64], estimate = 0;
    for (uint64_t i = 0; i < 64; i++) items[i] = i;

    DONE(&filter, ds_bloom_new(&filter, 959, 7, 9001));
    DONE(&other, ds_bloom_new(&other, 959, 7, 9001));
    DONE(&filter, ds_bloom_insert_all(&filter, AS_ITEMS(u64, items, 64)));
    DONE(&other, ds_bloom_insert_string(&other, (const uint8_t *)"apple", 5));
    DONE(&filter, ds_merge(&filter, &other));
    keep(&filter);
    DONE(&filter, ds_serialize(&filter, image, sizeof image, &length));
    DONE(&filter, ds_deserialize(&filter, DS_BLOOM, image, length, WITHIN(1 << 12)));
    DONE(&filter, ds_deserialize_prefix(&filter, DS_BLOOM, image, sizeof image, WITHIN(1 << 12), &used));
    if (used != length) return 1;
    if (ds_bloom_contains_u64(&filter, 63) != DS_YES) return 1;
    keep(&filter);
    DONE(&copy, ds_clone(&copy, &filter));
    if (ds_bloom_contains_u64(&copy, 63) != DS_YES) return 1;
    DONE(&filter, ds_bloom_new(&filter, 64, 1, 9001));
    DONE(&count, ds_count_min_new(&count, DS_COUNT_MIN_U64, 4, 128, 9001));
    DONE(&second, ds_count_min_new(&second, DS_COUNT_MIN_U64, 4, 128, 9001));
    DONE(&count, ds_update_all(&count, AS_ITEMS(u64, items, 64)));
    DONE(&second, ds_merge(&second, &count));
    if (ds_count_min_u64_estimate_u64(&second, 5, &estimate) != DS_OK || !estimate) return 1;
    DONE(&copy, ds_clone(&copy, &second));
    if (ds_count_min_u64_estimate_u64(&copy, 5, &estimate) != DS_OK || !estimate) return 1;
    DONE(&copy, ds_serialize(&copy, image, sizeof image, &length));
    DONE(&copy, ds_deserialize(&copy, DS_COUNT_MIN_U64, image, length, WITHIN(1 << 14)));
    if (ds_equal(&copy, &second) != DS_YES) return 1;
    DONE(&copy, ds_reset(&copy));
    if (weight_of(&copy) != 0 || ds_count_min_u64_estimate_u64(&copy, 5, &estimate) != DS_OK || estimate) return 1;
    DONE(&copy, ds_merge(&copy, &second));
    if (ds_equal(&copy, &second) != DS_YES) return 1;
    DONE(&frequent, ds_frequent_items_new(&frequent, DS_FREQUENT_ITEMS_U64, 64, 48, NULL));
    DONE(&many, ds_frequent_items_new(&many, DS_FREQUENT_ITEMS_I64, 8, 6, NULL));
    /* the table doubles three times; if that fails for lack of memory, the items before are added */
    for (uint64_t i = 0; i < 64; i++) DONE(&frequent, ds_frequent_items_u64_update(&frequent, i, i + 1));
    for (int64_t i = 0; i < 64; i++) DONE(&many, ds_frequent_items_i64_update(&many, i, 1));
    DONE(&frequent, ds_serialize(&frequent, image, sizeof image, &length));
    DONE(&copy, ds_clone(&copy, &frequent));
    DONE(&frequent, ds_merge(&frequent, &copy));
    DONE(&copy, ds_deserialize(&copy, DS_FREQUENT_ITEMS_U64, image, length, WITHIN(1 << 14)));
    DONE(&copy, ds_deserialize_prefix(&copy, DS_FREQUENT_ITEMS_U64, image, sizeof image, WITHIN(1 << 14), &used));
    if (used != length) return 1;
    if (ds_get_status(&frequent, &numbers) != DS_OK || numbers.total_weight != 2 * 2080) return 1;
    if (ds_get_status(&copy, &numbers) != DS_OK || numbers.total_weight != 2080) return 1;
    write_strings();
    for (uint64_t i = 0; i < 64; i++) items[i] = 2;
    for (kind_of_items = DS_ITEMS_OFFSETS; kind_of_items <= DS_ITEMS_LINES; kind_of_items++) {
        /* under a given key, so that each run makes the same allocations */
        DONE(&frequent, ds_frequent_items_new(&frequent, DS_FREQUENT_ITEMS_STRING, 64, 48, &(ds_key){7, 8}));
        if (!adds_strings(&frequent, NULL) || !adds_strings(&frequent, NULL)) return 1;
        if (!adds_strings(&frequent, items)) return 1;
        if (!tells_of_strings(&frequent)) return 1;
        DONE(&frequent, ds_serialize(&frequent, image, sizeof image, &length));
        DONE(&copy, ds_deserialize_prefix(&copy, DS_FREQUENT_ITEMS_STRING, image, length, WITHIN_KEY(1 << 14, 7, 8), &used));
        if (used != length) return 1;
    }
    if (combine_many() || adds_rows()) return 1;
    DONE(&filter, ds_bloom_insert_all(&filter, AS_ITEMS(u64, items, 64)));
    keep(&filter);
    if (share_one(&filter) || share_one(&count) || share_one(&frequent) || share_one(&many)) return 1;
    size_t rows = 0, num_bytes = 0;
    DONE(&frequent, ds_frequent_items_string_rows(&frequent, true, 0, SIZE_MAX, shown, sizeof shown, starts, 65, bounds, 64, &rows,
                                                  &num_bytes));
    if (num_bytes != 2 * rows || starts[rows] != num_bytes) return 1;
    for (int32_t kind = DS_ITEMS_OFFSETS; kind <= DS_ITEMS_LINES; kind++) {
        const ds_items strings = strings_of(&forms, kind, 0, 64);
        DONE(&filter, ds_bloom_insert_all(&filter, &strings));
        DONE(&count, ds_update_all(&count, &strings));
    }
    ds_free(&frequent);
    ds_free(&many);
    ds_free(&copy);
    ds_free(&filter);
    ds_free(&other);
    ds_free(&count);
    ds_free(&second);
    return 0;
}
