/* datasketches_typed.h: functions for the calls of `datasketches.h` on one item, by the item's type, and for those with a choice, by
 * what is chosen. `datasketches.h` includes it.
 *
 * Each function makes the call that its section names and `datasketches.h` describes. For one item it makes a `ds_item` first. One
 * whose name ends in `_u64` or `_i64` takes a number. One that ends in `_string` takes a string, and one that ends in `_fed` the
 * bytes that are hashed: a pointer and a length, where null with the length 0 is no bytes. Functions for frequent items have the
 * type before `_update` and `_bounds`.
 *
 * A function takes each sketch that its call takes. So `ds_frequent_items_u64_update` of a Count-Min sketch with weights in
 * uint64_t adds the weight there. It has the check of its call in `datasketches_checks.h`, also in brackets.
 *
 * The functions are compiled into a program. The library has them too, as calls for callers without the headers. For a tool that
 * reads headers and needs prototypes, as `bindgen`, define DS_TYPED as `extern`. */
#ifndef DATASKETCHES_TYPED_H
#define DATASKETCHES_TYPED_H

#include "datasketches.h"

#ifdef __cplusplus
extern "C" {
#endif

#ifndef DS_TYPED
#define DS_TYPED static inline
#endif

/* --- Filters: `ds_bloom_insert`. --- */

DS_TYPED int32_t ds_bloom_insert_u64(ds_sketch *handle, uint64_t item)
{
    const ds_item made = ds_item_u64(item);
    return ds_bloom_insert(handle, &made);
}

DS_TYPED int32_t ds_bloom_insert_i64(ds_sketch *handle, int64_t item)
{
    const ds_item made = ds_item_i64(item);
    return ds_bloom_insert(handle, &made);
}

DS_TYPED int32_t ds_bloom_insert_string(ds_sketch *handle, const uint8_t *item, size_t length)
{
    const ds_item made = ds_item_string(item, length);
    return ds_bloom_insert(handle, &made);
}

DS_TYPED int32_t ds_bloom_insert_fed(ds_sketch *handle, const uint8_t *item, size_t length)
{
    const ds_item made = ds_item_fed(item, length);
    return ds_bloom_insert(handle, &made);
}

/* --- `ds_bloom_contains`. --- */

DS_TYPED int32_t ds_bloom_contains_u64(ds_sketch *handle, uint64_t item)
{
    const ds_item made = ds_item_u64(item);
    return ds_bloom_contains(handle, &made);
}

DS_TYPED int32_t ds_bloom_contains_i64(ds_sketch *handle, int64_t item)
{
    const ds_item made = ds_item_i64(item);
    return ds_bloom_contains(handle, &made);
}

DS_TYPED int32_t ds_bloom_contains_string(ds_sketch *handle, const uint8_t *item, size_t length)
{
    const ds_item made = ds_item_string(item, length);
    return ds_bloom_contains(handle, &made);
}

DS_TYPED int32_t ds_bloom_contains_fed(ds_sketch *handle, const uint8_t *item, size_t length)
{
    const ds_item made = ds_item_fed(item, length);
    return ds_bloom_contains(handle, &made);
}

/* --- `ds_bloom_contains_and_insert`. --- */

DS_TYPED int32_t ds_bloom_contains_and_insert_u64(ds_sketch *handle, uint64_t item)
{
    const ds_item made = ds_item_u64(item);
    return ds_bloom_contains_and_insert(handle, &made);
}

DS_TYPED int32_t ds_bloom_contains_and_insert_i64(ds_sketch *handle, int64_t item)
{
    const ds_item made = ds_item_i64(item);
    return ds_bloom_contains_and_insert(handle, &made);
}

DS_TYPED int32_t ds_bloom_contains_and_insert_string(ds_sketch *handle, const uint8_t *item, size_t length)
{
    const ds_item made = ds_item_string(item, length);
    return ds_bloom_contains_and_insert(handle, &made);
}

DS_TYPED int32_t ds_bloom_contains_and_insert_fed(ds_sketch *handle, const uint8_t *item, size_t length)
{
    const ds_item made = ds_item_fed(item, length);
    return ds_bloom_contains_and_insert(handle, &made);
}

/* --- `ds_bloom_image_contains`. --- */

DS_TYPED int32_t ds_bloom_image_contains_u64(const uint8_t *image, size_t length, uint64_t item)
{
    const ds_item made = ds_item_u64(item);
    return ds_bloom_image_contains(image, length, &made);
}

DS_TYPED int32_t ds_bloom_image_contains_i64(const uint8_t *image, size_t length, int64_t item)
{
    const ds_item made = ds_item_i64(item);
    return ds_bloom_image_contains(image, length, &made);
}

DS_TYPED int32_t ds_bloom_image_contains_string(const uint8_t *image, size_t length, const uint8_t *item, size_t item_length)
{
    const ds_item made = ds_item_string(item, item_length);
    return ds_bloom_image_contains(image, length, &made);
}

DS_TYPED int32_t ds_bloom_image_contains_fed(const uint8_t *image, size_t length, const uint8_t *item, size_t item_length)
{
    const ds_item made = ds_item_fed(item, item_length);
    return ds_bloom_image_contains(image, length, &made);
}

/* --- Count-Min sketches with weights in uint64_t: `ds_update`. --- */

DS_TYPED int32_t ds_count_min_u64_update_u64(ds_sketch *handle, uint64_t item, uint64_t weight)
{
    const ds_item made = ds_item_u64(item);
    return ds_update(handle, &made, weight);
}

DS_TYPED int32_t ds_count_min_u64_update_i64(ds_sketch *handle, int64_t item, uint64_t weight)
{
    const ds_item made = ds_item_i64(item);
    return ds_update(handle, &made, weight);
}

DS_TYPED int32_t ds_count_min_u64_update_string(ds_sketch *handle, const uint8_t *item, size_t length, uint64_t weight)
{
    const ds_item made = ds_item_string(item, length);
    return ds_update(handle, &made, weight);
}

DS_TYPED int32_t ds_count_min_u64_update_fed(ds_sketch *handle, const uint8_t *item, size_t length, uint64_t weight)
{
    const ds_item made = ds_item_fed(item, length);
    return ds_update(handle, &made, weight);
}

/* --- `ds_count_min_u64_estimate`. --- */

DS_TYPED int32_t ds_count_min_u64_estimate_u64(ds_sketch *handle, uint64_t item, uint64_t *estimate)
{
    const ds_item made = ds_item_u64(item);
    return ds_count_min_u64_estimate(handle, &made, estimate);
}

DS_TYPED int32_t ds_count_min_u64_estimate_i64(ds_sketch *handle, int64_t item, uint64_t *estimate)
{
    const ds_item made = ds_item_i64(item);
    return ds_count_min_u64_estimate(handle, &made, estimate);
}

DS_TYPED int32_t ds_count_min_u64_estimate_string(ds_sketch *handle, const uint8_t *item, size_t length, uint64_t *estimate)
{
    const ds_item made = ds_item_string(item, length);
    return ds_count_min_u64_estimate(handle, &made, estimate);
}

DS_TYPED int32_t ds_count_min_u64_estimate_fed(ds_sketch *handle, const uint8_t *item, size_t length, uint64_t *estimate)
{
    const ds_item made = ds_item_fed(item, length);
    return ds_count_min_u64_estimate(handle, &made, estimate);
}

/* --- `ds_count_min_u64_upper_bound`. --- */

DS_TYPED int32_t ds_count_min_u64_upper_bound_u64(ds_sketch *handle, uint64_t item, uint64_t *bound)
{
    const ds_item made = ds_item_u64(item);
    return ds_count_min_u64_upper_bound(handle, &made, bound);
}

DS_TYPED int32_t ds_count_min_u64_upper_bound_i64(ds_sketch *handle, int64_t item, uint64_t *bound)
{
    const ds_item made = ds_item_i64(item);
    return ds_count_min_u64_upper_bound(handle, &made, bound);
}

DS_TYPED int32_t ds_count_min_u64_upper_bound_string(ds_sketch *handle, const uint8_t *item, size_t length, uint64_t *bound)
{
    const ds_item made = ds_item_string(item, length);
    return ds_count_min_u64_upper_bound(handle, &made, bound);
}

DS_TYPED int32_t ds_count_min_u64_upper_bound_fed(ds_sketch *handle, const uint8_t *item, size_t length, uint64_t *bound)
{
    const ds_item made = ds_item_fed(item, length);
    return ds_count_min_u64_upper_bound(handle, &made, bound);
}

/* --- `ds_count_min_u64_image_estimate`. --- */

DS_TYPED int32_t ds_count_min_u64_image_estimate_u64(const uint8_t *image, size_t length, uint64_t seed, uint64_t item,
                                                     uint64_t *estimate)
{
    const ds_item made = ds_item_u64(item);
    return ds_count_min_u64_image_estimate(image, length, seed, &made, estimate);
}

DS_TYPED int32_t ds_count_min_u64_image_estimate_i64(const uint8_t *image, size_t length, uint64_t seed, int64_t item,
                                                     uint64_t *estimate)
{
    const ds_item made = ds_item_i64(item);
    return ds_count_min_u64_image_estimate(image, length, seed, &made, estimate);
}

DS_TYPED int32_t ds_count_min_u64_image_estimate_string(const uint8_t *image, size_t length, uint64_t seed, const uint8_t *item,
                                                        size_t item_length, uint64_t *estimate)
{
    const ds_item made = ds_item_string(item, item_length);
    return ds_count_min_u64_image_estimate(image, length, seed, &made, estimate);
}

DS_TYPED int32_t ds_count_min_u64_image_estimate_fed(const uint8_t *image, size_t length, uint64_t seed, const uint8_t *item,
                                                     size_t item_length, uint64_t *estimate)
{
    const ds_item made = ds_item_fed(item, item_length);
    return ds_count_min_u64_image_estimate(image, length, seed, &made, estimate);
}

/* --- Count-Min sketches with weights in int64_t: `ds_count_min_i64_update`. --- */

DS_TYPED int32_t ds_count_min_i64_update_u64(ds_sketch *handle, uint64_t item, int64_t weight)
{
    const ds_item made = ds_item_u64(item);
    return ds_count_min_i64_update(handle, &made, weight);
}

DS_TYPED int32_t ds_count_min_i64_update_i64(ds_sketch *handle, int64_t item, int64_t weight)
{
    const ds_item made = ds_item_i64(item);
    return ds_count_min_i64_update(handle, &made, weight);
}

DS_TYPED int32_t ds_count_min_i64_update_string(ds_sketch *handle, const uint8_t *item, size_t length, int64_t weight)
{
    const ds_item made = ds_item_string(item, length);
    return ds_count_min_i64_update(handle, &made, weight);
}

DS_TYPED int32_t ds_count_min_i64_update_fed(ds_sketch *handle, const uint8_t *item, size_t length, int64_t weight)
{
    const ds_item made = ds_item_fed(item, length);
    return ds_count_min_i64_update(handle, &made, weight);
}

/* --- `ds_count_min_i64_estimate`. --- */

DS_TYPED int32_t ds_count_min_i64_estimate_u64(ds_sketch *handle, uint64_t item, int64_t *estimate)
{
    const ds_item made = ds_item_u64(item);
    return ds_count_min_i64_estimate(handle, &made, estimate);
}

DS_TYPED int32_t ds_count_min_i64_estimate_i64(ds_sketch *handle, int64_t item, int64_t *estimate)
{
    const ds_item made = ds_item_i64(item);
    return ds_count_min_i64_estimate(handle, &made, estimate);
}

DS_TYPED int32_t ds_count_min_i64_estimate_string(ds_sketch *handle, const uint8_t *item, size_t length, int64_t *estimate)
{
    const ds_item made = ds_item_string(item, length);
    return ds_count_min_i64_estimate(handle, &made, estimate);
}

DS_TYPED int32_t ds_count_min_i64_estimate_fed(ds_sketch *handle, const uint8_t *item, size_t length, int64_t *estimate)
{
    const ds_item made = ds_item_fed(item, length);
    return ds_count_min_i64_estimate(handle, &made, estimate);
}

/* --- `ds_count_min_i64_upper_bound`. --- */

DS_TYPED int32_t ds_count_min_i64_upper_bound_u64(ds_sketch *handle, uint64_t item, int64_t *bound)
{
    const ds_item made = ds_item_u64(item);
    return ds_count_min_i64_upper_bound(handle, &made, bound);
}

DS_TYPED int32_t ds_count_min_i64_upper_bound_i64(ds_sketch *handle, int64_t item, int64_t *bound)
{
    const ds_item made = ds_item_i64(item);
    return ds_count_min_i64_upper_bound(handle, &made, bound);
}

DS_TYPED int32_t ds_count_min_i64_upper_bound_string(ds_sketch *handle, const uint8_t *item, size_t length, int64_t *bound)
{
    const ds_item made = ds_item_string(item, length);
    return ds_count_min_i64_upper_bound(handle, &made, bound);
}

DS_TYPED int32_t ds_count_min_i64_upper_bound_fed(ds_sketch *handle, const uint8_t *item, size_t length, int64_t *bound)
{
    const ds_item made = ds_item_fed(item, length);
    return ds_count_min_i64_upper_bound(handle, &made, bound);
}

/* --- `ds_count_min_i64_image_estimate`. --- */

DS_TYPED int32_t ds_count_min_i64_image_estimate_u64(const uint8_t *image, size_t length, uint64_t seed, uint64_t item,
                                                     int64_t *estimate)
{
    const ds_item made = ds_item_u64(item);
    return ds_count_min_i64_image_estimate(image, length, seed, &made, estimate);
}

DS_TYPED int32_t ds_count_min_i64_image_estimate_i64(const uint8_t *image, size_t length, uint64_t seed, int64_t item,
                                                     int64_t *estimate)
{
    const ds_item made = ds_item_i64(item);
    return ds_count_min_i64_image_estimate(image, length, seed, &made, estimate);
}

DS_TYPED int32_t ds_count_min_i64_image_estimate_string(const uint8_t *image, size_t length, uint64_t seed, const uint8_t *item,
                                                        size_t item_length, int64_t *estimate)
{
    const ds_item made = ds_item_string(item, item_length);
    return ds_count_min_i64_image_estimate(image, length, seed, &made, estimate);
}

DS_TYPED int32_t ds_count_min_i64_image_estimate_fed(const uint8_t *image, size_t length, uint64_t seed, const uint8_t *item,
                                                     size_t item_length, int64_t *estimate)
{
    const ds_item made = ds_item_fed(item, item_length);
    return ds_count_min_i64_image_estimate(image, length, seed, &made, estimate);
}

/* --- Frequent items: `ds_update`. --- */

DS_TYPED int32_t ds_frequent_items_u64_update(ds_sketch *handle, uint64_t item, uint64_t weight)
{
    const ds_item made = ds_item_u64(item);
    return ds_update(handle, &made, weight);
}

DS_TYPED int32_t ds_frequent_items_i64_update(ds_sketch *handle, int64_t item, uint64_t weight)
{
    const ds_item made = ds_item_i64(item);
    return ds_update(handle, &made, weight);
}

DS_TYPED int32_t ds_frequent_items_string_update(ds_sketch *handle, const uint8_t *item, size_t length, uint64_t weight)
{
    const ds_item made = ds_item_string(item, length);
    return ds_update(handle, &made, weight);
}

/* --- `ds_frequent_items_bounds`. --- */

DS_TYPED int32_t ds_frequent_items_u64_bounds(ds_sketch *handle, uint64_t item, ds_item_bounds *bounds)
{
    const ds_item made = ds_item_u64(item);
    return ds_frequent_items_bounds(handle, &made, bounds);
}

DS_TYPED int32_t ds_frequent_items_i64_bounds(ds_sketch *handle, int64_t item, ds_item_bounds *bounds)
{
    const ds_item made = ds_item_i64(item);
    return ds_frequent_items_bounds(handle, &made, bounds);
}

DS_TYPED int32_t ds_frequent_items_string_bounds(ds_sketch *handle, const uint8_t *item, size_t length, ds_item_bounds *bounds)
{
    const ds_item made = ds_item_string(item, length);
    return ds_frequent_items_bounds(handle, &made, bounds);
}

/* --- `ds_join`. --- */

DS_TYPED int32_t ds_merge(ds_sketch *handle, ds_sketch *other)
{
    return ds_join(handle, other, DS_JOIN_MERGE);
}

DS_TYPED int32_t ds_bloom_intersect(ds_sketch *handle, ds_sketch *other)
{
    return ds_join(handle, other, DS_JOIN_INTERSECTION);
}

DS_TYPED int32_t ds_bloom_difference(ds_sketch *handle, ds_sketch *other)
{
    return ds_join(handle, other, DS_JOIN_DIFFERENCE);
}

/* --- `ds_finished`. --- */

DS_TYPED size_t ds_finished_words(const uint8_t *text, size_t length)
{
    return ds_finished(DS_CHUNK_WORDS, text, length, 0);
}

DS_TYPED size_t ds_finished_lines(const uint8_t *text, size_t length)
{
    return ds_finished(DS_CHUNK_LINES, text, length, 0);
}

DS_TYPED size_t ds_finished_csv_records(const uint8_t *bytes, size_t length, uint8_t delimiter)
{
    return ds_finished(DS_CHUNK_CSV_RECORDS, bytes, length, delimiter);
}

/* --- `ds_suggest`. --- */

DS_TYPED int32_t ds_frequent_items_suggest_max_map_size(size_t parts, size_t *max_map_size)
{
    uint64_t found = 0;
    int32_t result = ds_suggest(DS_SIZE_MAX_MAP_SIZE, parts, 0, &found);
    if (result == DS_OK) *max_map_size = (size_t)found;
    return result;
}

DS_TYPED int32_t ds_count_min_suggest_num_buckets(uint64_t parts, uint32_t *num_buckets)
{
    uint64_t found = 0;
    int32_t result = ds_suggest(DS_SIZE_NUM_BUCKETS, parts, 0, &found);
    if (result == DS_OK) *num_buckets = (uint32_t)found;
    return result;
}

DS_TYPED int32_t ds_count_min_suggest_num_hashes(uint64_t questions, uint8_t *num_hashes)
{
    uint64_t found = 0;
    int32_t result = ds_suggest(DS_SIZE_COUNT_HASHES, questions, 0, &found);
    if (result == DS_OK) *num_hashes = (uint8_t)found;
    return result;
}

DS_TYPED int32_t ds_bloom_suggest_num_bits(uint64_t num_items, uint64_t questions, uint64_t *num_bits)
{
    return ds_suggest(DS_SIZE_NUM_BITS, num_items, questions, num_bits);
}

DS_TYPED int32_t ds_bloom_min_num_bits(uint64_t num_items, uint64_t questions, uint64_t *num_bits)
{
    return ds_suggest(DS_SIZE_MIN_NUM_BITS, num_items, questions, num_bits);
}

DS_TYPED int32_t ds_bloom_suggest_num_hashes(uint64_t num_bits, uint64_t num_items, uint16_t *num_hashes)
{
    uint64_t found = 0;
    int32_t result = ds_suggest(DS_SIZE_FILTER_HASHES, num_bits, num_items, &found);
    if (result == DS_OK) *num_hashes = (uint16_t)found;
    return result;
}

#ifdef __cplusplus
}
#endif

#endif
