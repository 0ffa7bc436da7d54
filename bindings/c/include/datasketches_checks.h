/* datasketches_checks.h: checks of arguments before calls of the library. `datasketches.h` includes it.
 *
 * A call with a check is a macro of the call's name. It passes the call and its arguments to the function of this header that
 * checks arguments of that form, and each argument is evaluated once. So `ds_equal(a, b)` is checked, and arguments may have
 * commas.
 *
 * The checks return DS_BAD_ARGUMENT for the same handle twice and for a handle that is also in the array of others. They return
 * it for a null pointer with a count above 0, and for one in a `ds_item`, a `ds_items` or its array of strings. The result of a
 * call on one item and the options of an image must not be null either. They pass a pointer to no values in place of null with
 * the count 0, but for a null pointer in a `ds_item` or a `ds_items`.
 *
 * To leave out the check of one call, put its name in brackets: `(ds_equal)(a, b)`. To leave out all, define `DS_NO_CHECKS`
 * before `datasketches.h`. A pointer to a function, as `&ds_equal`, is to the call without checks. */
#ifndef DATASKETCHES_CHECKS_H
#define DATASKETCHES_CHECKS_H

#include "datasketches.h"

#ifdef __cplusplus
extern "C" {
#endif

/* Returns whether there are strings at null, or a string is at null. */
static inline bool ds_have_null(const ds_string *strings, size_t count)
{
    bool found = false;
    if (!strings) return count > 0;
    for (size_t i = 0; i < count; i++) found |= !strings[i].bytes;
    return found;
}

/* Returns whether the item or its pointer is null. */
static inline bool ds_item_has_null(const ds_item *item)
{
    return !item || !item->bytes;
}

/* Returns whether a pointer of the items is null, or a string is at null. */
static inline bool ds_items_have_null(const ds_items *items)
{
    return !items || !items->u64s || !items->i64s || !items->bytes || !items->offsets || !items->offsets32 || !items->strings ||
           !items->fed || !items->validity || ds_have_null(items->strings, items->num_strings) ||
           ds_have_null(items->fed, items->num_fed);
}

/* Returns whether there are handles at null, or the handle is one of them. */
static inline bool ds_have_handle(const ds_sketch *others, size_t count, const ds_sketch *handle)
{
    if (!others) return count > 0;
    return (uintptr_t)handle - (uintptr_t)others < count * sizeof *others;
}

/* --- The checks of each form of arguments: the call, and its arguments. --- */

static inline int32_t ds_check_two_handles(int32_t (*call)(ds_sketch *, ds_sketch *), ds_sketch *handle, ds_sketch *other)
{
    return handle == other ? DS_BAD_ARGUMENT : call(handle, other);
}

static inline int32_t ds_check_join(int32_t (*call)(ds_sketch *, ds_sketch *, int32_t), ds_sketch *handle, ds_sketch *other, int32_t join)
{
    return handle == other ? DS_BAD_ARGUMENT : call(handle, other, join);
}

static inline int32_t ds_check_handles(int32_t (*call)(ds_sketch *, ds_sketch *, size_t), ds_sketch *handle, ds_sketch *others,
                                       size_t count)
{
    if (ds_have_handle(others, count, handle)) return DS_BAD_ARGUMENT;
    return call(handle, others ? others : (ds_sketch *)ds_no_values(), count);
}

static inline int32_t ds_check_buffer(int32_t (*call)(ds_sketch *, uint8_t *, size_t, size_t *), ds_sketch *handle, uint8_t *out,
                                      size_t capacity, size_t *written)
{
    if (!out && capacity) return DS_BAD_ARGUMENT;
    return call(handle, out ? out : (uint8_t *)ds_no_values(), capacity, written);
}

/* An image that is read, whose options are not null either. */
static inline int32_t ds_check_image(int32_t (*call)(ds_sketch *, int32_t, const uint8_t *, size_t, const ds_image_options *),
                                     ds_sketch *handle, int32_t kind, const uint8_t *image, size_t length,
                                     const ds_image_options *options)
{
    if ((!image && length) || !options) return DS_BAD_ARGUMENT;
    return call(handle, kind, image ? image : (const uint8_t *)ds_no_values(), length, options);
}

/* An image at the front of bytes, and the number of bytes that it takes. */
static inline int32_t ds_check_prefix(int32_t (*call)(ds_sketch *, int32_t, const uint8_t *, size_t, const ds_image_options *,
                                                      size_t *),
                                      ds_sketch *handle, int32_t kind, const uint8_t *image, size_t length,
                                      const ds_image_options *options, size_t *used)
{
    if ((!image && length) || !options) return DS_BAD_ARGUMENT;
    return call(handle, kind, image ? image : (const uint8_t *)ds_no_values(), length, options, used);
}

/* An image in place, and an item or many items. */
static inline int32_t ds_check_image_item(int32_t (*call)(const uint8_t *, size_t, const ds_item *), const uint8_t *image,
                                          size_t length, const ds_item *item)
{
    if ((!image && length) || ds_item_has_null(item)) return DS_BAD_ARGUMENT;
    return call(image ? image : (const uint8_t *)ds_no_values(), length, item);
}

static inline int32_t ds_check_image_items(int32_t (*call)(const uint8_t *, size_t, const ds_items *, bool *, size_t),
                                           const uint8_t *image, size_t length, const ds_items *items, bool *results,
                                           size_t num_results)
{
    if ((!image && length) || ds_items_have_null(items) || (!results && num_results)) return DS_BAD_ARGUMENT;
    return call(image ? image : (const uint8_t *)ds_no_values(), length, items, results ? results : (bool *)ds_no_values(),
                num_results);
}

/* An image in place with its seed, an item, and the estimate. */
#define DS_CHECK_COUNT_IMAGE(form, weight) \
    static inline int32_t ds_check_##form( \
        int32_t (*call)(const uint8_t *, size_t, uint64_t, const ds_item *, weight *), const uint8_t *image, size_t length, \
        uint64_t seed, const ds_item *item, weight *estimate) \
    { \
        if ((!image && length) || ds_item_has_null(item) || !estimate) return DS_BAD_ARGUMENT; \
        return call(image ? image : (const uint8_t *)ds_no_values(), length, seed, item, estimate); \
    }
DS_CHECK_COUNT_IMAGE(u64_image_item, uint64_t)
DS_CHECK_COUNT_IMAGE(i64_image_item, int64_t)
#undef DS_CHECK_COUNT_IMAGE

/* Returns 0 at null, whatever the length. */
static inline size_t ds_check_text(size_t (*call)(const uint8_t *, size_t), const uint8_t *text, size_t length)
{
    return text ? call(text, length) : 0;
}

static inline size_t ds_check_chunk(size_t (*call)(int32_t, const uint8_t *, size_t, uint8_t), int32_t chunk, const uint8_t *bytes,
                                    size_t length, uint8_t delimiter)
{
    return bytes ? call(chunk, bytes, length, delimiter) : 0;
}

/* Null means no bytes, whatever the length. */
static inline uint64_t ds_check_hash(uint64_t (*call)(const uint8_t *, size_t, uint64_t, uint64_t), const uint8_t *bytes,
                                     size_t length, uint64_t k0, uint64_t k1)
{
    return call(bytes ? bytes : (const uint8_t *)ds_no_values(), bytes ? length : 0, k0, k1);
}

/* An item. */
static inline int32_t ds_check_item(int32_t (*call)(ds_sketch *, const ds_item *), ds_sketch *handle, const ds_item *item)
{
    return ds_item_has_null(item) ? DS_BAD_ARGUMENT : call(handle, item);
}

/* An item and its weight. */
#define DS_CHECK_ITEM_WITH(form, type) \
    static inline int32_t ds_check_item_with_##form(int32_t (*call)(ds_sketch *, const ds_item *, type), ds_sketch *handle, \
                                                    const ds_item *item, type weight) \
    { \
        return ds_item_has_null(item) ? DS_BAD_ARGUMENT : call(handle, item, weight); \
    }
DS_CHECK_ITEM_WITH(u64, uint64_t)
DS_CHECK_ITEM_WITH(i64, int64_t)
#undef DS_CHECK_ITEM_WITH

/* An item, and what the call writes. */
#define DS_CHECK_ITEM_TO(form, type) \
    static inline int32_t ds_check_item_to_##form(int32_t (*call)(ds_sketch *, const ds_item *, type *), ds_sketch *handle, \
                                                  const ds_item *item, type *result) \
    { \
        return ds_item_has_null(item) || !result ? DS_BAD_ARGUMENT : call(handle, item, result); \
    }
DS_CHECK_ITEM_TO(u64, uint64_t)
DS_CHECK_ITEM_TO(i64, int64_t)
DS_CHECK_ITEM_TO(bounds, ds_item_bounds)
#undef DS_CHECK_ITEM_TO

/* The bytes of records, and their fields. */
static inline int32_t ds_check_fields(int32_t (*call)(ds_sketch *, const uint8_t *, size_t, const ds_fields *, ds_fields_read *),
                                      ds_sketch *handle, const uint8_t *bytes, size_t length, const ds_fields *fields,
                                      ds_fields_read *read)
{
    if ((!bytes && length) || !fields || !read) return DS_BAD_ARGUMENT;
    return call(handle, bytes ? bytes : (const uint8_t *)ds_no_values(), length, fields, read);
}

/* The number of items. */
static inline int32_t ds_check_num_items(int32_t (*call)(const ds_items *, size_t *), const ds_items *items, size_t *count)
{
    return ds_items_have_null(items) ? DS_BAD_ARGUMENT : call(items, count);
}

/* Many items. */
static inline int32_t ds_check_items(int32_t (*call)(ds_sketch *, const ds_items *), ds_sketch *handle, const ds_items *items)
{
    return ds_items_have_null(items) ? DS_BAD_ARGUMENT : call(handle, items);
}

/* Many items, with an array of results or weights. */
#define DS_CHECK_ITEMS_WITH(form, other) \
    static inline int32_t ds_check_items_with_##form(int32_t (*call)(ds_sketch *, const ds_items *, other *, size_t), \
                                                     ds_sketch *handle, const ds_items *items, other *others, size_t num_others) \
    { \
        if (ds_items_have_null(items) || (!others && num_others)) return DS_BAD_ARGUMENT; \
        return call(handle, items, others ? others : (other *)ds_no_values(), num_others); \
    }
DS_CHECK_ITEMS_WITH(bools, bool)
DS_CHECK_ITEMS_WITH(u64s, uint64_t)
DS_CHECK_ITEMS_WITH(i64s, int64_t)
DS_CHECK_ITEMS_WITH(bounds, ds_item_bounds)
DS_CHECK_ITEMS_WITH(weights_u64, const uint64_t)
DS_CHECK_ITEMS_WITH(weights_i64, const int64_t)
#undef DS_CHECK_ITEMS_WITH

/* Buffers for rows. */
#define DS_CHECK_ROWS(form, type) \
    static inline int32_t ds_check_##form( \
        int32_t (*call)(ds_sketch *, bool, uint64_t, size_t, type *, size_t, ds_item_bounds *, size_t, size_t *), \
        ds_sketch *handle, bool no_false_negatives, uint64_t threshold, size_t limit, type *items, size_t num_items, \
        ds_item_bounds *bounds, size_t num_bounds, size_t *count) \
    { \
        if ((!items && num_items) || (!bounds && num_bounds)) return DS_BAD_ARGUMENT; \
        return call(handle, no_false_negatives, threshold, limit, items ? items : (type *)ds_no_values(), num_items, \
                    bounds ? bounds : (ds_item_bounds *)ds_no_values(), num_bounds, count); \
    }
DS_CHECK_ROWS(u64_rows, uint64_t)
DS_CHECK_ROWS(i64_rows, int64_t)
#undef DS_CHECK_ROWS

static inline int32_t ds_check_string_rows(int32_t (*call)(ds_sketch *, bool, uint64_t, size_t, uint8_t *, size_t, uint64_t *, size_t,
                                                           ds_item_bounds *, size_t, size_t *, size_t *),
                                           ds_sketch *handle, bool no_false_negatives, uint64_t threshold, size_t limit, uint8_t *bytes,
                                           size_t room_for_bytes, uint64_t *offsets, size_t num_offsets,
                                           ds_item_bounds *bounds, size_t num_bounds, size_t *count,
                                           size_t *num_bytes)
{
    if ((!bytes && room_for_bytes) || (!offsets && num_offsets) || (!bounds && num_bounds)) return DS_BAD_ARGUMENT;
    return call(handle, no_false_negatives, threshold, limit, bytes ? bytes : (uint8_t *)ds_no_values(), room_for_bytes,
                offsets ? offsets : (uint64_t *)ds_no_values(), num_offsets,
                bounds ? bounds : (ds_item_bounds *)ds_no_values(), num_bounds, count, num_bytes);
}

#ifdef __cplusplus
}
#endif

/* --- The calls with checks. --- */

#ifndef DS_NO_CHECKS
#define ds_clone(...) ds_check_two_handles(ds_clone, __VA_ARGS__)
#define ds_join(...) ds_check_join(ds_join, __VA_ARGS__)
#define ds_merge_all(...) ds_check_handles(ds_merge_all, __VA_ARGS__)
#define ds_equal(...) ds_check_two_handles(ds_equal, __VA_ARGS__)
#define ds_serialize(...) ds_check_buffer(ds_serialize, __VA_ARGS__)
#define ds_deserialize(...) ds_check_image(ds_deserialize, __VA_ARGS__)
#define ds_deserialize_prefix(...) ds_check_prefix(ds_deserialize_prefix, __VA_ARGS__)
#define ds_share(...) ds_check_two_handles(ds_share, __VA_ARGS__)
#define ds_num_items(...) ds_check_num_items(ds_num_items, __VA_ARGS__)
#define ds_update_fields(...) ds_check_fields(ds_update_fields, __VA_ARGS__)
#define ds_bloom_insert(...) ds_check_item(ds_bloom_insert, __VA_ARGS__)
#define ds_bloom_insert_all(...) ds_check_items(ds_bloom_insert_all, __VA_ARGS__)
#define ds_bloom_contains(...) ds_check_item(ds_bloom_contains, __VA_ARGS__)
#define ds_bloom_contains_all(...) ds_check_items_with_bools(ds_bloom_contains_all, __VA_ARGS__)
#define ds_bloom_contains_and_insert(...) ds_check_item(ds_bloom_contains_and_insert, __VA_ARGS__)
#define ds_bloom_contains_and_insert_all(...) ds_check_items_with_bools(ds_bloom_contains_and_insert_all, __VA_ARGS__)
#define ds_bloom_image_contains(...) ds_check_image_item(ds_bloom_image_contains, __VA_ARGS__)
#define ds_bloom_image_contains_all(...) ds_check_image_items(ds_bloom_image_contains_all, __VA_ARGS__)
#define ds_update(...) ds_check_item_with_u64(ds_update, __VA_ARGS__)
#define ds_update_all(...) ds_check_items(ds_update_all, __VA_ARGS__)
#define ds_update_all_weighted(...) ds_check_items_with_weights_u64(ds_update_all_weighted, __VA_ARGS__)
#define ds_count_min_u64_estimate(...) ds_check_item_to_u64(ds_count_min_u64_estimate, __VA_ARGS__)
#define ds_count_min_u64_estimate_all(...) ds_check_items_with_u64s(ds_count_min_u64_estimate_all, __VA_ARGS__)
#define ds_count_min_u64_upper_bound(...) ds_check_item_to_u64(ds_count_min_u64_upper_bound, __VA_ARGS__)
#define ds_count_min_u64_image_estimate(...) ds_check_u64_image_item(ds_count_min_u64_image_estimate, __VA_ARGS__)
#define ds_count_min_i64_update(...) ds_check_item_with_i64(ds_count_min_i64_update, __VA_ARGS__)
#define ds_count_min_i64_update_all_weighted(...) \
    ds_check_items_with_weights_i64(ds_count_min_i64_update_all_weighted, __VA_ARGS__)
#define ds_count_min_i64_estimate(...) ds_check_item_to_i64(ds_count_min_i64_estimate, __VA_ARGS__)
#define ds_count_min_i64_estimate_all(...) ds_check_items_with_i64s(ds_count_min_i64_estimate_all, __VA_ARGS__)
#define ds_count_min_i64_upper_bound(...) ds_check_item_to_i64(ds_count_min_i64_upper_bound, __VA_ARGS__)
#define ds_count_min_i64_image_estimate(...) ds_check_i64_image_item(ds_count_min_i64_image_estimate, __VA_ARGS__)
#define ds_frequent_items_bounds(...) ds_check_item_to_bounds(ds_frequent_items_bounds, __VA_ARGS__)
#define ds_frequent_items_bounds_all(...) ds_check_items_with_bounds(ds_frequent_items_bounds_all, __VA_ARGS__)
#define ds_frequent_items_u64_rows(...) ds_check_u64_rows(ds_frequent_items_u64_rows, __VA_ARGS__)
#define ds_frequent_items_i64_rows(...) ds_check_i64_rows(ds_frequent_items_i64_rows, __VA_ARGS__)
#define ds_frequent_items_string_rows(...) ds_check_string_rows(ds_frequent_items_string_rows, __VA_ARGS__)
#define ds_finished(...) ds_check_chunk(ds_finished, __VA_ARGS__)
#define ds_valid_utf8(...) ds_check_text(ds_valid_utf8, __VA_ARGS__)
#define ds_keyed_hash(...) ds_check_hash(ds_keyed_hash, __VA_ARGS__)
#endif

#include "datasketches_typed.h"

#endif
