/* The library's calls that change a sketch. Those that add an item are inline: an aggregate makes one at each row, of a kind that is
 * known when the file is compiled. They return the library's result. */
#ifndef UPDATE_H
#define UPDATE_H

#include "extension.h"

/* Adds an item, of a type that the kind has, and its weight. A filter has no weights. */
static inline int32_t add_item(Kind kind, ds_sketch *handle, const SketchItem *item, int64 weight)
{
    const ds_item added = in_c(item);
    switch (kind) {
    case DS_BLOOM: return ds_bloom_insert(handle, &added);
    case DS_COUNT_MIN_I64: return ds_count_min_i64_update(handle, &added, weight);
    default: return ds_update(handle, &added, weight);
    }
}

/* Raises an error if a weight is one that the kind does not take. */
static inline void check_weight(Kind kind, int64 weight)
{
    if (kind != DS_COUNT_MIN_I64 && unlikely(weight < 0))
        ereport(ERROR, (errcode(ERRCODE_NUMERIC_VALUE_OUT_OF_RANGE), errmsg("the weight must not be below 0")));
}

/* Merges another sketch, of the same kind, into a handle's. Raises an error if the shapes differ. */
static inline void merge(ds_sketch *handle, ds_sketch *other)
{
    int32_t result = ds_merge(handle, other);
    if (result == DS_MISMATCH) raise_mismatch(handle, other);
    check_result(result);
}

/* Returns whether a union of frequent items takes the size of a sketch, into which the other one is merged then. It takes the largest
 * size whose full table is within the limits, or else the smallest. So it does not depend on the order. */
static inline bool has_size_of_union(ds_sketch *handle, ds_sketch *other)
{
    ds_status status = status_of(handle);
    uint64 of_slot = status.kind == DS_FREQUENT_ITEMS_STRING ? BYTES_OF_SLOT : BYTES_OF_BIGINT_SLOT;
    uint64 size = status.max_map_size, other_size = status_of(other).max_map_size,
           limit = limit_of(status.kind, USERS_LIMITS) / of_slot;
    if (size <= limit && other_size <= limit) return size > other_size;
    return size < other_size;
}

#endif
