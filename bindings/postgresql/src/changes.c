/* Functions that return an empty sketch, or a stored sketch after a change. */
#include "extension.h"
#include "update.h"

/* What is read of a stored sketch beside its handle. */
typedef struct Header {
    Kind kind;
    uint8 items;
} Header;

/* Reads the stored sketch of an argument into a handle that has no sketch. */
static Header read_argument(FunctionCallInfo fcinfo, int number, Kind kind, ds_sketch *handle)
{
    Sketch *sketch = detoast_sketch(PG_GETARG_DATUM(number), kind);
    Header header = {kind_of(sketch), sketch->items};
    load(sketch, handle);
    free_copy(sketch, PG_GETARG_DATUM(number));
    return header;
}

/* Returns a stored sketch from a handle, and frees the handle's. */
static Datum stored(uint8 items, ds_sketch *handle)
{
    Sketch *sketch = store(items, handle);
    ds_free(handle);
    PG_RETURN_POINTER(sketch);
}

/* --- Empty sketches. A filter or counts get types of items with the first item. --- */

/* Returns an empty sketch of the sizes in the arguments. */
static Datum empty(FunctionCallInfo fcinfo, Kind kind, Make make)
{
    ds_sketch handle = DS_NONE;
    make(fcinfo, kind, &handle, 0);
    return stored(items_of(kind, NO_ITEMS), &handle);
}

#define EMPTIES(type, kind, prefix) \
    FUNCTION(type##_empty_by_size, empty, kind, prefix##_by_size) \
    FUNCTION(type##_empty_by_error, empty, kind, prefix##_by_error)

EMPTIES(frequent_strings, DS_FREQUENT_ITEMS_STRING, frequent)
EMPTIES(frequent_bigints, DS_FREQUENT_ITEMS_I64, frequent)
EMPTIES(count_min, DS_COUNT_MIN_U64, count)
EMPTIES(signed_count_min, DS_COUNT_MIN_I64, count)
EMPTIES(bloom_filter, DS_BLOOM, filter)

PG_FUNCTION_INFO_V1(sketch_reset);

/* Returns an empty sketch of the sizes and the seed of another one. */
Datum sketch_reset(PG_FUNCTION_ARGS)
{
    ds_sketch handle = DS_NONE;
    Kind kind = read_argument(fcinfo, 0, ANY_KIND, &handle).kind;
    check_result(ds_reset(&handle));
    return stored(items_of(kind, NO_ITEMS), &handle);
}

/* --- One more item. --- */

/* Returns a sketch with an item added: the second argument, with the weight in the third one, which filters do not have. */
static Datum with_item(FunctionCallInfo fcinfo, Kind kind)
{
    Form form = form_argument(fcinfo, 1, kind);
    int64 weight = kind == DS_BLOOM ? 1 : PG_GETARG_INT64(2);
    ds_sketch handle = DS_NONE;
    Sketch *sketch = detoast_sketch(PG_GETARG_DATUM(0), kind);
    uint8 items = sketch->items | type_of(form);
    SketchItem item;
    check_items(sketch, type_of(form));
    check_weight(kind, weight);
    load(sketch, &handle);
    free_copy(sketch, PG_GETARG_DATUM(0));
    read_item(fcinfo, 1, form, &item);
    check_result(add_item(kind, &handle, &item, weight));
    return stored(items, &handle);
}

FUNCTION(frequent_strings_with_item, with_item, DS_FREQUENT_ITEMS_STRING)
FUNCTION(frequent_bigints_with_item, with_item, DS_FREQUENT_ITEMS_I64)
FUNCTION(count_min_with_item, with_item, DS_COUNT_MIN_U64)
FUNCTION(signed_count_min_with_item, with_item, DS_COUNT_MIN_I64)
FUNCTION(bloom_filter_with_item, with_item, DS_BLOOM)

/* --- Smaller weights. --- */

PG_FUNCTION_INFO_V1(count_min_halve);

/* Returns a sketch with all weights halved, rounded down. */
Datum count_min_halve(PG_FUNCTION_ARGS)
{
    ds_sketch handle = DS_NONE;
    uint8 items = read_argument(fcinfo, 0, DS_COUNT_MIN_U64, &handle).items;
    check_result(ds_count_min_u64_halve(&handle));
    return stored(items, &handle);
}

PG_FUNCTION_INFO_V1(count_min_decay);

/* Returns a sketch with all weights multiplied by a fraction, rounded down. */
Datum count_min_decay(PG_FUNCTION_ARGS)
{
    int64 numerator = PG_GETARG_INT64(1), denominator = PG_GETARG_INT64(2);
    ds_sketch handle = DS_NONE;
    uint8 items = read_argument(fcinfo, 0, DS_COUNT_MIN_U64, &handle).items;
    check_result(numerator < 0 || denominator < 0 ? DS_BAD_FRACTION : ds_count_min_u64_decay(&handle, numerator, denominator));
    return stored(items, &handle);
}

/* --- Two sketches. --- */

PG_FUNCTION_INFO_V1(sketch_union);

/* Returns the union of two sketches of one kind, or the one that is not null. */
Datum sketch_union(PG_FUNCTION_ARGS)
{
    ds_sketch one = DS_NONE, other = DS_NONE, *into = &one, *from = &other;
    Header header;
    if (PG_ARGISNULL(0) && PG_ARGISNULL(1)) PG_RETURN_NULL();
    if (PG_ARGISNULL(0) || PG_ARGISNULL(1)) PG_RETURN_DATUM(PG_GETARG_DATUM(PG_ARGISNULL(0) ? 1 : 0));
    header = read_argument(fcinfo, 0, ANY_KIND, &one);
    header.items |= read_argument(fcinfo, 1, header.kind, &other).items;
    if (is_frequent(header.kind) && has_size_of_union(&other, &one)) into = &other, from = &one;
    merge(into, from);
    ds_free(from);
    return stored(header.items, into);
}

/* A call of the library that leaves a part of the first filter. */
typedef int32_t (*Leave)(ds_sketch *handle, ds_sketch *other);

/* Returns the part of the first filter that a call leaves. Both have a type of items in common, unless one has no items. The result
 * has the types of both if only items of both are left, and otherwise those of the first one. */
static Datum part(FunctionCallInfo fcinfo, Leave leave, bool is_common)
{
    ds_sketch handle = DS_NONE, other = DS_NONE;
    uint8 items = read_argument(fcinfo, 0, DS_BLOOM, &handle).items;
    uint8 others = read_argument(fcinfo, 1, DS_BLOOM, &other).items;
    int32_t result;
    if ((items & others) == NO_ITEMS && items != NO_ITEMS && others != NO_ITEMS)
        raise_items("one filter has strings as items, the other one bigints", NULL);
    result = leave(&handle, &other);
    if (result == DS_MISMATCH) raise_mismatch(&handle, &other);
    check_result(result);
    ds_free(&other);
    return stored(is_common ? items & others : items, &handle);
}

FUNCTION(bloom_filter_intersection, part, ds_bloom_intersect, true)
FUNCTION(bloom_filter_difference, part, ds_bloom_difference, false)
