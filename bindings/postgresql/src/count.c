/* Queries of Count-Min sketches: estimates and upper bounds. */
#include "extension.h"

/* Returns the sketch of the call, with a handle, and reads the call's item. */
static ds_sketch *counts(FunctionCallInfo fcinfo, Kind kind, SketchItem *item)
{
    Kept *kept = kept_handle(fcinfo, kind);
    kept_item(fcinfo, item);
    check_items(kept->sketch, item->type);
    return &kept->handle;
}

/* Each of these writes a number about an item. They return the library's result. */
typedef int32_t (*OfItem)(ds_sketch *handle, const ds_item *item, uint64_t *number);
typedef int32_t (*SignedOfItem)(ds_sketch *handle, const ds_item *item, int64_t *number);

/* These return the call's number of an item, for each type of weights. */

static Datum of_item(FunctionCallInfo fcinfo, OfItem call)
{
    SketchItem item;
    ds_sketch *handle = counts(fcinfo, DS_COUNT_MIN_U64, &item);
    ds_item asked = in_c(&item);
    uint64_t number = 0;
    check_result(call(handle, &asked, &number));
    PG_RETURN_INT64(as_bigint(number));
}

static Datum signed_of_item(FunctionCallInfo fcinfo, SignedOfItem call)
{
    SketchItem item;
    ds_sketch *handle = counts(fcinfo, DS_COUNT_MIN_I64, &item);
    ds_item asked = in_c(&item);
    int64_t number = 0;
    check_result(call(handle, &asked, &number));
    PG_RETURN_INT64(number);
}

FUNCTION(count_min_estimate, of_item, ds_count_min_u64_estimate)
FUNCTION(count_min_upper_bound, of_item, ds_count_min_u64_upper_bound)
FUNCTION(signed_count_min_estimate, signed_of_item, ds_count_min_i64_estimate)
FUNCTION(signed_count_min_upper_bound, signed_of_item, ds_count_min_i64_upper_bound)
