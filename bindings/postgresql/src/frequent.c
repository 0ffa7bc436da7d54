/* Queries of frequent items: bounds and rows. */
#include "extension.h"

#include "funcapi.h"
#include "miscadmin.h"
#include "utils/builtins.h"
#include "utils/memutils.h"
#include "utils/tuplestore.h"

/* --- Bounds of an item. --- */

/* Returns the bounds of the call's item. */
static ds_item_bounds bounds_of(FunctionCallInfo fcinfo, Kind kind)
{
    ds_sketch *handle = &kept_handle(fcinfo, kind)->handle;
    ds_item_bounds bounds = {0, 0, 0};
    SketchItem item;
    ds_item asked;
    kept_item(fcinfo, &item);
    asked = in_c(&item);
    check_result(ds_frequent_items_bounds(handle, &asked, &bounds));
    return bounds;
}

/* Returns the bounds of an item as a row. */
static Datum bounds_row(FunctionCallInfo fcinfo, Kind kind)
{
    ds_item_bounds bounds = bounds_of(fcinfo, kind);
    bool nulls[3] = {false, false, false};
    Datum values[3];
    values[0] = Int64GetDatum(as_bigint(bounds.lower_bound));
    values[1] = Int64GetDatum(as_bigint(bounds.estimate));
    values[2] = Int64GetDatum(as_bigint(bounds.upper_bound));
    return kept_row(fcinfo, values, nulls);
}

/* --- Rows. --- */

/* Begins a result of many rows, which are stored before the call returns. */
static Tuplestorestate *begin_rows(FunctionCallInfo fcinfo, TupleDesc *row)
{
    ReturnSetInfo *result = (ReturnSetInfo *)fcinfo->resultinfo;
    MemoryContext before;
    if (result == NULL || !IsA(result, ReturnSetInfo) || (result->allowedModes & SFRM_Materialize) == 0)
        ereport(ERROR, (errcode(ERRCODE_FEATURE_NOT_SUPPORTED), errmsg("the function returns rows in a place that takes none")));
    before = MemoryContextSwitchTo(result->econtext->ecxt_per_query_memory);
    if (get_call_result_type(fcinfo, NULL, row) != TYPEFUNC_COMPOSITE) elog(ERROR, "return type must be a row type");
    result->returnMode = SFRM_Materialize;
    result->setDesc = *row;
    result->setResult = tuplestore_begin_heap((result->allowedModes & SFRM_Materialize_Random) != 0, false, work_mem);
    MemoryContextSwitchTo(before);
    return result->setResult;
}

/* Returns whether the mode asks for no false negatives. */
static bool no_false_negatives(FunctionCallInfo fcinfo)
{
    char *mode = text_to_cstring(PG_GETARG_TEXT_PP(1));
    if (strcmp(mode, "no_false_negatives") == 0) return true;
    if (strcmp(mode, "no_false_positives") == 0) return false;
    raise_argument("the mode must be no_false_negatives or no_false_positives");
}

/* Returns a string of a sketch in the database's encoding. */
static Datum string_value(const uint8_t *bytes, size_t length)
{
    char *own = pg_any_to_server((const char *)bytes, (int)length, PG_UTF8);
    size_t own_length = own == (const char *)bytes ? length : strlen(own);
    Datum value = PointerGetDatum(cstring_to_text_with_len(own, (int)own_length));
    if (own != (const char *)bytes) pfree(own);
    return value;
}

/* The rows of a sketch, as the library writes them. */
typedef struct Rows {
    size_t count;
    ds_item_bounds *bounds;
    int64_t *bigints;
    uint8_t *bytes;
    uint64_t *offsets;
    size_t *order; /* the numbers of the rows in the order of the result */
} Rows;

/* Allocates room for a number of values. */
static void *room_for(size_t count, size_t bytes)
{
    return counted_alloc((count + 1) * bytes);
}

/* Returns the rows of a sketch of bigints. */
static Rows bigint_rows(ds_sketch *handle, bool negatives, uint64 threshold)
{
    size_t count = status_of(handle).num_active_items;
    Rows rows = {0};
    rows.bounds = room_for(count, sizeof *rows.bounds);
    rows.bigints = room_for(count, sizeof *rows.bigints);
    check_result(
        ds_frequent_items_i64_rows(handle, negatives, threshold, SIZE_MAX, rows.bigints, count, rows.bounds, count, &rows.count));
    return rows;
}

/* Returns the rows of a sketch of strings, whose bytes take at most `num_bytes`. */
static Rows string_rows(ds_sketch *handle, bool negatives, uint64 threshold, size_t num_bytes)
{
    size_t count = status_of(handle).num_active_items;
    Rows rows = {0};
    rows.bounds = room_for(count, sizeof *rows.bounds);
    rows.offsets = room_for(count + 1, sizeof *rows.offsets);
    rows.bytes = room_for(num_bytes, 1);
    check_result(ds_frequent_items_string_rows(handle, negatives, threshold, SIZE_MAX, rows.bytes, num_bytes, rows.offsets,
                                               count + 1, rows.bounds, count, &rows.count, &num_bytes));
    return rows;
}

/* Frees the rows of a sketch. */
static void free_rows(Rows *rows)
{
    void *blocks[] = {rows->bounds, rows->bigints, rows->bytes, rows->offsets, rows->order};
    for (size_t i = 0; i < lengthof(blocks); i++)
        if (blocks[i] != NULL) counted_free(blocks[i]);
}

/* Compares the items of two rows, by their numbers: strings by their bytes. */
static int compare_items(const void *one, const void *other, void *argument)
{
    const Rows *rows = argument;
    size_t i = *(const size_t *)one, j = *(const size_t *)other, first, second;
    int order;
    if (rows->bigints != NULL) return (rows->bigints[i] > rows->bigints[j]) - (rows->bigints[i] < rows->bigints[j]);
    first = rows->offsets[i + 1] - rows->offsets[i];
    second = rows->offsets[j + 1] - rows->offsets[j];
    order = memcmp(rows->bytes + rows->offsets[i], rows->bytes + rows->offsets[j], Min(first, second));
    return order != 0 ? order : (first > second) - (first < second);
}

/* Orders the rows, which come in descending order of estimates: those of equal ones by their items. */
static void order_rows(Rows *rows)
{
    rows->order = room_for(rows->count, sizeof *rows->order);
    for (size_t i = 0; i < rows->count; i++) rows->order[i] = i;
    for (size_t i = 0, end; i < rows->count; i = end) {
        for (end = i + 1; end < rows->count && rows->bounds[end].estimate == rows->bounds[i].estimate;) end++;
        if (end - i > 1) qsort_interruptible(rows->order + i, end - i, sizeof *rows->order, compare_items, rows);
    }
}

/* Puts the rows of a sketch into the call's result, in descending order of estimates. The call has a mode and a threshold, or the most
 * rows to return. */
static Datum rows_of(FunctionCallInfo fcinfo, Kind kind)
{
    bool has_limit = PG_NARGS() == 2, has_strings = kind == DS_FREQUENT_ITEMS_STRING;
    bool negatives = has_limit || no_false_negatives(fcinfo), nulls[4] = {false, false, false, false};
    int64 threshold = has_limit ? 0 : PG_GETARG_INT64(2), limit = has_limit ? PG_GETARG_INT64(1) : PG_INT64_MAX;
    ds_sketch handle = DS_NONE;
    TupleDesc row;
    Tuplestorestate *store;
    Sketch *sketch;
    Rows rows;
    size_t bytes;
    if (threshold < 0) raise_argument("the threshold must not be below 0");
    if (limit < 0) raise_argument("max_rows must not be below 0");
    store = begin_rows(fcinfo, &row);
    sketch = detoast_sketch(PG_GETARG_DATUM(0), kind);
    bytes = IMAGE_BYTES(sketch);
    load(sketch, &handle);
    free_copy(sketch, PG_GETARG_DATUM(0));
    rows = has_strings ? string_rows(&handle, negatives, threshold, bytes) : bigint_rows(&handle, negatives, threshold);
    ds_free(&handle);
    order_rows(&rows);
    for (size_t k = 0; k < Min(rows.count, (uint64)limit); k++) {
        size_t i = rows.order[k];
        Datum values[4];
        CHECK_FOR_INTERRUPTS();
        values[0] = has_strings ? string_value(rows.bytes + rows.offsets[i], rows.offsets[i + 1] - rows.offsets[i])
                                : Int64GetDatum(rows.bigints[i]);
        values[1] = Int64GetDatum(as_bigint(rows.bounds[i].lower_bound));
        values[2] = Int64GetDatum(as_bigint(rows.bounds[i].estimate));
        values[3] = Int64GetDatum(as_bigint(rows.bounds[i].upper_bound));
        tuplestore_putvalues(store, row, values, nulls);
        if (has_strings) pfree(DatumGetPointer(values[0]));
    }
    free_rows(&rows);
    return (Datum)0;
}

#define BOUND(name, kind, bound) \
    PG_FUNCTION_INFO_V1(name); \
    Datum name(PG_FUNCTION_ARGS) \
    { \
        PG_RETURN_INT64(as_bigint(bounds_of(fcinfo, kind).bound)); \
    }
#define QUERIES(type, kind) \
    BOUND(type##_lower_bound, kind, lower_bound) \
    BOUND(type##_estimate, kind, estimate) \
    BOUND(type##_upper_bound, kind, upper_bound) \
    FUNCTION(type##_bounds, bounds_row, kind) \
    FUNCTION(type##_rows, rows_of, kind)

QUERIES(frequent_strings, DS_FREQUENT_ITEMS_STRING)
QUERIES(frequent_bigints, DS_FREQUENT_ITEMS_I64)
