/* The status of a sketch as a row. The type of the row, in `script.sh`, chooses the numbers: each column has the name of a number of
 * `DS_SKETCH_NUMBERS`, but for two. */
#include "extension.h"

#include "catalog/pg_type.h"

/* Returns the number that a column has. */
static uint64 number_named(const char *name, const ds_status *status)
{
    if (strcmp(name, "capacity") == 0) return status->num_bits;
#define IF_NAMED(number, constant, type, member, text) \
    if (strcmp(name, #member) == 0) return status->member;
    DS_SKETCH_NUMBERS(IF_NAMED)
#undef IF_NAMED
    elog(ERROR, "sketches have no number \"%s\"", name);
}

/* Returns the value of a column. */
static Datum value_of(Form_pg_attribute column, const ds_status *status, const Sketch *sketch)
{
    const char *name = NameStr(column->attname);
    if (strcmp(name, "items") == 0) return items_name(sketch);
    switch (column->atttypid) {
    case INT4OID: return Int32GetDatum((int32)number_named(name, status));
    case NUMERICOID: return seed_value(number_named(name, status));
    default: return Int64GetDatum(as_bigint(number_named(name, status)));
    }
}

/* Returns a sketch's numbers as a row. */
static Datum status_row(FunctionCallInfo fcinfo, Kind kind)
{
    Kept *kept = kept_handle(fcinfo, kind);
    ds_status status = status_of(&kept->handle);
    TupleDesc row = kept_row_type(fcinfo);
    Datum *values = palloc(row->natts * sizeof *values);
    bool *nulls = palloc0(row->natts * sizeof *nulls);
    for (int i = 0; i < row->natts; i++) values[i] = value_of(TupleDescAttr(row, i), &status, kept->sketch);
    return kept_row(fcinfo, values, nulls);
}

FUNCTION(bloom_filter_status, status_row, DS_BLOOM)
FUNCTION(count_min_status, status_row, DS_COUNT_MIN_U64)
FUNCTION(signed_count_min_status, status_row, DS_COUNT_MIN_I64)
FUNCTION(frequent_strings_status, status_row, DS_FREQUENT_ITEMS_STRING)
FUNCTION(frequent_bigints_status, status_row, DS_FREQUENT_ITEMS_I64)
