/* The planner's support for queries of an item in a sketch: a short form of a long constant, and for `sketch_contains(filter, item)` the
 * estimate of the rows that pass.
 *
 * If the filter is known when the query is planned, the most common values of the item's column and those of its histogram are looked
 * up in it. If there are too few, the filter's number of items is compared with the column's distinct values, and the false-positive
 * rate is added. If the filter is not known, the default below is the estimate.
 *
 * A plan prints its constants, and a sketch may have some 100 kB. So a long one gets another type in the plan, whose output is short. */
#include "extension.h"

#include <math.h>

#include "access/detoast.h"
#include "access/htup_details.h"
#include "catalog/dependency.h"
#include "catalog/pg_class.h"
#include "catalog/pg_inherits.h"
#include "catalog/pg_proc.h"
#include "catalog/pg_statistic.h"
#include "catalog/pg_type.h"
#include "nodes/makefuncs.h"
#include "nodes/nodeFuncs.h"
#include "nodes/pathnodes.h"
#include "nodes/supportnodes.h"
#include "optimizer/optimizer.h"
#include "utils/lsyscache.h"
#include "utils/selfuncs.h"
#include "utils/syscache.h"

/* The share of rows that pass a filter that is not known when the query is planned. PostgreSQL's own default is one third. */
#define DEFAULT_SHARE 0.05

/* As in PostgreSQL's own estimates: a histogram with fewer values is not used, and one with fewer than 100 only in part. */
#define MIN_HISTOGRAM 10
#define FULL_HISTOGRAM 100

/* A filter, and the form of the values that are looked up in it. */
typedef struct Known {
    const Sketch *filter;
    Form form;
    ds_status status;
} Known;

/* Returns the item's expression without a cast that keeps it: to bigint from a smaller integer. */
static Node *without_cast(Node *item)
{
    if (IsA(item, FuncExpr) && ((FuncExpr *)item)->funcresulttype == INT8OID && list_length(((FuncExpr *)item)->args) == 1) {
        Node *inner = linitial(((FuncExpr *)item)->args);
        Oid type = exprType(inner);
        if (type == INT4OID || type == INT2OID) return inner;
    }
    return item;
}

/* Returns whether the filter of `Known`, in `fn_extra`, contains a value of a column's statistics, the second argument. The query may
 * read no row with such a value. So what is an error there is none here: the value is taken as contained. */
static Datum contains_value(PG_FUNCTION_ARGS)
{
    const Known *known = fcinfo->flinfo->fn_extra;
    SketchItem item;
    read_item(fcinfo, 1, known->form, &item);
    PG_RETURN_BOOL(filter_contains(known->filter, &item) != DS_NO);
}

/* Returns the share of a column's values that a filter contains, by its number of items and its false-positive rate. */
static double modelled(ds_status status, VariableStatData *column)
{
    double fill = (double)status.bits_used / (double)status.num_bits;
    double false_positives = pow(fill, status.num_hashes), items, distinct, share = DEFAULT_SHARE;
    bool is_default = true;
    if (status.bits_used == status.num_bits) return 1;
    items = -(double)status.num_bits / status.num_hashes * log1p(-fill);
    distinct = get_variable_numdistinct(column, &is_default);
    if (!is_default && distinct >= 1) share = Min(1, items / distinct);
    return share + (1 - share) * false_positives;
}

/* Returns the share of rows of a column that a filter contains. `contains` is `contains_value`. */
static double estimated(const Known *known, VariableStatData *column, FmgrInfo *contains, Oid collation)
{
    double common = 0, of_common, others, nulls = 0;
    int size = 0;
    double model = modelled(known->status, column);
    Datum filter = PointerGetDatum(known->filter);
    if (!HeapTupleIsValid(column->statsTuple)) return model;
    if (type_of(known->form) == STRINGS && GetDatabaseEncoding() != PG_UTF8) return model; /* a value may have no place in UTF-8 */
    nulls = ((Form_pg_statistic)GETSTRUCT(column->statsTuple))->stanullfrac;
    of_common = mcv_selectivity(column, contains, collation, filter, false, &common);
    others = histogram_selectivity(column, contains, collation, filter, false, MIN_HISTOGRAM, 1, &size);
    if (others < 0) others = model;
    else if (size < FULL_HISTOGRAM) others = (others * size + model * (FULL_HISTOGRAM - size)) / FULL_HISTOGRAM;
    if (others == 0) others = Min(model, 1.0 / size);
    return of_common + others * Max(0, 1 - nulls - common);
}

/* Reads the numbers of a filter. Returns whether there are any within the limits, and memory. */
static bool read_status(const Sketch *sketch, ds_status *status)
{
    ds_sketch handle = DS_NONE;
    ds_image_options options = {.max_bytes = limit_of(DS_BLOOM, USERS_LIMITS)};
    int32_t result = ds_deserialize(&handle, DS_BLOOM, sketch->image, IMAGE_BYTES(sketch), &options);
    take_refused();
    if (result < 0) return false;
    *status = status_of(&handle);
    ds_free(&handle);
    return true;
}

/* Returns the share of rows for a filter that is known. The default is taken for one that is not read, or has no items of the type,
 * which is an error if a row is read. */
static double known_share(SupportRequestSelectivity *request, Const *filter)
{
    Sketch *sketch = (Sketch *)counted_detoast(filter->constvalue);
    Node *item = without_cast(lsecond(request->args));
    Known known = {sketch, form_of(exprType(item)), {0}};
    FmgrInfo contains = {.fn_addr = contains_value,
                         .fn_oid = request->funcid,
                         .fn_nargs = 2,
                         .fn_strict = true,
                         .fn_extra = &known,
                         .fn_mcxt = CurrentMemoryContext};
    double share = DEFAULT_SHARE;
    VariableStatData column;
    if (known.form != NO_FORM && is_sound(sketch, DS_BLOOM) && may_have(sketch, type_of(known.form)) &&
        read_status(sketch, &known.status)) {
        examine_variable(request->root, item, request->varRelid, &column);
        share = estimated(&known, &column, &contains, request->inputcollid);
        ReleaseVariableStats(column);
    }
    free_copy(sketch, filter->constvalue);
    return share;
}

/* A shorter constant stays as it is. */
#define LONG_CONSTANT 1024

/* Returns whether a table is foreign, or one that inherits from it is, as a partition may be. */
static bool is_foreign(const RangeTblEntry *table)
{
    ListCell *cell;
    if (table->relkind == RELKIND_FOREIGN_TABLE) return true;
    if (!table->inh || !has_subclass(table->relid)) return false;
    foreach (cell, find_all_inheritors(table->relid, NoLock, NULL))
        if (get_rel_relkind(lfirst_oid(cell)) == RELKIND_FOREIGN_TABLE) return true;
    return false;
}

/* Returns whether a query reads foreign tables. Their servers would get the short form. */
static bool reads_foreign(const Query *query)
{
    ListCell *cell;
    foreach (cell, query->rtable) {
        const RangeTblEntry *table = lfirst(cell);
        if (table->rtekind == RTE_RELATION && is_foreign(table)) return true;
        if (table->rtekind == RTE_SUBQUERY && table->subquery != NULL && reads_foreign(table->subquery)) return true;
    }
    return false;
}

/* Returns the extension's type `sketch_constant`, or InvalidOid. The user may have no rights to the schema, so names are not resolved. The
 * owner of an extension can add types to it, but only a superuser can create base types. */
static Oid constant_type(Oid function)
{
    Oid extension = getExtensionOfObject(ProcedureRelationId, function), found = InvalidOid;
    HeapTuple tuple =
        SearchSysCache2(TYPENAMENSP, CStringGetDatum("sketch_constant"), ObjectIdGetDatum(get_func_namespace(function)));
    if (HeapTupleIsValid(tuple)) {
        Form_pg_type type = (Form_pg_type)GETSTRUCT(tuple);
        bool is_base = type->typtype == TYPTYPE_BASE && type->typlen == -1;
        if (is_base && OidIsValid(extension) && getExtensionOfObject(TypeRelationId, type->oid) == extension) found = type->oid;
        ReleaseSysCache(tuple);
    }
    return found;
}

/* Returns the call of a query with its constant sketch in the short form, or null if the call stays as it is. The constant has another
 * type, under a cast that changes no byte. */
static Node *with_short_constant(SupportRequestSimplify *request)
{
    FuncExpr *call = request->fcall, *changed;
    Const *sketch = linitial(call->args), *constant;
    Oid type;
    if (!IsA(sketch, Const) || sketch->constisnull || toast_raw_datum_size(sketch->constvalue) < LONG_CONSTANT) return NULL;
    if (request->root != NULL && reads_foreign(request->root->parse)) return NULL;
    type = constant_type(call->funcid);
    if (!OidIsValid(type)) return NULL;
    constant = copyObject(sketch);
    constant->consttype = type;
    changed = copyObject(call);
    linitial(changed->args) =
        makeRelabelType((Expr *)constant, sketch->consttype, sketch->consttypmod, sketch->constcollid, COERCE_IMPLICIT_CAST);
    return (Node *)changed;
}

PG_FUNCTION_INFO_V1(sketch_constant_in);

/* Raises an error: there is no text of a sketch in a plan. */
Datum sketch_constant_in(PG_FUNCTION_ARGS)
{
    (void)fcinfo;
    ereport(ERROR, (errcode(ERRCODE_FEATURE_NOT_SUPPORTED), errmsg("a sketch in a plan is not read")));
    pg_unreachable();
}

PG_FUNCTION_INFO_V1(sketch_constant_out);

/* Returns what a plan shows of a sketch: its size. */
Datum sketch_constant_out(PG_FUNCTION_ARGS)
{
    PG_RETURN_CSTRING(psprintf("%zu bytes", toast_raw_datum_size(PG_GETARG_DATUM(0)) - VARHDRSZ));
}

/* Serves the planner's request for the selectivity of `contains`. */
static void estimate(SupportRequestSelectivity *request)
{
    Node *filter = estimate_expression_value(request->root, linitial(request->args));
    if (!IsA(filter, Const)) request->selectivity = DEFAULT_SHARE;
    else if (((Const *)filter)->constisnull) request->selectivity = 0;
    else request->selectivity = known_share(request, (Const *)filter);
    request->selectivity = Min(1, Max(0, request->selectivity));
}

PG_FUNCTION_INFO_V1(sketch_support);

/* Serves the planner's requests for queries of an item: the short form of a constant for each, and the estimate for `contains`. */
Datum sketch_support(PG_FUNCTION_ARGS)
{
    Node *node = (Node *)PG_GETARG_POINTER(0), *answer = NULL;
    if (IsA(node, SupportRequestSelectivity) && list_length(((SupportRequestSelectivity *)node)->args) == 2) {
        estimate((SupportRequestSelectivity *)node);
        answer = node;
    } else if (IsA(node, SupportRequestSimplify) && list_length(((SupportRequestSimplify *)node)->fcall->args) == 2) {
        answer = with_short_constant((SupportRequestSimplify *)node);
    }
    PG_RETURN_POINTER(answer);
}
