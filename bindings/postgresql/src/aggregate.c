/* Aggregates: states, their rows, and how workers pass them on.
 *
 * A state lives in the memory context of its aggregate, and so does all that the library allocates for it. */
#include "extension.h"
#include "update.h"

#include "access/htup_details.h"
#include "catalog/pg_aggregate.h"
#include "catalog/pg_type.h"
#include "nodes/execnodes.h"
#include "nodes/nodeFuncs.h"
#include "optimizer/optimizer.h"
#include "utils/builtins.h"
#include "utils/lsyscache.h"
#include "utils/memutils.h"
#include "utils/numeric.h"
#include "utils/syscache.h"

/* Stored sketches are merged in batches. A merge of frequent items copies the table, so one merge of many sketches costs less than
 * many merges of one. A batch ends with the sketch that fills one of these limits. The bytes are those of the sketches: a short image
 * may be of a large one. */
#define MAX_IN_BATCH 16
#define BYTES_IN_BATCH (1024 * 1024)

/* Sketches that are read and not yet merged. */
typedef struct Batch {
    size_t count;
    size_t bytes;
    ds_sketch handles[MAX_IN_BATCH];
} Batch;

/* The types that weights may have. */
typedef enum WeightType { BIGINT_WEIGHT, INTEGER_WEIGHT, SMALLINT_WEIGHT, NUMERIC_WEIGHT } WeightType;

/* The rows of a frame that moves: their number, and the sum of their weights without signs. */
typedef struct Frame {
    uint64 rows;
    uint64 total;
} Frame;

/* A sketch that takes rows. A state from a worker has no sketch yet: it keeps an image until it is combined. */
typedef struct State {
    ds_sketch handle;
    MemoryContext context;
    uint8 kind;
    uint8 items;
    bool has_sketch;
    Form form;          /* of the type of the call's items */
    WeightType weights; /* the type of the call's weights, if it has any */
    Datum sizes[2];     /* the size arguments of the first row */
    Frame frame;        /* of a frame that moves */
    Batch *batch;       /* in unions, after the first sketch */
    size_t unchecked;   /* the bytes of strings that came after the limit was checked */
    const void *image;
    size_t image_bytes;
    uint64 seed; /* of the image */
} State;

/* What a worker passes on: a state as a bytea, which may lie at any multiple of 4 bytes. */
typedef struct Message {
    int32 length; /* PostgreSQL's own: of the whole */
    uint8 kind;
    uint8 items;
    uint8 zero[2];
    uint8 sizes[2 * sizeof(Datum)];
    uint8 seed[sizeof(uint64)];
    uint8 image[FLEXIBLE_ARRAY_MEMBER];
} Message;

/* Returns the context of the aggregate that calls. */
static MemoryContext aggregate_context(FunctionCallInfo fcinfo)
{
    MemoryContext context;
    if (!AggCheckCallContext(fcinfo, &context)) elog(ERROR, "the function was not called as part of an aggregate");
    return context;
}

/* Returns the state in an argument, or NULL. */
static inline State *state_argument(FunctionCallInfo fcinfo, int number)
{
    return PG_ARGISNULL(number) ? NULL : (State *)PG_GETARG_POINTER(number);
}

/* Returns a state, or null, as the result of the call. */
static inline Datum state_result(FunctionCallInfo fcinfo, State *state)
{
    if (state == NULL) PG_RETURN_NULL();
    PG_RETURN_POINTER(state);
}

/* Returns a new state without a sketch. */
static State *new_state(FunctionCallInfo fcinfo, Kind kind, uint8 items)
{
    MemoryContext context = aggregate_context(fcinfo);
    State *state = MemoryContextAllocZero(context, sizeof(State));
    state->context = context;
    state->kind = kind;
    state->items = items;
    return state;
}

/* --- Weights. Their argument is polymorphic: overloads for bigint and numeric would leave a call with an integer ambiguous. --- */

/* Returns the type of weights whose expression has this type. Raises an error for a type that weights do not have. */
static WeightType type_of_weights(Oid type)
{
    switch (getBaseType(type)) {
    case INT8OID: return BIGINT_WEIGHT;
    case INT4OID: return INTEGER_WEIGHT;
    case INT2OID: return SMALLINT_WEIGHT;
    case NUMERICOID: return NUMERIC_WEIGHT;
    }
    ereport(ERROR, (errcode(ERRCODE_DATATYPE_MISMATCH),
                    errmsg("weights must be of type smallint, integer, bigint or numeric, not %s", format_type_be(type)),
                    errhint("Cast the weight to bigint.")));
    pg_unreachable();
}

/* Returns a numeric weight. Raises an error unless it is a whole number and a bigint. */
static int64 numeric_weight(Datum datum)
{
    Numeric weight = DatumGetNumeric(datum);
    Datum number = NumericGetDatum(weight);
    int64 whole;
    if (numeric_is_nan(weight) || numeric_is_inf(weight))
        ereport(ERROR, (errcode(ERRCODE_NUMERIC_VALUE_OUT_OF_RANGE), errmsg("the weight must be a number")));
    whole = DatumGetInt64(DirectFunctionCall1(numeric_int8, number));
    if (DatumGetInt32(DirectFunctionCall1(numeric_scale, number)) == 0) return whole;
    if (!DatumGetBool(DirectFunctionCall2(numeric_eq, number, NumericGetDatum(int64_to_numeric(whole)))))
        raise_argument("the weight must be a whole number");
    return whole;
}

/* Returns a weight of some type as a bigint. */
static inline int64 weight_of(Datum datum, WeightType type)
{
    if (likely(type == BIGINT_WEIGHT)) return DatumGetInt64(datum);
    if (type == INTEGER_WEIGHT) return DatumGetInt32(datum);
    if (type == SMALLINT_WEIGHT) return DatumGetInt16(datum);
    return numeric_weight(datum);
}

/* Raises an error if a weight of a call without sizes is the same number for items of many rows, and is not 1: it is meant as the size. */
static void check_constant(Node *item, const Node *weight, WeightType type, Datum datum)
{
    int64 number;
    if (!contain_var_clause(item)) return;
    if (IsA(weight, Const)) {
        if (((const Const *)weight)->constisnull) return;
        datum = ((const Const *)weight)->constvalue;
    } else if (!IsA(weight, Param) || ((const Param *)weight)->paramkind != PARAM_EXTERN) {
        return;
    }
    number = weight_of(datum, type);
    if (number != 1)
        ereport(ERROR, (errcode(ERRCODE_INVALID_PARAMETER_VALUE),
                        errmsg("the second argument is a weight, and " INT64_FORMAT " is that of each row", number),
                        errdetail("The size is the third argument."),
                        errhint("Write (item, 1, " INT64_FORMAT ") for this size, or (item, " INT64_FORMAT ", %d) for this weight.",
                                number, number, DEFAULT_MAX_MAP_SIZE)));
}

/* Returns an argument of an aggregate's call. */
static Node *argument_of(const Aggref *call, int number)
{
    return (Node *)list_nth_node(TargetEntry, call->args, number)->expr;
}

/* Returns whether an aggregate has this transition function. */
static bool has_step(Oid aggregate, Oid function)
{
    HeapTuple tuple = SearchSysCache1(AGGFNOID, ObjectIdGetDatum(aggregate));
    bool has = HeapTupleIsValid(tuple) && ((Form_pg_aggregate)GETSTRUCT(tuple))->aggtransfn == function;
    if (HeapTupleIsValid(tuple)) ReleaseSysCache(tuple);
    return has;
}

/* Checks the weight of a call that has no size, by `check_constant`. Calls over one window share their functions, so all of them
 * are checked that have as many arguments. */
static void check_weight_argument(FunctionCallInfo fcinfo, WeightType type)
{
    Aggref *aggregate = AggGetAggref(fcinfo);
    ListCell *cell;
    if (aggregate != NULL) {
        check_constant(argument_of(aggregate, 0), argument_of(aggregate, 1), type, PG_GETARG_DATUM(2));
    } else if (fcinfo->context != NULL && IsA(fcinfo->context, WindowAggState)) {
        foreach (cell, ((WindowAggState *)fcinfo->context)->funcs) {
            WindowFunc *call = ((WindowFuncExprState *)lfirst(cell))->wfunc;
            Node *weight = list_length(call->args) == 2 ? lsecond(call->args) : NULL;
            if (call->winagg && weight != NULL && IsA(weight, Const) && has_step(call->winfnoid, fcinfo->flinfo->fn_oid))
                check_constant(linitial(call->args), weight, type_of_weights(exprType(weight)), (Datum)0);
        }
    }
}

/* --- Rows. --- */

/* Raises an error if a size is null. */
static inline void check_size(FunctionCallInfo fcinfo, int number)
{
    if (unlikely(PG_ARGISNULL(number)))
        ereport(ERROR, (errcode(ERRCODE_NULL_VALUE_NOT_ALLOWED), errmsg("a size of a sketch must not be null")));
}

/* The parts of a call that adds a row, known when the file is compiled. The call's arguments are the state, the item, a weight, which
 * filters do not have, and sizes. */
typedef struct Row {
    Kind kind;
    int number; /* of the first argument that is a size: 3 after a weight, and 2 otherwise */
    Make make;
} Row;

/* Returns whether the call has weights. Calls of frequent items leave out the weight only if they leave out the sizes too. */
static inline bool has_weights(FunctionCallInfo fcinfo, Row row)
{
    return is_frequent(row.kind) ? PG_NARGS() > 2 : row.number == 3;
}

/* Puts an empty sketch of the first row's sizes into a state. */
static void begin(FunctionCallInfo fcinfo, State *state, Row row)
{
    MemoryContext before;
    state->form = form_argument(fcinfo, 1, row.kind);
    state->items = type_of(state->form);
    if (has_weights(fcinfo, row)) state->weights = type_of_weights(get_fn_expr_argtype(fcinfo->flinfo, 2));
    if (is_frequent(row.kind) && PG_NARGS() == 3) check_weight_argument(fcinfo, state->weights);
    for (int i = row.number; i < PG_NARGS(); i++) {
        check_size(fcinfo, i);
        state->sizes[i - row.number] = PG_GETARG_DATUM(i);
    }
    before = MemoryContextSwitchTo(state->context);
    row.make(fcinfo, row.kind, &state->handle, row.number);
    MemoryContextSwitchTo(before);
    state->has_sketch = true;
}

/* Raises an error if the sizes differ from those of the first row. */
static inline void check_sizes(FunctionCallInfo fcinfo, const State *state, int number)
{
    for (int i = number; i < PG_NARGS(); i++) {
        check_size(fcinfo, i);
        if (unlikely(PG_GETARG_DATUM(i) != state->sizes[i - number])) raise_sizes();
    }
}

/* Checks the limit of a state of strings each time that a quarter of it has come. So a state exceeds it by little before the group
 * ends. */
static inline void check_strings(State *state, size_t length)
{
    state->unchecked += length;
    if (likely(state->unchecked < limit_of(DS_FREQUENT_ITEMS_STRING, USERS_LIMITS) / 4)) return;
    check_limit(&state->handle, USERS_LIMITS);
    state->unchecked = 0;
}

/* Returns whether the row's item and its weight, if any, are not null. Other rows are ignored. */
static inline bool is_counted(FunctionCallInfo fcinfo, Row row)
{
    return !PG_ARGISNULL(1) && !(has_weights(fcinfo, row) && PG_ARGISNULL(2));
}

/* Returns the row's weight, which is 1 if the call has none. */
static inline int64 row_weight(FunctionCallInfo fcinfo, const State *state, Row row)
{
    return has_weights(fcinfo, row) ? weight_of(PG_GETARG_DATUM(2), state->weights) : 1;
}

/* Adds the row's item to the state's sketch. Returns the library's result. */
static pg_attribute_always_inline int32_t add_to_state(State *state, Kind kind, const SketchItem *item, int64 weight)
{
    MemoryContext before = MemoryContextSwitchTo(state->context);
    int32_t result = add_item(kind, &state->handle, item, weight);
    MemoryContextSwitchTo(before);
    return result;
}

/* Adds a row to the state, or begins a state. */
static pg_attribute_always_inline Datum add_row(FunctionCallInfo fcinfo, Row row)
{
    State *state = state_argument(fcinfo, 0);
    int64 weight;
    SketchItem item;
    if (!is_counted(fcinfo, row)) return state_result(fcinfo, state);
    if (unlikely(state == NULL)) begin(fcinfo, state = new_state(fcinfo, row.kind, NO_ITEMS), row);
    else check_sizes(fcinfo, state, row.number);
    weight = row_weight(fcinfo, state, row);
    check_weight(row.kind, weight);
    read_item(fcinfo, 1, state->form, &item);
    check_result(add_to_state(state, row.kind, &item, weight));
    if (row.kind == DS_FREQUENT_ITEMS_STRING) check_strings(state, item.string.length);
    PG_RETURN_POINTER(state);
}

#define ROW(name, add, ...) FUNCTION(name, add, ((Row){__VA_ARGS__}))
#define ROWS(name, add, kind, number, prefix) \
    ROW(name##_by_size, add, kind, number, prefix##_by_size) \
    ROW(name##_by_error, add, kind, number, prefix##_by_error)

ROWS(frequent_strings_add, add_row, DS_FREQUENT_ITEMS_STRING, 3, frequent)
ROWS(frequent_bigints_add, add_row, DS_FREQUENT_ITEMS_I64, 3, frequent)
ROWS(count_min_add, add_row, DS_COUNT_MIN_U64, 2, count)
ROWS(count_min_add_weighted, add_row, DS_COUNT_MIN_U64, 3, count)
ROWS(signed_count_min_add, add_row, DS_COUNT_MIN_I64, 2, count)
ROWS(signed_count_min_add_weighted, add_row, DS_COUNT_MIN_I64, 3, count)
ROWS(bloom_filter_add, add_row, DS_BLOOM, 2, filter)

/* --- Frames of windows that move: a row that leaves a frame is added again with its weight negated, so each row costs two updates.
 * The cells are then those of the frame's rows. The library's total counts all weights without their signs, so it is more than that
 * of the frame's rows, which the state counts. --- */

#define TOTAL 16 /* the first byte of the total in an image of counts, of 8 bytes, lowest first */

/* Reads the sketch anew with the total of the frame's rows, which no cell exceeds. */
static void settle(State *state)
{
    MemoryContext before = MemoryContextSwitchTo(state->context);
    ds_status status = status_of(&state->handle);
    if (status.total_weight != state->frame.total) {
        struct varlena *image = write_image(&state->handle, VARHDRSZ);
        for (int i = 0; i < 8; i++) VARDATA(image)[TOTAL + i] = state->frame.total >> 8 * i & 0xff;
        ds_free(&state->handle);
        read_image(state->kind, &state->handle, VARDATA(image), VARSIZE(image) - VARHDRSZ, status.seed, NO_LIMITS);
        counted_free(image);
    }
    MemoryContextSwitchTo(before);
}

/* Returns a weight without its sign. */
static inline uint64 magnitude(int64 weight)
{
    return weight < 0 ? -(uint64)weight : (uint64)weight;
}

/* Adds a row to the state, which is never null here, as PostgreSQL requires. */
static pg_attribute_always_inline Datum enter_row(FunctionCallInfo fcinfo, Row row)
{
    State *state = state_argument(fcinfo, 0);
    int64 weight;
    int32_t result;
    SketchItem item;
    if (state == NULL) state = new_state(fcinfo, row.kind, NO_ITEMS);
    if (!is_counted(fcinfo, row)) PG_RETURN_POINTER(state);
    if (unlikely(!state->has_sketch)) begin(fcinfo, state, row);
    else check_sizes(fcinfo, state, row.number);
    weight = row_weight(fcinfo, state, row);
    read_item(fcinfo, 1, state->form, &item);
    result = add_to_state(state, row.kind, &item, weight);
    if (unlikely(result == DS_WEIGHT_OVERFLOW)) {
        settle(state);
        result = add_to_state(state, row.kind, &item, weight);
    }
    check_result(result);
    state->frame.rows++;
    state->frame.total += magnitude(weight);
    PG_RETURN_POINTER(state);
}

/* Removes a row from the state. Returns null if the total has no room for it: PostgreSQL then begins with the frame's first row. */
static pg_attribute_always_inline Datum leave_row(FunctionCallInfo fcinfo, Row row)
{
    State *state = state_argument(fcinfo, 0);
    int64 weight;
    int32_t result;
    SketchItem item;
    if (!is_counted(fcinfo, row)) return state_result(fcinfo, state);
    if (state == NULL || !state->has_sketch) elog(ERROR, "a row left a frame that does not have it");
    weight = row_weight(fcinfo, state, row);
    state->frame.total -= magnitude(weight);
    if (--state->frame.rows == 0) {
        ds_free(&state->handle);
        state->has_sketch = false;
        PG_RETURN_POINTER(state);
    }
    read_item(fcinfo, 1, state->form, &item);
    result = add_to_state(state, row.kind, &item, (int64) - (uint64)weight);
    if (result == DS_WEIGHT_OVERFLOW) PG_RETURN_NULL();
    check_result(result);
    PG_RETURN_POINTER(state);
}

ROWS(signed_count_min_enter, enter_row, DS_COUNT_MIN_I64, 2, count)
ROWS(signed_count_min_enter_weighted, enter_row, DS_COUNT_MIN_I64, 3, count)
ROW(signed_count_min_leave, leave_row, DS_COUNT_MIN_I64, 2, NULL)
ROW(signed_count_min_leave_weighted, leave_row, DS_COUNT_MIN_I64, 3, NULL)

PG_FUNCTION_INFO_V1(signed_count_min_of_frame);

/* Returns the sketch of a frame, or null if it has no rows. */
Datum signed_count_min_of_frame(PG_FUNCTION_ARGS)
{
    State *state = state_argument(fcinfo, 0);
    aggregate_context(fcinfo);
    if (state == NULL || !state->has_sketch) PG_RETURN_NULL();
    settle(state);
    PG_RETURN_POINTER(store(state->items, &state->handle));
}

/* --- Unions. --- */

/* Raises the error of a merge: the first sketch of a batch that has another shape than the state's is named. */
static void raise_merge(State *state, int32_t result)
{
    for (size_t i = 0; result == DS_MISMATCH && i < state->batch->count; i++) {
        ds_status one = status_of(&state->handle), other = status_of(&state->batch->handles[i]);
        if (one.num_bits != other.num_bits || one.num_buckets != other.num_buckets || one.num_hashes != other.num_hashes ||
            one.seed != other.seed)
            raise_mismatch(&state->handle, &state->batch->handles[i]);
    }
    raise_result(result);
}

/* Merges the sketches of a state's batch, if any, into its sketch. */
static void flush(State *state)
{
    Batch *batch = state->batch;
    MemoryContext before;
    int32_t result;
    if (batch == NULL || batch->count == 0) return;
    before = MemoryContextSwitchTo(state->context);
    result = ds_merge_all(&state->handle, batch->handles, batch->count);
    MemoryContextSwitchTo(before);
    if (unlikely(result < 0)) raise_merge(state, result);
    for (size_t i = 0; i < batch->count; i++) ds_free(&batch->handles[i]);
    batch->count = batch->bytes = 0;
}

/* Merges the state's sketch into another one, which then replaces it. */
static void merge_into(ds_sketch *other, State *state)
{
    merge(other, &state->handle);
    check_result(ds_clone(&state->handle, other));
    ds_free(other);
}

/* Reads an image into a state that has no sketch, or else into its batch. */
static void add_image(State *state, const void *image, size_t bytes, uint64 seed, Limits limits)
{
    MemoryContext before = MemoryContextSwitchTo(state->context);
    if (!state->has_sketch) {
        read_image(state->kind, &state->handle, image, bytes, seed, limits);
        state->has_sketch = true;
    } else {
        Batch *batch = state->batch;
        ds_sketch *next;
        if (batch == NULL) batch = state->batch = palloc0(sizeof(Batch));
        next = &batch->handles[batch->count];
        read_image(state->kind, next, image, bytes, seed, limits);
        if (is_frequent(state->kind) && has_size_of_union(next, &state->handle)) {
            merge_into(next, state);
        } else {
            batch->bytes += bytes_of(next);
            batch->count++;
        }
        if (batch->count == MAX_IN_BATCH || batch->bytes >= BYTES_IN_BATCH) flush(state);
    }
    MemoryContextSwitchTo(before);
}

PG_FUNCTION_INFO_V1(state_add_sketch);

/* Adds a stored sketch to the state, or begins a state with it. A null is ignored. */
Datum state_add_sketch(PG_FUNCTION_ARGS)
{
    State *state = state_argument(fcinfo, 0);
    Sketch *sketch;
    if (PG_ARGISNULL(1)) return state_result(fcinfo, state);
    sketch = detoast_sketch(PG_GETARG_DATUM(1), state == NULL ? ANY_KIND : state->kind);
    if (state == NULL) state = new_state(fcinfo, kind_of(sketch), sketch->items);
    add_image(state, sketch->image, IMAGE_BYTES(sketch), seed_of(sketch), USERS_LIMITS);
    state->items |= sketch->items;
    free_copy(sketch, PG_GETARG_DATUM(1));
    PG_RETURN_POINTER(state);
}

/* --- The end of a group, and workers. --- */

PG_FUNCTION_INFO_V1(state_final);

/* Returns the state's sketch, which stays as it was, or null if there were no rows. */
Datum state_final(PG_FUNCTION_ARGS)
{
    State *state = state_argument(fcinfo, 0);
    aggregate_context(fcinfo);
    if (state == NULL) PG_RETURN_NULL();
    flush(state);
    PG_RETURN_POINTER(store(state->items, &state->handle));
}

PG_FUNCTION_INFO_V1(state_serial);

/* Returns a worker's state as bytes. */
Datum state_serial(PG_FUNCTION_ARGS)
{
    State *state = (State *)PG_GETARG_POINTER(0);
    Message *message;
    uint64 seed;
    aggregate_context(fcinfo);
    flush(state);
    seed = status_of(&state->handle).seed;
    message = (Message *)write_image(&state->handle, offsetof(Message, image));
    message->kind = state->kind;
    message->items = state->items;
    memset(message->zero, 0, sizeof message->zero);
    memcpy(message->sizes, state->sizes, sizeof message->sizes);
    memcpy(message->seed, &seed, sizeof message->seed);
    PG_RETURN_BYTEA_P(message);
}

PG_FUNCTION_INFO_V1(state_deserial);

/* Returns a state that keeps a worker's bytes, which outlive it. So no sketch is made in a context that ends before the group. */
Datum state_deserial(PG_FUNCTION_ARGS)
{
    Message *message = (Message *)PG_DETOAST_DATUM(PG_GETARG_DATUM(0));
    State *state = palloc0(sizeof(State));
    aggregate_context(fcinfo);
    if (VARSIZE(message) < offsetof(Message, image)) elog(ERROR, "the state of a worker is too short");
    state->kind = message->kind;
    state->items = message->items;
    memcpy(state->sizes, message->sizes, sizeof state->sizes);
    memcpy(&state->seed, message->seed, sizeof state->seed);
    state->image = message->image;
    state->image_bytes = VARSIZE(message) - offsetof(Message, image);
    PG_RETURN_POINTER(state);
}

PG_FUNCTION_INFO_V1(state_combine);

/* Merges the state of a worker into the group's state, or begins one with it. What a worker wrote is under no limit. */
Datum state_combine(PG_FUNCTION_ARGS)
{
    State *state = state_argument(fcinfo, 0), *other = state_argument(fcinfo, 1);
    aggregate_context(fcinfo);
    if (other == NULL) return state_result(fcinfo, state);
    if (other->image == NULL) elog(ERROR, "a state was combined that no worker passed on");
    if (state == NULL) {
        state = new_state(fcinfo, other->kind, other->items);
        memcpy(state->sizes, other->sizes, sizeof state->sizes);
    }
    if (state->kind != other->kind) elog(ERROR, "states of different kinds were combined");
    if (memcmp(state->sizes, other->sizes, sizeof state->sizes) != 0) raise_sizes();
    add_image(state, other->image, other->image_bytes, other->seed, NO_LIMITS);
    state->items |= other->items;
    PG_RETURN_POINTER(state);
}
