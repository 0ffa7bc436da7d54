/* The commands FREQ and TOPK: frequent items, with bounds of their weights. Both families take the same sketches. */
#include "module.h"

/* The most slots of a table. */
#define MOST_SLOTS (1 << 30)

/* Counters for each of the k items of TOPK. */
#define COUNTERS_OF_ITEM 8

/* What TOPK.INFO returns for a sketch that was made without them. */
#define DEFAULT_WIDTH 8
#define DEFAULT_DEPTH 7
#define DEFAULT_DECAY 0.9

/* --- New sketches. --- */

void make_top(Sketch *sketch, uint64_t k)
{
    sketch->capacity = k;
    sketch->width = DEFAULT_WIDTH;
    sketch->depth = DEFAULT_DEPTH;
    sketch->rate = DEFAULT_DECAY;
}

/* Returns a new sketch, or null after an error. */
static Sketch *new_frequent(Call *call, uint64_t max_map_size, uint64_t k)
{
    Sketch *sketch;
    int32_t result = DS_NO_MEMORY;
    if (!check_limit(call, max_map_size * BYTES_OF_SLOT)) return NULL;
    sketch = new_value(DS_FREQUENT_ITEMS_STRING);
    if (sketch != NULL) {
        sketch->table_key = (ds_key){random_word(), random_word()};
        make_top(sketch, k);
        result = ds_frequent_items_new(&sketch->handle, sketch->kind, max_map_size, ds_frequent_items_max_sample_size(max_map_size),
                                       &sketch->table_key);
    }
    if (result == DS_OK) return sketch;
    free_value(sketch);
    reply_result(call, result);
    return NULL;
}

int freq_reserve(Call *call)
{
    static const char bad_size[] = "ERR the size must be a power of two from 8 to 1073741824";
    long long size;
    Sketch *sketch;
    if (!number_argument(call, 2, 8, MOST_SLOTS, bad_size, &size)) return REDISMODULE_OK;
    if ((size & (size - 1)) != 0) return reply_error(call, bad_size);
    sketch = new_frequent(call, (uint64_t)size, (uint64_t)size / 4 * 3);
    if (sketch == NULL) return REDISMODULE_OK;
    create_value(call, sketch);
    return RedisModule_ReplyWithSimpleString(call->ctx, "OK");
}

/* Returns the smallest size of a table that keeps this number of counters. */
static uint64_t size_for(uint64_t counters)
{
    uint64_t size = 8;
    while (size / 4 * 3 < counters) size *= 2;
    return size;
}

int topk_reserve(Call *call)
{
    static const char bad_decay[] = "TopK: invalid decay value. must be '<= 1' & '> 0'";
    long long k, width = DEFAULT_WIDTH, depth = DEFAULT_DEPTH;
    double decay = DEFAULT_DECAY;
    uint64_t counters;
    Sketch *sketch;
    if (call->argc != 3 && call->argc != 6) return RedisModule_WrongArity(call->ctx);
    if (!number_argument(call, 2, 1, UINT32_MAX, "TopK: invalid k", &k)) return REDISMODULE_OK;
    if (call->argc == 6) {
        if (!number_argument(call, 3, 1, UINT32_MAX, "TopK: invalid width", &width)) return REDISMODULE_OK;
        if (!number_argument(call, 4, 1, UINT32_MAX, "TopK: invalid depth", &depth)) return REDISMODULE_OK;
        if (RedisModule_StringToDouble(call->argv[5], &decay) != REDISMODULE_OK || !(decay > 0 && decay <= 1))
            return reply_error(call, bad_decay);
    }
    counters = (uint64_t)k * COUNTERS_OF_ITEM;
    sketch = new_frequent(call, size_for(counters > (uint64_t)width ? counters : (uint64_t)width), (uint64_t)k);
    if (sketch == NULL) return REDISMODULE_OK;
    sketch->width = (uint64_t)width;
    sketch->depth = (uint64_t)depth;
    sketch->rate = decay;
    begin_top(sketch);
    create_value(call, sketch);
    return RedisModule_ReplyWithSimpleString(call->ctx, "OK");
}

/* --- Updates. --- */

/* Adds the items of a call. Returns false after an error. */
static bool add_items(Call *call)
{
    Items items;
    bool is_done;
    if (!string_items(call, 2, 1, &items)) return false;
    is_done = update(call, &items, NULL);
    free_items(&items);
    return is_done;
}

/* Adds the pairs of an item and its weight of a call. Returns false after an error, which is this one for a weight that is none. */
static bool add_pairs(Call *call, const char *bad_weight)
{
    Items items;
    uint64_t room[128], *weights;
    bool is_done;
    if (call->argc % 2 != 0) {
        RedisModule_WrongArity(call->ctx);
        return false;
    }
    if (!string_items(call, 2, 2, &items)) return false;
    weights = items.count <= 128 ? room : try_block(items.count * sizeof *weights);
    is_done = weights != NULL;
    if (!is_done) reply_error(call, no_memory);
    for (size_t i = 0; i < items.count && is_done; i++) {
        long long weight = 0;
        is_done = number_argument(call, 3 + 2 * (int)i, 0, INT64_MAX, bad_weight, &weight);
        weights[i] = (uint64_t)weight;
    }
    is_done = is_done && update(call, &items, weights);
    if (weights != room) free_block(weights);
    free_items(&items);
    return is_done;
}

int freq_add(Call *call)
{
    return add_items(call) ? RedisModule_ReplyWithSimpleString(call->ctx, "OK") : REDISMODULE_OK;
}

int freq_addlines(Call *call)
{
    Items items;
    if (!string_lines(call, 2, &items)) return REDISMODULE_OK;
    if (update(call, &items, NULL)) RedisModule_ReplyWithLongLong(call->ctx, (long long)items.count);
    free_items(&items);
    return REDISMODULE_OK;
}

int freq_incrby(Call *call)
{
    return add_pairs(call, bad_number) ? RedisModule_ReplyWithSimpleString(call->ctx, "OK") : REDISMODULE_OK;
}

/* Returns null for each added item: none is known to have left the first k. */
static int reply_nulls(Call *call, int count)
{
    RedisModule_ReplyWithArray(call->ctx, count);
    for (int i = 0; i < count; i++) RedisModule_ReplyWithNull(call->ctx);
    return REDISMODULE_OK;
}

int topk_add(Call *call)
{
    return add_items(call) ? reply_nulls(call, call->argc - 2) : REDISMODULE_OK;
}

int topk_incrby(Call *call)
{
    return add_pairs(call, "TopK: increment must be an integer greater or equal to 0") ? reply_nulls(call, call->argc / 2 - 1)
                                                                                       : REDISMODULE_OK;
}

/* --- Bounds of items. --- */

/* Returns the bounds of a call's items, to free by `free_block`. Returns null after an error. */
static ds_item_bounds *bounds_of(Call *call, size_t *count)
{
    Items items;
    ds_item_bounds *bounds;
    int32_t result = DS_NO_MEMORY;
    if (!string_items(call, 2, 1, &items)) return NULL;
    bounds = try_block(items.count * sizeof *bounds);
    if (bounds != NULL) {
        result = ds_frequent_items_bounds_all(&call->sketch->handle, &items.rows, bounds, items.count);
    }
    *count = items.count;
    free_items(&items);
    if (result >= 0) return bounds;
    free_block(bounds);
    reply_result(call, result);
    return NULL;
}

int freq_bounds(Call *call)
{
    size_t count;
    ds_item_bounds *bounds = bounds_of(call, &count);
    if (bounds == NULL) return REDISMODULE_OK;
    RedisModule_ReplyWithArray(call->ctx, (long)count);
    for (size_t i = 0; i < count; i++) {
        RedisModule_ReplyWithArray(call->ctx, 2);
        RedisModule_ReplyWithLongLong(call->ctx, (long long)bounds[i].lower_bound);
        RedisModule_ReplyWithLongLong(call->ctx, (long long)bounds[i].upper_bound);
    }
    free_block(bounds);
    return REDISMODULE_OK;
}

int topk_count(Call *call)
{
    size_t count;
    ds_item_bounds *bounds = bounds_of(call, &count);
    if (bounds == NULL) return REDISMODULE_OK;
    RedisModule_ReplyWithArray(call->ctx, (long)count);
    for (size_t i = 0; i < count; i++) RedisModule_ReplyWithLongLong(call->ctx, (long long)bounds[i].upper_bound);
    free_block(bounds);
    return REDISMODULE_OK;
}

/* --- Rows. --- */

/* The rows of a sketch, in one block. */
typedef struct Rows {
    void *block;
    size_t count;
    ds_item_bounds *bounds;
    uint64_t *offsets;
    uint8_t *bytes;
} Rows;

/* Takes the rows whose upper bounds exceed a threshold, at least the first `most` of them. Returns false after an error. */
static bool take_rows(Call *call, uint64_t threshold, uint64_t most, Rows *rows)
{
    Sketch *sketch = call->sketch;
    size_t active = number_of(sketch, DS_NUMBER_NUM_ACTIVE_ITEMS), num_bytes;
    uint64_t kth = 0;
    int32_t result = most > 0 && most < active ? kth_estimate(sketch, most, &kth) : DS_OK;
    if (result < 0) {
        reply_result(call, result);
        return false;
    }
    if (kth > threshold) threshold = kth - 1;
    result = DS_NO_MEMORY;
    count_strings(sketch);
    rows->block = try_block(active * sizeof *rows->bounds + (active + 1) * sizeof *rows->offsets + sketch->string_bytes);
    if (rows->block != NULL) {
        rows->bounds = rows->block;
        rows->offsets = (uint64_t *)(rows->bounds + active);
        rows->bytes = (uint8_t *)(rows->offsets + active + 1);
        result = ds_frequent_items_string_rows(&sketch->handle, true, threshold, SIZE_MAX, rows->bytes, sketch->string_bytes,
                                               rows->offsets, active + 1, rows->bounds, active, &rows->count, &num_bytes);
    }
    if (result >= 0) return true;
    free_block(rows->block);
    reply_result(call, result);
    return false;
}

static void reply_row_item(Call *call, const Rows *rows, size_t i)
{
    reply_item(call, rows->bytes + rows->offsets[i], rows->offsets[i + 1] - rows->offsets[i]);
}

int freq_rows(Call *call)
{
    long long threshold = 0, most = 0;
    size_t count;
    Rows rows;
    for (int at = 2; at < call->argc; at += 2) {
        bool is_threshold = is_word(call, at, "ABOVE");
        if (at + 1 == call->argc || !(is_threshold || is_word(call, at, "COUNT"))) return reply_error(call, bad_syntax);
        if (!number_argument(call, at + 1, !is_threshold, INT64_MAX, bad_number, is_threshold ? &threshold : &most))
            return REDISMODULE_OK;
    }
    if (!take_rows(call, (uint64_t)threshold, (uint64_t)most, &rows)) return REDISMODULE_OK;
    count = most > 0 && (uint64_t)most < rows.count ? (size_t)most : rows.count;
    RedisModule_ReplyWithArray(call->ctx, (long)count);
    for (size_t i = 0; i < count; i++) {
        RedisModule_ReplyWithArray(call->ctx, 3);
        reply_row_item(call, &rows, i);
        RedisModule_ReplyWithLongLong(call->ctx, (long long)rows.bounds[i].lower_bound);
        RedisModule_ReplyWithLongLong(call->ctx, (long long)rows.bounds[i].upper_bound);
    }
    free_block(rows.block);
    return REDISMODULE_OK;
}

int topk_list(Call *call)
{
    bool has_counts = call->argc == 3;
    Rows rows;
    size_t count;
    if (call->argc > 3 || (has_counts && !is_word(call, 2, "WITHCOUNT")))
        return reply_error(call, "TopK: WITHCOUNT keyword expected");
    if (!take_rows(call, 0, call->sketch->capacity, &rows)) return REDISMODULE_OK;
    count = rows.count < call->sketch->capacity ? rows.count : call->sketch->capacity;
    RedisModule_ReplyWithArray(call->ctx, (long)(has_counts ? 2 * count : count));
    for (size_t i = 0; i < count; i++) {
        reply_row_item(call, &rows, i);
        if (has_counts) RedisModule_ReplyWithLongLong(call->ctx, (long long)rows.bounds[i].estimate);
    }
    free_block(rows.block);
    return REDISMODULE_OK;
}

int topk_query(Call *call)
{
    size_t count;
    uint64_t least;
    int32_t result;
    ds_item_bounds *bounds = bounds_of(call, &count);
    if (bounds == NULL) return REDISMODULE_OK;
    result = least_of_top(call->sketch, bounds, count, &least);
    if (result < 0) {
        reply_result(call, result);
    } else {
        RedisModule_ReplyWithArray(call->ctx, (long)count);
        for (size_t i = 0; i < count; i++) RedisModule_ReplyWithBool(call->ctx, bounds[i].estimate >= least);
    }
    free_block(bounds);
    return REDISMODULE_OK;
}

/* --- Numbers. --- */

int topk_info(Call *call)
{
    RedisModule_ReplyWithMap(call->ctx, 4);
    reply_number(call, "k", call->sketch->capacity);
    reply_number(call, "width", call->sketch->width);
    reply_number(call, "depth", call->sketch->depth);
    RedisModule_ReplyWithCString(call->ctx, "decay");
    return RedisModule_ReplyWithDouble(call->ctx, call->sketch->rate);
}

int freq_info(Call *call)
{
    static const Field fields[] = {{"size", DS_NUMBER_MAX_MAP_SIZE},
                                   {"counters", DS_NUMBER_MAXIMUM_MAP_CAPACITY},
                                   {"items", DS_NUMBER_NUM_ACTIVE_ITEMS},
                                   {"total", DS_NUMBER_TOTAL_WEIGHT},
                                   {"error", DS_NUMBER_MAXIMUM_ERROR}};
    return reply_fields(call, fields, sizeof fields / sizeof *fields);
}

/* --- Merges. --- */

/* Merges the sketches of a call's other keys into a sketch. Returns false after an error. */
static bool merge_others(Call *call, Sketch *into, int first)
{
    size_t read = 0;
    for (int i = first; i < call->argc; i++) {
        Sketch *other;
        RedisModuleKey *key = open_other(call, call->argv[i], DS_FREQUENT_ITEMS_STRING, &other);
        int32_t result = DS_OK;
        size_t bytes = 0;
        if (key == NULL) return false;
        ds_memory_bytes(&other->handle, &bytes);
        read += bytes;
        ds_memory_bytes(&into->handle, &bytes);
        read += bytes; /* the library works on a copy */
        if (number_of(other, DS_NUMBER_TOTAL_WEIGHT) > INT64_MAX - number_of(into, DS_NUMBER_TOTAL_WEIGHT))
            result = DS_WEIGHT_OVERFLOW;
        if (read > max_merge_bytes && limit_of(call) != SIZE_MAX) result = TOO_MUCH_TO_MERGE;
        if (result == DS_OK) result = ds_merge(&into->handle, &other->handle);
        RedisModule_CloseKey(key);
        if (result < 0) {
            reply_result(call, result);
            return false;
        }
    }
    count_strings(into);
    ds_memory_bytes(&into->handle, &read);
    return check_limit(call, read);
}

int freq_merge(Call *call)
{
    Sketch *into, *from = call->sketch;
    RedisModuleKey *key = NULL;
    if (from == NULL) key = open_other(call, call->argv[2], DS_FREQUENT_ITEMS_STRING, &from);
    if (from == NULL) return REDISMODULE_OK;
    into = clone_value(from);
    if (key != NULL) RedisModule_CloseKey(key);
    if (into == NULL) return reply_error(call, no_memory);
    forget_top(into);
    if (!merge_others(call, into, key != NULL ? 3 : 2)) {
        free_value(into);
        return REDISMODULE_OK;
    }
    if (key == NULL && number_of(into, DS_NUMBER_TOTAL_WEIGHT) == number_of(from, DS_NUMBER_TOTAL_WEIGHT)) free_value(into);
    else create_value(call, into);
    return RedisModule_ReplyWithSimpleString(call->ctx, "OK");
}
