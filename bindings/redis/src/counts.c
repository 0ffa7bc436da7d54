/* The commands CMS: Count-Min sketches, whose total stays below 2^63. */
#include "module.h"

#include <math.h>

/* The base of natural logarithms. */
static const double e = 2.718281828459045;

/* Creates the sketch of a call, whose options begin at an argument. */
static int create(Call *call, uint64_t num_hashes, uint64_t num_buckets, int options)
{
    Sketch *sketch;
    uint64_t seed = default_seed;
    int32_t result = DS_NO_MEMORY;
    if (!seed_option(call, &options, &seed)) return REDISMODULE_OK;
    if (options != call->argc) return reply_error(call, bad_syntax);
    if (!check_hashes(call, num_hashes)) return REDISMODULE_OK;
    if (num_buckets > UINT32_MAX) return reply_error(call, too_much);
    if (!check_limit(call, num_hashes * (num_buckets + 1) * 8)) return REDISMODULE_OK;
    sketch = new_value(DS_COUNT_MIN_U64);
    if (sketch != NULL)
        result = ds_count_min_new(&sketch->handle, DS_COUNT_MIN_U64, (uint8_t)num_hashes, (uint32_t)num_buckets, seed);
    if (result != DS_OK) {
        free_value(sketch);
        if (result == DS_ZERO_SEED_HASH) return reply_error(call, "CMS: a sketch cannot have this seed: choose another");
        return reply_result(call, result);
    }
    sketch->seed = seed;
    create_value(call, sketch);
    return RedisModule_ReplyWithSimpleString(call->ctx, "OK");
}

int cms_initbydim(Call *call)
{
    long long width, depth;
    if (!number_argument(call, 2, 1, INT64_MAX, "CMS: invalid width", &width)) return REDISMODULE_OK;
    if (!number_argument(call, 3, 1, INT64_MAX, "CMS: invalid depth", &depth)) return REDISMODULE_OK;
    if (width < 3) return reply_error(call, "CMS: invalid width: it must be at least 3");
    if (depth > UINT8_MAX) return reply_error(call, "CMS: invalid depth: it must be at most 255");
    return create(call, (uint64_t)depth, (uint64_t)width, 4);
}

int cms_initbyprob(Call *call)
{
    static const char bad_error[] = "CMS: invalid overestimation value", bad_probability[] = "CMS: invalid prob value";
    double error, probability, columns, rows;
    if (!fraction_argument(call, 2, bad_error, bad_error, &error)) return REDISMODULE_OK;
    if (!fraction_argument(call, 3, bad_probability, bad_probability, &probability)) return REDISMODULE_OK;
    columns = ceil(e / error);
    rows = ceil(-log(probability));
    if (rows > UINT8_MAX) return reply_error(call, "CMS: invalid prob value: it must be at least e^-255");
    if (columns > UINT32_MAX) return reply_error(call, too_much);
    return create(call, (uint64_t)rows, (uint64_t)columns, 4);
}

int cms_incrby(Call *call)
{
    Items items;
    uint64_t before = number_of(call->sketch, DS_NUMBER_TOTAL_WEIGHT), total = before;
    long long weight;
    if (call->argc % 2 != 0) return RedisModule_WrongArity(call->ctx);
    for (int i = 3; i < call->argc; i += 2) {
        if (!number_argument(call, i, INT64_MIN, INT64_MAX, "CMS: Cannot parse number", &weight)) return REDISMODULE_OK;
        if (weight < 0) return reply_error(call, "CMS: Number cannot be negative");
        if ((uint64_t)weight > INT64_MAX - total) return reply_error(call, "CMS: INCRBY overflow");
        total += (uint64_t)weight;
    }
    if (!hashed_items(call, 2, 2, &items)) return REDISMODULE_OK;

    /* All weights fit, and no call below allocates. So none returns an error, and the reply of an item is its estimate then. */
    RedisModule_ReplyWithArray(call->ctx, (long)items.count);
    for (size_t i = 0; i < items.count; i++) {
        const ds_item item = ds_item_fed(items.strings[i].bytes, items.strings[i].length);
        uint64_t estimate = 0;
        RedisModule_StringToLongLong(call->argv[3 + 2 * i], &weight);
        ds_update(&call->sketch->handle, &item, (uint64_t)weight);
        ds_count_min_u64_estimate(&call->sketch->handle, &item, &estimate);
        RedisModule_ReplyWithLongLong(call->ctx, (long long)estimate);
    }
    if (total > before) replicate_call(call);
    free_items(&items);
    return REDISMODULE_OK;
}

int cms_addlines(Call *call)
{
    Lines lines;
    ds_items rows;
    uint64_t total = number_of(call->sketch, DS_NUMBER_TOTAL_WEIGHT);
    size_t length, count;
    long long added = 0;
    RedisModule_StringPtrLen(call->argv[2], &length); /* no fewer than its lines */
    if (length > INT64_MAX - total && count_lines(call, 2) > INT64_MAX - total) return reply_error(call, "CMS: ADDLINES overflow");
    if (!begin_lines(call, 2, &lines)) return REDISMODULE_OK;
    while ((count = next_lines(&lines, &rows)) > 0) { /* no call allocates, so none returns an error */
        ds_update_all(&call->sketch->handle, &rows);
        added += (long long)count;
    }
    end_lines(&lines);
    if (added > 0) replicate_call(call);
    return RedisModule_ReplyWithLongLong(call->ctx, added);
}

int cms_query(Call *call)
{
    Items items;
    uint64_t room[128], *estimates;
    int32_t result;
    if (!hashed_items(call, 2, 1, &items)) return REDISMODULE_OK;
    estimates = items.count <= 128 ? room : try_block(items.count * sizeof *estimates);
    result = DS_NO_MEMORY;
    if (estimates != NULL) result = ds_count_min_u64_estimate_all(&call->sketch->handle, &items.rows, estimates, items.count);
    if (result < 0) {
        reply_result(call, result);
    } else {
        RedisModule_ReplyWithArray(call->ctx, (long)items.count);
        for (size_t i = 0; i < items.count; i++) RedisModule_ReplyWithLongLong(call->ctx, (long long)estimates[i]);
    }
    if (estimates != room) free_block(estimates);
    free_items(&items);
    return REDISMODULE_OK;
}

int cms_info(Call *call)
{
    static const Field fields[] = {
        {"width", DS_NUMBER_NUM_BUCKETS}, {"depth", DS_NUMBER_NUM_HASHES}, {"count", DS_NUMBER_TOTAL_WEIGHT}};
    return reply_fields(call, fields, sizeof fields / sizeof *fields);
}

/* Multiplies the cells and the total by a fraction. That changes a sketch unless it is empty or the fraction is 1. */
static int decay(Call *call, uint64_t numerator, uint64_t denominator)
{
    bool is_changed = numerator < denominator && number_of(call->sketch, DS_NUMBER_TOTAL_WEIGHT) > 0;
    int32_t result = DS_OK;
    if (is_changed && numerator == 1 && denominator == 2) result = ds_count_min_u64_halve(&call->sketch->handle);
    else if (is_changed) result = ds_count_min_u64_decay(&call->sketch->handle, numerator, denominator);
    if (result < 0) return reply_result(call, result);
    if (is_changed) replicate_call(call);
    return RedisModule_ReplyWithSimpleString(call->ctx, "OK");
}

int cms_decay(Call *call)
{
    static const char bad_fraction[] = "CMS: the fraction must be above 0 and at most 1";
    long long numerator, denominator;
    if (!number_argument(call, 2, 1, INT64_MAX, bad_fraction, &numerator)) return REDISMODULE_OK;
    if (!number_argument(call, 3, numerator, INT64_MAX, bad_fraction, &denominator)) return REDISMODULE_OK;
    return decay(call, (uint64_t)numerator, (uint64_t)denominator);
}

int cms_halve(Call *call)
{
    return decay(call, 1, 2);
}

/* --- CMS.MERGE: the destination becomes the sum of the sources, each times its weight. --- */

/* The sum of a merge, on the way. */
typedef struct Sum {
    Sketch *sketch;
    uint64_t total;
    size_t read; /* bytes that merges read */
} Sum;

/* Adds a sketch times a weight. A sketch is doubled by merging a copy of it. So each cell is the exact product, and no merge goes
 * beyond the total, which was checked. */
static int32_t add_times(Sum *sum, ds_sketch *source, uint64_t weight)
{
    ds_sketch doubled = DS_NONE, copy = DS_NONE;
    int32_t result = weight == 1 || weight == 0 ? DS_OK : ds_clone(&doubled, source);
    if (weight == 1) return ds_merge(&sum->sketch->handle, source);
    while (result == DS_OK && weight != 0) {
        if (weight % 2 != 0) result = ds_merge(&sum->sketch->handle, &doubled);
        weight /= 2;
        if (result == DS_OK && weight != 0) result = ds_clone(&copy, &doubled);
        if (result == DS_OK && weight != 0) result = ds_merge(&doubled, &copy);
    }
    ds_free(&doubled);
    ds_free(&copy);
    return result;
}

/* Adds one source of a merge. Returns false after an error. */
static bool add_source(Call *call, Sum *sum, RedisModuleString *name, uint64_t weight)
{
    ds_status into = status_of(call->sketch), from;
    Sketch *source;
    RedisModuleKey *key = open_other(call, name, DS_COUNT_MIN_U64, &source);
    size_t bytes = 0;
    int32_t result;
    if (key == NULL) return false;
    from = status_of(source);
    ds_memory_bytes(&source->handle, &bytes);
    for (uint64_t rest = weight; rest != 0; rest /= 2) sum->read += 2 * bytes;
    if (from.total_weight == 0) weight = 0;
    if (from.num_buckets != into.num_buckets || from.num_hashes != into.num_hashes) {
        reply_error(call, "CMS: width/depth is not equal");
    } else if (from.seed != into.seed) {
        reply_error(call, "CMS: seeds differ: sketches to merge are created with one seed");
    } else if (weight != 0 && from.total_weight > (INT64_MAX - sum->total) / weight) {
        reply_error(call, "CMS: MERGE overflow");
    } else if (sum->read > max_merge_bytes && limit_of(call) != SIZE_MAX) {
        reply_error(call, "CMS: the sketches of a merge take more bytes than the module's max-merge-bytes");
    } else {
        sum->total += from.total_weight * weight;
        result = add_times(sum, &source->handle, weight);
        if (result < 0) reply_result(call, result);
        RedisModule_CloseKey(key);
        return result >= 0;
    }
    RedisModule_CloseKey(key);
    return false;
}

/* Reads the keys and weights of CMS.MERGE. Returns false after an error. */
static bool merge_arguments(Call *call, long long *count, bool *has_weights)
{
    int after;
    if (!number_argument(call, 2, 1, INT32_MAX, "CMS: invalid numkeys", count)) return false;
    if (*count > call->argc - 3) {
        reply_error(call, "CMS: wrong number of keys");
        return false;
    }
    after = 3 + (int)*count;
    *has_weights = after < call->argc;
    if (!*has_weights || (is_word(call, after, "WEIGHTS") && call->argc == after + 1 + *count)) return true;
    reply_error(call, "CMS: wrong number of keys/weights");
    return false;
}

int cms_merge(Call *call)
{
    long long count, weight = 1;
    bool has_weights, is_done = true;
    ds_status into = status_of(call->sketch);
    Sum sum = {NULL, 0, 0};
    int32_t result = DS_NO_MEMORY;
    if (!merge_arguments(call, &count, &has_weights)) return REDISMODULE_OK;
    sum.sketch = new_value(DS_COUNT_MIN_U64);
    if (sum.sketch != NULL)
        result = ds_count_min_new(&sum.sketch->handle, DS_COUNT_MIN_U64, (uint8_t)into.num_hashes, into.num_buckets, into.seed);
    if (result < 0) {
        free_value(sum.sketch);
        return reply_result(call, result);
    }
    for (int i = 3; i < 3 + count && is_done; i++) {
        if (has_weights) is_done = number_argument(call, i + (int)count + 1, 0, INT64_MAX, "CMS: invalid weight value", &weight);
        is_done = is_done && add_source(call, &sum, call->argv[i], (uint64_t)weight);
    }
    if (!is_done) {
        free_value(sum.sketch);
        return REDISMODULE_OK;
    }
    sum.sketch->seed = call->sketch->seed;
    if (ds_equal(&sum.sketch->handle, &call->sketch->handle) == DS_YES) {
        free_value(sum.sketch);
    } else {
        put_value(call, sum.sketch);
        replicate_call(call);
    }
    return RedisModule_ReplyWithSimpleString(call->ctx, "OK");
}
