/* The commands SKETCH: images, which all interfaces of the library read and write. */
#include "module.h"

#include <inttypes.h>
#include <stdio.h>
#include <stdlib.h>
#include <string.h>

/* --- Images. --- */

/* A counter in an image of frequent items. */
typedef struct Counter {
    const uint8_t *weight; /* 8 bytes */
    const uint8_t *item;   /* its length in 4 bytes, lowest first, and its bytes */
    size_t length;         /* of the item's bytes */
} Counter;

static int compare_counters(const void *one, const void *other)
{
    const Counter *a = one, *b = other;
    int order = memcmp(a->item + 4, b->item + 4, a->length < b->length ? a->length : b->length);
    return order != 0 ? order : (a->length > b->length) - (a->length < b->length);
}

/* Writes an image of frequent items with its counters in the order of the items' bytes. Returns false if there is no memory. */
static bool write_sorted(const uint8_t *image, uint8_t *out)
{
    size_t count = (size_t)read_number(image + COUNTERS_AT, 4);
    const uint8_t *at = image + WEIGHTS_AT + 8 * count;
    Counter *counters = try_block(count * sizeof *counters);
    uint8_t *weights = out + WEIGHTS_AT, *items = weights + 8 * count;
    if (counters == NULL) return false;
    for (size_t i = 0; i < count; i++) {
        counters[i] = (Counter){image + WEIGHTS_AT + 8 * i, at, (size_t)read_number(at, 4)};
        at += 4 + counters[i].length;
    }
    qsort(counters, count, sizeof *counters, compare_counters);
    memcpy(out, image, WEIGHTS_AT);
    for (size_t i = 0; i < count; i++) {
        memcpy(weights + 8 * i, counters[i].weight, 8);
        memcpy(items, counters[i].item, 4 + counters[i].length);
        items += 4 + counters[i].length;
    }
    free_block(counters);
    return true;
}

uint8_t *write_image(Sketch *sketch, size_t *length)
{
    uint8_t *image, *sorted;
    bool is_sorted;
    if (ds_serialized_bytes(&sketch->handle, length) < 0) return NULL;
    image = try_block(*length);
    if (image == NULL) return NULL;
    ds_serialize(&sketch->handle, image, *length, length);
    if (sketch->kind != DS_FREQUENT_ITEMS_STRING || *length <= WEIGHTS_AT) return image;
    sorted = try_block(*length);
    is_sorted = sorted != NULL && write_sorted(image, sorted);
    free_block(image);
    if (is_sorted) return sorted;
    free_block(sorted);
    return NULL;
}

int sketch_image(Call *call)
{
    size_t length;
    uint8_t *image = write_image(call->sketch, &length);
    if (image == NULL) return reply_error(call, no_memory);
    RedisModule_ReplyWithStringBuffer(call->ctx, (const char *)image, length);
    free_block(image);
    return REDISMODULE_OK;
}

/* --- Sketches from images. --- */

size_t limit_of_image(Kind kind, const uint8_t *image, size_t length, size_t limit)
{
    size_t counters = kind == DS_FREQUENT_ITEMS_STRING && length > WEIGHTS_AT ? (size_t)read_number(image + COUNTERS_AT, 4) : 0;
    if (counters > length / 12) counters = 0; /* each takes 12 bytes and more: the image is damaged */
    return limit <= SIZE_MAX - 4 * counters ? limit + 4 * counters : limit;
}

uint32_t hashes_in_image(Kind kind, const uint8_t *image, size_t length)
{
    return kind == DS_BLOOM && length >= 6 ? image[4] | (uint32_t)image[5] << 8 : 0;
}

/* The names of kinds. */
static const struct {
    const char *name;
    Kind kind;
} kinds[] = {{"bloom_filter", DS_BLOOM}, {"count_min", DS_COUNT_MIN_U64}, {"frequent_strings", DS_FREQUENT_ITEMS_STRING}};

/* The options of SKETCH.LOAD. */
typedef struct LoadOptions {
    long long limit, capacity; /* of a filter, or 0 to guess it */
    uint64_t seed;
    bool replaces;
} LoadOptions;

/* Reads the options of SKETCH.LOAD. Returns false after an error. */
static bool load_options(Call *call, Kind kind, LoadOptions *options)
{
    int at = 4;
    while (at < call->argc) {
        bool has_value = at + 1 < call->argc;
        if (is_word(call, at, "REPLACE")) {
            options->replaces = true;
            at++;
        } else if (has_value && is_word(call, at, "MAXBYTES")) {
            if (!number_argument(call, at + 1, 0, INT64_MAX, bad_number, &options->limit)) return false;
            at += 2;
        } else if (has_value && kind == DS_BLOOM && is_word(call, at, "CAPACITY")) {
            if (!number_argument(call, at + 1, 1, INT64_MAX, "ERR bad capacity", &options->capacity)) return false;
            at += 2;
        } else if (has_value && is_word(call, at, "SEED")) {
            if (!read_seed(call->argv[at + 1], &options->seed)) {
                reply_error(call, bad_number);
                return false;
            }
            at += 2;
        } else {
            reply_error(call, bad_syntax);
            return false;
        }
    }
    return true;
}

/* Fills in what the image of a sketch does not say, if the command does not: a guess of it. */
static void guess_numbers(Sketch *sketch, const LoadOptions *options)
{
    ds_status status = status_of(sketch);
    if (sketch->kind == DS_BLOOM) {
        sketch->seed = status.seed;
        sketch->inserted = estimated_items(sketch);
        sketch->capacity = options->capacity > 0 ? (uint64_t)options->capacity : capacity_of(sketch);
        sketch->rate = 0.01;
    } else if (sketch->kind == DS_FREQUENT_ITEMS_STRING) {
        make_top(sketch, status.maximum_map_capacity);
        count_strings(sketch);
    }
}

int sketch_load(Call *call)
{
    size_t length, kind = 0, num_kinds = sizeof kinds / sizeof *kinds;
    const uint8_t *image = (const uint8_t *)RedisModule_StringPtrLen(call->argv[3], &length);
    LoadOptions options = {(long long)max_bytes, 0, DS_DEFAULT_SEED, false};
    Sketch *sketch;
    int32_t result = DS_NO_MEMORY;
    while (kind < num_kinds && !is_word(call, 2, kinds[kind].name)) kind++;
    if (kind == num_kinds) return reply_error(call, "ERR the kind must be bloom_filter, count_min or frequent_strings");
    if (!load_options(call, kinds[kind].kind, &options)) return REDISMODULE_OK;
    if (call->sketch != NULL && !options.replaces) return reply_exists(call);
    if (!check_hashes(call, hashes_in_image(kinds[kind].kind, image, length))) return REDISMODULE_OK;
    sketch = new_value(kinds[kind].kind);
    if (sketch != NULL) {
        size_t limit = (size_t)options.limit < max_bytes ? (size_t)options.limit : max_bytes;
        sketch->seed = options.seed;
        sketch->table_key = (ds_key){random_word(), random_word()};
        ds_image_options given = {limit_of_image(sketch->kind, image, length, limit), sketch->seed, &sketch->table_key};
        result = ds_deserialize(&sketch->handle, sketch->kind, image, length, &given);
    }
    if (result == DS_OK && sketch->kind != DS_BLOOM && number_of(sketch, DS_NUMBER_TOTAL_WEIGHT) > INT64_MAX)
        result = DS_VALUE_OUT_OF_RANGE;
    if (result == DS_OK && number_of(sketch, DS_NUMBER_NUM_HASHES) > max_hashes) result = TOO_MANY_HASHES;
    if (result != DS_OK) {
        free_value(sketch);
        if (result == DS_TABLE_TOO_LARGE && (size_t)options.limit < max_bytes)
            return reply_error(call, "ERR the sketch takes more bytes than MAXBYTES");
        if (result == DS_SEED_HASH_MISMATCH) return reply_error(call, "ERR the image has another seed: give its seed after SEED");
        return reply_result(call, result);
    }
    guess_numbers(sketch, &options);
    if (call->sketch != NULL && RedisModule_GetAbsExpire(call->key) != REDISMODULE_NO_EXPIRE) {
        RedisModule_SetAbsExpire(call->key, REDISMODULE_NO_EXPIRE); /* as other commands with REPLACE do */
        RedisModule_Replicate(call->ctx, "PERSIST", "s", call->argv[1]);
    }
    create_value(call, sketch);
    return RedisModule_ReplyWithSimpleString(call->ctx, "OK");
}

int sketch_seed(Call *call)
{
    char digits[24];
    int length = snprintf(digits, sizeof digits, "%" PRIu64, call->sketch->seed);
    if (call->sketch->kind == DS_FREQUENT_ITEMS_STRING) return reply_error(call, "ERR frequent items have no seed");
    return RedisModule_ReplyWithStringBuffer(call->ctx, digits, (size_t)length);
}

/* --- Halving frequent items, in their image: the interfaces of the library have no call for it. --- */

/* Halves what an image of frequent items has. Weights and the total are rounded down, and the error up: so the bounds of an item hold
 * for its halved weight, rounded down. The error and the weights must not exceed the total, of untrusted images, too. A counter whose
 * weight is 0 then is left out by its reader. */
static void halve(uint8_t *image)
{
    uint64_t total = read_number(image + TOTAL_AT, 8) / 2, error = read_number(image + ERROR_AT, 8), sum;
    size_t count = (size_t)read_number(image + COUNTERS_AT, 4);
    error -= error / 2;
    sum = error;
    for (uint8_t *weight = image + WEIGHTS_AT; weight < image + WEIGHTS_AT + 8 * count; weight += 8) {
        uint64_t half = read_number(weight, 8) / 2;
        write_number(weight, half);
        sum += half;
    }
    write_number(image + TOTAL_AT, total > sum ? total : sum);
    write_number(image + ERROR_AT, error);
}

/* Halves a sketch that has counters. Returns an error before anything changes. */
static int32_t halve_sketch(Sketch *sketch)
{
    size_t length;
    ds_image_options options = {SIZE_MAX, 0, &sketch->table_key};
    uint8_t *image = write_image(sketch, &length);
    int32_t result = DS_NO_MEMORY;
    if (image == NULL) return result;
    halve(image);
    result = read_number(image + TOTAL_AT, 8) > 0 ? ds_deserialize(&sketch->handle, sketch->kind, image, length, &options)
                                                  : ds_reset(&sketch->handle);
    free_block(image);
    return result;
}

int freq_halve(Call *call)
{
    Sketch *sketch = call->sketch;
    bool is_changed = number_of(sketch, DS_NUMBER_TOTAL_WEIGHT) > 0;
    int32_t result = is_changed ? halve_sketch(sketch) : DS_OK;
    if (result < 0) return reply_result(call, result);
    forget_top(sketch);
    count_strings(sketch);
    if (is_changed) replicate_call(call);
    return RedisModule_ReplyWithSimpleString(call->ctx, "OK");
}

int sketch_info(Call *call)
{
    Sketch *sketch = call->sketch;
    ds_status status = status_of(sketch);
    size_t bytes = 0, kind = 0;
    while (kinds[kind].kind != sketch->kind) kind++;
    ds_memory_bytes(&sketch->handle, &bytes);
    RedisModule_ReplyWithMap(call->ctx, sketch->kind == DS_FREQUENT_ITEMS_STRING ? 4 : sketch->kind == DS_COUNT_MIN_U64 ? 6 : 7);
    RedisModule_ReplyWithCString(call->ctx, "kind");
    RedisModule_ReplyWithCString(call->ctx, kinds[kind].name);
    reply_number(call, "bytes", bytes);
    reply_number(call, "max-bytes", max_bytes);
    if (sketch->kind == DS_BLOOM) {
        reply_number(call, "bits", status.num_bits);
        reply_number(call, "max-bits", 8 * (uint64_t)max_bytes);
    }
    if (sketch->kind == DS_COUNT_MIN_U64) reply_number(call, "cells", (uint64_t)status.num_hashes * status.num_buckets);
    if (sketch->kind == DS_FREQUENT_ITEMS_STRING) {
        reply_number(call, "slots", status.current_map_capacity / 3 * 4);
    } else {
        reply_number(call, "hashes", status.num_hashes);
        reply_number(call, "max-hashes", max_hashes);
    }
    return REDISMODULE_OK;
}
