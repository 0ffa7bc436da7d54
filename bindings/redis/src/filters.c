/* The commands BF: Bloom filters. A filter keeps its size. If it is full, a new item is an error, and is not added. An item that the
 * filter contains is none. What the master or a file of commands sends was decided there, and is added to any filter. */
#include "module.h"

#include <math.h>
#include <string.h>

/* The most bytes of a chunk of BF.SCANDUMP. */
#define CHUNK_BYTES ((size_t)8 << 20)

/* The sizes in a command. */
typedef struct Sizes {
    double rate;
    long long capacity;
    uint64_t seed;
    bool has_seed;
} Sizes;

static Sizes default_sizes(void)
{
    return (Sizes){default_rate, (long long)default_capacity, default_seed, false};
}

static bool rate_argument(Call *call, int at, Sizes *sizes)
{
    return fraction_argument(call, at, "ERR bad error rate", "ERR (0 < error rate range < 1)", &sizes->rate);
}

static bool capacity_argument(Call *call, int at, Sizes *sizes)
{
    if (!number_argument(call, at, INT64_MIN, INT64_MAX, "ERR bad capacity", &sizes->capacity)) return false;
    if (sizes->capacity > 0) return true;
    reply_error(call, "ERR (capacity should be larger than 0)");
    return false;
}

/* Reads the option at a position that both BF.RESERVE and BF.INSERT take, and moves on. Returns false after an error. */
static bool option_argument(Call *call, int *at, Sizes *sizes)
{
    int before = *at;
    long long expansion;
    if (!seed_option(call, at, &sizes->seed)) return false;
    if (*at > before && !sizes->has_seed) {
        sizes->has_seed = true;
        return true;
    }
    if (is_word(call, before, "NONSCALING")) {
        *at += 1;
        return true;
    }
    *at += 2;
    if (*at <= call->argc && is_word(call, before, "EXPANSION"))
        return number_argument(call, before + 1, 0, INT64_MAX, "ERR bad expansion", &expansion);
    reply_error(call, bad_syntax);
    return false;
}

/* Returns the rate of false positives of a full filter with these bits for an item, by the published formula. */
static double rate_of(double bits, double hashes)
{
    return pow(-expm1(-hashes / bits), hashes);
}

/* Writes the bits and hashes of a filter: those of the library, as in other languages, if the rate is within 1 % of the given one. The
 * library rounds the hashes up, which is worse for rates such as 0.5. Then the hashes are the better ones of two whole numbers, and
 * there are as many bits as they need. Small filters have the library's least number of bits. */
static int32_t suggest(const Sizes *sizes, uint64_t *num_bits, uint16_t *num_hashes)
{
    double items = (double)sizes->capacity, bits, hashes;
    uint64_t least;
    int32_t result = ds_bloom_suggest_num_bits((uint64_t)sizes->capacity, inverse(sizes->rate), num_bits);
    if (result == DS_OK) result = ds_bloom_suggest_num_hashes(*num_bits, (uint64_t)sizes->capacity, num_hashes);
    if (result != DS_OK) return result;
    bits = (double)*num_bits / items;
    hashes = *num_hashes;
    if (rate_of(bits, hashes) > 1.01 * sizes->rate) {
        if (hashes > 1 && rate_of(bits, hashes - 1) < rate_of(bits, hashes)) hashes--;
        if (rate_of(bits, hashes) > sizes->rate) *num_bits = (uint64_t)ceil(items * -hashes / log1p(-pow(sizes->rate, 1 / hashes)));
        *num_hashes = (uint16_t)hashes;
    }
    result = ds_bloom_min_num_bits((uint64_t)sizes->capacity, inverse(sizes->rate), &least);
    if (result == DS_OK && *num_bits < least) *num_bits = least;
    return result;
}

/* Returns a new filter, or null after an error. */
static Sketch *new_filter(Call *call, const Sizes *sizes)
{
    uint64_t num_bits = 0;
    uint16_t num_hashes = 0;
    Sketch *sketch;
    int32_t result = suggest(sizes, &num_bits, &num_hashes);
    if (result == DS_OK && !(check_limit(call, num_bits / 8) && check_hashes(call, num_hashes))) return NULL;
    sketch = result == DS_OK ? new_value(DS_BLOOM) : NULL;
    if (sketch != NULL) result = ds_bloom_new(&sketch->handle, num_bits, num_hashes, sizes->seed);
    else if (result == DS_OK) result = DS_NO_MEMORY;
    if (result != DS_OK) {
        free_value(sketch);
        if (result == DS_BAD_NUM_BITS) reply_error(call, "ERR the capacity is too large for the error rate");
        else reply_result(call, result);
        return NULL;
    }
    sketch->seed = sizes->seed;
    sketch->capacity = (uint64_t)sizes->capacity;
    sketch->rate = sizes->rate;
    return sketch;
}

int bf_reserve(Call *call)
{
    Sizes sizes = default_sizes();
    Sketch *sketch;
    int at = 4;
    if (!rate_argument(call, 2, &sizes) || !capacity_argument(call, 3, &sizes)) return REDISMODULE_OK;
    while (at < call->argc)
        if (!option_argument(call, &at, &sizes)) return REDISMODULE_OK;
    sketch = new_filter(call, &sizes);
    if (sketch == NULL) return REDISMODULE_OK;
    create_value(call, sketch);
    return RedisModule_ReplyWithSimpleString(call->ctx, "OK");
}

/* The error of a new item that a full filter does not take, as clients know it of filters that do not scale. */
static const char is_full[] = "ERR non scaling filter is full";

/* Returns how many of a number of new items a filter takes. */
static uint64_t room_for(Call *call, const Sketch *sketch, uint64_t items)
{
    uint64_t room = sketch->inserted < sketch->capacity ? sketch->capacity - sketch->inserted : 0;
    return items <= room || limit_of(call) == SIZE_MAX ? items : room;
}

/* Returns results as booleans: one for a command with one item, and an array otherwise. */
static void reply_booleans(Call *call, const bool *results, size_t count, bool as_array, bool when)
{
    if (as_array) RedisModule_ReplyWithArray(call->ctx, (long)count);
    for (size_t i = 0; i < count; i++) RedisModule_ReplyWithBool(call->ctx, results[i] == when);
}

/* Returns room for the results of items, or null after an error. The items are freed then. */
static bool *room_for_results(Call *call, Items *items, bool *room, size_t count)
{
    bool *results = items->count <= count ? room : try_block(items->count);
    if (results == NULL) {
        free_items(items);
        reply_error(call, no_memory);
    }
    return results;
}

/* Inserts items in order up to the first new one that a full filter does not take. Writes for each whether the filter contained it
 * before. Returns the number of items before that one. No call allocates, so none returns an error. */
static size_t insert_up_to_full(Call *call, Sketch *sketch, const Items *items, bool *results)
{
    size_t done = 0;
    while (done < items->count) {
        const ds_string *next = items->strings + done;
        size_t part = (size_t)room_for(call, sketch, items->count - done);
        if (part > 0) {
            ds_items rows = ds_items_fed(next, part);
            ds_bloom_contains_and_insert_all(&sketch->handle, &rows, results + done, part);
            for (size_t i = 0; i < part; i++) sketch->inserted += !results[done + i];
            done += part;
        } else if (ds_bloom_contains_fed(&sketch->handle, next->bytes, next->length) == DS_YES) {
            results[done++] = true;
        } else {
            break;
        }
    }
    return done;
}

/* Inserts the items from an argument on. Creates the filter of the sizes if there is none. Replies end with an error at an item that
 * a full filter does not take. The items before it are replicated alone. */
static int insert(Call *call, int first, bool as_array, const Sizes *sizes)
{
    Items items;
    bool room[256], *results;
    Sketch *created = NULL;
    if (!hashed_items(call, first, 1, &items)) return REDISMODULE_OK;
    results = room_for_results(call, &items, room, sizeof room);
    if (results == NULL) return REDISMODULE_OK;
    if (call->sketch == NULL) created = new_filter(call, sizes);
    if (created != NULL) create_value(call, created);
    if (call->sketch != NULL) {
        uint64_t before = call->sketch->inserted;
        size_t done = insert_up_to_full(call, call->sketch, &items, results);
        bool is_whole = done == items.count;
        if (call->sketch->inserted > before && is_whole) {
            replicate_call(call);
        } else if (call->sketch->inserted > before) {
            note_change(call);
            RedisModule_Replicate(call->ctx, "BF.MADD", "sv", call->argv[1], call->argv + first, done);
        }
        if (as_array) RedisModule_ReplyWithArray(call->ctx, (long)(done + !is_whole));
        reply_booleans(call, results, done, false, false);
        if (!is_whole) reply_error(call, is_full);
    }
    if (results != room) free_block(results);
    free_items(&items);
    return REDISMODULE_OK;
}

int bf_add(Call *call)
{
    Sizes sizes = default_sizes();
    return insert(call, 2, false, &sizes);
}

int bf_madd(Call *call)
{
    Sizes sizes = default_sizes();
    return insert(call, 2, true, &sizes);
}

/* Returns whether a filter takes all lines of a call: DS_YES, DS_NO or DS_NO_MEMORY. They are looked up only if they may be too
 * many. */
static int32_t takes_lines(Call *call, Sketch *sketch, Lines *lines)
{
    size_t length, count, room;
    uint64_t num_lines;
    ds_items rows;
    bool results[MOST_LINES];
    Distinct set;
    int32_t result = DS_YES;
    RedisModule_StringPtrLen(call->argv[2], &length); /* no fewer than its lines */
    if (room_for(call, sketch, length) == length) return DS_YES;
    num_lines = count_lines(call, 2);
    room = (size_t)room_for(call, sketch, num_lines);
    if (room == num_lines) return DS_YES;
    begin_distinct(&set);
    while (result >= 0 && set.count <= room && (count = next_lines(lines, &rows)) > 0) {
        ds_bloom_contains_all(&sketch->handle, &rows, results, count);
        for (size_t i = 0; i < count && result >= 0; i++)
            if (!results[i]) result = add_distinct(&set, lines->strings[i], 1);
    }
    if (result >= 0) result = set.count <= room ? DS_YES : DS_NO;
    free_distinct(&set);
    copy_lines(call, 2, lines);
    return result;
}

/* Inserts the lines of a call into a filter, and returns the number of new ones. No call allocates, so none returns an error. */
static uint64_t insert_lines(Sketch *sketch, Lines *lines)
{
    uint64_t before = sketch->inserted;
    bool results[MOST_LINES];
    ds_items rows;
    size_t count;
    while ((count = next_lines(lines, &rows)) > 0) {
        ds_bloom_contains_and_insert_all(&sketch->handle, &rows, results, count);
        for (size_t i = 0; i < count; i++) sketch->inserted += !results[i];
    }
    return sketch->inserted - before;
}

int bf_addlines(Call *call)
{
    Sizes sizes = default_sizes();
    Sketch *created = NULL, *sketch = call->sketch;
    Lines lines;
    int32_t result = DS_NO;
    if (!begin_lines(call, 2, &lines)) return REDISMODULE_OK;
    if (sketch == NULL) sketch = created = new_filter(call, &sizes);
    if (sketch != NULL) {
        result = takes_lines(call, sketch, &lines);
        if (result != DS_YES) reply_error(call, result == DS_NO ? is_full : no_memory);
    }
    if (result == DS_YES) {
        if (created != NULL) create_value(call, created);
        uint64_t fresh = insert_lines(sketch, &lines);
        if (fresh > 0) replicate_call(call);
        RedisModule_ReplyWithLongLong(call->ctx, (long long)fresh);
    } else {
        free_value(created);
    }
    end_lines(&lines);
    return REDISMODULE_OK;
}

int bf_insert(Call *call)
{
    Sizes sizes = default_sizes();
    bool creates = true;
    int at = 2;
    while (at < call->argc && !is_word(call, at, "ITEMS")) {
        bool has_value = at + 1 < call->argc;
        if (has_value && is_word(call, at, "CAPACITY")) {
            if (!capacity_argument(call, at + 1, &sizes)) return REDISMODULE_OK;
            at += 2;
        } else if (has_value && is_word(call, at, "ERROR")) {
            if (!rate_argument(call, at + 1, &sizes)) return REDISMODULE_OK;
            at += 2;
        } else if (is_word(call, at, "NOCREATE")) {
            creates = false;
            at++;
        } else if (!option_argument(call, &at, &sizes)) {
            return REDISMODULE_OK;
        }
    }
    if (at + 1 >= call->argc) return RedisModule_WrongArity(call->ctx);
    if (call->sketch == NULL && !creates) return reply_missing(call);
    return insert(call, at + 1, true, &sizes);
}

/* Returns whether the filter contains the items of a call. No key is an empty filter. */
static int contains(Call *call, bool as_array)
{
    Items items;
    bool room[256], *results;
    int32_t result = DS_OK;
    if (!hashed_items(call, 2, 1, &items)) return REDISMODULE_OK;
    results = room_for_results(call, &items, room, sizeof room);
    if (results == NULL) return REDISMODULE_OK;
    memset(results, 0, items.count);
    if (call->sketch != NULL) result = ds_bloom_contains_all(&call->sketch->handle, &items.rows, results, items.count);
    if (result < 0) reply_result(call, result);
    else reply_booleans(call, results, items.count, as_array, true);
    if (results != room) free_block(results);
    free_items(&items);
    return REDISMODULE_OK;
}

int bf_exists(Call *call)
{
    return contains(call, false);
}

int bf_mexists(Call *call)
{
    return contains(call, true);
}

int bf_card(Call *call)
{
    return RedisModule_ReplyWithLongLong(call->ctx, call->sketch != NULL ? (long long)call->sketch->inserted : 0);
}

int bf_info(Call *call)
{
    static const char *const words[] = {"CAPACITY", "SIZE", "FILTERS", "ITEMS", "EXPANSION", "FULL"};
    static const char *const names[] = {"Capacity",       "Size", "Number of filters", "Number of items inserted",
                                        "Expansion rate", "Full"};
    Sketch *sketch = call->sketch;
    size_t bytes = 0, first = 0, end = sizeof words / sizeof *words;
    ds_memory_bytes(&sketch->handle, &bytes);
    if (call->argc > 3) return RedisModule_WrongArity(call->ctx);
    if (call->argc == 3) {
        while (first < end && !is_word(call, 2, words[first])) first++;
        if (first == end) return reply_error(call, "ERR invalid information value");
        end = first + 1;
        RedisModule_ReplyWithArray(call->ctx, 1);
    } else {
        RedisModule_ReplyWithMap(call->ctx, (long)end);
    }
    for (size_t i = first; i < end; i++) {
        long long values[] = {
            (long long)sketch->capacity,         (long long)(bytes + sizeof *sketch), 1, (long long)sketch->inserted, 0,
            sketch->inserted >= sketch->capacity};
        if (call->argc == 2) RedisModule_ReplyWithCString(call->ctx, names[i]);
        if (i == 4) RedisModule_ReplyWithNull(call->ctx); /* a filter does not expand */
        else RedisModule_ReplyWithLongLong(call->ctx, values[i]);
    }
    return REDISMODULE_OK;
}

static const char bad_iterator[] = "ERR Second argument must be numeric";

int bf_scandump(Call *call)
{
    long long position;
    size_t length, end;
    uint8_t *state;
    if (!number_argument(call, 2, 0, INT64_MAX, bad_iterator, &position)) return REDISMODULE_OK;
    state = write_state(call->sketch, false, &length);
    if (state == NULL) return reply_error(call, no_memory);
    end = (uint64_t)position >= length ? 0 : length - (size_t)position < CHUNK_BYTES ? length : (size_t)position + CHUNK_BYTES;
    RedisModule_ReplyWithArray(call->ctx, 2);
    RedisModule_ReplyWithLongLong(call->ctx, (long long)end);
    RedisModule_ReplyWithStringBuffer(call->ctx, (const char *)state + position * (end != 0),
                                      end != 0 ? end - (size_t)position : 0);
    free_block(state);
    return REDISMODULE_OK;
}

int bf_loadchunk(Call *call)
{
    size_t length;
    const uint8_t *bytes = (const uint8_t *)RedisModule_StringPtrLen(call->argv[3], &length);
    long long end;
    if (!number_argument(call, 2, 1, INT64_MAX, bad_iterator, &end)) return REDISMODULE_OK;
    if ((uint64_t)end < length) return reply_error(call, bad_data);
    if (!take_part(call, DS_BLOOM, (uint64_t)end - length, bytes, length)) return REDISMODULE_OK;
    return RedisModule_ReplyWithSimpleString(call->ctx, "OK");
}

/* --- BF.MERGE: the destination gets the items of the sources. --- */

/* Merges the filters of a call's other keys into one. Returns false after an error. */
static bool merge_others(Call *call, Sketch *into, int first)
{
    size_t read = 0, bytes = 0;
    uint64_t items = into->inserted, most = items;
    uint64_t bits = number_of(into, DS_NUMBER_BITS_USED);
    for (int i = first; i < call->argc; i++) {
        Sketch *other;
        RedisModuleKey *key = open_other(call, call->argv[i], DS_BLOOM, &other);
        int32_t result = DS_OK;
        if (key == NULL) return false;
        ds_memory_bytes(&other->handle, &bytes);
        read += 2 * bytes;
        items = other->inserted > items ? other->inserted : items;
        most += other->inserted;
        if (read > max_merge_bytes && limit_of(call) != SIZE_MAX) result = TOO_MUCH_TO_MERGE;
        if (result == DS_OK) result = ds_merge(&into->handle, &other->handle);
        RedisModule_CloseKey(key);
        if (result == DS_MISMATCH) reply_error(call, "ERR filters to merge must have the same bits, hashes and seed");
        else if (result < 0) reply_result(call, result);
        if (result < 0) return false;
    }
    if (number_of(into, DS_NUMBER_BITS_USED) == bits) return true;

    /* The items of all are no fewer than those of one, and no more than the sum. Between these, the set bits give an estimate. */
    into->inserted = estimated_items(into);
    if (into->inserted < items) into->inserted = items;
    if (into->inserted > most) into->inserted = most;
    if (into->inserted <= into->capacity || limit_of(call) == SIZE_MAX) return true;
    reply_error(call, is_full);
    return false;
}

int bf_merge(Call *call)
{
    Sketch *into, *from = call->sketch;
    RedisModuleKey *key = NULL;
    uint64_t bits = from != NULL ? number_of(from, DS_NUMBER_BITS_USED) : 0;
    if (from == NULL) key = open_other(call, call->argv[2], DS_BLOOM, &from);
    if (from == NULL) return REDISMODULE_OK;
    into = clone_value(from);
    if (key != NULL) RedisModule_CloseKey(key);
    if (into == NULL) return reply_error(call, no_memory);
    if (!merge_others(call, into, key != NULL ? 3 : 2)) {
        free_value(into);
        return REDISMODULE_OK;
    }
    if (key == NULL && number_of(into, DS_NUMBER_BITS_USED) == bits) {
        free_value(into);
    } else {
        put_value(call, into);
        replicate_call(call);
    }
    return RedisModule_ReplyWithSimpleString(call->ctx, "OK");
}
