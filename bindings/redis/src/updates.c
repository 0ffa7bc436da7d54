/* Updates of frequent items, within the limit of bytes.
 *
 * An item that has a counter takes no more bytes. So near the limit, items are looked up before their bytes count. All is checked
 * before the sketch changes: an error leaves it as it was. */
#include "module.h"

/* What updates store, at most. */
typedef struct Stored {
    size_t bytes, count;           /* new strings that are there at a time */
    size_t allocated, allocations; /* all new strings */
    bool is_weighed;               /* whether items were looked up */
} Stored;

/* The numbers of a sketch before updates. */
typedef struct Before {
    uint64_t total, error, items, slots, most_slots;
} Before;

/* Reads these numbers: fewer calls than `status_of`, since each update needs them. */
static Before read_before(Sketch *sketch)
{
    return (Before){.total = number_of(sketch, DS_NUMBER_TOTAL_WEIGHT),
                    .error = number_of(sketch, DS_NUMBER_MAXIMUM_ERROR),
                    .items = number_of(sketch, DS_NUMBER_NUM_ACTIVE_ITEMS),
                    .slots = number_of(sketch, DS_NUMBER_CURRENT_MAP_CAPACITY) / 3 * 4,
                    .most_slots = number_of(sketch, DS_NUMBER_MAX_MAP_SIZE)};
}

/* Returns the slots of the table that a sketch has after updates with new items, at most. */
static uint64_t slots_after(const Before *before, size_t items)
{
    uint64_t slots = before->slots;
    while (slots < before->most_slots && slots / 4 * 3 < before->items + items) slots *= 2;
    return slots;
}

/* Returns the bytes that updates may allocate: for strings, and for each table that the sketch grows into. */
static size_t bytes_for(const Before *before, const Stored *stored)
{
    uint64_t slots = before->slots, most = slots_after(before, stored->count);
    size_t bytes = stored->allocated + stored->allocations * reserve_for(1);
    while (slots < most) {
        slots *= 2;
        bytes += reserve_for(slots * BYTES_OF_SLOT) + 2 * reserve_for(64);
    }
    return bytes;
}

/* Returns whether a sketch with these bytes of strings takes at most `limit` bytes after the updates. */
static bool fits(const Before *before, size_t string_bytes, const Stored *stored, size_t limit)
{
    return string_bytes + stored->bytes + slots_after(before, stored->count) * BYTES_OF_SLOT <= limit;
}

/* Looks the items up, and writes what updates with them store. If they are more than the counters, a purge drops some, which may
 * come again: then the bytes are those of the longest one for each counter. Stops if they exceed the limit for certain. */
static int32_t weigh(Sketch *sketch, const Before *before, const Items *items, const uint64_t *weights, size_t limit,
                     Stored *stored)
{
    ds_string strings[MOST_STRINGS];
    ds_item_bounds bounds[MOST_STRINGS];
    size_t at = 0, count, first = 0, longest = 0, all = 0, most = (size_t)number_of(sketch, DS_NUMBER_MAXIMUM_MAP_CAPACITY);
    Distinct set;
    int32_t result = DS_OK;
    bool is_purged = false, is_too_much = false;
    begin_distinct(&set);
    *stored = (Stored){.is_weighed = true};
    while (result >= 0 && !is_too_much && (count = next_strings(items, &at, strings)) > 0) {
        ds_items rows = ds_items_strings(strings, count);
        result = ds_frequent_items_bounds_all(&sketch->handle, &rows, bounds, count);
        for (size_t i = 0; i < count && result >= 0; i++) {
            if (bounds[i].estimate != 0 || (weights != NULL && weights[first + i] == 0)) continue;
            all += strings[i].length;
            if (strings[i].length > longest) longest = strings[i].length;
            if (!is_purged) result = add_distinct(&set, strings[i], 1);
            if (!is_purged && result == DS_YES) stored->bytes += strings[i].length;
            is_purged = before->items + set.count > most;
        }
        first += count;
        stored->count = set.count;
        is_too_much = stored->count > 0 && !is_purged && !fits(before, sketch->string_bytes - sketch->spare_bytes, stored, limit);
    }
    free_distinct(&set);
    stored->allocated = is_purged ? items->bytes : stored->bytes;
    stored->allocations = is_purged ? items->count : stored->count;
    if (is_purged) stored->bytes = longest > 0 && most < all / longest ? (most + 1) * longest : all;
    return result < 0 ? result : DS_OK;
}

/* Finds out what updates store, and whether the sketch stays within the limit then. Items are looked up only if it is not clear
 * without that. The strings are counted again only if that decides, or if many came since they were counted. So a count costs no
 * more than the items before it. Returns false after an error. */
static bool check_stored(Call *call, const Before *before, const Items *items, const uint64_t *weights, Stored *stored)
{
    Sketch *sketch = call->sketch;
    size_t limit;
    int32_t result;
    *stored = (Stored){items->bytes, items->count, items->bytes, items->count, false};
    if (bytes_for(before, stored) <= max_bytes) {
        if (fits(before, sketch->string_bytes, stored, max_bytes)) return true;
        if (sketch->spare_bytes > max_bytes / 64) count_strings(sketch);
        if (fits(before, sketch->string_bytes, stored, max_bytes)) return true;
    }
    limit = limit_of(call);
    result = weigh(sketch, before, items, weights, limit, stored);
    if (result < 0) {
        reply_result(call, result);
        return false;
    }
    if (stored->count == 0 || fits(before, sketch->string_bytes, stored, limit)) return true;
    if (fits(before, sketch->string_bytes - sketch->spare_bytes, stored, limit)) count_strings(sketch);
    if (fits(before, sketch->string_bytes, stored, limit)) return true;
    reply_error(call, too_much);
    return false;
}

/* Returns whether the total has room for weights, or for 1 for each item if they are null. */
static bool has_room(const Before *before, const Items *items, const uint64_t *weights)
{
    uint64_t room = INT64_MAX - before->total;
    if (weights == NULL) return items->count <= room;
    for (size_t i = 0; i < items->count; i++) {
        if (weights[i] > room) return false;
        room -= weights[i];
    }
    return true;
}

bool update(Call *call, const Items *items, const uint64_t *weights)
{
    Sketch *sketch = call->sketch;
    Before before = read_before(sketch);
    Stored stored;
    int32_t result;
    if (!has_room(&before, items, weights)) {
        reply_result(call, DS_WEIGHT_OVERFLOW);
        return false;
    }
    if (!check_stored(call, &before, items, weights, &stored)) return false;
    result = DS_NO_MEMORY;
    if (begin_reserve(bytes_for(&before, &stored))) {
        result = weights != NULL ? ds_update_all_weighted(&sketch->handle, &items->rows, weights, items->count)
                                 : ds_update_all(&sketch->handle, &items->rows);
        end_reserve();
    }
    if (result < 0) {
        reply_result(call, result);
        return false;
    }
    if (number_of(sketch, DS_NUMBER_TOTAL_WEIGHT) == before.total) return true; /* all weights were 0 */
    sketch->string_bytes += stored.bytes;
    if (!stored.is_weighed) sketch->spare_bytes += stored.bytes;
    if (sketch->top != NULL) follow_top(sketch, items, weights);

    /* What a purge removes depends on where items are in the table, so it is replicated as the sketch after it. All else is the same
     * in any table with the same counters, and is replicated as it came. */
    if (number_of(sketch, DS_NUMBER_MAXIMUM_ERROR) != before.error) {
        sketch->spare_bytes = sketch->string_bytes;
        replicate_state(call, sketch);
    } else {
        replicate_call(call);
    }
    return true;
}
