/* The k largest estimates of frequent items, for TOPK.QUERY.
 *
 * A sketch of TOPK.RESERVE keeps them from the beginning, and another one from its first TOPK.QUERY on, which finds them in one pass
 * over the counters, without a sort. Each update looks its items up once more and keeps them up to date. So queries read no counters.
 * A purge that may drop one of them ends that, up to the next TOPK.QUERY.
 *
 * If k is above MOST_TOP, only the k-th estimate is kept, with the total at that time. Estimates grow by at most what is added to the
 * total. So an item whose estimate is below the kept one is not one of the first k. An item whose estimate exceeds it by all that was
 * added since is one of them. Between these a query needs another pass. */
#include "module.h"

#include <stdlib.h>
#include <string.h>

/* The most estimates that are kept up to date. An update moves at most this many numbers for an item. */
#ifndef MOST_TOP
#define MOST_TOP 4096
#endif

/* Returns the next of a sequence of random numbers. */
static uint64_t next_random(void)
{
    static uint64_t state;
    if (state == 0) state = random_word() | 1;
    state ^= state << 13;
    state ^= state >> 7;
    return state ^= state << 17;
}

static void swap(uint64_t *numbers, size_t i, size_t j)
{
    uint64_t number = numbers[i];
    numbers[i] = numbers[j];
    numbers[j] = number;
}

/* Returns the k-th largest of numbers, k from 1 to their count, and changes their order. Splits them at a random one into larger,
 * equal and smaller ones, and goes on with the part that has the k-th. */
static uint64_t kth_largest(uint64_t *numbers, size_t count, size_t k)
{
    size_t begin = 0, end = count, index = k - 1;
    for (;;) {
        uint64_t split = numbers[begin + next_random() % (end - begin)];
        size_t larger = begin, at = begin,
               smaller = end; /* up to `larger` they are larger, up to `at` equal, from `smaller` on smaller */
        while (at < smaller) {
            if (numbers[at] > split) swap(numbers, larger++, at++);
            else if (numbers[at] < split) swap(numbers, at, --smaller);
            else at++;
        }
        if (index < larger) end = larger;
        else if (index >= smaller) begin = smaller;
        else return split;
    }
}

/* Reads the estimates of a sketch that has at least k counters, and moves the k largest ones to the front. Returns null, and the
 * result, after an error. The caller frees the block. */
static void *largest_estimates(Sketch *sketch, size_t k, uint64_t **estimates, int32_t *result)
{
    size_t length = 0, count;
    uint8_t *image;
    uint64_t error = number_of(sketch, DS_NUMBER_MAXIMUM_ERROR);
    *result = ds_serialized_bytes(&sketch->handle, &length);
    if (*result < 0) return NULL;
    image = try_block(length);
    *result = image != NULL ? DS_OK : DS_NO_MEMORY;
    if (image == NULL) return NULL;
    ds_serialize(&sketch->handle, image, length, &length);
    count = (size_t)read_number(image + COUNTERS_AT, 4);
    *estimates = (uint64_t *)(void *)(image + WEIGHTS_AT);
    for (size_t i = 0; i < count; i++) {
        uint64_t estimate = read_number(image + WEIGHTS_AT + 8 * i, 8) + error;
        memcpy(*estimates + i, &estimate, sizeof estimate);
    }
    kth_largest(*estimates, count, k);
    return image;
}

int32_t kth_estimate(Sketch *sketch, uint64_t k, uint64_t *estimate)
{
    int32_t result;
    uint64_t *estimates;
    void *block;
    if (sketch->top != NULL && k <= sketch->top_count) {
        *estimate = sketch->top[k - 1];
        return DS_OK;
    }
    block = largest_estimates(sketch, (size_t)k, &estimates, &result);
    if (block != NULL) *estimate = estimates[k - 1];
    free_block(block);
    return result;
}

static int compare_descending(const void *one, const void *other)
{
    uint64_t a, b;
    memcpy(&a, one, sizeof a);
    memcpy(&b, other, sizeof b);
    return (a < b) - (a > b);
}

/* Finds the k-th largest estimate, and keeps what later queries need. */
static int32_t find_top(Sketch *sketch, uint64_t *kth)
{
    size_t k = (size_t)sketch->capacity;
    int32_t result;
    uint64_t *estimates;
    void *block = largest_estimates(sketch, k, &estimates, &result);
    if (block == NULL) return result;
    *kth = sketch->kth = estimates[k - 1];
    sketch->kth_total = number_of(sketch, DS_NUMBER_TOTAL_WEIGHT);
    if (k <= MOST_TOP && sketch->top == NULL) sketch->top = try_block(k * sizeof *sketch->top);
    if (sketch->top != NULL) {
        memcpy(sketch->top, estimates, k * sizeof *sketch->top);
        qsort(sketch->top, k, sizeof *sketch->top, compare_descending);
        sketch->top_count = k;
    }
    free_block(block);
    return DS_OK;
}

void begin_top(Sketch *sketch)
{
    sketch->top_count = 0;
    if (sketch->capacity <= MOST_TOP) sketch->top = try_block((size_t)sketch->capacity * sizeof *sketch->top);
}

void forget_top(Sketch *sketch)
{
    free_block(sketch->top);
    sketch->top = NULL;
    sketch->top_count = 0;
    sketch->kth = 0;
}

/* Returns the number of estimates that are at least `estimate`, of some in descending order. */
static size_t rank_of(const uint64_t *top, size_t count, uint64_t estimate)
{
    size_t begin = 0, end = count;
    while (begin < end) {
        size_t middle = begin + (end - begin) / 2;
        if (top[middle] >= estimate) begin = middle + 1;
        else end = middle;
    }
    return begin;
}

/* Updates the k largest estimates when one grows. If it was one of them, it leaves its place. Otherwise it takes a free place, or that
 * of the k-th. */
static void raise_estimate(Sketch *sketch, uint64_t before, uint64_t after)
{
    uint64_t *top = sketch->top;
    size_t count = sketch->top_count, from, to = rank_of(top, count, after);
    if (to == sketch->capacity) return;
    if (count > 0 && before >= top[count - 1]) from = rank_of(top, count, before + 1);
    else if (count < sketch->capacity) from = sketch->top_count++;
    else from = count - 1;
    memmove(top + to + 1, top + to, (from - to) * sizeof *top);
    top[to] = after;
}

/* Adds up the weights of the items of updates whose estimates are above one. Returns the result of the last addition. */
static int32_t gather_risen(Sketch *sketch, const Items *items, const uint64_t *weights, uint64_t least, Distinct *risen)
{
    ds_string strings[MOST_STRINGS];
    ds_item_bounds bounds[MOST_STRINGS];
    size_t at = 0, count, first = 0;
    int32_t result = DS_OK;
    while (result >= 0 && (count = next_strings(items, &at, strings)) > 0) {
        ds_items rows = ds_items_strings(strings, count);
        result = ds_frequent_items_bounds_all(&sketch->handle, &rows, bounds, count);
        for (size_t i = 0; i < count && result >= 0; i++) {
            uint64_t weight = weights != NULL ? weights[first + i] : 1;
            if (bounds[i].estimate > least && weight > 0) result = add_distinct(risen, strings[i], weight);
        }
        first += count;
    }
    return result;
}

void follow_top(Sketch *sketch, const Items *items, const uint64_t *weights)
{
    size_t count = sketch->top_count;
    uint64_t last = count > 0 ? sketch->top[count - 1] : 0, error = number_of(sketch, DS_NUMBER_MAXIMUM_ERROR);
    Distinct risen;
    begin_distinct(&risen);

    /* Items with the largest estimates were not purged if these are above the error. An item that was purged or new had no estimate
     * before, and its weights leave at most the error of its estimate. */
    if ((count > 0 && last <= error) || gather_risen(sketch, items, weights, count < sketch->capacity ? 0 : last, &risen) < 0) {
        forget_top(sketch);
    } else {
        for (size_t i = 0; i < risen.room; i++) {
            const Place *place = &risen.places[i];
            ds_item_bounds bounds;
            if (place->string.bytes == NULL) continue;
            ds_frequent_items_string_bounds(&sketch->handle, place->string.bytes, place->string.length, &bounds);
            raise_estimate(sketch, bounds.estimate > place->weight ? bounds.estimate - place->weight : 0, bounds.estimate);
        }
    }
    free_distinct(&risen);
}

/* What is known of the k-th largest estimate: it is from `least` to `most`. */
typedef struct Known {
    uint64_t least, most;
} Known;

/* Returns what is known without a look at the counters. If there are at most k, each is one of the first k. */
static Known known_kth(Sketch *sketch)
{
    if (number_of(sketch, DS_NUMBER_NUM_ACTIVE_ITEMS) <= sketch->capacity) return (Known){1, 1};
    if (sketch->top != NULL) return (Known){sketch->top[sketch->capacity - 1], sketch->top[sketch->capacity - 1]};

    /* A counter whose estimate is above the error was not purged. */
    if (sketch->kth <= number_of(sketch, DS_NUMBER_MAXIMUM_ERROR)) return (Known){1, UINT64_MAX};
    return (Known){sketch->kth, sketch->kth + (number_of(sketch, DS_NUMBER_TOTAL_WEIGHT) - sketch->kth_total)};
}

int32_t least_of_top(Sketch *sketch, const ds_item_bounds *bounds, size_t count, uint64_t *least)
{
    Known known = known_kth(sketch);
    size_t i = 0;
    *least = known.most;
    while (i < count && (bounds[i].estimate < known.least || bounds[i].estimate >= known.most)) i++;
    return i < count ? find_top(sketch, least) : DS_OK;
}
