/* A caller of a sketch under a secret key who sees errors alone, and can reset the sketch.
 *
 * Each rise of the error is a middle weight of the counters that a purge sampled. So among items of different weights it names one of
 * the sampled items. If a purge always sampled the same slots, the caller could give the items there small weights. A purge would
 * then drop little more than the sample, and each following item would cost a large part of a pass over the table.
 *
 * Prints the least share of the counters that a purge dropped. Exits with 1 if it is a third or less. */
#include <datasketches.h>
#include <stdio.h>
#include <stdlib.h>

#include "options.h"

enum { SLOTS = 1 << 16, CAPACITY = SLOTS / 4 * 3, SAMPLE = 1024, LEARNED = 800, UPDATES = 10000000, PURGES = 400 };

static const uint64_t LEAST = 1000000, HEAVY = 1 << 30;
static uint64_t weights[CAPACITY + 1], items[CAPACITY + 1], learned[LEARNED], next_item;

static void check(bool holds, const char *what)
{
    if (holds) return;
    fprintf(stderr, "purges: %s\n", what);
    exit(1);
}

static void create(ds_sketch *sketch)
{
    check(!ds_frequent_items_new(sketch, DS_FREQUENT_ITEMS_U64, SLOTS, SAMPLE, &(ds_key){0x5d1f03a9c24b7e86, 0xe3970c5a6b18f24d}),
          "new");
}

static ds_status status_of(ds_sketch *sketch)
{
    ds_status status;
    check(!ds_get_status(sketch, &status), "status");
    return status;
}

/* Fills an empty sketch with items from this one on, of different weights, until it is purged, and resets it. Returns the index of
 * the item whose weight is the error: one of those that were sampled. */
static size_t sampled(ds_sketch *sketch, uint64_t first)
{
    for (size_t i = 0; i <= CAPACITY; i++) items[i] = first + i, weights[i] = LEAST + i;
    check(!ds_update_all_weighted(sketch, AS_ITEMS(u64, items, CAPACITY + 1), weights, CAPACITY + 1), "update");
    uint64_t error = status_of(sketch).maximum_error;
    check(LEAST <= error && error <= LEAST + CAPACITY, "one purge");
    check(!ds_reset(sketch), "reset");
    return (size_t)(error - LEAST);
}

/* The same items are sampled after as many purges of a sketch under the same key, and others after the next purge. A reset does not
 * begin the number of purges again, and a clone continues it. */
static void numbers_of_purges(void)
{
    ds_sketch a = DS_NONE, b = DS_NONE, clone = DS_NONE;
    create(&a);
    create(&b);
    size_t first = sampled(&a, 0), second = sampled(&a, 0);
    check(first != second, "a reset begins again");
    check(first == sampled(&b, 0), "the first purge");
    check(!ds_clone(&clone, &b), "clone");
    check(second == sampled(&b, 0) && second == sampled(&clone, 0), "the second purge");
    check(sampled(&a, 0) == sampled(&clone, 0), "the third purge");
    ds_free(&a);
    ds_free(&b);
    ds_free(&clone);
}

static uint64_t purges;
static double least_share = 1;
static ds_status before;

/* Adds an item. Counts a purge, and the share of the counters that it drops. */
static void add(ds_sketch *sketch, uint64_t item, uint64_t weight)
{
    check(!ds_frequent_items_u64_update(sketch, item, weight), "update");
    ds_status after = status_of(sketch);
    if (after.maximum_error != before.maximum_error) {
        double share = 1 - (double)after.num_active_items / (double)(before.num_active_items + 1);
        if (share < least_share) least_share = share;
        purges++;
    }
    before = after;
}

/* Adds a new item of a large weight. */
static void add_heavy(ds_sketch *sketch)
{
    add(sketch, next_item, HEAVY + next_item % HEAVY);
    next_item++;
}

int main(void)
{
    ds_sketch sketch = DS_NONE;
    size_t updates = 0;
    numbers_of_purges();
    create(&sketch);
    for (size_t i = 0; i < LEARNED; i++, next_item += CAPACITY + 1) learned[i] = next_item + sampled(&sketch, next_item);
    before = status_of(&sketch);
    while (updates < UPDATES && purges < PURGES) {
        for (size_t i = 0; i < LEARNED; i++, updates++) add(&sketch, learned[i], 1);
        for (uint64_t made = purges; purges == made; updates++) add_heavy(&sketch);
    }
    ds_free(&sketch);
    printf("%zu updates, %llu purges, the least share is %.3f\n", updates, (unsigned long long)purges, least_share);
    check(purges >= 100, "few purges");
    check(least_share > 1.0 / 3, "a purge dropped a third of the counters or less");
    puts("all checks hold");
    return 0;
}
