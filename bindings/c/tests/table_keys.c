/* Sketches of frequent items under given keys and under drawn keys. Prints the checks that failed. Exits with 1 if there is any. */
#include <datasketches.h>
#include <pthread.h>
#include <stdio.h>
#include <string.h>

#include "check.h"
#include "options.h"

enum { ITEMS = 300, SMALL = 32, LARGE = 1024, ROUNDS = 24, THREADS = 4, CREATED = 100 };

static const uint64_t K0 = 0x0706050403020100, K1 = 0x0f0e0d0c0b0a0908;

/* Returns the next pseudo-random number below `n`. */
static uint64_t chance(uint64_t *state, uint64_t n)
{
    *state = *state * 6364136223846793005u + 1442695040888963407u;
    return (*state >> 33) % n;
}

/* The calls for the item of a number, with one form for the three types of items. */
static int32_t add_u64(ds_sketch *handle, uint64_t item, uint64_t weight)
{
    return ds_frequent_items_u64_update(handle, item, weight);
}

static int32_t add_i64(ds_sketch *handle, uint64_t item, uint64_t weight)
{
    return ds_frequent_items_i64_update(handle, -(int64_t)item, weight);
}

static int32_t add_string(ds_sketch *handle, uint64_t item, uint64_t weight)
{
    char text[32];
    int length = snprintf(text, sizeof text, "item %u", (unsigned)item);
    return ds_frequent_items_string_update(handle, (const uint8_t *)text, (size_t)length, weight);
}

static int32_t bounds_of_u64(ds_sketch *handle, uint64_t item, ds_item_bounds *bounds)
{
    return ds_frequent_items_u64_bounds(handle, item, bounds);
}

static int32_t bounds_of_i64(ds_sketch *handle, uint64_t item, ds_item_bounds *bounds)
{
    return ds_frequent_items_i64_bounds(handle, -(int64_t)item, bounds);
}

static int32_t bounds_of_string(ds_sketch *handle, uint64_t item, ds_item_bounds *bounds)
{
    char text[32];
    int length = snprintf(text, sizeof text, "item %u", (unsigned)item);
    return ds_frequent_items_string_bounds(handle, (const uint8_t *)text, (size_t)length, bounds);
}

/* An image. */
struct image {
    uint8_t bytes[1 << 15];
    size_t length;
};

static bool are_same(const struct image *a, const struct image *b)
{
    return a->length == b->length && memcmp(a->bytes, b->bytes, a->length) == 0;
}

static void write_image(ds_sketch *handle, struct image *image)
{
    CHECK(ds_serialize(handle, image->bytes, sizeof image->bytes, &image->length) == DS_OK);
}

/* Checks that both have the same image. Their counters are then the same, in the same order. */
static void same(ds_sketch *a, ds_sketch *b)
{
    static struct image of_a, of_b;
    write_image(a, &of_a);
    write_image(b, &of_b);
    CHECK(are_same(&of_a, &of_b));
}

/* The checks for one type of items. A table of SMALL slots purges counters, and one of LARGE slots has room for all items. */
#define KEYS(kind, number) \
    /* Adds weights to items, and to the exact counts. */ \
    static void fill_##kind(ds_sketch *handle, uint64_t seed, int count, uint64_t *exact) \
    { \
        for (int i = 0; i < count; i++) { \
            uint64_t item = chance(&seed, ITEMS) * chance(&seed, 3) / 2, weight = 1 + chance(&seed, 9); \
            CHECK(add_##kind(handle, item, weight) == DS_OK); \
            exact[item] += weight; \
        } \
    } \
    static void hold_##kind(ds_sketch *handle, const uint64_t *exact) \
    { \
        ds_status status; \
        uint64_t total = 0; \
        for (uint64_t item = 0; item < ITEMS; item++) { \
            ds_item_bounds bounds; \
            CHECK(bounds_of_##kind(handle, item, &bounds) == DS_OK); \
            CHECK(bounds.lower_bound <= exact[item] && exact[item] <= bounds.upper_bound); \
            total += exact[item]; \
        } \
        CHECK(ds_get_status(handle, &status) == DS_OK && status.total_weight == total); \
    } \
    /* Runs under the same key are the same: created, read, cloned and merged. Under another key the bounds hold too. */ \
    static void given_keys_##kind(void) \
    { \
        static struct image image; \
        static uint64_t exact[ITEMS], others[ITEMS], unused[ITEMS]; \
        for (uint64_t round = 0; round < ROUNDS; round++) { \
            ds_sketch a = DS_NONE, b = DS_NONE, clone = DS_NONE, other = DS_NONE; \
            memset(exact, 0, sizeof exact); \
            memset(others, 0, sizeof others); \
            CHECK(ds_frequent_items_new(&a, number, SMALL, 24, &(ds_key){K0 + round, K1}) == DS_OK); \
            CHECK(ds_frequent_items_new(&b, number, SMALL, 24, &(ds_key){K0 + round, K1}) == DS_OK); \
            CHECK(ds_frequent_items_new(&other, number, SMALL, 24, &(ds_key){K0, K1 + 1 + round}) == DS_OK); \
            fill_##kind(&a, round, 200, exact); \
            fill_##kind(&b, round, 200, unused); \
            fill_##kind(&other, round, 200, others); \
            same(&a, &b); \
            hold_##kind(&a, exact); \
            hold_##kind(&other, others); \
            CHECK(ds_clone(&clone, &a) == DS_OK); \
            same(&a, &clone); \
            fill_##kind(&a, round + 1, 200, exact); \
            fill_##kind(&clone, round + 1, 200, unused); \
            same(&a, &clone); \
            /* a merge keeps its own key, which is that of the clone */ \
            CHECK(ds_merge(&a, &other) == DS_OK); \
            CHECK(ds_merge_all(&clone, &other, 1) == DS_OK); \
            same(&a, &clone); \
            for (uint64_t item = 0; item < ITEMS; item++) exact[item] += others[item]; \
            fill_##kind(&a, round + 2, 100, exact); \
            fill_##kind(&clone, round + 2, 100, unused); \
            same(&a, &clone); \
            hold_##kind(&a, exact); \
            /* an image has no key, and is read under any */ \
            write_image(&a, &image); \
            CHECK(ds_deserialize(&b, number, image.bytes, image.length, WITHIN_KEY(1 << 20, 7, round)) == DS_OK); \
            CHECK(ds_deserialize(&clone, number, image.bytes, image.length, WITHIN_KEY(1 << 20, 7, round)) == DS_OK); \
            CHECK(ds_deserialize(&other, number, image.bytes, image.length, WITHIN(1 << 20)) == DS_OK); \
            same(&b, &clone); \
            hold_##kind(&b, exact); \
            hold_##kind(&other, exact); \
            fill_##kind(&b, round + 3, 100, exact); \
            fill_##kind(&clone, round + 3, 100, unused); \
            fill_##kind(&other, round + 3, 100, unused); \
            same(&b, &clone); \
            hold_##kind(&b, exact); \
            hold_##kind(&other, exact); \
            ds_free(&a); \
            ds_free(&b); \
            ds_free(&clone); \
            ds_free(&other); \
        } \
    } \
    /* The key decides the order of the items in an image: 300 items are in the same order under two keys with a probability far \
     * below 2^-64. Their counters are exact, since the table has room for all. */ \
    static void different_keys_##kind(void) \
    { \
        static struct image images[6]; \
        ds_sketch sketches[6] = {DS_NONE}; \
        CHECK(ds_frequent_items_new(&sketches[0], number, LARGE, 768, &(ds_key){K0, K1}) == DS_OK); \
        CHECK(ds_frequent_items_new(&sketches[1], number, LARGE, 768, &(ds_key){K0 + 1, K1}) == DS_OK); \
        CHECK(ds_frequent_items_new(&sketches[2], number, LARGE, 768, &(ds_key){K0, K1 + 1}) == DS_OK); \
        CHECK(ds_frequent_items_new(&sketches[3], number, LARGE, 768, NULL) == DS_OK); \
        CHECK(ds_frequent_items_new(&sketches[4], number, LARGE, 768, NULL) == DS_OK); \
        for (int i = 0; i < 5; i++) { \
            for (uint64_t item = 0; item < ITEMS; item++) CHECK(add_##kind(&sketches[i], item, item + 1) == DS_OK); \
            write_image(&sketches[i], &images[i]); \
        } \
        CHECK(ds_deserialize(&sketches[5], number, images[0].bytes, images[0].length, WITHIN(1 << 20)) == DS_OK); \
        write_image(&sketches[5], &images[5]); \
        for (int i = 0; i < 6; i++) { \
            for (int j = 0; j < i; j++) CHECK(images[i].length == images[j].length && !are_same(&images[i], &images[j])); \
            for (uint64_t item = 0; item < ITEMS; item++) { \
                ds_item_bounds bounds; \
                CHECK(bounds_of_##kind(&sketches[i], item, &bounds) == DS_OK); \
                CHECK(bounds.lower_bound == item + 1 && bounds.upper_bound == item + 1); \
            } \
            ds_free(&sketches[i]); \
        } \
    } \
    /* The bounds hold under each drawn key. */ \
    static void drawn_keys_##kind(void) \
    { \
        static uint64_t exact[ITEMS]; \
        for (uint64_t round = 0; round < ROUNDS; round++) { \
            ds_sketch sketch = DS_NONE; \
            memset(exact, 0, sizeof exact); \
            CHECK(ds_frequent_items_new(&sketch, number, SMALL, 24, NULL) == DS_OK); \
            fill_##kind(&sketch, round, 400, exact); \
            hold_##kind(&sketch, exact); \
            ds_free(&sketch); \
        } \
    } \
    /* Keys do not change which arguments are accepted. */ \
    static void errors_##kind(void) \
    { \
        ds_sketch sketch = DS_NONE; \
        struct image image; \
        CHECK(ds_frequent_items_new(&sketch, number, 9, 2, &(ds_key){K0, K1}) == DS_MAP_SIZE_NOT_POWER_OF_TWO); \
        CHECK(ds_frequent_items_new(&sketch, number, 8, 5, &(ds_key){K0, K1}) == DS_BAD_SAMPLE_SIZE); \
        CHECK(ds_deserialize(&sketch, number, NULL, 1, WITHIN_KEY(8, K0, K1)) == DS_BAD_ARGUMENT); \
        CHECK(ds_deserialize(&sketch, number, NULL, 0, WITHIN_KEY(8, K0, K1)) == DS_INSUFFICIENT_DATA); \
        CHECK(!sketch.sketch && ds_frequent_items_new(&sketch, number, 64, 48, &(ds_key){0, 0}) == DS_OK); \
        write_image(&sketch, &image); \
        CHECK(ds_deserialize(&sketch, number, image.bytes, image.length, WITHIN_KEY(8, K0, K1)) == DS_TABLE_TOO_LARGE); \
        CHECK(ds_deserialize(&sketch, number, image.bytes, image.length, WITHIN_KEY(1 << 20, 0, 0)) == DS_OK); \
        ds_free(&sketch); \
    }

KEYS(u64, DS_FREQUENT_ITEMS_U64)
KEYS(i64, DS_FREQUENT_ITEMS_I64)
KEYS(string, DS_FREQUENT_ITEMS_STRING)

/* Creates sketches under drawn keys. Returns null if each counts its items. */
static void *create(void *argument)
{
    void *failed = argument;
    for (uint64_t i = 0; i < CREATED; i++) {
        ds_sketch sketch = DS_NONE;
        ds_item_bounds bounds = {0, 0, 0};
        bool done = ds_frequent_items_new(&sketch, DS_FREQUENT_ITEMS_U64, 8, 6, NULL) == DS_OK;
        for (uint64_t item = 0; item < 5; item++) done &= ds_frequent_items_u64_update(&sketch, item, item + i) == DS_OK;
        done &= ds_frequent_items_u64_bounds(&sketch, 4, &bounds) == DS_OK && bounds.estimate == 4 + i;
        ds_free(&sketch);
        if (!done) return failed;
    }
    return NULL;
}

/* Threads draw keys at once, also the first one of the process. */
static void threads(void)
{
    pthread_t ids[THREADS];
    for (int i = 0; i < THREADS; i++) CHECK(pthread_create(&ids[i], NULL, create, ids) == 0);
    for (int i = 0; i < THREADS; i++) {
        void *failed;
        CHECK(pthread_join(ids[i], &failed) == 0 && !failed);
    }
}

int main(void)
{
    threads();
    given_keys_u64();
    given_keys_i64();
    given_keys_string();
    drawn_keys_u64();
    drawn_keys_i64();
    drawn_keys_string();
    different_keys_u64();
    different_keys_i64();
    different_keys_string();
    errors_u64();
    errors_i64();
    errors_string();
    return report();
}
