/* Calls on sketches of any kind: comparisons, statuses, resets, wrong kinds and options of images. Prints the checks that failed.
 * Exits with 1 if there is any. */
#include <datasketches.h>
#include <pthread.h>
#include <string.h>

#include "check.h"
#include "options.h"

/* The image of a filter of one word and one hash under the seed 9001 with the bits 0 and 1. */
static const uint8_t TWO_BITS[40] = {4, 1, 21, 0, 1, 0, 0, 0, 0x29, 0x23, 0, 0, 0, 0, 0, 0, 1, 0, 0, 0,
                                     0, 0, 0,  0, 2, 0, 0, 0, 0,    0,    0, 0, 3, 0, 0, 0, 0, 0, 0, 0};

/* Equal sketches, and sketches that differ in one property. */
static void equal_sketches(void)
{
    ds_sketch a = DS_NONE, b = DS_NONE, other = DS_NONE;
    int64_t estimate;

    CHECK(ds_equal(&a, &b) == DS_NO_SKETCH && ds_bloom_new(&a, 128, 3, 9001) == DS_OK);
    CHECK(ds_equal(&a, &a) == DS_BAD_ARGUMENT && ds_equal(&a, &b) == DS_NO_SKETCH);
    CHECK(ds_equal(&b, &a) == DS_NO_SKETCH && ds_bloom_new(&b, 65, 3, 9001) == DS_OK);
    /* 65 bits and 128 bits are both two words */
    CHECK(ds_equal(&a, &b) == DS_YES && ds_bloom_insert_u64(&a, 7) == DS_OK);
    CHECK(ds_equal(&a, &b) == DS_NO && ds_equal(&b, &a) == DS_NO);
    CHECK(ds_bloom_insert_i64(&b, 7) == DS_OK && ds_equal(&a, &b) == DS_YES);
    CHECK(ds_clone(&other, &a) == DS_OK && ds_equal(&other, &a) == DS_YES && ds_bloom_contains_u64(&a, 7) == DS_YES);
    CHECK(ds_reset(&a) == DS_OK && ds_bloom_new(&b, 129, 3, 9001) == DS_OK && ds_equal(&a, &b) == DS_NO);
    CHECK(ds_bloom_new(&b, 128, 4, 9001) == DS_OK && ds_equal(&a, &b) == DS_NO);
    CHECK(ds_bloom_new(&b, 128, 3, 9002) == DS_OK && ds_equal(&a, &b) == DS_NO);

    CHECK(ds_count_min_new(&b, DS_COUNT_MIN_U64, 4, 128, 9001) == DS_OK && ds_equal(&a, &b) == DS_WRONG_KIND);
    CHECK(ds_equal(&b, &a) == DS_WRONG_KIND && ds_count_min_new(&a, DS_COUNT_MIN_U64, 4, 128, 9001) == DS_OK);
    CHECK(ds_equal(&a, &b) == DS_YES && ds_count_min_u64_update_u64(&a, 1, 5) == DS_OK);
    CHECK(ds_equal(&a, &b) == DS_NO && ds_count_min_u64_update_u64(&b, 2, 5) == DS_OK);
    /* equal totals, different cells */
    CHECK(ds_equal(&a, &b) == DS_NO && ds_count_min_u64_update_u64(&a, 2, 5) == DS_OK);
    CHECK(ds_count_min_u64_update_u64(&b, 1, 5) == DS_OK && ds_equal(&a, &b) == DS_YES);
    CHECK(ds_count_min_new(&a, DS_COUNT_MIN_U64, 4, 128, 9001) == DS_OK &&
          ds_count_min_new(&b, DS_COUNT_MIN_U64, 5, 128, 9001) == DS_OK);
    CHECK(ds_equal(&a, &b) == DS_NO && ds_count_min_new(&b, DS_COUNT_MIN_U64, 4, 129, 9001) == DS_OK);
    CHECK(ds_equal(&a, &b) == DS_NO && ds_count_min_new(&b, DS_COUNT_MIN_U64, 4, 128, 9002) == DS_OK);
    CHECK(ds_equal(&a, &b) == DS_NO);

    CHECK(ds_count_min_new(&b, DS_COUNT_MIN_I64, 4, 128, 9001) == DS_OK && ds_equal(&a, &b) == DS_WRONG_KIND);
    CHECK(ds_count_min_new(&a, DS_COUNT_MIN_I64, 4, 128, 9001) == DS_OK && ds_equal(&a, &b) == DS_YES);
    CHECK(ds_count_min_i64_update_u64(&a, 1, 5) == DS_OK && ds_count_min_i64_update_u64(&b, 1, -5) == DS_OK);
    CHECK(ds_equal(&a, &b) == DS_NO && ds_clone(&other, &b) == DS_OK && ds_equal(&other, &b) == DS_YES);
    CHECK(ds_count_min_i64_estimate_u64(&b, 1, &estimate) == DS_OK && estimate == -5);
    ds_free(&b);
    CHECK(ds_equal(&a, &b) == DS_NO_SKETCH && ds_equal(&b, &a) == DS_NO_SKETCH);
    ds_free(&a);
    ds_free(&other);
}

enum { KINDS = 6 };

static const uint64_t NUMBERS[9] = {1, 2, 3, 1, 5, 8, 13, 1, 34};
static const uint8_t WORDS[] = "to be or not to be";
static const ds_key KEY = {0x0706050403020100, 0x0f0e0d0c0b0a0908};

/* Puts a filled sketch of a kind into the handle, of frequent items under KEY. */
static bool create_filled(ds_sketch *handle, int32_t kind)
{
    const ds_items numbers = ds_items_u64(NUMBERS, 9), words = ds_items_words(WORDS, sizeof WORDS - 1);
    bool is_new = kind == DS_BLOOM               ? ds_bloom_new(handle, 640, 3, 7) == DS_OK
                  : kind < DS_FREQUENT_ITEMS_U64 ? ds_count_min_new(handle, kind, 3, 17, 7) == DS_OK
                                                 : ds_frequent_items_new(handle, kind, 64, 4, &KEY) == DS_OK;
    switch (kind) {
    case DS_BLOOM: return is_new && ds_bloom_insert_all(handle, &numbers) == DS_OK;
    case DS_COUNT_MIN_I64: return is_new && ds_count_min_i64_update_u64(handle, 5, -9) == DS_OK;
    case DS_FREQUENT_ITEMS_I64: return is_new && ds_frequent_items_i64_update(handle, -5, 9) == DS_OK;
    case DS_FREQUENT_ITEMS_STRING: return is_new && ds_update_all(handle, &words) == DS_OK;
    default: return is_new && ds_update_all(handle, &numbers) == DS_OK;
    }
}

/* The image of a sketch and its numbers. Both are the same if nothing changed. */
struct snapshot {
    size_t length;
    uint8_t image[512];
    ds_status status;
};

static struct snapshot snapshot_of(ds_sketch *handle)
{
    struct snapshot taken;
    memset(&taken, 0, sizeof taken);
    CHECK(ds_serialize(handle, taken.image, sizeof taken.image, &taken.length) == DS_OK && taken.length > 24);
    CHECK(ds_get_status(handle, &taken.status) == DS_OK);
    return taken;
}

static bool is_as(const struct snapshot *before, ds_sketch *handle)
{
    struct snapshot now = snapshot_of(handle);
    return memcmp(before, &now, sizeof now) == 0;
}

/* The numbers of each kind. Those of other kinds are 0. */
static void statuses(void)
{
    static const ds_status WANTED[KINDS] = {
        {.kind = DS_BLOOM, .seed = 7, .num_bits = 640, .num_hashes = 3},
        {.kind = DS_COUNT_MIN_U64, .seed = 7, .total_weight = 9, .num_buckets = 17, .num_hashes = 3},
        {.kind = DS_COUNT_MIN_I64, .seed = 7, .total_weight = 9, .num_buckets = 17, .num_hashes = 3},
        {.kind = DS_FREQUENT_ITEMS_U64,
         .total_weight = 9,
         .num_active_items = 7,
         .maximum_map_capacity = 48,
         .current_map_capacity = 12,
         .max_map_size = 64,
         .sample_size = 4},
        {.kind = DS_FREQUENT_ITEMS_I64,
         .total_weight = 9,
         .num_active_items = 1,
         .maximum_map_capacity = 48,
         .current_map_capacity = 6,
         .max_map_size = 64,
         .sample_size = 4},
        {.kind = DS_FREQUENT_ITEMS_STRING,
         .total_weight = 6,
         .num_active_items = 4,
         .maximum_map_capacity = 48,
         .current_map_capacity = 6,
         .max_map_size = 64,
         .sample_size = 4},
    };
    ds_sketch sketch = DS_NONE;
    ds_status status;
    memset(&status, 0xa5, sizeof status);
    CHECK(ds_get_status(&sketch, &status) == DS_NO_SKETCH && status.kind == 0xa5a5);
    for (int32_t kind = 1; kind <= KINDS; kind++) {
        ds_status wanted = WANTED[kind - 1];
        memset(&status, 0xa5, sizeof status);
        CHECK(create_filled(&sketch, kind) && ds_get_status(&sketch, &status) == DS_OK);
        /* three hashes of seven items: the number of set bits is also in the image */
        if (kind == DS_BLOOM) {
            struct snapshot taken = snapshot_of(&sketch);
            wanted.bits_used = taken.image[24];
            CHECK(status.bits_used > 3 && status.bits_used <= 21);
        }
        CHECK(memcmp(&status, &wanted, sizeof status) == 0);
    }
    /* seven items of weight 1 in a sketch of eight slots cause one purge */
    CHECK(ds_frequent_items_new(&sketch, DS_FREQUENT_ITEMS_U64, 8, 6, NULL) == DS_OK);
    for (uint64_t item = 0; item < 7; item++) CHECK(ds_frequent_items_u64_update(&sketch, item, 1) == DS_OK);
    CHECK(ds_get_status(&sketch, &status) == DS_OK && status.maximum_error == 1 && status.num_active_items == 0);
    ds_free(&sketch);
    CHECK(ds_get_status(&sketch, &status) == DS_NO_SKETCH && status.maximum_error == 1);
}

/* A reset leaves an empty sketch of the same sizes, seed and key. */
static void resets(void)
{
    ds_sketch sketch = DS_NONE, again = DS_NONE, empty = DS_NONE;
    ds_status before, after;
    size_t length;
    CHECK(ds_reset(&sketch) == DS_NO_SKETCH && !sketch.sketch);
    for (int32_t kind = 1; kind <= KINDS; kind++) {
        CHECK(create_filled(&sketch, kind) && create_filled(&again, kind));
        struct snapshot filled = snapshot_of(&sketch);
        before = filled.status;
        CHECK(ds_reset(&sketch) == DS_OK && ds_get_status(&sketch, &after) == DS_OK);
        CHECK(after.bits_used == 0 && after.total_weight == 0 && after.num_active_items == 0 && after.kind == kind);
        CHECK(after.seed == before.seed && after.num_bits == before.num_bits && after.num_hashes == before.num_hashes);
        CHECK(after.num_buckets == before.num_buckets && after.max_map_size == before.max_map_size);
        CHECK(after.sample_size == before.sample_size && after.maximum_map_capacity == before.maximum_map_capacity);
        CHECK(ds_serialized_bytes(&sketch, &length) == DS_OK && length <= 24 && ds_reset(&sketch) == DS_OK);
        /* the same merge as into a new sketch: nothing is left */
        CHECK(ds_merge(&sketch, &again) == DS_OK && is_as(&filled, &again));
        if (kind <= DS_COUNT_MIN_I64) CHECK(is_as(&filled, &sketch) && ds_equal(&sketch, &again) == DS_YES);
    }
    CHECK(ds_count_min_new(&empty, DS_COUNT_MIN_U64, 3, 17, 7) == DS_OK && create_filled(&sketch, DS_COUNT_MIN_U64));
    CHECK(ds_equal(&sketch, &empty) == DS_NO && ds_reset(&sketch) == DS_OK && ds_equal(&sketch, &empty) == DS_YES);
    CHECK(ds_count_min_new(&empty, DS_COUNT_MIN_I64, 3, 17, 7) == DS_OK && create_filled(&sketch, DS_COUNT_MIN_I64));
    CHECK(ds_equal(&sketch, &empty) == DS_NO && ds_reset(&sketch) == DS_OK && ds_equal(&sketch, &empty) == DS_YES);
    ds_free(&sketch);
    ds_free(&again);
    ds_free(&empty);
}

/* Numbers that are no kind. Each call returns DS_WRONG_KIND for them before its other errors. */
static const int32_t UNKNOWN[] = {0, -1, KINDS + 1, 257, 65537, INT32_MIN, INT32_MAX};

/* Makes the calls that take a kind with one that they do not take. Checks that the handle and `used` stay as they were. */
static void rejected_kind(ds_sketch *handle, int32_t kind)
{
    void *before = handle->sketch;
    size_t used = 77;
    bool is_known = kind >= 1 && kind <= KINDS;
    if (kind != DS_COUNT_MIN_U64 && kind != DS_COUNT_MIN_I64) {
        CHECK(ds_count_min_new(handle, kind, 4, 128, 9001) == DS_WRONG_KIND);
        CHECK(ds_count_min_new(handle, kind, 0, 0, 50541) == DS_WRONG_KIND);
    }
    if (kind < DS_FREQUENT_ITEMS_U64 || kind > DS_FREQUENT_ITEMS_STRING) {
        CHECK(ds_frequent_items_new(handle, kind, 64, 48, NULL) == DS_WRONG_KIND);
        CHECK(ds_frequent_items_new(handle, kind, 64, 48, &KEY) == DS_WRONG_KIND);
        CHECK(ds_frequent_items_new(handle, kind, 9, 0, &KEY) == DS_WRONG_KIND);
    }
    if (!is_known) {
        CHECK(ds_deserialize(handle, kind, TWO_BITS, 40, WITHIN(1 << 20)) == DS_WRONG_KIND);
        CHECK(ds_deserialize(handle, kind, NULL, 0, WITHIN_KEY(0, 1, 2)) == DS_WRONG_KIND);
        CHECK(ds_deserialize_prefix(handle, kind, TWO_BITS, 40, WITHIN(1 << 20), &used) == DS_WRONG_KIND);
        CHECK(ds_deserialize_prefix(handle, kind, NULL, 0, WITHIN_KEY(0, 1, 2), &used) == DS_WRONG_KIND);
        CHECK(ds_deserialize(handle, kind, NULL, 1, WITHIN(8)) == DS_BAD_ARGUMENT);
        CHECK(ds_deserialize(handle, kind, TWO_BITS, 40, NULL) == DS_BAD_ARGUMENT);
        CHECK(ds_deserialize_prefix(handle, kind, TWO_BITS, 40, NULL, &used) == DS_BAD_ARGUMENT);
    }
    CHECK(used == 77 && handle->sketch == before);
}

/* Calls on one sketch or two return DS_WRONG_KIND for kinds that they do not take, and change nothing. */
static void wrong_kinds(void)
{
    ds_sketch a = DS_NONE, b = DS_NONE, none = DS_NONE;
    for (int32_t kind = 1; kind <= KINDS; kind++) {
        CHECK(create_filled(&a, kind));
        struct snapshot of_a = snapshot_of(&a);
        bool is_frequent = kind >= DS_FREQUENT_ITEMS_U64;
        for (int32_t other = 1; other <= KINDS; other++) {
            CHECK(create_filled(&b, other));
            struct snapshot of_b = snapshot_of(&b);
            if (other != kind) {
                CHECK(ds_merge(&a, &b) == DS_WRONG_KIND && ds_merge_all(&a, &b, 1) == DS_WRONG_KIND);
                CHECK(ds_equal(&a, &b) == DS_WRONG_KIND);
            } else {
                CHECK(ds_equal(&a, &b) == (is_frequent ? DS_WRONG_KIND : DS_YES));
            }
            if (kind != DS_BLOOM || other != DS_BLOOM) {
                CHECK(ds_bloom_intersect(&a, &b) == DS_WRONG_KIND && ds_bloom_difference(&a, &b) == DS_WRONG_KIND);
            }
            CHECK(is_as(&of_a, &a) && is_as(&of_b, &b));
        }
        /* the first handle with an error decides */
        CHECK(ds_equal(&a, &none) == (is_frequent ? DS_WRONG_KIND : DS_NO_SKETCH) && ds_equal(&none, &a) == DS_NO_SKETCH);
        CHECK(ds_merge(&a, &none) == DS_NO_SKETCH && ds_merge(&none, &a) == DS_NO_SKETCH);
        CHECK(ds_frequent_items_set_sample_size(&a, 3) == (is_frequent ? DS_BAD_SAMPLE_SIZE : DS_WRONG_KIND));
        if (!is_frequent) CHECK(ds_frequent_items_set_sample_size(&a, 4) == DS_WRONG_KIND);
        for (size_t i = 0; i < sizeof UNKNOWN / sizeof *UNKNOWN; i++) {
            rejected_kind(&a, UNKNOWN[i]);
            rejected_kind(&none, UNKNOWN[i]);
        }
        for (int32_t other = 1; other <= KINDS; other++) rejected_kind(&a, other);
        CHECK(is_as(&of_a, &a) && !none.sketch);
    }
    ds_free(&a);
    ds_free(&b);
}

/* The options of an image: other kinds do without the seed and the key, and a null key is drawn. */
static void options_of_images(void)
{
    ds_sketch written = DS_NONE, read = DS_NONE, again = DS_NONE;
    ds_status status;
    size_t used, length;
    for (int32_t kind = 1; kind <= KINDS; kind++) {
        CHECK(create_filled(&written, kind));
        struct snapshot image = snapshot_of(&written);
        const ds_image_options with_key = {1 << 20, 7, &KEY}, without = {1 << 20, 7, NULL}, other_seed = {1 << 20, 9001, &KEY};
        CHECK(ds_deserialize(&read, kind, image.image, image.length, &with_key) == DS_OK);
        CHECK(ds_deserialize_prefix(&again, kind, image.image, sizeof image.image, &with_key, &used) == DS_OK);
        CHECK(used == image.length);
        /* under the same key both tables are filled in the same order */
        struct snapshot of_read = snapshot_of(&read);
        CHECK(is_as(&of_read, &again) && of_read.length == image.length);
        if (kind < DS_FREQUENT_ITEMS_U64) CHECK(is_as(&image, &read));
        /* without a key the same items, in any order, and the largest sample size */
        CHECK(ds_deserialize(&read, kind, image.image, image.length, &without) == DS_OK);
        CHECK(ds_serialized_bytes(&read, &length) == DS_OK && length == image.length && ds_get_status(&read, &status) == DS_OK);
        CHECK(status.sample_size == (kind >= DS_FREQUENT_ITEMS_U64 ? 48 : 0) && status.total_weight == image.status.total_weight);
        CHECK(status.num_active_items == image.status.num_active_items && status.kind == kind);
        if (kind < DS_FREQUENT_ITEMS_U64) CHECK(ds_equal(&read, &written) == DS_YES);
        /* only a Count-Min sketch has the seed of the options */
        if (kind == DS_COUNT_MIN_U64 || kind == DS_COUNT_MIN_I64) {
            CHECK(ds_deserialize(&read, kind, image.image, image.length, &other_seed) == DS_SEED_HASH_MISMATCH);
        } else {
            CHECK(ds_deserialize(&read, kind, image.image, image.length, &other_seed) == DS_OK);
            CHECK(ds_get_status(&read, &status) == DS_OK && status.seed == image.status.seed);
        }
        /* an image of another family is an error of the image */
        CHECK(ds_deserialize(&read, kind == DS_BLOOM ? DS_COUNT_MIN_U64 : DS_BLOOM, image.image, image.length, &with_key) ==
              DS_BAD_FAMILY);
        CHECK(ds_deserialize(&read, kind, image.image, image.length, NULL) == DS_BAD_ARGUMENT);
        CHECK(ds_get_status(&read, &status) == DS_OK && status.kind == kind && status.total_weight == image.status.total_weight);
    }
    ds_free(&written);
    ds_free(&read);
    ds_free(&again);
}

static void *fill(void *argument)
{
    ds_sketch *handle = argument;
    for (uint64_t i = 0; i < 20000; i++)
        if (ds_bloom_insert_u64(handle, i) != DS_OK) return handle;
    return NULL;
}

/* Each of four threads fills its own filter. Then this thread uses all of them. */
static void threads(void)
{
    enum { THREADS = 4 };
    ds_sketch handles[THREADS] = {DS_NONE};
    pthread_t ids[THREADS];
    for (int i = 0; i < THREADS; i++) {
        CHECK(ds_bloom_new(&handles[i], 1 << 18, 7, 9001) == DS_OK);
        CHECK(pthread_create(&ids[i], NULL, fill, &handles[i]) == 0);
    }
    for (int i = 0; i < THREADS; i++) {
        void *failed;
        CHECK(pthread_join(ids[i], &failed) == 0 && !failed);
        CHECK(ds_bloom_contains_u64(&handles[i], 19999) == DS_YES);
    }
    for (int i = 1; i < THREADS; i++) CHECK(ds_merge(&handles[0], &handles[i]) == DS_OK);
    for (int i = 0; i < THREADS; i++) ds_free(&handles[i]);
}

int main(void)
{
    equal_sketches();
    statuses();
    resets();
    wrong_kinds();
    options_of_images();
    threads();
    return report();
}
