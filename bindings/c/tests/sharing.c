/* Shared sketches: threads that read one at once, calls that change it, merges from it, and its thaw. Prints the checks that
 * failed, and exits with 1 if there is any. With the argument `joined`, no sketch is thawed before the threads that read it are
 * joined, since tools that look for races do not know the order that counts of shares make. */
#define _POSIX_C_SOURCE 200809L

#include <datasketches.h>
#include <pthread.h>
#include <string.h>
#include <time.h>

#include "check.h"
#include "forms.h"
#include "options.h"

enum { THREADS = 8, ITEMS = 600, KINDS = 6, ITEM_KINDS = 7 };

static uint64_t numbers[ITEMS];
static int64_t with_sign[ITEMS];
static struct forms forms;

/* Strings of two letters one after another. */
static const uint8_t *letters;

static void make_items(void)
{
    clear_forms(&forms);
    letters = forms.bytes + 1;
    for (size_t i = 0; i < ITEMS; i++) {
        const uint8_t string[2] = {(uint8_t)('a' + i % 26), (uint8_t)('a' + i / 26 % 26)};
        numbers[i] = i * i % 997;
        with_sign[i] = (int64_t)(i * 7 % 301) - 150;
        add_string(&forms, string, 2);
    }
}

/* Returns the first `count` items of a kind. */
static ds_items first_items(int32_t kind, size_t count)
{
    if (kind == DS_ITEMS_U64) return ds_items_u64(numbers, count);
    if (kind == DS_ITEMS_I64) return ds_items_i64(with_sign, count);
    return strings_of(&forms, kind, 0, count);
}

/* --- Threads. --- */

/* What a thread reads of a filter, a Count-Min sketch and two sketches of frequent items. */
typedef struct {
    bool found[3][ITEMS];
    uint64_t estimates[2][ITEMS], bound, rows[64];
    ds_item_bounds bounds[2][ITEMS], of_rows[64];
    size_t num_rows, lengths[4];
    uint8_t images[4][1 << 14];
    ds_status filter;
    ds_status count;
    ds_status heavy;
} answers;

/* A thread's handles, what it reads, and whether its calls were done. */
typedef struct {
    ds_sketch filter, count, heavy, words;
    answers got;
    bool done;
} reader;

static bool read_all(reader *it)
{
    answers *got = &it->got;
    memset(got, 0, sizeof *got);
    const ds_items all = first_items(DS_ITEMS_U64, ITEMS), strings = first_items(DS_ITEMS_STRINGS, ITEMS);
    bool done = ds_bloom_contains_all(&it->filter, &all, got->found[0], ITEMS) == DS_OK;
    done &= ds_bloom_contains_all(&it->filter, &strings, got->found[1], ITEMS) == DS_OK;
    for (size_t i = 0; i < ITEMS; i++) {
        int32_t found = ds_bloom_contains_i64(&it->filter, with_sign[i]);
        got->found[2][i] = found == DS_YES;
        done &= found >= 0 && ds_count_min_u64_estimate_u64(&it->count, numbers[i], &got->estimates[0][i]) == DS_OK;
        done &= ds_frequent_items_u64_bounds(&it->heavy, numbers[i], &got->bounds[0][i]) == DS_OK;
    }
    done &= ds_get_status(&it->filter, &got->filter) == DS_OK;
    done &= ds_serialize(&it->filter, got->images[0], sizeof got->images[0], &got->lengths[0]) == DS_OK;
    done &= ds_count_min_u64_estimate_all(&it->count, &strings, got->estimates[1], ITEMS) == DS_OK;
    done &= ds_count_min_u64_upper_bound_u64(&it->count, 1, &got->bound) == DS_OK;
    done &= ds_get_status(&it->count, &got->count) == DS_OK;
    done &= ds_serialize(&it->count, got->images[1], sizeof got->images[1], &got->lengths[1]) == DS_OK;
    done &= ds_frequent_items_bounds_all(&it->words, &strings, got->bounds[1], ITEMS) == DS_OK;
    done &= ds_frequent_items_u64_rows(&it->heavy, false, 0, SIZE_MAX, got->rows, 64, got->of_rows, 64, &got->num_rows) == DS_OK;
    done &= ds_get_status(&it->heavy, &got->heavy) == DS_OK;
    done &= ds_serialize(&it->heavy, got->images[2], sizeof got->images[2], &got->lengths[2]) == DS_OK;
    done &= ds_serialize(&it->words, got->images[3], sizeof got->images[3], &got->lengths[3]) == DS_OK;
    return done;
}

static void free_reader(reader *it)
{
    ds_free(&it->filter);
    ds_free(&it->count);
    ds_free(&it->heavy);
    ds_free(&it->words);
}

/* Reads everything twice, with a clone and a share of a share in between, and frees the handles. */
static void *run(void *argument)
{
    reader *it = argument;
    ds_sketch more = DS_NONE, copy = DS_NONE;
    bool done = read_all(it);
    done &= ds_share(&more, &it->filter) == DS_OK && ds_equal(&more, &it->filter) == DS_YES;
    done &= ds_clone(&copy, &more) == DS_OK && ds_bloom_insert_u64(&copy, UINT64_MAX) == DS_OK;
    done &= ds_share(&copy, &it->heavy) == DS_OK && ds_frequent_items_u64_update(&copy, 1, 1) == DS_SHARED;
    it->done = done && read_all(it);
    ds_free(&more);
    ds_free(&copy);
    free_reader(it);
    return NULL;
}

static bool fill(reader *it)
{
    const ds_items half = first_items(DS_ITEMS_U64, ITEMS / 2), half_of_strings = first_items(DS_ITEMS_STRINGS, ITEMS / 2);
    const ds_items all = first_items(DS_ITEMS_U64, ITEMS), strings = first_items(DS_ITEMS_STRINGS, ITEMS);
    bool done = ds_bloom_new(&it->filter, 8000, 5, 9001) == DS_OK;
    done &= ds_bloom_insert_all(&it->filter, &half) == DS_OK;
    done &= ds_bloom_insert_all(&it->filter, &half_of_strings) == DS_OK;
    done &= ds_count_min_new(&it->count, DS_COUNT_MIN_U64, 4, 256, 9001) == DS_OK;
    done &= ds_update_all(&it->count, &half) == DS_OK && ds_update_all(&it->count, &half_of_strings) == DS_OK;
    done &= ds_frequent_items_new(&it->heavy, DS_FREQUENT_ITEMS_U64, 256, 192, &(ds_key){7, 8}) == DS_OK;
    done &= ds_frequent_items_u64_update(&it->heavy, numbers[0], 1000) == DS_OK;
    done &= ds_update_all(&it->heavy, &all) == DS_OK;
    done &= ds_frequent_items_new(&it->words, DS_FREQUENT_ITEMS_STRING, 256, 192, &(ds_key){7, 8}) == DS_OK;
    done &= ds_frequent_items_string_update(&it->words, letters, 2, 1000) == DS_OK;
    done &= ds_update_all(&it->words, &strings) == DS_OK;
    return done;
}

static bool share_all(reader *it, reader *from)
{
    bool done = ds_share(&it->filter, &from->filter) == DS_OK && ds_share(&it->count, &from->count) == DS_OK;
    return done && ds_share(&it->heavy, &from->heavy) == DS_OK && ds_share(&it->words, &from->words) == DS_OK;
}

/* Eight threads read what one thread read. In every other round the last thread frees the sketches. */
static void threads(bool thaws_early)
{
    static reader first, readers[THREADS];
    static answers alone;
    pthread_t ids[THREADS];
    for (int round = 0; round < 4; round++) {
        memset(&first, 0, sizeof first);
        memset(readers, 0, sizeof readers);
        CHECK(fill(&first) && read_all(&first));
        alone = first.got;
        CHECK(alone.num_rows > 0 && alone.found[0][0] && alone.estimates[0][0] > 0 && alone.bounds[1][0].lower_bound > 0);
        CHECK(ds_freeze(&first.filter) == DS_OK && ds_freeze(&first.count) == DS_OK);
        CHECK(ds_freeze(&first.heavy) == DS_OK && ds_freeze(&first.words) == DS_OK);
        for (int i = 0; i < THREADS; i++) CHECK(share_all(&readers[i], &first) && ds_thaw(&first.filter) == DS_NO);
        for (int i = 0; i < THREADS; i++) CHECK(pthread_create(&ids[i], NULL, run, &readers[i]) == 0);
        if (round % 2) {
            free_reader(&first);
        } else if (thaws_early) {
            /* It sleeps between trials: under valgrind one thread runs at a time, and one that never waits can keep the others out. */
            const struct timespec pause = {.tv_nsec = 1000000};
            int32_t result;
            while ((result = ds_thaw(&first.filter)) == DS_NO) {
                CHECK(ds_bloom_contains_u64(&first.filter, numbers[0]) == DS_YES);
                nanosleep(&pause, NULL);
            }
            CHECK(result == DS_YES && ds_reset(&first.filter) == DS_OK);
        } else {
            CHECK(read_all(&first) && memcmp(&first.got, &alone, sizeof alone) == 0);
        }
        for (int i = 0; i < THREADS; i++) CHECK(pthread_join(ids[i], NULL) == 0);
        for (int i = 0; i < THREADS; i++) CHECK(readers[i].done && memcmp(&readers[i].got, &alone, sizeof alone) == 0);
        if (round % 2 == 0) {
            CHECK(ds_thaw(&first.filter) == DS_YES && ds_bloom_insert_u64(&first.filter, 1) == DS_OK);
            CHECK(ds_thaw(&first.count) == DS_YES && ds_count_min_u64_halve(&first.count) == DS_OK);
            CHECK(ds_thaw(&first.heavy) == DS_YES && ds_frequent_items_u64_update(&first.heavy, 1, 1) == DS_OK);
            CHECK(ds_thaw(&first.words) == DS_YES && ds_frequent_items_string_update(&first.words, letters, 2, 1) == DS_OK);
            free_reader(&first);
        }
    }
}

/* --- Each kind. --- */

/* A filled sketch of a kind, whose image and memory are compared. */
static bool make(ds_sketch *handle, int kind)
{
    static const int32_t kinds[KINDS] = {
        DS_BLOOM, DS_COUNT_MIN_U64, DS_COUNT_MIN_I64, DS_FREQUENT_ITEMS_U64, DS_FREQUENT_ITEMS_I64, DS_FREQUENT_ITEMS_STRING};
    const ds_items items = first_items(kind < 4 ? DS_ITEMS_U64 : kind == 4 ? DS_ITEMS_I64 : DS_ITEMS_STRINGS, 9);
    if (kind == 0) return ds_bloom_new(handle, 640, 3, 9001) == DS_OK && ds_bloom_insert_all(handle, &items) == DS_OK;
    int32_t made = kind < 3 ? ds_count_min_new(handle, kinds[kind], 3, 16, 9001)
                            : ds_frequent_items_new(handle, kinds[kind], 64, 48, &(ds_key){7, 8});
    return made == DS_OK && ds_update_all(handle, &items) == DS_OK;
}

/* The image of a sketch. */
typedef struct {
    size_t length;
    uint8_t bytes[2048];
} image;

static image image_of(ds_sketch *handle)
{
    image made;
    memset(&made, 0, sizeof made);
    CHECK(ds_serialize(handle, made.bytes, sizeof made.bytes, &made.length) == DS_OK && made.length > 24);
    return made;
}

static bool is_image_of(const image *wanted, ds_sketch *handle)
{
    image got = image_of(handle);
    return memcmp(wanted, &got, sizeof got) == 0;
}

static int32_t change_filter(ds_sketch *handle, ds_sketch *other, int call)
{
    bool results[30];
    /* the calls on items of each kind come after the others */
    const ds_items items = first_items((call + 2 * ITEM_KINDS - 11) % ITEM_KINDS, 30);
    switch (call) {
    case 0: return ds_bloom_insert_u64(handle, 500);
    case 1: return ds_bloom_insert_i64(handle, 500);
    case 2: return ds_bloom_insert_string(handle, letters, 3);
    case 3: return ds_bloom_contains_and_insert_u64(handle, 500);
    case 4: return ds_bloom_contains_and_insert_i64(handle, 500);
    case 5: return ds_bloom_contains_and_insert_string(handle, letters, 3);
    case 6: return ds_merge(handle, other);
    case 7: return ds_bloom_intersect(handle, other);
    case 8: return ds_bloom_difference(handle, other);
    case 9: return ds_merge_all(handle, other, 1);
    case 10: return ds_reset(handle);
    default:
        if (call < 11 + ITEM_KINDS) return ds_bloom_insert_all(handle, &items);
        return ds_bloom_contains_and_insert_all(handle, &items, results, 30);
    }
}

#define CHANGE_COUNT(kind, type, update_all_weighted) \
    static int32_t change_count_##kind(ds_sketch *handle, ds_sketch *other, int call) \
    { \
        const type weights[4] = {1, 2, 3, 4}; \
        const ds_items items = first_items((call + ITEM_KINDS - 6) % ITEM_KINDS, 4); \
        switch (call) { \
        case 0: return ds_count_min_##kind##_update_u64(handle, 1, 1); \
        case 1: return ds_count_min_##kind##_update_i64(handle, 1, 1); \
        case 2: return ds_count_min_##kind##_update_string(handle, letters, 3, 1); \
        case 3: return ds_merge(handle, other); \
        case 4: return ds_merge_all(handle, other, 1); \
        case 5: return ds_reset(handle); \
        default: return call < 6 + ITEM_KINDS ? ds_update_all(handle, &items) : update_all_weighted(handle, &items, weights, 4); \
        } \
    }
CHANGE_COUNT(u64, uint64_t, ds_update_all_weighted)
CHANGE_COUNT(i64, int64_t, ds_count_min_i64_update_all_weighted)

static int32_t scale_count(ds_sketch *handle, ds_sketch *other, int call)
{
    (void)other;
    return call == 0 ? ds_count_min_u64_halve(handle) : ds_count_min_u64_decay(handle, 1, 3);
}

static int32_t change_frequent(ds_sketch *handle, ds_sketch *other, int call)
{
    switch (call) {
    case 0: return ds_merge(handle, other);
    case 1: return ds_merge_all(handle, other, 1);
    case 2: return ds_frequent_items_set_sample_size(handle, 8);
    default: return ds_reset(handle);
    }
}

#define CHANGE_FREQUENT_NUMBERS(kind, kind_of_items) \
    static int32_t change_frequent_##kind(ds_sketch *handle, ds_sketch *other, int call) \
    { \
        const uint64_t weights[4] = {1, 2, 3, 4}; \
        const ds_items items = first_items(kind_of_items, 4); \
        (void)other; \
        switch (call) { \
        case 0: return ds_frequent_items_##kind##_update(handle, 7, 1); \
        case 1: return ds_update_all(handle, &items); \
        default: return ds_update_all_weighted(handle, &items, weights, 4); \
        } \
    }
CHANGE_FREQUENT_NUMBERS(u64, DS_ITEMS_U64)
CHANGE_FREQUENT_NUMBERS(i64, DS_ITEMS_I64)

static int32_t change_frequent_string(ds_sketch *handle, ds_sketch *other, int call)
{
    const uint64_t weights[4] = {1, 2, 3, 4};
    const ds_items items = first_items(DS_ITEMS_OFFSETS + call % 5, 4);
    (void)other;
    if (call == 10) return ds_frequent_items_string_update(handle, letters, 3, 1);
    return call < 5 ? ds_update_all(handle, &items) : ds_update_all_weighted(handle, &items, weights, 4);
}

static const struct {
    int kind, calls;
    int32_t (*change)(ds_sketch *, ds_sketch *, int);
} CHANGES[] = {{0, 11 + 2 * ITEM_KINDS, change_filter},
               {1, 6 + 2 * ITEM_KINDS, change_count_u64},
               {1, 2, scale_count},
               {2, 6 + 2 * ITEM_KINDS, change_count_i64},
               {3, 4, change_frequent},
               {3, 3, change_frequent_u64},
               {4, 4, change_frequent},
               {4, 3, change_frequent_i64},
               {5, 4, change_frequent},
               {5, 11, change_frequent_string}};

/* Each call that changes a sketch returns DS_SHARED for a shared one, changes nothing, and is done after the thaw. The other
 * sketch of a merge may be shared. */
static void changes(void)
{
    for (size_t i = 0; i < sizeof CHANGES / sizeof *CHANGES; i++) {
        int kind = CHANGES[i].kind;
        for (int call = 0; call < CHANGES[i].calls; call++) {
            ds_sketch handle = DS_NONE, other = DS_NONE, share = DS_NONE;
            CHECK(make(&handle, kind) && make(&other, kind) && ds_freeze(&handle) == DS_OK && ds_freeze(&other) == DS_OK);
            image before = image_of(&handle), of_other = image_of(&other);
            CHECK(CHANGES[i].change(&handle, &other, call) == DS_SHARED && is_image_of(&before, &handle));
            CHECK(ds_share(&share, &handle) == DS_OK && CHANGES[i].change(&share, &other, call) == DS_SHARED);
            CHECK(is_image_of(&before, &handle) && is_image_of(&before, &share));
            CHECK(ds_thaw(&handle) == DS_NO && CHANGES[i].change(&handle, &other, call) == DS_SHARED);
            ds_free(&share);
            CHECK(ds_thaw(&handle) == DS_YES && is_image_of(&before, &handle));
            CHECK(CHANGES[i].change(&handle, &other, call) >= 0 && is_image_of(&of_other, &other));
            CHECK(ds_thaw(&other) == DS_YES);
            ds_free(&handle);
            ds_free(&other);
        }
    }
}

/* Freeze, share, thaw, clone and free of each kind. */
static void each_kind(void)
{
    for (int kind = 0; kind < KINDS; kind++) {
        ds_sketch own = DS_NONE, share = DS_NONE, third = DS_NONE, copy = DS_NONE, none = DS_NONE;
        size_t bytes, shared_bytes;
        CHECK(ds_freeze(&none) == DS_NO_SKETCH && ds_thaw(&none) == DS_NO_SKETCH && ds_share(&share, &none) == DS_NO_SKETCH);
        CHECK(make(&own, kind) && ds_share(&share, &own) == DS_NOT_SHARED && !share.sketch && ds_thaw(&own) == DS_YES);
        image before = image_of(&own);
        CHECK(ds_memory_bytes(&own, &bytes) == DS_OK && ds_freeze(&own) == DS_OK && ds_freeze(&own) == DS_OK);
        CHECK(ds_memory_bytes(&own, &shared_bytes) == DS_OK && shared_bytes == bytes && is_image_of(&before, &own));
        CHECK(ds_share(&own, &own) == DS_BAD_ARGUMENT && ds_share(&share, &own) == DS_OK && ds_share(&third, &share) == DS_OK);
        CHECK(is_image_of(&before, &share) && is_image_of(&before, &third));
        /* a share of no sketch, or of one that is not shared, keeps what the handle had */
        CHECK(ds_share(&third, &none) == DS_NO_SKETCH && is_image_of(&before, &third));
        /* a clone is not shared */
        CHECK(ds_clone(&copy, &share) == DS_OK && is_image_of(&before, &copy));
        CHECK(ds_share(&third, &copy) == DS_NOT_SHARED && is_image_of(&before, &third) && ds_thaw(&copy) == DS_YES);
        CHECK(ds_equal(&copy, &own) == (kind < 3 ? DS_YES : DS_WRONG_KIND));
        CHECK(ds_equal(&own, &share) == (kind < 3 ? DS_YES : DS_WRONG_KIND));
        /* each handle can be the last one, and another sketch replaces a share alone */
        CHECK(ds_thaw(&own) == DS_NO && ds_thaw(&share) == DS_NO && ds_thaw(&third) == DS_NO);
        ds_free(&own);
        CHECK(ds_thaw(&third) == DS_NO && ds_share(&share, &third) == DS_OK && ds_thaw(&third) == DS_NO);
        CHECK(make(&share, (kind + 1) % KINDS) && ds_thaw(&third) == DS_YES && is_image_of(&before, &third));
        CHECK(ds_freeze(&third) == DS_OK && is_image_of(&before, &third));
        ds_free(&share);
        ds_free(&third);
        ds_free(&copy);
    }
}

/* A merge of many takes shared sketches beside others, also two shares of one. */
static void merges_of_shares(void)
{
    ds_sketch all = DS_NONE, others[3] = {DS_NONE};
    uint64_t estimate;
    ds_item_bounds bounds;
    CHECK(make(&others[0], 0) && ds_freeze(&others[0]) == DS_OK && ds_share(&others[2], &others[0]) == DS_OK);
    CHECK(ds_bloom_new(&others[1], 640, 3, 9001) == DS_OK && ds_bloom_insert_u64(&others[1], 5000) == DS_OK);
    CHECK(ds_bloom_new(&all, 640, 3, 9001) == DS_OK && ds_merge_all(&all, others, 3) == DS_OK);
    CHECK(ds_bloom_contains_u64(&all, 5000) == DS_YES && ds_bloom_contains_u64(&all, numbers[8]) == DS_YES);
    CHECK(ds_thaw(&others[0]) == DS_NO);
    CHECK(make(&others[0], 1) && ds_freeze(&others[0]) == DS_OK && ds_share(&others[2], &others[0]) == DS_OK);
    CHECK(make(&others[1], 1) && make(&all, 1) && ds_merge_all(&all, others, 3) == DS_OK);
    CHECK(ds_count_min_u64_estimate_u64(&all, numbers[8], &estimate) == DS_OK && estimate >= 4);
    CHECK(make(&others[0], 3) && ds_freeze(&others[0]) == DS_OK && ds_share(&others[2], &others[0]) == DS_OK);
    CHECK(make(&others[1], 3) && make(&all, 3) && ds_merge_all(&all, others, 3) == DS_OK);
    CHECK(ds_frequent_items_u64_bounds(&all, numbers[8], &bounds) == DS_OK && bounds.estimate == 4);
    CHECK(ds_thaw(&others[2]) == DS_NO);
    for (int i = 0; i < 3; i++) ds_free(&others[i]);
    ds_free(&all);
}

/* Errors of arguments come before DS_SHARED, which comes before DS_WRONG_KIND and the errors of the other handle. */
static void first_errors(void)
{
    ds_sketch shared = DS_NONE, none = DS_NONE;
    uint64_t estimate;
    bool result;
    CHECK(make(&shared, 0) && ds_freeze(&shared) == DS_OK);
    CHECK(ds_merge(&shared, &none) == DS_SHARED && ds_merge(&none, &shared) == DS_NO_SKETCH);
    CHECK(ds_merge_all(&shared, &none, 1) == DS_SHARED && ds_equal(&shared, &none) == DS_NO_SKETCH);
    CHECK(ds_bloom_contains_and_insert_all(&shared, AS_ITEMS(u64, numbers, 1), &result, 0) == DS_NO_ROOM);
    CHECK(ds_bloom_insert_string(&shared, (const uint8_t *)"\xff", 1) == DS_INVALID_UTF8);
    CHECK(ds_count_min_u64_update_u64(&shared, 1, 1) == DS_SHARED && ds_frequent_items_set_sample_size(&shared, 2) == DS_SHARED);
    CHECK(ds_update_all(&shared, AS_ITEMS(u64, numbers, 1)) == DS_SHARED);
    CHECK(ds_count_min_u64_estimate_u64(&shared, 1, &estimate) == DS_WRONG_KIND);
    CHECK(make(&shared, 1) && ds_freeze(&shared) == DS_OK && ds_count_min_u64_decay(&shared, 3, 2) == DS_BAD_FRACTION);
    CHECK(ds_merge(&shared, &none) == DS_SHARED && ds_reset(&shared) == DS_SHARED);
    CHECK(make(&shared, 3) && ds_freeze(&shared) == DS_OK);
    CHECK(ds_frequent_items_set_sample_size(&shared, 7) == DS_SHARED && ds_equal(&shared, &none) == DS_WRONG_KIND);
    ds_free(&shared);
}

int main(int count, char **words)
{
    bool joined = count > 1 && strcmp(words[1], "joined") == 0;
    make_items();
    changes();
    each_kind();
    merges_of_shares();
    first_errors();
    threads(!joined);
    return report();
}
