/* The checks of `datasketches_checks.h`: what each rejects and passes on, and arguments with commas. It also fixes what a soname
 * fixes: the layout of structures and the numbers of results. Prints the checks that failed. Exits with 1 if there is any.
 *
 * With DS_NO_CHECKS it is compiled without the checks, and makes calls that need none. */
#include <datasketches.h>
#include <string.h>

#include "check.h"
#include "options.h"

_Static_assert(sizeof(ds_sketch) == sizeof(void *), "a handle is one word");
_Static_assert(sizeof(ds_string) == 16 && offsetof(ds_string, length) == 8, "ds_string");
_Static_assert(sizeof(ds_item) == 32 && offsetof(ds_item, kind) == 0 && offsetof(ds_item, number) == 8 &&
                   offsetof(ds_item, bytes) == 16 && offsetof(ds_item, length) == 24,
               "ds_item");
_Static_assert(DS_ITEM_U64 == 0 && DS_ITEM_I64 == 1 && DS_ITEM_STRING == 2 && DS_ITEM_FED == 3, "kinds of an item");
_Static_assert(sizeof(ds_items) == 144 && offsetof(ds_items, kind) == 0 && offsetof(ds_items, u64s) == 8 &&
                   offsetof(ds_items, num_u64s) == 16 && offsetof(ds_items, i64s) == 24 && offsetof(ds_items, num_i64s) == 32 &&
                   offsetof(ds_items, bytes) == 40 && offsetof(ds_items, num_bytes) == 48 && offsetof(ds_items, offsets) == 56 &&
                   offsetof(ds_items, num_offsets) == 64 && offsetof(ds_items, offsets32) == 72 &&
                   offsetof(ds_items, num_offsets32) == 80 && offsetof(ds_items, strings) == 88 &&
                   offsetof(ds_items, num_strings) == 96 && offsetof(ds_items, fed) == 104 && offsetof(ds_items, num_fed) == 112 &&
                   offsetof(ds_items, validity) == 120 && offsetof(ds_items, num_validity) == 128 &&
                   offsetof(ds_items, first_bit) == 136,
               "ds_items");
_Static_assert(DS_ITEMS_U64 == 0 && DS_ITEMS_I64 == 1 && DS_ITEMS_OFFSETS == 2 && DS_ITEMS_OFFSETS32 == 3 &&
                   DS_ITEMS_STRINGS == 4 && DS_ITEMS_WORDS == 5 && DS_ITEMS_LINES == 6 && DS_ITEMS_FED == 7,
               "kinds of items");
_Static_assert(sizeof(ds_key) == 16 && offsetof(ds_key, k0) == 0 && offsetof(ds_key, k1) == 8, "ds_key");
_Static_assert(sizeof(ds_image_options) == 24 && offsetof(ds_image_options, max_bytes) == 0 &&
                   offsetof(ds_image_options, seed) == 8 && offsetof(ds_image_options, key) == 16,
               "ds_image_options");
_Static_assert(sizeof(ds_status) == 88 && offsetof(ds_status, seed) == 0 && offsetof(ds_status, num_bits) == 8 &&
                   offsetof(ds_status, bits_used) == 16 && offsetof(ds_status, total_weight) == 24 &&
                   offsetof(ds_status, maximum_error) == 32 && offsetof(ds_status, num_active_items) == 40 &&
                   offsetof(ds_status, maximum_map_capacity) == 48 && offsetof(ds_status, current_map_capacity) == 56 &&
                   offsetof(ds_status, max_map_size) == 64 && offsetof(ds_status, sample_size) == 72 &&
                   offsetof(ds_status, num_buckets) == 80 && offsetof(ds_status, num_hashes) == 84 &&
                   offsetof(ds_status, kind) == 86,
               "ds_status");
_Static_assert(sizeof(ds_item_bounds) == 24 && offsetof(ds_item_bounds, lower_bound) == 0 &&
                   offsetof(ds_item_bounds, estimate) == 8 && offsetof(ds_item_bounds, upper_bound) == 16,
               "ds_item_bounds");
_Static_assert(DS_BLOOM == 1 && DS_COUNT_MIN_U64 == 2 && DS_COUNT_MIN_I64 == 3 && DS_FREQUENT_ITEMS_U64 == 4 &&
                   DS_FREQUENT_ITEMS_I64 == 5 && DS_FREQUENT_ITEMS_STRING == 6,
               "kinds");
_Static_assert(DS_NO == 0 && DS_YES == 1 && DS_NO_SKETCH == -1 && DS_WRONG_KIND == -2 && DS_NO_ROOM == -3 &&
                   DS_BAD_FRACTION == -4 && DS_BAD_ARGUMENT == -5 && DS_BAD_OFFSETS == -6 && DS_NO_RANDOM == -7 &&
                   DS_SHARED == -8 && DS_NOT_SHARED == -9 && DS_BAD_NUM_BITS == -11 && DS_MISMATCH == -16 &&
                   DS_INVALID_UTF8 == -40 && DS_NO_MEMORY == -42 && DS_BAD_WINDOWS == -44 && DS_BAD_WEIGHT == -45,
               "results");

static const uint64_t K0 = 0x0706050403020100, K1 = 0x0f0e0d0c0b0a0908;
static const ds_key KEY = {0x0706050403020100, 0x0f0e0d0c0b0a0908};

/* Arguments with commas, in calls of each form. */
static void commas(void)
{
    ds_sketch sketches[2] = {DS_NONE, DS_NONE}, count = DS_NONE, signs = DS_NONE, heavy = DS_NONE, numbers = DS_NONE;
    bool found[3] = {false, false, false};
    uint64_t estimates[2] = {0, 0}, items[2], offsets[3];
    int64_t of_signs[2] = {0, 0};
    ds_item_bounds bounds[2];
    uint8_t image[4200], bytes[8];
    size_t length = 0, rows = 0, used = 0;

    CHECK(ds_bloom_new(&sketches[0], 959, 7, 9001) == DS_OK && ds_clone(&sketches[1], &sketches[0]) == DS_OK);
    CHECK(ds_bloom_insert_all(&sketches[0], AS_ITEMS(u64, (const uint64_t[]){1, 2, 3}, 3)) == DS_OK);
    CHECK(ds_bloom_insert_all(&sketches[0], AS_ITEMS(i64, (const int64_t[]){-1, -2}, 2)) == DS_OK);
    CHECK(ds_bloom_contains_all(&sketches[0], AS_ITEMS(i64, (const int64_t[]){-2, 3, 77}, 3), found, 3) == DS_OK);
    CHECK(found[0] && found[1] && !found[2]);
    CHECK(ds_bloom_insert_string(&sketches[0], (const uint8_t[]){'a', 'b'}, 2) == DS_OK);
    CHECK(ds_bloom_contains_string(&sketches[0], (const uint8_t *){(const uint8_t *)"ab"}, 2) == DS_YES);
    CHECK(ds_bloom_insert_all(&sketches[0], AS_ITEMS(offsets, (const uint8_t[]){'c', 'd'}, 2, (const uint64_t[]){0, 1, 2}, 3)) ==
          DS_OK);
    CHECK(ds_bloom_insert_all(&sketches[0], AS_ITEMS(offsets32, (const uint8_t[]){'g', 'h'}, 2, (const uint32_t[]){0, 2}, 2)) ==
          DS_OK);
    CHECK(ds_bloom_insert_all(&sketches[0],
                              AS_ITEMS(strings, (const ds_string[]){{(const uint8_t *)"ef", 2}, {(const uint8_t *)"", 0}}, 2)) ==
          DS_OK);
    CHECK(ds_bloom_contains_and_insert_all(
              &sketches[0], AS_ITEMS(strings, (const ds_string[]){{(const uint8_t *)"c", 1}, {(const uint8_t *)"", 0}}, 2),
              (bool *[2]){found + 1, NULL}[0], 2) == DS_OK);
    CHECK(found[1] && found[2]);
    CHECK(ds_merge_all(&sketches[1], (ds_sketch *[2]){&sketches[0], NULL}[0], 1) == DS_OK);
    CHECK(ds_equal(&sketches[1], (ds_sketch *[2]){&sketches[0], NULL}[0]) == DS_YES);
    CHECK(ds_merge(&sketches[1], (ds_sketch *[2]){&sketches[0], NULL}[0]) == DS_OK);
    CHECK(ds_serialize(&sketches[0], (uint8_t *[2]){image, NULL}[0], sizeof image, &length) == DS_OK && length == 152);
    CHECK(ds_deserialize(&sketches[1], (int32_t[2]){DS_BLOOM, 0}[0], (const uint8_t *[2]){image, NULL}[0], length,
                         &(ds_image_options){120, 0, NULL}) == DS_OK);
    CHECK(ds_deserialize_prefix(&sketches[1], DS_BLOOM, (const uint8_t *[2]){image, NULL}[0], sizeof image,
                                &(const ds_image_options){.max_bytes = 120, .key = NULL}, (size_t *[2]){&used, NULL}[0]) == DS_OK);
    CHECK(used == 152);

    CHECK(ds_count_min_new(&count, DS_COUNT_MIN_U64, 4, 128, 9001) == DS_OK);
    CHECK(ds_count_min_new(&signs, DS_COUNT_MIN_I64, 4, 128, 9001) == DS_OK);
    CHECK(ds_update_all_weighted(&count, AS_ITEMS(u64, (const uint64_t[]){1, 2}, 2), (const uint64_t[]){5, 6}, 2) == DS_OK);
    CHECK(ds_count_min_u64_estimate_all(&count, AS_ITEMS(u64, (const uint64_t[]){2, 1}, 2), estimates, 2) == DS_OK);
    CHECK(estimates[0] == 6 && estimates[1] == 5);
    CHECK(ds_count_min_i64_update_all_weighted(
              &signs, AS_ITEMS(strings, (const ds_string[]){{(const uint8_t *)"a", 1}, {(const uint8_t *)"b", 1}}, 2),
              (const int64_t[]){-5, 6}, 2) == DS_OK);
    CHECK(ds_count_min_i64_estimate_all(&signs, AS_ITEMS(offsets, (const uint8_t *)"ba", 2, (const uint64_t[]){0, 1, 2}, 3),
                                        of_signs, 2) == DS_OK);
    CHECK(of_signs[0] == 6 && of_signs[1] == -5);
    CHECK(ds_serialize(&count, image, sizeof image, &length) == DS_OK);
    CHECK(ds_deserialize(&count, DS_COUNT_MIN_U64, image, length, &(ds_image_options){1 << 14, (uint64_t[2]){9001, 1}[0], NULL}) ==
          DS_OK);
    CHECK(ds_deserialize_prefix(&count, DS_COUNT_MIN_U64, image, sizeof image, WITHIN_SEED(1 << 14, 9001), &used) == DS_OK);
    CHECK(used == 24 + 4 * 128 * 8);

    CHECK(ds_frequent_items_new(&heavy, DS_FREQUENT_ITEMS_STRING, 64, 48, &(ds_key){K0, K1}) == DS_OK);
    CHECK(ds_frequent_items_string_update(&heavy, (const uint8_t[]){'x', 'y'}, 2, (uint64_t[2]){9, 0}[0]) == DS_OK);
    CHECK(ds_update_all(&heavy, AS_ITEMS(words, (const uint8_t[]){'x', ' ', 'y'}, 3)) == DS_OK);
    CHECK(ds_frequent_items_string_bounds(&heavy, (const uint8_t[]){'x', 'y'}, 2, &bounds[0]) == DS_OK && bounds[0].estimate == 9);
    CHECK(ds_frequent_items_string_rows(&heavy, true, 1, SIZE_MAX, bytes, sizeof bytes, (uint64_t *[2]){offsets, NULL}[0], 3,
                                        bounds, 2, &rows, &length) == DS_OK);
    CHECK(rows == 1 && length == 2 && bytes[1] == 'y');
    CHECK(ds_frequent_items_new(&numbers, DS_FREQUENT_ITEMS_U64, 64, 48, NULL) == DS_OK);
    CHECK(ds_update_all(&numbers, AS_ITEMS(u64, (const uint64_t[]){7, 8, 7}, 3)) == DS_OK);
    CHECK(ds_frequent_items_u64_rows(&numbers, true, 1, SIZE_MAX, (uint64_t *[2]){items, NULL}[0], 2, bounds, 2, &rows) == DS_OK);
    CHECK(rows == 1 && items[0] == 7 && bounds[0].estimate == 2);
    CHECK(ds_serialize(&numbers, image, sizeof image, &length) == DS_OK);
    CHECK(ds_deserialize(&numbers, DS_FREQUENT_ITEMS_U64, (const uint8_t *[2]){image, NULL}[0], length,
                         &(ds_image_options){1 << 14, 0, &(ds_key){K0, K1}}) == DS_OK);
    CHECK(ds_deserialize_prefix(&numbers, DS_FREQUENT_ITEMS_U64, (const uint8_t *[2]){image, NULL}[0], sizeof image,
                                &(ds_image_options){.max_bytes = 1 << 14, .key = &KEY}, &used) == DS_OK);
    CHECK(used == length && length == 32 + 2 * 16);
    CHECK(ds_deserialize_prefix(&numbers, DS_FREQUENT_ITEMS_U64, image, sizeof image,
                                &(ds_image_options){(size_t[2]){1 << 14, 0}[0], 0, NULL}, &used) == DS_OK);
    CHECK(ds_finished_words((const uint8_t[]){'a', ' ', 'b'}, 3) == 2 && ds_valid_utf8((const uint8_t[]){'a', 0xff}, 2) == 1);
    /* a call within the arguments of the same call */
    CHECK(ds_keyed_hash((const uint8_t[]){0, 1}, 2, K0 ^ ds_keyed_hash((const uint8_t[]){1, 2}, 2, K0, K1), K1) ==
          (ds_keyed_hash)((const uint8_t *)"\0\1", 2, K0 ^ (ds_keyed_hash)((const uint8_t *)"\1\2", 2, K0, K1), K1));
    for (int i = 0; i < 2; i++) ds_free((ds_sketch *[2]){&sketches[i], NULL}[0]);
    ds_free(&count);
    ds_free(&signs);
    ds_free(&heavy);
    ds_free(&numbers);
}

/* The call in brackets is the function, and so is its name as a value. `ds_free` takes null in each form. */
static void functions(void)
{
    ds_sketch a = DS_NONE, b = DS_NONE;
    int32_t (*join)(ds_sketch *, ds_sketch *) = ds_merge;
    int32_t (*insert)(ds_sketch *, const ds_item *) = &ds_bloom_insert;
    int32_t (*contains)(ds_sketch *, uint64_t) = ds_bloom_contains_u64;
    void (*release)(ds_sketch *) = &ds_free;

    CHECK(ds_bloom_new(&a, 64, 1, 9001) == DS_OK && (ds_clone)(&b, &a) == DS_OK);
    CHECK(join(&a, &b) == DS_OK && (ds_bloom_insert_all)(&a, AS_ITEMS(u64, (const uint64_t[]){1, 2}, 2)) == DS_OK);
    CHECK(ds_bloom_contains_u64(&a, 2) == DS_YES && insert(&a, &(const ds_item){DS_ITEM_U64, 3, (const uint8_t *)"", 0}) == DS_OK);
    CHECK(contains(&a, 3) == DS_YES && (ds_bloom_insert)(&a, (const ds_item[]){ds_item_u64(4)}) == DS_OK);
    CHECK((ds_bloom_contains_u64)(&a, 4) == DS_YES && contains(&b, 3) == DS_NO);
    CHECK((ds_bloom_insert_all)(&a, (const ds_items[]){ds_no_items(DS_ITEMS_FED + 1)}) == DS_BAD_ARGUMENT);
    (ds_free)(&a);
    release(&b);
    CHECK(ds_reset(&a) == DS_NO_SKETCH && ds_reset(&b) == DS_NO_SKETCH);
    ds_free(NULL);
    (ds_free)(NULL);
    release(NULL);
}

/* Checks that items have only these arrays: those of the others are there, and have no values. */
static void holds_only(const ds_items *it, int32_t kind, size_t u64s, size_t i64s, size_t bytes, size_t offsets, size_t offsets32,
                       size_t strings, size_t fed)
{
    CHECK(it->kind == kind && it->num_u64s == u64s && it->num_i64s == i64s && it->num_bytes == bytes);
    CHECK(it->num_offsets == offsets && it->num_offsets32 == offsets32 && it->num_strings == strings && it->num_fed == fed);
    CHECK(it->u64s && it->i64s && it->bytes && it->offsets && it->offsets32 && it->strings && it->fed);
    CHECK(it->validity && it->num_validity == 0 && it->first_bit == 0);
}

/* The functions that make items. */
static void items(void)
{
    const uint64_t u64s[3] = {0, 1, 2};
    const int64_t i64s[2] = {-1, 1};
    const uint32_t offsets[3] = {0, 1, 2};
    const uint8_t *bytes = (const uint8_t *)"a b";
    const ds_string strings[2] = {{bytes, 1}, {bytes, 3}};
    const ds_items made[8] = {ds_items_u64(u64s, 3),
                              ds_items_i64(i64s, 2),
                              ds_items_offsets(bytes, 3, u64s, 3),
                              ds_items_offsets32(bytes, 3, offsets, 3),
                              ds_items_strings(strings, 2),
                              ds_items_words(bytes, 3),
                              ds_items_lines(bytes, 3),
                              ds_items_fed(strings, 2)};
    const ds_items empty[8] = {ds_items_u64(NULL, 0),
                               ds_items_i64(NULL, 0),
                               ds_items_offsets(NULL, 0, NULL, 0),
                               ds_items_offsets32(NULL, 0, NULL, 0),
                               ds_items_strings(NULL, 0),
                               ds_items_words(NULL, 0),
                               ds_items_lines(NULL, 0),
                               ds_items_fed(NULL, 0)};

    holds_only(&made[0], DS_ITEMS_U64, 3, 0, 0, 0, 0, 0, 0);
    holds_only(&made[1], DS_ITEMS_I64, 0, 2, 0, 0, 0, 0, 0);
    holds_only(&made[2], DS_ITEMS_OFFSETS, 0, 0, 3, 3, 0, 0, 0);
    holds_only(&made[3], DS_ITEMS_OFFSETS32, 0, 0, 3, 0, 3, 0, 0);
    holds_only(&made[4], DS_ITEMS_STRINGS, 0, 0, 0, 0, 0, 2, 0);
    holds_only(&made[5], DS_ITEMS_WORDS, 0, 0, 3, 0, 0, 0, 0);
    holds_only(&made[6], DS_ITEMS_LINES, 0, 0, 3, 0, 0, 0, 0);
    holds_only(&made[7], DS_ITEMS_FED, 0, 0, 0, 0, 0, 0, 2);
    CHECK(made[0].u64s == u64s && made[1].i64s == i64s && made[2].bytes == bytes && made[2].offsets == u64s);
    CHECK(made[3].bytes == bytes && made[3].offsets32 == offsets && made[4].strings == strings);
    CHECK(made[5].bytes == bytes && made[6].bytes == bytes && made[7].fed == strings);
    for (int32_t kind = 0; kind < 8; kind++) holds_only(&empty[kind], kind, 0, 0, 0, 0, 0, 0, 0);
}

/* Names and messages as calls of the library. */
static void names(void)
{
    const char *(*name)(int32_t) = ds_result_name;

    CHECK(strcmp(name(DS_NO_SKETCH), "NoSketch") == 0 && strcmp(name(DS_WRONG_KIND), "WrongKind") == 0);
    CHECK(strcmp(name(DS_NO_ROOM), "NoRoom") == 0 && strcmp(name(DS_BAD_FRACTION), "BadFraction") == 0);
    CHECK(strcmp(name(DS_SHARED), "Shared") == 0 && strcmp(name(DS_NOT_SHARED), "NotShared") == 0);
    CHECK(strcmp(ds_result_message(DS_SHARED), "the sketch is shared, and the call changes it") == 0);
    CHECK(strcmp(name(DS_BAD_ARGUMENT), "BadArgument") == 0 && strcmp(name(DS_BAD_OFFSETS), "BadOffsets") == 0);
    CHECK(strcmp(name(DS_OK), "Ok") == 0 && strcmp(name(DS_YES), "Ok") == 0 && strcmp(name(INT32_MIN), "Unknown") == 0);
    CHECK(strcmp(ds_result_message(DS_OK), "ok") == 0 && strcmp(ds_result_message(DS_MIN_RESULT - 1), "unknown") == 0);
    CHECK(strcmp(ds_result_message(DS_NO_SKETCH), "the handle has no sketch") == 0);
    CHECK(strcmp(ds_result_message(DS_BAD_OFFSETS), "offsets missing, descending or out of range") == 0);
    CHECK(strcmp(ds_result_message(DS_BAD_ARGUMENT),
                 "items of no kind or with a wrong bitmap, the same handle twice, or null where there are values or options") == 0);
#define IS_NAMED(number, constant, name, message) \
    CHECK(strcmp(ds_result_name(number), name) == 0 && strcmp(ds_result_message(constant), message) == 0); \
    CHECK(DS_MIN_RESULT <= (number));
    DS_SKETCH_ERRORS(IS_NAMED)
}

#ifdef DS_NO_CHECKS

#if defined ds_clone || defined ds_merge || defined ds_deserialize || defined ds_bloom_insert || defined ds_update || \
    defined ds_frequent_items_string_rows || defined ds_keyed_hash
#error "a check is left"
#endif

#else

/* No sketch, so that a call that passes the checks returns another error, which shows that it was made. */
static ds_sketch none = DS_NONE;

#define REJECTS(call) CHECK((call) == DS_BAD_ARGUMENT)
#define MAKES(call) CHECK((call) == DS_NO_SKETCH)

static const uint8_t B[1] = {'a'};
static const uint64_t ENDS[2] = {0, 1};
static const uint32_t ENDS32[2] = {0, 1};
static const int64_t NUMBER[1] = {7};
static const ds_string NULLS[2] = {{B, 1}, {NULL, 0}};

/* An item of each kind, and items at null. */
enum { KINDS_OF_ONE = 4 };

static ds_item single[KINDS_OF_ONE], null_single[KINDS_OF_ONE];

static void make_single(void)
{
    const ds_item made[KINDS_OF_ONE] = {ds_item_u64(7), ds_item_i64(-7), ds_item_string(B, 1), ds_item_fed(B, 1)};
    memcpy(single, made, sizeof made);
    memcpy(null_single, made, sizeof made);
    for (size_t i = 0; i < KINDS_OF_ONE; i++) null_single[i].bytes = NULL;
}

/* One item of each kind, no items of each kind, and items with a null pointer. */
enum { ITEM_KINDS = 8, MOST_NULLS = 96 };

static ds_items one_item[ITEM_KINDS], no_items[ITEM_KINDS], null_items[MOST_NULLS];
static size_t num_null_items;

static void make_items(void)
{
    const ds_items one[ITEM_KINDS] = {ds_items_u64(ENDS, 1),
                                      ds_items_i64(NUMBER, 1),
                                      ds_items_offsets(B, 1, ENDS, 2),
                                      ds_items_offsets32(B, 1, ENDS32, 2),
                                      ds_items_strings(NULLS, 1),
                                      ds_items_words(B, 1),
                                      ds_items_lines(B, 1),
                                      ds_items_fed(NULLS, 1)};
    const ds_items null[] = {ds_items_u64(NULL, 1),
                             ds_items_i64(NULL, 1),
                             ds_items_offsets(NULL, 1, ENDS, 2),
                             ds_items_offsets(B, 1, NULL, 2),
                             ds_items_offsets32(NULL, 1, ENDS32, 2),
                             ds_items_offsets32(B, 1, NULL, 2),
                             ds_items_strings(NULL, 1),
                             ds_items_strings(NULLS, 2),
                             ds_items_words(NULL, 1),
                             ds_items_lines(NULL, 1),
                             ds_items_fed(NULL, 1),
                             ds_items_fed(NULLS, 2)};
    memcpy(one_item, one, sizeof one);
    memcpy(null_items, null, sizeof null);
    num_null_items = sizeof null / sizeof *null;
    for (int32_t kind = 0; kind < ITEM_KINDS; kind++) {
        no_items[kind] = ds_no_items(kind);
        if (kind == DS_ITEMS_OFFSETS) no_items[kind] = ds_items_offsets(NULL, 0, ENDS, 1);
        if (kind == DS_ITEMS_OFFSETS32) no_items[kind] = ds_items_offsets32(NULL, 0, ENDS32, 1);
        /* the pointers of other kinds are checked too, also without values */
        for (int pointer = 0; pointer < 8; pointer++) {
            ds_items *it = &null_items[num_null_items++];
            *it = one_item[kind];
            if (pointer == 0) it->u64s = NULL;
            if (pointer == 1) it->i64s = NULL;
            if (pointer == 2) it->bytes = NULL;
            if (pointer == 3) it->offsets = NULL;
            if (pointer == 4) it->offsets32 = NULL;
            if (pointer == 5) it->strings = NULL;
            if (pointer == 6) it->fed = NULL;
            if (pointer == 7) it->validity = NULL;
        }
    }
}

/* Calls for two sketches, and for a sketch and an array of others. */
#define JOINS(two) \
    REJECTS(two(&none, &none)); \
    MAKES(two(&none, &others[1]));
#define MANY_JOINS(many) \
    REJECTS(many(&none, NULL, 1)); \
    REJECTS(many(&others[0], others, 1)); \
    REJECTS(many(&others[2], others, 3)); \
    MAKES(many(&others[2], others, 2)); \
    MAKES(many(&none, NULL, 0));

/* Calls for one item, with the argument after it, and with the type of what they write. */
#define ITEM(call) \
    REJECTS(call(&none, NULL)); \
    for (size_t i = 0; i < KINDS_OF_ONE; i++) { \
        REJECTS(call(&none, &null_single[i])); \
        MAKES(call(&none, &single[i])); \
    }
#define ITEM_AND(call, last) \
    REJECTS(call(&none, NULL, last)); \
    for (size_t i = 0; i < KINDS_OF_ONE; i++) { \
        REJECTS(call(&none, &null_single[i], last)); \
        MAKES(call(&none, &single[i], last)); \
    }
#define ITEM_TO(call, type) \
    ITEM_AND(call, &(type){0}) \
    for (size_t i = 0; i < KINDS_OF_ONE; i++) REJECTS(call(&none, &single[i], NULL));

/* Functions for the bytes of one string, with the arguments after them. */
#define BYTES(call) \
    REJECTS(call(&none, NULL, 1)); \
    MAKES(call(&none, NULL, 0));
#define BYTES_AND(call, last) \
    REJECTS(call(&none, NULL, 1, last)); \
    MAKES(call(&none, NULL, 0, last));

/* Calls for many items. */
#define MANY(call) \
    REJECTS(call(&none, NULL)); \
    for (size_t i = 0; i < num_null_items; i++) REJECTS(call(&none, &null_items[i])); \
    for (size_t i = 0; i < ITEM_KINDS; i++) { \
        MAKES(call(&none, &one_item[i])); \
        MAKES(call(&none, &no_items[i])); \
    }

/* The same with results or weights: one value of the type. */
#define MANY_WITH(call, type) \
    REJECTS(call(&none, NULL, NULL, 0)); \
    for (size_t i = 0; i < num_null_items; i++) REJECTS(call(&none, &null_items[i], &(type){0}, 1)); \
    for (size_t i = 0; i < ITEM_KINDS; i++) { \
        REJECTS(call(&none, &one_item[i], NULL, 1)); \
        CHECK(call(&none, &one_item[i], NULL, 0) == DS_NO_ROOM); \
        MAKES(call(&none, &one_item[i], &(type){0}, 1)); \
        MAKES(call(&none, &no_items[i], NULL, 0)); \
    }

/* Calls of any kind. */
static void any_kind(void)
{
    ds_sketch others[3] = {DS_NONE, DS_NONE, DS_NONE};
    size_t length = 0, used = 77;
    JOINS(ds_clone)
    JOINS(ds_share)
    JOINS(ds_merge)
    JOINS(ds_equal)
    MANY_JOINS(ds_merge_all)
    REJECTS(ds_serialize(&none, NULL, 1, &length));
    MAKES(ds_serialize(&none, NULL, 0, &length));
    for (int32_t kind = 0; kind <= DS_FREQUENT_ITEMS_STRING; kind++) {
        int32_t made = kind == 0 ? DS_WRONG_KIND : DS_INSUFFICIENT_DATA;
        REJECTS(ds_deserialize(&none, kind, NULL, 1, WITHIN(8)));
        REJECTS(ds_deserialize(&none, kind, B, 1, NULL));
        REJECTS(ds_deserialize(&none, kind, NULL, 0, NULL));
        REJECTS(ds_deserialize_prefix(&none, kind, NULL, 1, WITHIN_KEY(8, K0, K1), &used));
        REJECTS(ds_deserialize_prefix(&none, kind, B, 1, NULL, &used));
        CHECK(ds_deserialize(&none, kind, NULL, 0, WITHIN(8)) == made);
        CHECK(ds_deserialize(&none, kind, NULL, 0, WITHIN_KEY(8, K0, K1)) == made);
        CHECK(ds_deserialize_prefix(&none, kind, NULL, 0, WITHIN(8), &used) == made);
        CHECK(ds_deserialize_prefix(&none, kind, B, 1, WITHIN_KEY(8, K0, K1), &used) == made);
    }
    CHECK(used == 77 && !none.sketch);
}

static void filters(void)
{
    ds_sketch others[3] = {DS_NONE, DS_NONE, DS_NONE};
    JOINS(ds_bloom_intersect)
    JOINS(ds_bloom_difference)
    ITEM(ds_bloom_insert)
    ITEM(ds_bloom_contains)
    ITEM(ds_bloom_contains_and_insert)
    BYTES(ds_bloom_insert_string)
    BYTES(ds_bloom_insert_fed)
    BYTES(ds_bloom_contains_string)
    BYTES(ds_bloom_contains_fed)
    BYTES(ds_bloom_contains_and_insert_string)
    BYTES(ds_bloom_contains_and_insert_fed)
    /* a function for a type has the check of its call, also in brackets, and the call in brackets has none */
    REJECTS((ds_bloom_insert_string)(&none, NULL, 1));
    MAKES((ds_bloom_insert)(&none, &single[0]));
    REJECTS(ds_bloom_image_contains(B, 1, NULL));
    for (size_t i = 0; i < KINDS_OF_ONE; i++) {
        REJECTS(ds_bloom_image_contains(B, 1, &null_single[i]));
        REJECTS(ds_bloom_image_contains(NULL, 1, &single[i]));
        CHECK(ds_bloom_image_contains(NULL, 0, &single[i]) == DS_INSUFFICIENT_DATA);
    }
    REJECTS(ds_bloom_image_contains_string(B, 1, NULL, 1));
    REJECTS(ds_bloom_image_contains_fed(NULL, 1, B, 1));
    CHECK(ds_bloom_image_contains_string(NULL, 0, NULL, 0) == DS_INSUFFICIENT_DATA);
    MANY(ds_bloom_insert_all)
    MANY_WITH(ds_bloom_contains_all, bool)
    MANY_WITH(ds_bloom_contains_and_insert_all, bool)
    REJECTS(ds_bloom_image_contains_all(B, 1, NULL, NULL, 0));
    REJECTS(ds_bloom_image_contains_all(NULL, 1, &one_item[0], &(bool){0}, 1));
    REJECTS(ds_bloom_image_contains_all(B, 1, &one_item[0], NULL, 1));
    for (size_t i = 0; i < num_null_items; i++) REJECTS(ds_bloom_image_contains_all(B, 1, &null_items[i], &(bool){0}, 1));
    for (size_t i = 0; i < ITEM_KINDS; i++)
        CHECK(ds_bloom_image_contains_all(NULL, 0, &no_items[i], NULL, 0) == DS_INSUFFICIENT_DATA);
}

/* Calls for Count-Min sketches and frequent items of each kind. */
static void weights(void)
{
    ITEM_AND(ds_update, 1);
    ITEM_AND(ds_count_min_i64_update, -1);
    ITEM_TO(ds_frequent_items_bounds, ds_item_bounds);
    MANY(ds_update_all);
    MANY_WITH(ds_update_all_weighted, uint64_t);
    MANY_WITH(ds_frequent_items_bounds_all, ds_item_bounds);
    MANY_WITH(ds_count_min_i64_update_all_weighted, int64_t);
}

#define COUNTS(kind, weight) \
    static void counts_##kind(void) \
    { \
        weight found = 7; \
        ITEM_TO(ds_count_min_##kind##_estimate, weight) \
        ITEM_TO(ds_count_min_##kind##_upper_bound, weight) \
        REJECTS(ds_count_min_##kind##_image_estimate(B, 1, 9001, NULL, &found)); \
        for (size_t i = 0; i < KINDS_OF_ONE; i++) { \
            REJECTS(ds_count_min_##kind##_image_estimate(B, 1, 9001, &null_single[i], &found)); \
            REJECTS(ds_count_min_##kind##_image_estimate(NULL, 1, 9001, &single[i], &found)); \
            REJECTS(ds_count_min_##kind##_image_estimate(B, 1, 9001, &single[i], NULL)); \
            CHECK(ds_count_min_##kind##_image_estimate(NULL, 0, 9001, &single[i], &found) == DS_INSUFFICIENT_DATA); \
        } \
        REJECTS(ds_count_min_##kind##_image_estimate_string(B, 1, 9001, NULL, 1, &found)); \
        REJECTS(ds_count_min_##kind##_image_estimate_u64(B, 1, 9001, 7, NULL)); \
        BYTES_AND(ds_count_min_##kind##_update_string, 1) \
        BYTES_AND(ds_count_min_##kind##_update_fed, 1) \
        BYTES_AND(ds_count_min_##kind##_estimate_string, &found) \
        BYTES_AND(ds_count_min_##kind##_estimate_fed, &found) \
        BYTES_AND(ds_count_min_##kind##_upper_bound_string, &found) \
        BYTES_AND(ds_count_min_##kind##_upper_bound_fed, &found) \
        MANY_WITH(ds_count_min_##kind##_estimate_all, weight) \
        CHECK(found == 7); \
    }
COUNTS(u64, uint64_t)
COUNTS(i64, int64_t)

#define FREQUENT_NUMBERS(kind, item) \
    static void frequent_##kind(void) \
    { \
        size_t length = 0; \
        REJECTS(ds_frequent_items_##kind##_rows(&none, true, 0, SIZE_MAX, NULL, 1, &(ds_item_bounds){0}, 1, &length)); \
        REJECTS(ds_frequent_items_##kind##_rows(&none, true, 0, SIZE_MAX, &(item){0}, 1, NULL, 1, &length)); \
        MAKES(ds_frequent_items_##kind##_rows(&none, true, 0, SIZE_MAX, NULL, 0, NULL, 0, &length)); \
    }
FREQUENT_NUMBERS(u64, uint64_t)
FREQUENT_NUMBERS(i64, int64_t)

static void frequent_strings(void)
{
    ds_item_bounds bounds[1];
    size_t length = 0, count = 0;
    uint64_t offsets[1];
    uint8_t bytes[1];
    BYTES_AND(ds_frequent_items_string_update, 1)
    BYTES_AND(ds_frequent_items_string_bounds, bounds)
    REJECTS(ds_frequent_items_string_rows(&none, true, 0, SIZE_MAX, NULL, 1, offsets, 1, bounds, 1, &count, &length));
    REJECTS(ds_frequent_items_string_rows(&none, true, 0, SIZE_MAX, bytes, 1, NULL, 1, bounds, 1, &count, &length));
    REJECTS(ds_frequent_items_string_rows(&none, true, 0, SIZE_MAX, bytes, 1, offsets, 1, NULL, 1, &count, &length));
    MAKES(ds_frequent_items_string_rows(&none, true, 0, SIZE_MAX, NULL, 0, NULL, 0, NULL, 0, &count, &length));
}

/* Calls that take no handle. */
static void without_handle(void)
{
    size_t count = 77;
    REJECTS(ds_num_items(NULL, &count));
    for (size_t i = 0; i < num_null_items; i++) REJECTS(ds_num_items(&null_items[i], &count));
    CHECK(count == 77);
    for (size_t i = 0; i < ITEM_KINDS; i++) {
        CHECK(ds_num_items(&one_item[i], &count) == DS_OK && count == 1);
        CHECK(ds_num_items(&no_items[i], &count) == DS_OK && count == 0);
    }
    CHECK(ds_num_items(AS_ITEMS(words, (const uint8_t[]){'a', ' ', 'b'}, 3), &count) == DS_OK && count == 2);
    CHECK(ds_finished_words(NULL, 9) == 0 && ds_finished_lines(NULL, 9) == 0 && ds_valid_utf8(NULL, 9) == 0);
    CHECK(ds_finished_lines((const uint8_t *)"a\nb", 3) == 2);
    CHECK(ds_keyed_hash(NULL, 9, K0, K1) == ds_keyed_hash(B, 0, K0, K1));
}

/* Each argument is evaluated once. */
static void once(void)
{
    ds_sketch a = DS_NONE, b = DS_NONE, *handle = &a;
    const uint64_t numbers[2] = {1, 2};
    const ds_items items[2] = {ds_items_u64(numbers, 1), ds_items_u64(numbers + 1, 1)}, *item = items;
    bool found[2] = {false, false}, *result = found;
    size_t evaluated = 0, others = 0;

    CHECK(ds_bloom_new(&a, 64, 1, 9001) == DS_OK && ds_bloom_new(&b, 64, 1, 9001) == DS_OK);
    CHECK(ds_bloom_insert_all((evaluated++, handle), item++) == DS_OK && evaluated == 1 && item == items + 1);
    CHECK(ds_bloom_contains_all(handle, --item, result++, 1) == DS_OK && found[0] && result == found + 1);
    CHECK(ds_merge((evaluated++, &b), (others++, &a)) == DS_OK && evaluated == 2 && others == 1);
    ds_free((evaluated++, &a));
    ds_free((evaluated++, &b));
    CHECK(evaluated == 4);
}

#endif

int main(void)
{
    commas();
    functions();
    items();
    names();
#ifndef DS_NO_CHECKS
    make_single();
    make_items();
    any_kind();
    filters();
    weights();
    counts_u64();
    counts_i64();
    frequent_u64();
    frequent_i64();
    frequent_strings();
    without_handle();
    once();
#endif
    return report();
}
