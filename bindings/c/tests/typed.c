/* The functions of `datasketches_typed.h` beside their calls, over random items, with that header alone. Prints the checks that
 * failed. Exits with 1 if there is any. */
#include <datasketches_typed.h>
#include <string.h>

#include "check.h"
#include "options.h"

enum { ROUNDS = 200 };

static const ds_key KEY = {0x0706050403020100, 0x0f0e0d0c0b0a0908};

static uint64_t state = 0x9e3779b97f4a7c15u;

static uint64_t random_word(void)
{
    state ^= state << 13;
    state ^= state >> 7;
    return state ^= state << 17;
}

/* A random item: a number, a string of letters of one to four bytes, and any bytes. Small numbers and short strings come again. */
static uint64_t number;
static uint8_t string[64], any[64];
static size_t string_length, any_length;

static void next_item(void)
{
    static const char *const LETTERS[] = {"a", "z", "\xc3\xa4", "\xe2\x82\xac", "\xf0\x9f\x98\x80"};
    uint64_t word = random_word();
    number = word % 3 == 0 ? word : word % 50 - 20;
    string_length = 0;
    for (uint64_t left = word >> 8 & 7; left > 0; left--) {
        const char *letter = LETTERS[random_word() % 5];
        memcpy(string + string_length, letter, strlen(letter));
        string_length += strlen(letter);
    }
    any_length = word >> 16 & 15;
    for (size_t i = 0; i < any_length; i++) any[i] = (uint8_t)random_word();
}

/* Two sketches of a kind under the same seed or key. */
static ds_sketch by_name, by_call;

static void create(int32_t kind)
{
    ds_sketch *both[2] = {&by_name, &by_call};
    for (int i = 0; i < 2; i++) {
        CHECK((kind == DS_BLOOM               ? ds_bloom_new(both[i], 640, 3, 9001)
               : kind < DS_FREQUENT_ITEMS_U64 ? ds_count_min_new(both[i], kind, 3, 17, 9001)
                                              : ds_frequent_items_new(both[i], kind, 16, 12, &KEY)) == DS_OK);
    }
}

/* The images of both. */
static uint8_t images[2][1024];
static size_t lengths[2];

static void write_images(void)
{
    CHECK(ds_serialize(&by_name, images[0], sizeof images[0], &lengths[0]) == DS_OK);
    CHECK(ds_serialize(&by_call, images[1], sizeof images[1], &lengths[1]) == DS_OK);
    CHECK(lengths[0] == lengths[1] && memcmp(images[0], images[1], lengths[0]) == 0);
}

/* Does the same with the item of each type: `X(type, the arguments that are the item)`. */
#define OF_NUMBERS_AND_STRINGS(X) X(u64, number) X(i64, (int64_t)number) X(string, string, string_length)
#define OF_EACH_TYPE(X) OF_NUMBERS_AND_STRINGS(X) X(fed, any, any_length)

/* Returns a pointer to an item, which lives to the end of the block. */
#define ITEM(type, ...) ((const ds_item[]){ds_item_##type(__VA_ARGS__)})

static void filters(void)
{
    create(DS_BLOOM);
    for (int round = 0; round < ROUNDS; round++) {
        next_item();
        write_images();
#define CHECK_FILTER(type, ...) \
    CHECK(ds_bloom_contains_##type(&by_name, __VA_ARGS__) == ds_bloom_contains(&by_call, ITEM(type, __VA_ARGS__))); \
    CHECK(ds_bloom_image_contains_##type(images[0], lengths[0], __VA_ARGS__) == \
          ds_bloom_image_contains(images[1], lengths[1], ITEM(type, __VA_ARGS__))); \
    if (round % 2) CHECK(ds_bloom_insert_##type(&by_name, __VA_ARGS__) == ds_bloom_insert(&by_call, ITEM(type, __VA_ARGS__))); \
    CHECK(ds_bloom_contains_and_insert_##type(&by_name, __VA_ARGS__) == \
          ds_bloom_contains_and_insert(&by_call, ITEM(type, __VA_ARGS__))); \
    CHECK(ds_bloom_contains_##type(&by_name, __VA_ARGS__) == DS_YES);
        OF_EACH_TYPE(CHECK_FILTER)
        if (round % 20 == 0) CHECK(ds_reset(&by_name) == DS_OK && ds_reset(&by_call) == DS_OK);
    }
    write_images();
}

/* Count-Min sketches with weights of a type: `update` is the call that adds one. */
#define COUNTS(weights, weight_type, number_of_kind, update) \
    static void counts_##weights(void) \
    { \
        create(number_of_kind); \
        for (int round = 0; round < ROUNDS; round++) { \
            const weight_type weight = (weight_type)(random_word() % 1000) - (number_of_kind == DS_COUNT_MIN_I64 ? 500 : 0); \
            next_item(); \
            OF_EACH_TYPE(CHECK_UPDATE_##weights) \
            write_images(); \
            OF_EACH_TYPE(CHECK_COUNTS_##weights) \
        } \
    }

#define CHECK_UPDATE(weights, update, type, ...) \
    CHECK(ds_count_min_##weights##_update_##type(&by_name, __VA_ARGS__, weight) == DS_OK); \
    CHECK(update(&by_call, ITEM(type, __VA_ARGS__), weight) == DS_OK);
#define CHECK_UPDATE_u64(type, ...) CHECK_UPDATE(u64, ds_update, type, __VA_ARGS__)
#define CHECK_UPDATE_i64(type, ...) CHECK_UPDATE(i64, ds_count_min_i64_update, type, __VA_ARGS__)

#define CHECK_COUNTS(weights, weight_type, type, ...) \
    { \
        weight_type one = 1, other = 2; \
        CHECK(ds_count_min_##weights##_estimate_##type(&by_name, __VA_ARGS__, &one) == DS_OK); \
        CHECK(ds_count_min_##weights##_estimate(&by_call, ITEM(type, __VA_ARGS__), &other) == DS_OK && one == other); \
        CHECK(ds_count_min_##weights##_upper_bound_##type(&by_name, __VA_ARGS__, &one) == DS_OK && one >= other); \
        CHECK(ds_count_min_##weights##_upper_bound(&by_call, ITEM(type, __VA_ARGS__), &other) == DS_OK && one == other); \
        one = 1, other = 2; \
        CHECK(ds_count_min_##weights##_image_estimate_##type(images[0], lengths[0], 9001, __VA_ARGS__, &one) == DS_OK); \
        CHECK(ds_count_min_##weights##_image_estimate(images[1], lengths[1], 9001, ITEM(type, __VA_ARGS__), &other) == DS_OK); \
        CHECK(one == other); \
    }
#define CHECK_COUNTS_u64(type, ...) CHECK_COUNTS(u64, uint64_t, type, __VA_ARGS__)
#define CHECK_COUNTS_i64(type, ...) CHECK_COUNTS(i64, int64_t, type, __VA_ARGS__)

COUNTS(u64, uint64_t, DS_COUNT_MIN_U64, ds_update)
COUNTS(i64, int64_t, DS_COUNT_MIN_I64, ds_count_min_i64_update)

/* Frequent items take those of their own type, and the function for another type returns what its call does. */
static void frequent_items(int32_t kind)
{
    create(kind);
    for (int round = 0; round < ROUNDS; round++) {
        const uint64_t weight = random_word() % 1000;
        next_item();
#define CHECK_FREQUENT(type, ...) \
    { \
        ds_item_bounds one = {1, 1, 1}, other = {1, 1, 1}; \
        bool is_own = kind == DS_FREQUENT_ITEMS_U64 + ITEM(type, __VA_ARGS__)->kind; \
        int32_t wanted = is_own ? DS_OK : DS_WRONG_KIND; \
        CHECK(ds_frequent_items_##type##_update(&by_name, __VA_ARGS__, weight) == wanted); \
        CHECK(ds_update(&by_call, ITEM(type, __VA_ARGS__), weight) == wanted); \
        CHECK(ds_frequent_items_##type##_bounds(&by_name, __VA_ARGS__, &one) == wanted); \
        CHECK(ds_frequent_items_bounds(&by_call, ITEM(type, __VA_ARGS__), &other) == wanted); \
        CHECK(memcmp(&one, &other, sizeof one) == 0 && (is_own || (one.lower_bound == 1 && one.upper_bound == 1))); \
    }
        OF_NUMBERS_AND_STRINGS(CHECK_FREQUENT)
    }
    write_images();
}

/* A function takes each sketch that its call takes: one for frequent items a Count-Min sketch, and the other way round. */
static void other_sketches(void)
{
    uint64_t estimate = 0;
    ds_item_bounds bounds = {0, 0, 0};
    create(DS_COUNT_MIN_U64);
    CHECK(ds_frequent_items_u64_update(&by_name, 7, 30) == DS_OK && ds_frequent_items_i64_update(&by_name, 7, 4) == DS_OK);
    CHECK(ds_frequent_items_string_update(&by_name, (const uint8_t *)"tea", 3, 5) == DS_OK);
    CHECK(ds_count_min_u64_update_u64(&by_call, 7, 34) == DS_OK);
    CHECK(ds_count_min_u64_update_string(&by_call, (const uint8_t *)"tea", 3, 5) == DS_OK &&
          ds_equal(&by_name, &by_call) == DS_YES);
    CHECK(ds_count_min_u64_estimate_u64(&by_name, 7, &estimate) == DS_OK && estimate >= 34);
    CHECK(ds_frequent_items_u64_bounds(&by_name, 7, &bounds) == DS_WRONG_KIND && bounds.estimate == 0);
    create(DS_FREQUENT_ITEMS_STRING);
    CHECK(ds_count_min_u64_update_string(&by_name, (const uint8_t *)"tea", 3, 5) == DS_OK);
    CHECK(ds_count_min_u64_update_fed(&by_name, (const uint8_t *)"tea\xff", 4, 5) == DS_WRONG_KIND);
    CHECK(ds_frequent_items_string_bounds(&by_name, (const uint8_t *)"tea", 3, &bounds) == DS_OK && bounds.lower_bound == 5);
    create(DS_COUNT_MIN_I64);
    CHECK(ds_frequent_items_u64_update(&by_name, 7, 30) == DS_WRONG_KIND);
    CHECK(ds_count_min_u64_update_u64(&by_name, 7, 30) == DS_WRONG_KIND && ds_equal(&by_name, &by_call) == DS_YES);
}

/* The functions have the checks of their calls, and take no bytes at null. */
static void null(void)
{
    uint64_t estimate = 77;
    create(DS_BLOOM);
    CHECK(ds_bloom_insert_string(&by_name, NULL, 1) == DS_BAD_ARGUMENT &&
          ds_bloom_insert_fed(&by_name, NULL, 1) == DS_BAD_ARGUMENT);
    CHECK(ds_equal(&by_name, &by_call) == DS_YES && ds_bloom_insert_string(&by_name, NULL, 0) == DS_OK);
    CHECK(ds_bloom_insert_string(&by_call, (const uint8_t *)"", 0) == DS_OK && ds_equal(&by_name, &by_call) == DS_YES);
    CHECK(ds_bloom_contains_fed(&by_name, (const uint8_t *)"\xff", 1) == DS_YES &&
          ds_bloom_contains_fed(&by_name, NULL, 0) == DS_NO);
    create(DS_COUNT_MIN_U64);
    CHECK(ds_count_min_u64_estimate_u64(&by_name, 7, NULL) == DS_BAD_ARGUMENT);
    CHECK(ds_count_min_u64_estimate_string(&by_name, NULL, 1, &estimate) == DS_BAD_ARGUMENT && estimate == 77);
}

int main(void)
{
    null();
    filters();
    counts_u64();
    counts_i64();
    for (int32_t kind = DS_FREQUENT_ITEMS_U64; kind <= DS_FREQUENT_ITEMS_STRING; kind++) frequent_items(kind);
    other_sketches();
    ds_free(&by_name);
    ds_free(&by_call);
    return report();
}
