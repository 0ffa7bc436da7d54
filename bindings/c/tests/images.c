/* Queries of images in place, compared with the sketches that are read from them, and inserts that return whether the item was
 * there, compared with a query and an insert. Prints the checks that failed, and exits with 1 if there is any. */
#include <datasketches.h>
#include <stdlib.h>
#include <string.h>

#include "check.h"
#include "forms.h"
#include "options.h"

enum { ITEMS = 96, ITEM_KINDS = 7 };

static uint64_t numbers[ITEMS];
static int64_t with_sign[ITEMS];

/* Strings of one to eight bytes. */
static struct forms forms;

/* The items of each kind. */
static ds_items items[ITEM_KINDS];

/* Half of the numbers come twice, and some have a sign. */
static void make_items(void)
{
    clear_forms(&forms);
    for (size_t i = 0; i < ITEMS; i++) {
        uint8_t letters[8];
        numbers[i] = i % (ITEMS / 2) * 0x9e3779b97f4a7c15u;
        with_sign[i] = (int64_t)(i % (ITEMS / 2)) - 20;
        memset(letters, (int)('a' + i % 20), sizeof letters);
        add_string(&forms, letters, 1 + i % 8);
    }
    items[DS_ITEMS_U64] = ds_items_u64(numbers, ITEMS);
    items[DS_ITEMS_I64] = ds_items_i64(with_sign, ITEMS);
    for (int32_t kind = DS_ITEMS_OFFSETS; kind < ITEM_KINDS; kind++) items[kind] = strings_of(&forms, kind, 0, ITEMS);
}

/* Returns a copy of an image at the end of a block, `shift` bytes behind its start. The block ends where the image does. */
static uint8_t *placed(const uint8_t *image, size_t length, size_t shift, uint8_t **block)
{
    *block = malloc(length + shift + !(length + shift));
    if (!*block) exit(2);
    memcpy(*block + shift, image, length);
    return *block + shift;
}

/* --- Filters in place. --- */

/* Compares the results of a filter and of its image, at eight addresses. */
static void filter_in_place(ds_sketch *filter)
{
    ds_sketch read = DS_NONE;
    uint8_t *image = NULL, *block;
    size_t length;
    CHECK(ds_serialized_bytes(filter, &length) == DS_OK && (image = malloc(length)) != NULL);
    CHECK(ds_serialize(filter, image, length, &length) == DS_OK);
    for (size_t shift = 0; shift < 8; shift++) {
        bool got[ITEMS], wanted[ITEMS];
        const uint8_t *at = placed(image, length, shift, &block);
        CHECK(ds_deserialize(&read, DS_BLOOM, at, length, WITHIN(1 << 20)) == DS_OK);
        for (size_t i = 0; i < ITEMS; i++) {
            const ds_string *string = &forms.strings[i];
            CHECK(ds_bloom_image_contains_u64(at, length, numbers[i]) == ds_bloom_contains_u64(&read, numbers[i]));
            CHECK(ds_bloom_image_contains_i64(at, length, with_sign[i]) == ds_bloom_contains_i64(&read, with_sign[i]));
            CHECK(ds_bloom_image_contains_string(at, length, string->bytes, string->length) ==
                  ds_bloom_contains_string(&read, string->bytes, string->length));
        }
        for (int32_t kind = 0; kind < ITEM_KINDS; kind++) {
            CHECK(ds_bloom_image_contains_all(at, length, &items[kind], got, ITEMS) == DS_OK);
            CHECK(ds_bloom_contains_all(&read, &items[kind], wanted, ITEMS) == DS_OK && !memcmp(got, wanted, sizeof got));
        }
        /* no result is written without room, or for a bad image */
        memset(got, true, sizeof got);
        for (int32_t kind = 0; kind < ITEM_KINDS; kind++) {
            CHECK(ds_bloom_image_contains_all(at, length, &items[kind], got, ITEMS - 1) == DS_NO_ROOM);
            CHECK(ds_bloom_image_contains_all(at, length - 1, &items[kind], got, ITEMS) == DS_INSUFFICIENT_DATA);
        }
        for (size_t i = 0; i < ITEMS; i++) CHECK(got[i]);
        free(block);
    }
    ds_free(&read);
    free(image);
}

/* Filters without items, with some, and with all bits set. */
static void filters_in_place(void)
{
    static const struct {
        uint64_t num_bits;
        uint16_t num_hashes;
    } SHAPES[] = {{64, 1}, {640, 3}, {4160, 7}, {100, 12}};
    for (size_t i = 0; i < sizeof SHAPES / sizeof *SHAPES; i++) {
        ds_sketch filter = DS_NONE;
        ds_status status;
        uint64_t item = 0;
        CHECK(ds_bloom_new(&filter, SHAPES[i].num_bits, SHAPES[i].num_hashes, 9001 + i) == DS_OK);
        filter_in_place(&filter);
        CHECK(ds_bloom_insert_all(&filter, AS_ITEMS(u64, numbers, 8)) == DS_OK);
        CHECK(ds_bloom_insert_all(&filter, AS_ITEMS(i64, with_sign, 4)) == DS_OK);
        CHECK(ds_bloom_insert_all(&filter, AS_ITEMS(strings, forms.strings, 5)) == DS_OK);
        filter_in_place(&filter);
        do {
            CHECK(ds_bloom_insert_u64(&filter, item++) == DS_OK && ds_get_status(&filter, &status) == DS_OK);
        } while (status.bits_used < status.num_bits);
        filter_in_place(&filter);
        ds_free(&filter);
    }
}

/* The image of a filter of one word and one hash under the seed 9001 with the bits 0 and 1. */
static const uint8_t TWO_BITS[40] = {4, 1, 21, 0, 1, 0, 0, 0, 0x29, 0x23, 0, 0, 0, 0, 0, 0, 1, 0, 0, 0,
                                     0, 0, 0,  0, 2, 0, 0, 0, 0,    0,    0, 0, 3, 0, 0, 0, 0, 0, 0, 0};

/* The place of a byte and its new value, the image's length, and the result. */
struct alteration {
    size_t place;
    uint8_t byte;
    size_t length;
    int32_t answer;
};

static const struct alteration FILTERS_ALTERED[] = {
    {0, 4, 3, DS_INSUFFICIENT_DATA},
    {2, 10, 40, DS_BAD_FAMILY},
    {1, 2, 40, DS_BAD_VERSION},
    {0, 2, 40, DS_BAD_PREAMBLE},
    {0, 4, 5, DS_INSUFFICIENT_DATA},
    {4, 0, 40, DS_BAD_NUM_HASHES},
    {0, 4, 23, DS_INSUFFICIENT_DATA},
    {16, 0, 40, DS_BAD_NUM_WORDS},
    {0, 4, 39, DS_INSUFFICIENT_DATA},
    {24, 3, 40, DS_NO},
    {24, 0, 40, DS_NO},
    {32, 0, 40, DS_NO},
};

/* Returns whether an error is of a check that images in place do not have: of memory, or of the bits and the cells. */
static bool is_later(int32_t result)
{
    return result == DS_NO_MEMORY || result == DS_TABLE_TOO_LARGE || result == DS_BAD_BIT_COUNT || result == DS_CELL_ABOVE_TOTAL;
}

/* An image of each length, and with each byte of each value, is accepted or rejected as by the call that reads it. */
static void altered_filters(void)
{
    ds_sketch filter = DS_NONE;
    int rejected = 0;
    for (size_t i = 0; i < sizeof FILTERS_ALTERED / sizeof *FILTERS_ALTERED; i++) {
        const struct alteration *it = &FILTERS_ALTERED[i];
        uint8_t image[40];
        memcpy(image, TWO_BITS, sizeof image);
        image[it->place] = it->byte;
        int32_t result = ds_bloom_image_contains_u64(image, it->length, 7);
        CHECK(result == it->answer || (it->answer == DS_NO && result == DS_YES));
    }
    for (size_t place = 0; place < 40; place++) {
        for (int byte = 0; byte < 256; byte++) {
            uint8_t image[40];
            memcpy(image, TWO_BITS, sizeof image);
            image[place] = (uint8_t)byte;
            int32_t read = ds_deserialize(&filter, DS_BLOOM, image, 40, WITHIN(1 << 16));
            int32_t result = ds_bloom_image_contains_u64(image, 40, 7);
            if (read == DS_OK) CHECK(result == ds_bloom_contains_u64(&filter, 7));
            else if (is_later(read)) CHECK(result == DS_YES || result == DS_NO);
            else CHECK(result == read);
            rejected += result < 0;
            CHECK(ds_bloom_image_contains_i64(image, 40, 7) == result);
            CHECK(ds_bloom_image_contains_string(image, 40, (const uint8_t *)"\xff", 1) == DS_INVALID_UTF8);
            if (result < 0) CHECK(ds_bloom_image_contains_string(image, 40, forms.strings[0].bytes, 1) == result);
        }
    }
    CHECK(rejected > 3 * 250);
    for (size_t length = 0; length < 40; length++) {
        uint8_t *block;
        const uint8_t *at = placed(TWO_BITS, length, 1, &block);
        CHECK(ds_bloom_image_contains_u64(at, length, 7) == DS_INSUFFICIENT_DATA);
        free(block);
    }
    CHECK(ds_bloom_image_contains_u64(NULL, 0, 7) == DS_INSUFFICIENT_DATA);
    CHECK(ds_bloom_image_contains_u64(NULL, 1, 7) == DS_BAD_ARGUMENT && ds_bloom_image_contains_i64(NULL, 1, 7) == DS_BAD_ARGUMENT);
    CHECK(ds_bloom_image_contains_string(TWO_BITS, 40, NULL, 1) == DS_BAD_ARGUMENT);
    CHECK(ds_bloom_image_contains_string(TWO_BITS, 40, NULL, 0) >= 0);
    ds_free(&filter);
}

/* --- Count-Min sketches in place. --- */

/* One hash and three buckets under the seed 9001: the total 5, and the cells 5, 0 and 5. */
static const uint8_t FIVE[48] = {2, 1, 18, 0, 0, 0, 0, 0, 3, 0, 0, 0, 1, 0xcc, 0x93, 0, 5, 0, 0, 0, 0, 0, 0, 0,
                                 5, 0, 0,  0, 0, 0, 0, 0, 0, 0, 0, 0, 0, 0,    0,    0, 5, 0, 0, 0, 0, 0, 0, 0};

static const struct alteration COUNTS_ALTERED[] = {
    {0, 2, 48, DS_OK},
    {0, 2, 7, DS_INSUFFICIENT_DATA},
    {2, 21, 48, DS_BAD_FAMILY},
    {1, 2, 48, DS_BAD_VERSION},
    {0, 3, 48, DS_BAD_PREAMBLE},
    {12, 0, 48, DS_BAD_NUM_HASHES},
    {8, 2, 48, DS_BAD_NUM_BUCKETS},
    {13, 0, 48, DS_SEED_HASH_MISMATCH},
    {0, 2, 47, DS_INSUFFICIENT_DATA},
    {24, 6, 48, DS_OK},
};

#define COUNTS_IN_PLACE(kind, number, weight_type, least) \
    static void count_in_place_##kind(ds_sketch *count, uint64_t seed) \
    { \
        ds_sketch read = DS_NONE; \
        uint8_t *image = NULL, *block; \
        size_t length; \
        CHECK(ds_serialized_bytes(count, &length) == DS_OK && (image = malloc(length)) != NULL); \
        CHECK(ds_serialize(count, image, length, &length) == DS_OK); \
        for (size_t shift = 0; shift < 8; shift++) { \
            weight_type got = 7, wanted = 8; \
            const uint8_t *at = placed(image, length, shift, &block); \
            CHECK(ds_deserialize(&read, number, at, length, WITHIN_SEED(1 << 20, seed)) == DS_OK); \
            for (size_t i = 0; i < ITEMS; i++) { \
                const ds_string *string = &forms.strings[i]; \
                CHECK(ds_count_min_##kind##_image_estimate_u64(at, length, seed, numbers[i], &got) == DS_OK); \
                CHECK(ds_count_min_##kind##_estimate_u64(&read, numbers[i], &wanted) == DS_OK && got == wanted); \
                CHECK(ds_count_min_##kind##_image_estimate_i64(at, length, seed, with_sign[i], &got) == DS_OK); \
                CHECK(ds_count_min_##kind##_estimate_i64(&read, with_sign[i], &wanted) == DS_OK && got == wanted); \
                CHECK(ds_count_min_##kind##_image_estimate_string(at, length, seed, string->bytes, string->length, &got) == \
                      DS_OK); \
                CHECK(ds_count_min_##kind##_estimate_string(&read, string->bytes, string->length, &wanted) == DS_OK); \
                CHECK(got == wanted); \
            } \
            got = 7; \
            CHECK(ds_count_min_##kind##_image_estimate_u64(at, length, seed + 1, 1, &got) == DS_SEED_HASH_MISMATCH); \
            CHECK(ds_count_min_##kind##_image_estimate_u64(at, length - 1, seed, 1, &got) == DS_INSUFFICIENT_DATA && got == 7); \
            free(block); \
        } \
        ds_free(&read); \
        free(image); \
    } \
    static void counts_in_place_##kind(void) \
    { \
        for (uint64_t seed = 9001; seed < 9004; seed++) { \
            ds_sketch count = DS_NONE; \
            CHECK(ds_count_min_new(&count, number, (uint8_t)(seed - 9000), 5 + 20 * (uint32_t)(seed % 2), seed) == DS_OK); \
            count_in_place_##kind(&count, seed); \
            for (size_t i = 0; i < 16; i++) { \
                const ds_string *string = &forms.strings[i]; \
                weight_type weight = (weight_type)(3 * i) + (least); \
                CHECK(ds_count_min_##kind##_update_u64(&count, numbers[i], weight) == DS_OK); \
                CHECK(ds_count_min_##kind##_update_i64(&count, with_sign[i], weight) == DS_OK); \
                CHECK(ds_count_min_##kind##_update_string(&count, string->bytes, string->length, weight) == DS_OK); \
            } \
            count_in_place_##kind(&count, seed); \
            ds_free(&count); \
        } \
    } \
    static void altered_counts_##kind(void) \
    { \
        ds_sketch count = DS_NONE; \
        int rejected = 0; \
        for (size_t i = 0; i < sizeof COUNTS_ALTERED / sizeof *COUNTS_ALTERED; i++) { \
            const struct alteration *it = &COUNTS_ALTERED[i]; \
            weight_type estimate; \
            uint8_t image[48]; \
            memcpy(image, FIVE, sizeof image); \
            image[it->place] = it->byte; \
            CHECK(ds_count_min_##kind##_image_estimate_u64(image, it->length, 9001, 7, &estimate) == it->answer); \
        } \
        for (size_t place = 0; place < 48; place++) { \
            for (int byte = 0; byte < 256; byte++) { \
                weight_type estimate = 77, wanted = 78; \
                uint8_t image[48]; \
                memcpy(image, FIVE, sizeof image); \
                image[place] = (uint8_t)byte; \
                int32_t read = ds_deserialize(&count, number, image, 48, WITHIN(1 << 16)); \
                int32_t result = ds_count_min_##kind##_image_estimate_u64(image, 48, 9001, 7, &estimate); \
                if (read == DS_OK) { \
                    CHECK(ds_count_min_##kind##_estimate_u64(&count, 7, &wanted) == DS_OK); \
                    CHECK(result == DS_OK && estimate == wanted); \
                } else if (place == 11 && byte >= 64) { \
                    /* 2^30 cells and more, whatever the limit */ \
                    CHECK(read == DS_TABLE_TOO_LARGE && result == read && estimate == 77); \
                } else if (is_later(read)) { \
                    /* a cell above the total of 5, or below its negative, is read as that */ \
                    CHECK(result == DS_OK && (read != DS_CELL_ABOVE_TOTAL || place < 24 || within_five_##kind(estimate))); \
                } else { \
                    CHECK(result == read && estimate == 77); \
                } \
                rejected += result < 0; \
                if (result < 0) { \
                    CHECK(ds_count_min_##kind##_image_estimate_i64(image, 48, 9001, 7, &estimate) == result); \
                    CHECK(ds_count_min_##kind##_image_estimate_string(image, 48, 9001, forms.strings[0].bytes, 1, &estimate) == \
                          result); \
                    CHECK(estimate == 77); \
                } \
            } \
        } \
        CHECK(rejected > 4 * 250); \
        for (size_t length = 0; length < 48; length++) { \
            uint8_t *block; \
            weight_type estimate; \
            const uint8_t *at = placed(FIVE, length, 1, &block); \
            CHECK(ds_count_min_##kind##_image_estimate_u64(at, length, 9001, 7, &estimate) == DS_INSUFFICIENT_DATA); \
            free(block); \
        } \
        weight_type estimate = 77; \
        CHECK(ds_count_min_##kind##_image_estimate_string(FIVE, 48, 9001, (const uint8_t *)"\xff", 1, &estimate) == \
              DS_INVALID_UTF8); \
        CHECK(ds_count_min_##kind##_image_estimate_string(FIVE, 48, 9001, NULL, 1, &estimate) == DS_BAD_ARGUMENT); \
        CHECK(ds_count_min_##kind##_image_estimate_u64(NULL, 0, 9001, 7, &estimate) == DS_INSUFFICIENT_DATA); \
        CHECK(ds_count_min_##kind##_image_estimate_u64(NULL, 1, 9001, 7, &estimate) == DS_BAD_ARGUMENT); \
        CHECK(ds_count_min_##kind##_image_estimate_i64(NULL, 1, 9001, 7, &estimate) == DS_BAD_ARGUMENT && estimate == 77); \
        CHECK(ds_count_min_##kind##_image_estimate_string(FIVE, 48, 9001, NULL, 0, &estimate) == DS_OK && estimate != 77); \
        ds_free(&count); \
    }

static bool within_five_u64(uint64_t estimate)
{
    return estimate <= 5;
}

static bool within_five_i64(int64_t estimate)
{
    return estimate >= -5 && estimate <= 5;
}

COUNTS_IN_PLACE(u64, DS_COUNT_MIN_U64, uint64_t, 0)
COUNTS_IN_PLACE(i64, DS_COUNT_MIN_I64, int64_t, -20)

/* --- Inserts that return whether the item was there. --- */

/* The single calls for item `i` of a kind. */
#define ONE(call, handle) \
    (kind == DS_ITEMS_U64   ? call##_u64(handle, numbers[i]) \
     : kind == DS_ITEMS_I64 ? call##_i64(handle, with_sign[i]) \
                            : call##_string(handle, forms.strings[i].bytes, forms.strings[i].length))

/* Three filters get the same items: `loop` by a query and an insert each, `one` by one call each, `all` by one call. */
static void inserted(int32_t kind, uint64_t num_bits)
{
    ds_sketch loop = DS_NONE, one = DS_NONE, all = DS_NONE;
    bool results[ITEMS];
    int seen = 0;
    CHECK(ds_bloom_new(&loop, num_bits, 3, 9001) == DS_OK && ds_bloom_insert_u64(&loop, 1) == DS_OK);
    CHECK(ds_clone(&one, &loop) == DS_OK && ds_clone(&all, &loop) == DS_OK);
    CHECK(ds_bloom_contains_and_insert_all(&all, &items[kind], results, ITEMS) == DS_OK);
    for (size_t i = 0; i < ITEMS; i++) {
        int32_t wanted = ONE(ds_bloom_contains, &loop);
        CHECK(ONE(ds_bloom_insert, &loop) == DS_OK && ONE(ds_bloom_contains_and_insert, &one) == wanted);
        CHECK(results[i] == (wanted == DS_YES));
        seen += wanted;
    }
    CHECK(seen > 0 && (seen < ITEMS || num_bits == 64));
    CHECK(ds_equal(&loop, &one) == DS_YES && ds_equal(&loop, &all) == DS_YES);
    CHECK(ds_bloom_contains_and_insert_all(&all, &items[kind], results, ITEMS) == DS_OK);
    for (size_t i = 0; i < ITEMS; i++) CHECK(results[i]);
    CHECK(ds_equal(&loop, &all) == DS_YES);
    ds_free(&loop);
    ds_free(&one);
    ds_free(&all);
}

/* Errors of strings and arguments change nothing. */
static void errors_of_inserts(void)
{
    ds_sketch filter = DS_NONE, was = DS_NONE;
    const uint8_t bad[4] = "ab\xff";
    CHECK(ds_bloom_contains_and_insert_u64(&filter, 1) == DS_NO_SKETCH);
    CHECK(ds_bloom_contains_and_insert_string(&filter, bad, 3) == DS_INVALID_UTF8);
    CHECK(ds_bloom_new(&filter, 640, 3, 9001) == DS_OK && ds_clone(&was, &filter) == DS_OK);
    CHECK(ds_bloom_contains_and_insert_string(&filter, bad, 3) == DS_INVALID_UTF8);
    CHECK(ds_bloom_contains_and_insert_string(&filter, NULL, 1) == DS_BAD_ARGUMENT);
    CHECK(ds_equal(&filter, &was) == DS_YES);
    ds_free(&filter);
    ds_free(&was);
}

int main(void)
{
    make_items();
    filters_in_place();
    altered_filters();
    counts_in_place_u64();
    counts_in_place_i64();
    altered_counts_u64();
    altered_counts_i64();
    for (uint64_t num_bits = 64; num_bits <= 6400; num_bits *= 10)
        for (int32_t kind = 0; kind < ITEM_KINDS; kind++) inserted(kind, num_bits);
    errors_of_inserts();
    return report();
}
