/* Images at the front of bytes, compared with images alone, and the lengths of images. Prints the checks that failed. Exits with 1
 * if there is any. */
#include <datasketches.h>
#include <stdlib.h>
#include <string.h>

#include "check.h"
#include "options.h"

enum { SEED = 9001, LIMIT = 1 << 20, ROOM = 1 << 14, NOT_WRITTEN = 77 };
static const uint64_t K0 = 0x0706050403020100, K1 = 0x0f0e0d0c0b0a0908;

static uint64_t state = 0x9e3779b97f4a7c15;

static uint64_t next_random(void)
{
    state ^= state << 13;
    state ^= state >> 7;
    return state ^= state << 17;
}

/* Read an image of a kind alone or at the front. A key is given, so that equal images become sketches with equal images. */
static int32_t read_alone(int32_t kind, ds_sketch *handle, const uint8_t *image, size_t length, size_t max_bytes)
{
    return ds_deserialize(handle, kind, image, length, WITHIN_KEY(max_bytes, K0, K1));
}

static int32_t read_front(int32_t kind, ds_sketch *handle, const uint8_t *image, size_t length, size_t max_bytes, size_t *used)
{
    return ds_deserialize_prefix(handle, kind, image, length, WITHIN_KEY(max_bytes, K0, K1), used);
}

/* The sketches whose images stand one after another, each with its kind and the formula's length of its image. */
enum { SKETCHES = 18 };
static ds_sketch sketches[SKETCHES];
static int32_t kinds[SKETCHES];
static size_t lengths[SKETCHES];
static size_t num_sketches;

static ds_sketch *add(int32_t kind, size_t length)
{
    if (num_sketches == SKETCHES) abort();
    kinds[num_sketches] = kind;
    lengths[num_sketches] = length;
    return &sketches[num_sketches++];
}

/* Adds items to the newest sketch, with random weights, and their bytes in the image to its length. */
#define ADD_NUMBERS(word, type) \
    static void add_##word(size_t count) \
    { \
        for (size_t i = 0; i < count; i++) { \
            type item = (type)(next_random() << 8 | i); \
            CHECK(ds_frequent_items_##word##_update(&sketches[num_sketches - 1], item, 1 + i % 7) == DS_OK); \
            lengths[num_sketches - 1] += 16; \
        } \
    }
ADD_NUMBERS(u64, uint64_t)
ADD_NUMBERS(i64, int64_t)

static void add_strings(size_t count)
{
    uint8_t bytes[300];
    for (size_t i = 0; i < count; i++) {
        size_t length = i == 0 ? 0 : i < 8 ? i * 40 : 2 + next_random() % 9;
        memset(bytes, 'a' + (int)(i % 26), sizeof bytes);
        if (length >= 2) bytes[0] = (uint8_t)('0' + i / 10 % 10), bytes[1] = (uint8_t)('0' + i % 10);
        CHECK(ds_frequent_items_string_update(&sketches[num_sketches - 1], bytes, length, 1 + i % 7) == DS_OK);
        lengths[num_sketches - 1] += 12 + length;
    }
}

static ds_sketch *add_counts(int32_t kind, size_t length, uint8_t num_hashes, uint32_t num_buckets)
{
    ds_sketch *it = add(kind, length);
    CHECK(ds_count_min_new(it, kind, num_hashes, num_buckets, SEED) == DS_OK);
    return it;
}

static ds_sketch *add_frequent(int32_t kind, size_t length, size_t max_map_size, size_t sample_size)
{
    ds_sketch *it = add(kind, length);
    CHECK(ds_frequent_items_new(it, kind, max_map_size, sample_size, NULL) == DS_OK);
    return it;
}

static void create_all(void)
{
    ds_sketch *it;
    CHECK(ds_bloom_new(add(DS_BLOOM, 24), 640, 3, SEED) == DS_OK);
    add_frequent(DS_FREQUENT_ITEMS_STRING, 8, 64, 48);
    CHECK(ds_bloom_new(it = add(DS_BLOOM, 32 + 80), 640, 3, 7) == DS_OK && ds_bloom_insert_u64(it, 9) == DS_OK);
    add_counts(DS_COUNT_MIN_U64, 16, 3, 17);
    it = add_counts(DS_COUNT_MIN_U64, 24 + 3 * 17 * 8, 3, 17);
    CHECK(ds_count_min_u64_update_u64(it, 9, 5) == DS_OK);
    it = add_counts(DS_COUNT_MIN_I64, 24 + 2 * 5 * 8, 2, 5);
    CHECK(ds_count_min_i64_update_u64(it, 9, -5) == DS_OK);
    add_counts(DS_COUNT_MIN_I64, 16, 2, 5);
    add_frequent(DS_FREQUENT_ITEMS_U64, 8, 64, 48);
    add_frequent(DS_FREQUENT_ITEMS_U64, 32, 64, 48);
    add_u64(1);
    add_frequent(DS_FREQUENT_ITEMS_U64, 32, 64, 48);
    add_u64(48);
    add_frequent(DS_FREQUENT_ITEMS_I64, 32, 16, 12);
    add_i64(7);
    add_frequent(DS_FREQUENT_ITEMS_I64, 8, 1 << 30, 1024);
    /* seven items of weight 1 in eight slots leave no counter, but a total */
    it = add_frequent(DS_FREQUENT_ITEMS_I64, 32, 8, 6);
    for (int64_t item = 0; item < 7; item++) CHECK(ds_frequent_items_i64_update(it, item, 1) == DS_OK);
    add_frequent(DS_FREQUENT_ITEMS_STRING, 32, 64, 48);
    add_strings(1);
    add_frequent(DS_FREQUENT_ITEMS_STRING, 32, 64, 48);
    add_strings(48);
    it = add_frequent(DS_FREQUENT_ITEMS_STRING, 32, 8, 6);
    for (uint8_t item = 'a'; item < 'h'; item++) CHECK(ds_frequent_items_string_update(it, &item, 1, 1) == DS_OK);
    add_frequent(DS_FREQUENT_ITEMS_STRING, 32, 1024, 768);
    add_strings(90);
    CHECK(ds_bloom_new(it = add(DS_BLOOM, 32 + 8), 64, 1, SEED) == DS_OK && ds_bloom_insert_u64(it, 9) == DS_OK);
    CHECK(num_sketches == SKETCHES);
}

/* Returns whether two sketches have the same image. */
static bool same_images(ds_sketch *a, ds_sketch *b)
{
    static uint8_t one[ROOM], two[ROOM];
    size_t length, again;
    return ds_serialize(a, one, ROOM, &length) == DS_OK && ds_serialize(b, two, ROOM, &again) == DS_OK && length == again &&
           memcmp(one, two, length) == 0;
}

/* Checks the length of a sketch's image, also of a shared sketch, and that the image takes just as many bytes of a buffer. */
static void length_of_image(int32_t kind, ds_sketch *handle, size_t length)
{
    static uint8_t image[ROOM];
    ds_sketch share = DS_NONE, none = DS_NONE;
    size_t bytes = NOT_WRITTEN, written = NOT_WRITTEN;
    ds_status status;
    CHECK(ds_serialized_bytes(handle, &bytes) == DS_OK && bytes == length);
    memset(image, 0xa5, sizeof image);
    CHECK(ds_serialize(handle, image, length - 1, &written) == DS_NO_ROOM && written == length);
    for (size_t i = 0; i < length; i++) CHECK(image[i] == 0xa5);
    written = NOT_WRITTEN;
    CHECK(ds_serialize(handle, image, length, &written) == DS_OK && written == length && image[length] == 0xa5);
    CHECK(ds_freeze(handle) == DS_OK && ds_share(&share, handle) == DS_OK);
    bytes = NOT_WRITTEN;
    CHECK(ds_serialized_bytes(&share, &bytes) == DS_OK && bytes == length && same_images(handle, &share));
    ds_free(&share);
    CHECK(ds_thaw(handle) == DS_YES);
    bytes = NOT_WRITTEN;
    CHECK(ds_get_status(handle, &status) == DS_OK && status.kind == kind);
    CHECK(ds_serialized_bytes(&none, &bytes) == DS_NO_SKETCH && bytes == NOT_WRITTEN);
}

/* Returns a copy of bytes in a block that ends where they do. */
static uint8_t *placed(const uint8_t *bytes, size_t length, uint8_t **block)
{
    *block = malloc(length + 1);
    if (*block == NULL) abort();
    memcpy(*block + 1, bytes, length);
    return *block + 1;
}

/* Reads bytes as an image alone and at the front, and checks that both do the same. If there is an image, it takes just as many
 * bytes as are needed. Returns the result. */
static int32_t both(int32_t kind, const uint8_t *bytes, size_t length, size_t max_bytes)
{
    ds_sketch alone = DS_NONE, front = DS_NONE, exact = DS_NONE;
    uint8_t *block;
    size_t used = NOT_WRITTEN;
    const uint8_t *at = placed(bytes, length, &block);
    CHECK(ds_bloom_new(&front, 64, 1, SEED) == DS_OK);
    void *before = front.sketch;
    int32_t result = read_alone(kind, &alone, at, length, max_bytes);
    CHECK(read_front(kind, &front, at, length, max_bytes, &used) == result);
    if (result < 0) {
        CHECK(used == NOT_WRITTEN && front.sketch == before && !alone.sketch);
    } else {
        CHECK(used <= length && same_images(&alone, &front));
        CHECK(read_alone(kind, &exact, at, used, max_bytes) == DS_OK && same_images(&exact, &front));
        CHECK(read_front(kind, &exact, at, used - 1, max_bytes, &used) == DS_INSUFFICIENT_DATA);
    }
    free(block);
    ds_free(&alone);
    ds_free(&front);
    ds_free(&exact);
    return result;
}

/* Reads all images from one buffer, each from the front of the rest. Each length that ends within an image is an error. */
static void in_turn(void)
{
    size_t length = 0, at = 0, used;
    for (size_t i = 0; i < num_sketches; i++) length += lengths[i];
    uint8_t *all = malloc(length);
    if (all == NULL) abort();
    for (size_t i = 0; i < num_sketches; i++) {
        CHECK(ds_serialize(&sketches[i], all + at, length - at, &used) == DS_OK && used == lengths[i]);
        at += used;
    }
    CHECK(at == length);
    at = 0;
    for (size_t i = 0; i < num_sketches; i++) {
        ds_sketch read = DS_NONE, alone = DS_NONE;
        uint8_t *block;
        const uint8_t *rest = placed(all + at, length - at, &block);
        used = NOT_WRITTEN;
        CHECK(read_front(kinds[i], &read, rest, length - at, LIMIT, &used) == DS_OK && used == lengths[i]);
        CHECK(read_alone(kinds[i], &alone, all + at, lengths[i], LIMIT) == DS_OK && same_images(&alone, &read));
        for (size_t cut = 0; cut < lengths[i]; cut++) CHECK(both(kinds[i], all + at, cut, LIMIT) == DS_INSUFFICIENT_DATA);
        free(block);
        ds_free(&read);
        ds_free(&alone);
        at += lengths[i];
    }
    CHECK(at == length);
    free(all);
}

/* Images with altered bytes, and bytes after them, are accepted or rejected as by the call that reads an image alone. */
static void altered(void)
{
    enum { AFTER = 5, TRIALS = 400 };
    size_t accepted = 0, rejected = 0;
    for (size_t i = 0; i < num_sketches; i++) {
        static uint8_t image[ROOM + AFTER];
        for (int trial = 0; trial < TRIALS; trial++) {
            size_t length, changed = trial % 3;
            CHECK(ds_serialize(&sketches[i], image, ROOM, &length) == DS_OK);
            for (size_t k = 0; k < AFTER; k++) image[length + k] = (uint8_t)next_random();
            while (changed-- > 0) image[next_random() % (length < 48 || trial % 2 ? length : 48)] = (uint8_t)next_random();
            if (both(kinds[i], image, length + AFTER, LIMIT) < 0) rejected++;
            else accepted++;
        }
    }
    CHECK(accepted > SKETCHES * TRIALS / 3 && rejected > SKETCHES * TRIALS / 9);
}

/* The limit does not count what follows an image. */
static void limits(void)
{
    static uint8_t image[ROOM];
    for (size_t i = 0; i < num_sketches; i++) {
        ds_sketch read = DS_NONE;
        size_t length, least = 0, most = LIMIT, used;
        CHECK(ds_serialize(&sketches[i], image, ROOM, &length) == DS_OK);
        /* the least limit with which the image alone is accepted */
        while (least < most) {
            size_t middle = (least + most) / 2;
            if (read_alone(kinds[i], &read, image, length, middle) == DS_OK) most = middle;
            else least = middle + 1;
        }
        for (size_t after = 0; after <= 9; after += 9) {
            CHECK(both(kinds[i], image, length + after, least) == DS_OK);
            CHECK(both(kinds[i], image, length + after, least - 1) == DS_TABLE_TOO_LARGE);
        }
        CHECK(read_front(kinds[i], &read, image, length + 9, least, &used) == DS_OK && used == length);
        ds_free(&read);
    }
}

/* Reads a sketch again and again into one handle, also over sketches of other kinds, and under drawn keys. */
static void replaced(void)
{
    static uint8_t image[ROOM];
    ds_sketch handle = DS_NONE;
    ds_status status;
    size_t length, used;
    for (size_t i = 0; i < num_sketches; i++) {
        CHECK(ds_serialize(&sketches[i], image, ROOM, &length) == DS_OK);
        CHECK(read_front(kinds[i], &handle, image, ROOM, LIMIT, &used) == DS_OK && used == length);
    }
    CHECK(ds_bloom_contains_u64(&handle, 9) == DS_YES);
    CHECK(ds_serialize(&sketches[9], image, ROOM, &length) == DS_OK);
    CHECK(ds_deserialize_prefix(&handle, DS_FREQUENT_ITEMS_U64, image, ROOM, WITHIN(LIMIT), &used) == DS_OK && used == length);
    CHECK(ds_get_status(&handle, &status) == DS_OK && status.num_active_items == 48);
    CHECK(ds_deserialize_prefix(&handle, DS_FREQUENT_ITEMS_I64, image, ROOM, WITHIN(LIMIT), &used) == DS_OK && used == length);
    CHECK(ds_serialize(&sketches[14], image, ROOM, &length) == DS_OK);
    CHECK(ds_deserialize_prefix(&handle, DS_FREQUENT_ITEMS_STRING, image, ROOM, WITHIN(LIMIT), &used) == DS_OK && used == length);
    CHECK(ds_get_status(&handle, &status) == DS_OK && status.num_active_items == 48);
    ds_free(&handle);
}

int main(void)
{
    create_all();
    for (size_t i = 0; i < num_sketches; i++) length_of_image(kinds[i], &sketches[i], lengths[i]);
    in_turn();
    altered();
    limits();
    replaced();
    for (size_t i = 0; i < num_sketches; i++) ds_free(&sketches[i]);
    return report();
}
