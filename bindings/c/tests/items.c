/* Makes each call on many items with items of each kind, with bitmaps and without, beside a call for each item. Checks that each
 * error comes in the header's order and changes nothing. Prints the checks that failed. Exits with 1 if there is any. */
#include <datasketches.h>
#include <string.h>

#include "check.h"

#define COUNT(array) (sizeof(array) / sizeof *(array))

enum { ROUNDS = 40, MOST = 64, KINDS = 6, ITEM_KINDS = 7 };

/* --- The calls. --- */

enum {
    INSERT,
    CONTAINS,
    CONTAINS_AND_INSERT,
    IMAGE_CONTAINS,
    UPDATE,
    UPDATE_WEIGHTED,
    UPDATE_SIGNED,
    ESTIMATE,
    ESTIMATE_SIGNED,
    BOUNDS,
    CALLS
};

/* The weights that calls read, and the results that they write. */
struct values {
    uint64_t weights[MOST], estimates[MOST];
    int64_t with_sign[MOST], signed_estimates[MOST];
    bool found[MOST];
    ds_item_bounds bounds[MOST];
};

/* The image of the call on an image. */
static uint8_t image[1 << 10];
static size_t image_length;

/* Makes a call on many items, with `count` weights or results if it has any. */
static int32_t make(int call, ds_sketch *handle, const ds_items *items, struct values *it, size_t count)
{
    switch (call) {
    case INSERT: return ds_bloom_insert_all(handle, items);
    case CONTAINS: return ds_bloom_contains_all(handle, items, it->found, count);
    case CONTAINS_AND_INSERT: return ds_bloom_contains_and_insert_all(handle, items, it->found, count);
    case IMAGE_CONTAINS: return ds_bloom_image_contains_all(image, image_length, items, it->found, count);
    case UPDATE: return ds_update_all(handle, items);
    case UPDATE_WEIGHTED: return ds_update_all_weighted(handle, items, it->weights, count);
    case UPDATE_SIGNED: return ds_count_min_i64_update_all_weighted(handle, items, it->with_sign, count);
    case ESTIMATE: return ds_count_min_u64_estimate_all(handle, items, it->estimates, count);
    case ESTIMATE_SIGNED: return ds_count_min_i64_estimate_all(handle, items, it->signed_estimates, count);
    default: return ds_frequent_items_bounds_all(handle, items, it->bounds, count);
    }
}

/* Returns whether a call has weights or results. */
static bool has_values(int call)
{
    return call != INSERT && call != UPDATE;
}

/* Returns whether a call takes a sketch of a kind with items of a kind. The call on an image takes each. */
static bool is_taken(int call, int32_t kind, int32_t kind_of_items)
{
    bool is_frequent = kind >= DS_FREQUENT_ITEMS_U64, fits = true;
    if (kind == DS_FREQUENT_ITEMS_U64) fits = kind_of_items == DS_ITEMS_U64;
    if (kind == DS_FREQUENT_ITEMS_I64) fits = kind_of_items == DS_ITEMS_I64;
    if (kind == DS_FREQUENT_ITEMS_STRING) fits = kind_of_items > DS_ITEMS_I64;
    switch (call) {
    case INSERT:
    case CONTAINS:
    case CONTAINS_AND_INSERT: return kind == DS_BLOOM;
    case IMAGE_CONTAINS: return true;
    case UPDATE: return kind != DS_BLOOM && fits;
    case UPDATE_WEIGHTED: return (kind == DS_COUNT_MIN_U64 || is_frequent) && fits;
    case UPDATE_SIGNED:
    case ESTIMATE_SIGNED: return kind == DS_COUNT_MIN_I64;
    case ESTIMATE: return kind == DS_COUNT_MIN_U64;
    default: return is_frequent && fits;
    }
}

/* Creates a sketch of a kind, of frequent items under one key, so that those of the same history have the same image. */
static void create(ds_sketch *handle, int32_t kind)
{
    const ds_key key = {7, 8};
    if (kind == DS_BLOOM) CHECK(ds_bloom_new(handle, 959, 7, 9001) == DS_OK);
    else if (kind < DS_FREQUENT_ITEMS_U64) CHECK(ds_count_min_new(handle, kind, 4, 64, 9001) == DS_OK);
    else CHECK(ds_frequent_items_new(handle, kind, 16, 12, &key) == DS_OK);
}

/* Returns whether two sketches have the same image. */
static bool are_same(ds_sketch *a, ds_sketch *b)
{
    static uint8_t one[1 << 12], two[1 << 12];
    size_t length = 0, again = 0;
    CHECK(ds_serialize(a, one, sizeof one, &length) == DS_OK && ds_serialize(b, two, sizeof two, &again) == DS_OK);
    return length == again && memcmp(one, two, length) == 0;
}

/* --- Sequences of items. --- */

/* Items of a kind, and the same one by one. */
struct sequence {
    ds_items items;
    size_t count, length;
    bool missing[MOST];
    uint8_t validity[MOST];
    uint64_t numbers[MOST], offsets[MOST + 1];
    int64_t with_sign[MOST];
    uint32_t offsets32[MOST + 1];
    ds_string strings[MOST];
    uint8_t text[2 * MOST];
};

static uint64_t chance_state = 7;

/* Returns a pseudo-random number below `n`. */
static size_t chance(size_t n)
{
    chance_state = chance_state * 6364136223846793005u + 1442695040888963407u;
    return (size_t)(chance_state >> 33) % n;
}

/* Writes a text of letters of one to three bytes and of white space, in and out of ASCII. */
static void make_text(struct sequence *it)
{
    static const char *const pieces[] = {" ", "\t", "\n", "\r", "\f", "\v", "\r\n", "a", "b", "ab", "\xc3\xa4", "\xe2\x82\xac"};
    it->length = 0;
    for (size_t left = chance(18); left > 0; left--) {
        size_t which = chance(COUNT(pieces) + 1), more = which == COUNT(pieces) ? 1 : strlen(pieces[which]);
        memcpy(it->text + it->length, which == COUNT(pieces) ? "\0" : pieces[which], more);
        it->length += more;
    }
}

/* Returns the first place from `at` on at which a letter begins or the text ends. */
static size_t letter_from(const struct sequence *it, size_t at)
{
    while (at < it->length && (it->text[at] & 0xc0) == 0x80) at++;
    return at;
}

static void add_string(struct sequence *it, size_t from, size_t to)
{
    it->strings[it->count++] = (ds_string){it->text + from, to - from};
}

static void split_words(struct sequence *it)
{
    size_t from = 0;
    for (size_t i = 0; i <= it->length; i++) {
        if (i < it->length && (it->text[i] == 0 || !strchr(" \t\n\f\r", it->text[i]))) continue;
        if (i > from) add_string(it, from, i);
        from = i + 1;
    }
}

static void split_lines(struct sequence *it)
{
    for (size_t from = 0; from < it->length;) {
        const uint8_t *end = memchr(it->text + from, '\n', it->length - from);
        size_t to = end ? (size_t)(end - it->text) : it->length;
        add_string(it, from, end && to > from && it->text[to - 1] == '\r' ? to - 1 : to);
        from = to + 1;
    }
}

/* Strings one after another, the first of which may begin after the first byte, and the last end before the last byte. */
static void cut(struct sequence *it)
{
    it->count = chance(9);
    for (size_t i = 0; i <= it->count; i++) {
        size_t before = i ? (size_t)it->offsets[i - 1] : 0, at = letter_from(it, before + chance(4));
        it->offsets[i] = at < it->length ? at : it->length;
        it->offsets32[i] = (uint32_t)it->offsets[i];
        if (i) it->strings[i - 1] = (ds_string){it->text + before, (size_t)it->offsets[i] - before};
    }
}

/* Makes rows missing by a bitmap, which begins within a byte or at one. Bits that belong to no row are chosen by chance, too. */
static void make_gaps(struct sequence *it)
{
    size_t first_bit = chance(16), one_of = 1 + chance(4);
    for (size_t i = 0; i < MOST; i++) it->validity[i] = (uint8_t)chance(256);
    for (size_t i = 0; i < it->count; i++) {
        uint8_t *byte = &it->validity[(first_bit + i) / 8], bit = (uint8_t)(1u << (first_bit + i) % 8);
        it->missing[i] = chance(one_of) == 0;
        *byte = (uint8_t)(it->missing[i] ? *byte & ~bit : *byte | bit);
    }
    it->items = ds_items_with_validity(it->items, it->validity, first_bit);
}

/* Makes a sequence of a kind by chance, without missing rows. */
static void make_sequence(struct sequence *it, int32_t kind)
{
    it->count = 0;
    memset(it->missing, 0, sizeof it->missing);
    make_text(it);
    switch (kind) {
    case DS_ITEMS_U64:
    case DS_ITEMS_I64:
        it->count = chance(18);
        for (size_t i = 0; i < it->count; i++) it->with_sign[i] = (int64_t)(it->numbers[i] = chance(9) - 4);
        it->items = kind == DS_ITEMS_U64 ? ds_items_u64(it->numbers, it->count) : ds_items_i64(it->with_sign, it->count);
        break;
    case DS_ITEMS_OFFSETS: cut(it), it->items = ds_items_offsets(it->text, it->length, it->offsets, it->count + 1); break;
    case DS_ITEMS_OFFSETS32: cut(it), it->items = ds_items_offsets32(it->text, it->length, it->offsets32, it->count + 1); break;
    case DS_ITEMS_STRINGS:
        /* in any order, and some of the same bytes */
        for (size_t left = chance(9); left > 0; left--) {
            size_t from = letter_from(it, chance(it->length + 1));
            add_string(it, from, letter_from(it, from + chance(it->length - from + 1)));
        }
        it->items = ds_items_strings(it->strings, it->count);
        break;
    case DS_ITEMS_WORDS: split_words(it), it->items = ds_items_words(it->text, it->length); break;
    default: split_lines(it), it->items = ds_items_lines(it->text, it->length);
    }
}

/* --- Beside single calls. --- */

/* The single call for item `i` of `it`, by its type, with the arguments after the item. */
#define ONE(call) \
    (kind_of_items == DS_ITEMS_U64   ? call##_u64(handle, it->numbers[i]) \
     : kind_of_items == DS_ITEMS_I64 ? call##_i64(handle, it->with_sign[i]) \
                                     : call##_string(handle, it->strings[i].bytes, it->strings[i].length))
#define ONE_WITH(call, last) \
    (kind_of_items == DS_ITEMS_U64   ? call##_u64(handle, it->numbers[i], last) \
     : kind_of_items == DS_ITEMS_I64 ? call##_i64(handle, it->with_sign[i], last) \
                                     : call##_string(handle, it->strings[i].bytes, it->strings[i].length, last))
#define ONE_FREQUENT(call, last) \
    (kind_of_items == DS_ITEMS_U64   ? ds_frequent_items_u64_##call(handle, it->numbers[i], last) \
     : kind_of_items == DS_ITEMS_I64 ? ds_frequent_items_i64_##call(handle, it->with_sign[i], last) \
                                     : ds_frequent_items_string_##call(handle, it->strings[i].bytes, it->strings[i].length, last))

static int32_t image_contains(const struct sequence *it, size_t i)
{
    switch (it->items.kind) {
    case DS_ITEMS_U64: return ds_bloom_image_contains_u64(image, image_length, it->numbers[i]);
    case DS_ITEMS_I64: return ds_bloom_image_contains_i64(image, image_length, it->with_sign[i]);
    default: return ds_bloom_image_contains_string(image, image_length, it->strings[i].bytes, it->strings[i].length);
    }
}

static int32_t update(ds_sketch *handle, int32_t kind, const struct sequence *it, size_t i, uint64_t weight)
{
    int32_t kind_of_items = it->items.kind;
    if (kind == DS_COUNT_MIN_U64) return ONE_WITH(ds_count_min_u64_update, weight);
    if (kind == DS_COUNT_MIN_I64) return ONE_WITH(ds_count_min_i64_update, (int64_t)weight);
    return ONE_FREQUENT(update, weight);
}

/* Makes a call for item `i` alone. Writes whether it was found, if the call returns this. */
static int32_t make_one(int call, ds_sketch *handle, int32_t kind, const struct sequence *it, size_t i, struct values *values)
{
    int32_t kind_of_items = it->items.kind, found;
    switch (call) {
    case INSERT: return ONE(ds_bloom_insert);
    case CONTAINS: found = ONE(ds_bloom_contains); break;
    case CONTAINS_AND_INSERT: found = ONE(ds_bloom_contains_and_insert); break;
    case IMAGE_CONTAINS: found = image_contains(it, i); break;
    case UPDATE: return update(handle, kind, it, i, 1);
    case UPDATE_WEIGHTED: return update(handle, kind, it, i, values->weights[i]);
    case UPDATE_SIGNED: return ONE_WITH(ds_count_min_i64_update, values->with_sign[i]);
    case ESTIMATE: return ONE_WITH(ds_count_min_u64_estimate, &values->estimates[i]);
    case ESTIMATE_SIGNED: return ONE_WITH(ds_count_min_i64_estimate, &values->signed_estimates[i]);
    default: return ONE_FREQUENT(bounds, &values->bounds[i]);
    }
    values->found[i] = found == DS_YES;
    return found < 0 ? found : DS_OK;
}

/* Writes what a call writes for a missing row `i`. */
static void write_nothing(int call, struct values *values, size_t i)
{
    if (call == CONTAINS || call == CONTAINS_AND_INSERT || call == IMAGE_CONTAINS) values->found[i] = false;
    if (call == ESTIMATE) values->estimates[i] = 0;
    if (call == ESTIMATE_SIGNED) values->signed_estimates[i] = 0;
    if (call == BOUNDS) values->bounds[i] = (ds_item_bounds){0, 0, 0};
}

/* Makes each call that takes these items and the sketches `many` and `single`, of one kind and of the same history. */
static void compare(ds_sketch *many, ds_sketch *single, int32_t kind, const struct sequence *it)
{
    for (int call = 0; call < CALLS; call++) {
        struct values all, each;
        if (!is_taken(call, kind, it->items.kind)) continue;
        memset(&all, 1, sizeof all);
        for (size_t i = 0; i < it->count; i++) {
            all.weights[i] = it->missing[i] ? UINT64_MAX : chance(5) ? chance(4) : (uint64_t)1 << 40;
            all.with_sign[i] = it->missing[i] ? INT64_MIN : (int64_t)chance(7) - 3;
        }
        each = all;
        if (kind == DS_BLOOM) CHECK(ds_serialize(many, image, sizeof image, &image_length) == DS_OK);
        CHECK(make(call, many, &it->items, &all, it->count) == DS_OK);
        for (size_t i = 0; i < it->count; i++) {
            if (it->missing[i]) write_nothing(call, &each, i);
            else CHECK(make_one(call, single, kind, it, i, &each) == DS_OK);
        }
        CHECK(are_same(many, single) && memcmp(&all, &each, sizeof all) == 0);
    }
}

static void beside_single_calls(void)
{
    ds_sketch many[KINDS + 1] = {DS_NONE}, single[KINDS + 1] = {DS_NONE};
    for (int round = 0; round < ROUNDS; round++) {
        for (int32_t kind = 1; kind <= KINDS; kind++) {
            if (round % 8 == 0) create(&many[kind], kind), create(&single[kind], kind);
            for (int32_t kind_of_items = 0; kind_of_items < ITEM_KINDS; kind_of_items++) {
                static struct sequence items;
                make_sequence(&items, kind_of_items);
                compare(&many[kind], &single[kind], kind, &items);
                if (kind_of_items >= DS_ITEMS_WORDS) continue;
                make_gaps(&items);
                compare(&many[kind], &single[kind], kind, &items);
            }
        }
    }
    for (int32_t kind = 1; kind <= KINDS; kind++) ds_free(&many[kind]), ds_free(&single[kind]);
}

/* Compares the words and the lines of whole strings with those of strings that come in two chunks, cut at each byte. */
static void chunks(void)
{
    static struct sequence it;
    for (int round = 0; round < ROUNDS; round++) {
        make_text(&it);
        for (int32_t kind = DS_ITEMS_WORDS; kind <= DS_ITEMS_LINES; kind++) {
            ds_sketch whole = DS_NONE, parts = DS_NONE;
            ds_items items = ds_items_in(kind, it.text, it.length);
            create(&whole, DS_FREQUENT_ITEMS_STRING);
            CHECK(ds_update_all(&whole, &items) == DS_OK);
            for (size_t cut = 0; cut <= it.length; cut++) {
                size_t used = kind == DS_ITEMS_LINES ? ds_finished_lines(it.text, cut) : ds_finished_words(it.text, cut);
                const ds_items first = ds_items_in(kind, it.text, used);
                const ds_items rest = ds_items_in(kind, it.text + used, it.length - used);
                create(&parts, DS_FREQUENT_ITEMS_STRING);
                CHECK(used <= cut && ds_update_all(&parts, &first) == DS_OK && ds_update_all(&parts, &rest) == DS_OK);
                CHECK(are_same(&whole, &parts));
            }
            ds_free(&whole);
            ds_free(&parts);
        }
    }
}

/* --- Errors. --- */

/* Items, how many they are, and the error of each call with them. It is DS_OK for items without fault. */
struct given {
    ds_items items;
    size_t count;
    int32_t error;
};

/* A word, a letter with a mark, and two symbols. */
static const uint8_t BYTES[] = "applea\xcc\x88\xe2\x82\xac!";
static const uint8_t TEXT[] = "apple\na\xcc\x88\r\n\xe2\x82\xac! b";
static const uint8_t BAD_TEXT[] = "apple\na\xcc \xe2\x82\xac!";

/* Offsets for the first 12 of these bytes, and their error. */
static const struct {
    uint64_t offsets[5];
    size_t count;
    int32_t error;
} OFFSETS[] = {
    {{0, 5, 5, 8, 12}, 5, DS_OK},
    {{3, 5, 8}, 3, DS_OK},
    {{12}, 1, DS_OK},
    {{0}, 0, DS_BAD_OFFSETS},
    {{2, 1, 3}, 3, DS_BAD_OFFSETS},
    {{0, 5, 3, 12}, 4, DS_BAD_OFFSETS},
    {{0, 12, 13}, 3, DS_BAD_OFFSETS},
    {{13}, 1, DS_BAD_OFFSETS},
    {{0, UINT64_MAX, 12}, 3, DS_BAD_OFFSETS},
    {{0, 12, UINT64_MAX}, 3, DS_BAD_OFFSETS},
    /* the bytes are UTF-8 as a whole, but a string begins or ends within a letter */
    {{0, 5, 7}, 3, DS_INVALID_UTF8},
    {{5, 9, 12}, 3, DS_INVALID_UTF8},
    {{9, 12}, 2, DS_INVALID_UTF8},
    /* the offsets come first */
    {{0, 9, 13}, 3, DS_BAD_OFFSETS},
    {{9, 8, 12}, 3, DS_BAD_OFFSETS},
};

static const ds_string STRINGS[] = {{BYTES, 5}, {BYTES, 12}, {BYTES + 5, 3}, {BYTES + 3, 0}, {BYTES + 8, 4}};
static const ds_string BAD_STRINGS[] = {{BYTES, 5}, {BYTES + 5, 2}};
static const ds_string BAD_STRING[] = {{BYTES + 9, 3}};
static const uint64_t NUMBERS[] = {3, UINT64_MAX, 3};
static const int64_t WITH_SIGN[] = {3, -1, INT64_MIN};

/* Bitmaps: their number of bytes, their first bit, and whether they have too few bits for five rows. */
static const uint8_t BITS[] = {0xa7, 0x5c, 0x01};
static const struct {
    size_t num_bytes, first_bit;
    bool is_short;
} BITMAPS[] = {{1, 0, false}, {1, 4, true}, {1, SIZE_MAX - 4, true}, {2, 4, false}, {3, 19, false}, {3, SIZE_MAX, true}};

/* Writes five rows of each kind with each bitmap, and words and lines, which take none. The wrong offsets and strings belong to
 * rows that the first bitmap lacks. Returns how many were written. */
static size_t give_bitmaps(struct given *out)
{
    static const uint64_t numbers[5] = {3, 1, 4, 1, 5}, offsets[6] = {0, 5, 5, 8, 8, 12}, bad[6] = {0, 5, 5, 12, 8, 12};
    static const uint64_t cut[6] = {0, 5, 5, 5, 7, 12};
    static const uint32_t offsets32[6] = {0, 5, 5, 8, 8, 12}, bad32[6] = {0, 5, 5, 12, 8, 12}, cut32[6] = {0, 5, 5, 5, 7, 12};
    static const int64_t with_sign[5] = {3, -1, 4, -1, 5};
    static const ds_string cut_strings[5] = {{BYTES, 5}, {BYTES, 5}, {BYTES, 5}, {BYTES + 5, 2}, {BYTES, 5}};
    const struct given rows[] = {
        {ds_items_u64(numbers, 5), 5, DS_OK},
        {ds_items_i64(with_sign, 5), 5, DS_OK},
        {ds_items_offsets(BYTES, 12, offsets, 6), 5, DS_OK},
        {ds_items_offsets32(BYTES, 12, offsets32, 6), 5, DS_OK},
        {ds_items_strings(STRINGS, 5), 5, DS_OK},
        {ds_items_offsets(BYTES, 12, bad, 6), 5, DS_BAD_OFFSETS},
        {ds_items_offsets32(BYTES, 12, bad32, 6), 5, DS_BAD_OFFSETS},
        {ds_items_offsets(BYTES, 12, cut, 6), 5, DS_INVALID_UTF8},
        {ds_items_offsets32(BYTES, 12, cut32, 6), 5, DS_INVALID_UTF8},
        {ds_items_strings(cut_strings, 5), 5, DS_INVALID_UTF8},
        {ds_items_words(TEXT, sizeof TEXT - 1), 4, DS_BAD_ARGUMENT},
        {ds_items_lines(BAD_TEXT, sizeof BAD_TEXT - 1), 2, DS_BAD_ARGUMENT},
        {ds_items_words(NULL, 0), 0, DS_BAD_ARGUMENT},
    };
    size_t count = 0;
    for (size_t i = 0; i < COUNT(rows); i++) {
        for (size_t k = 0; k < COUNT(BITMAPS); k++) {
            out[count] = rows[i];
            out[count].items.validity = BITS;
            out[count].items.num_validity = BITMAPS[k].num_bytes;
            out[count].items.first_bit = BITMAPS[k].first_bit;
            if (BITMAPS[k].is_short) out[count].error = DS_BAD_ARGUMENT;
            count++;
        }
    }
    /* without a bitmap, the first bit is not read; no rows need no bits, wherever the first one is */
    out[count] = rows[0];
    out[count++].items.first_bit = SIZE_MAX;
    out[count++] = (struct given){ds_items_with_validity(ds_items_u64(NULL, 0), BITS, 8), 0, DS_OK};
    out[count] = out[count - 1];
    out[count++].items.first_bit = SIZE_MAX;
    return count;
}

/* Writes all items that are given to the calls, and returns how many. */
static size_t give_all(struct given *out)
{
    static uint32_t offsets32[COUNT(OFFSETS)][5];
    static const int32_t unknown[] = {-1, ITEM_KINDS + 1, 256, INT32_MIN, INT32_MAX};
    const struct given plain[] = {
        {ds_items_u64(NUMBERS, 3), 3, DS_OK},
        {ds_items_i64(WITH_SIGN, 3), 3, DS_OK},
        {ds_items_strings(STRINGS, COUNT(STRINGS)), COUNT(STRINGS), DS_OK},
        {ds_items_strings(BAD_STRINGS, 2), 2, DS_INVALID_UTF8},
        {ds_items_strings(BAD_STRING, 1), 1, DS_INVALID_UTF8},
        {ds_items_words(TEXT, sizeof TEXT - 1), 4, DS_OK},
        {ds_items_lines(TEXT, sizeof TEXT - 1), 3, DS_OK},
        {ds_items_words(BAD_TEXT, sizeof BAD_TEXT - 1), 3, DS_INVALID_UTF8},
        {ds_items_lines(BAD_TEXT, sizeof BAD_TEXT - 1), 2, DS_INVALID_UTF8},
        {ds_items_words(TEXT, sizeof TEXT - 5), 3, DS_INVALID_UTF8},
        {ds_items_lines(BYTES + 9, 3), 1, DS_INVALID_UTF8},
        /* no items */
        {ds_items_u64(NULL, 0), 0, DS_OK},
        {ds_items_i64(NULL, 0), 0, DS_OK},
        {ds_items_offsets(NULL, 0, OFFSETS[0].offsets, 1), 0, DS_OK},
        {ds_items_offsets32(NULL, 0, offsets32[0], 1), 0, DS_OK},
        {ds_items_strings(NULL, 0), 0, DS_OK},
        {ds_items_words(NULL, 0), 0, DS_OK},
        {ds_items_words((const uint8_t *)" \t\n\f\r", 5), 0, DS_OK},
        {ds_items_lines(NULL, 0), 0, DS_OK},
        {ds_items_offsets(NULL, 0, NULL, 0), 0, DS_BAD_OFFSETS},
        {ds_items_offsets32(NULL, 0, NULL, 0), 0, DS_BAD_OFFSETS},
        {ds_items_offsets(NULL, 0, OFFSETS[0].offsets, 2), 1, DS_BAD_OFFSETS},
    };
    size_t count = COUNT(plain);
    memcpy(out, plain, sizeof plain);
    for (size_t i = 0; i < COUNT(OFFSETS); i++) {
        size_t num_offsets = OFFSETS[i].count, num_strings = num_offsets ? num_offsets - 1 : 0;
        for (size_t k = 0; k < 5; k++) offsets32[i][k] = (uint32_t)OFFSETS[i].offsets[k];
        out[count++] = (struct given){ds_items_offsets(BYTES, 12, OFFSETS[i].offsets, num_offsets), num_strings, OFFSETS[i].error};
        out[count++] = (struct given){ds_items_offsets32(BYTES, 12, offsets32[i], num_offsets), num_strings, OFFSETS[i].error};
    }
    /* items of no kind, with and without another fault */
    for (size_t i = 0; i < COUNT(unknown); i++) {
        out[count] = out[count + 1] = (struct given){ds_items_u64(NUMBERS, 3), 3, DS_BAD_ARGUMENT};
        out[count + 1].items = ds_items_offsets(BYTES, 12, OFFSETS[4].offsets, 3);
        out[count++].items.kind = unknown[i];
        out[count++].items.kind = unknown[i];
    }
    return count + give_bitmaps(out + count);
}

/* Returns the first error in the header's order of a call with `places` weights or results. A `kind` of 0 is no sketch, or an image
 * that is too short. */
static int32_t first_error(int call, int32_t kind, const struct given *it, size_t places)
{
    if (it->error) return it->error;
    if (has_values(call) && places != it->count) return DS_NO_ROOM;
    if (kind == 0) return call == IMAGE_CONTAINS ? DS_INSUFFICIENT_DATA : DS_NO_SKETCH;
    return is_taken(call, kind, it->items.kind) ? DS_OK : DS_WRONG_KIND;
}

/* Makes a call on a copy of a sketch. Checks that an error changes neither the sketch nor weights and results. */
static void call_with(int call, ds_sketch *sketch, int32_t kind, const struct given *it, size_t places)
{
    ds_sketch copy = DS_NONE;
    struct values before, after;
    int32_t wanted = first_error(call, kind, it, places);
    memset(&before, 1, sizeof before);
    after = before;
    image_length -= kind == 0;
    if (kind) CHECK(ds_clone(&copy, sketch) == DS_OK);
    CHECK(make(call, &copy, &it->items, &after, places) == wanted);
    if (wanted) CHECK(memcmp(&before, &after, sizeof before) == 0 && (kind ? are_same(&copy, sketch) : !copy.sketch));
    image_length += kind == 0;
    ds_free(&copy);
}

/* Each call with each kind of sketch and with all items that are given, with as many weights and results as items, and with one
 * more or fewer. */
static void errors(void)
{
    static struct given given[300];
    size_t count = give_all(given);
    for (size_t i = 0; i < count; i++) {
        size_t number = 77;
        CHECK(ds_num_items(&given[i].items, &number) == given[i].error && number == (given[i].error ? 77 : given[i].count));
    }
    for (int32_t kind = 0; kind <= KINDS; kind++) {
        ds_sketch sketch = DS_NONE;
        if (kind) {
            create(&sketch, kind);
            for (size_t i = 0; i < count; i++)
                if (is_taken(UPDATE, kind, given[i].items.kind)) CHECK(ds_update_all(&sketch, &given[i].items) == given[i].error);
        }
        if (kind == DS_BLOOM) CHECK(ds_bloom_insert_all(&sketch, &given[0].items) == DS_OK);
        for (size_t i = 0; i < count; i++) {
            for (int call = 0; call < CALLS; call++) {
                call_with(call, &sketch, kind, &given[i], given[i].count);
                call_with(call, &sketch, kind, &given[i], given[i].count + 1);
                if (given[i].count) call_with(call, &sketch, kind, &given[i], given[i].count - 1);
            }
        }
        ds_free(&sketch);
    }
}

/* A total that has room for two items more. Without weights they are added, and with weights nothing is. */
static void overflow(void)
{
    for (int32_t kind = DS_COUNT_MIN_U64; kind <= KINDS; kind++) {
        uint64_t most = kind == DS_COUNT_MIN_I64 ? INT64_MAX : UINT64_MAX;
        for (int32_t kind_of_items = 0; kind_of_items < ITEM_KINDS; kind_of_items++) {
            static struct sequence it;
            ds_sketch full = DS_NONE, two_more = DS_NONE, copy = DS_NONE;
            struct values values;
            int weighted = kind == DS_COUNT_MIN_I64 ? UPDATE_SIGNED : UPDATE_WEIGHTED;
            ds_status status;
            if (!is_taken(UPDATE, kind, kind_of_items)) continue;
            do {
                make_sequence(&it, kind_of_items);
            } while (it.count < 3);
            create(&full, kind);
            CHECK(update(&full, kind, &it, 0, most - 2) == DS_OK && ds_clone(&two_more, &full) == DS_OK);
            CHECK(update(&two_more, kind, &it, 0, 1) == DS_OK && update(&two_more, kind, &it, 1, 1) == DS_OK);
            CHECK(ds_clone(&copy, &full) == DS_OK && ds_update_all(&copy, &it.items) == DS_WEIGHT_OVERFLOW);
            CHECK(are_same(&copy, &two_more) && ds_get_status(&copy, &status) == DS_OK && status.total_weight == most);
            for (size_t i = 0; i < it.count; i++) values.with_sign[i] = (int64_t)(values.weights[i] = 1);
            CHECK(ds_clone(&copy, &full) == DS_OK);
            CHECK(make(weighted, &copy, &it.items, &values, it.count) == DS_WEIGHT_OVERFLOW && are_same(&copy, &full));
            ds_free(&full);
            ds_free(&two_more);
            ds_free(&copy);
        }
    }
}

int main(void)
{
    beside_single_calls();
    chunks();
    errors();
    overflow();
    return report();
}
