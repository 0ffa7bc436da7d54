/* Calls with columns of rows some of which are missing, as in Arrow, beside the same calls with the other rows alone. Prints the
 * checks that failed. Exits with 1 if there is any. */
#include <datasketches.h>
#include <string.h>

#include "check.h"
#include "forms.h"

#define COUNT(array) (sizeof(array) / sizeof *(array))

enum { MAX_ROWS = 300, MAX_FIRST_BIT = 15 };

/* Rows of numbers and of strings, and the weights of each. */
struct column {
    size_t count;
    uint64_t numbers[MAX_ROWS], weights[MAX_ROWS];
    int64_t with_sign[MAX_ROWS], signed_weights[MAX_ROWS];
    struct forms strings;
};

/* All rows, and those that are there. */
static struct column all, kept;
static bool is_there[MAX_ROWS];
static uint8_t validity[(MAX_ROWS + MAX_FIRST_BIT + 7) / 8];

static uint64_t chance_state = 7;

/* Returns a pseudo-random number below `n`. */
static size_t chance(size_t n)
{
    chance_state = chance_state * 6364136223846793005u + 1442695040888963407u;
    return (size_t)(chance_state >> 33) % n;
}

/* Appends row `i` of all rows. */
static void keep(size_t i)
{
    size_t at = kept.count++;
    kept.numbers[at] = all.numbers[i];
    kept.with_sign[at] = all.with_sign[i];
    kept.weights[at] = all.weights[i];
    kept.signed_weights[at] = all.signed_weights[i];
    add_string(&kept.strings, all.strings.strings[i].bytes, all.strings.strings[i].length);
}

/* Makes rows of which about one in `one_of` is missing. The weights of missing rows would be errors. Bits that belong to no row are
 * 0 and 1. */
static void make_column(size_t count, size_t first_bit, size_t one_of)
{
    static const char *const letters[] = {"a", "b", "\xc3\xa4", "\xe2\x82\xac", ""};
    memset(validity, 0x5a, sizeof validity);
    clear_forms(&all.strings);
    clear_forms(&kept.strings);
    all.count = count;
    kept.count = 0;
    for (size_t i = 0; i < count; i++) {
        char string[8] = "";
        is_there[i] = chance(one_of) > 0;
        all.numbers[i] = chance(40) - 20;
        all.with_sign[i] = (int64_t)chance(40) - 20;
        all.weights[i] = is_there[i] ? chance(9) : UINT64_MAX;
        all.signed_weights[i] = is_there[i] ? (int64_t)chance(9) - 4 : INT64_MIN;
        strcat(strcat(string, letters[chance(COUNT(letters))]), letters[chance(COUNT(letters))]);
        add_string(&all.strings, string, strlen(string));
        if (is_there[i]) validity[(first_bit + i) / 8] |= (uint8_t)(1u << (first_bit + i) % 8);
        else validity[(first_bit + i) / 8] &= (uint8_t) ~(1u << (first_bit + i) % 8);
        if (is_there[i]) keep(i);
    }
}

/* Returns the rows of a column as items of a kind, without a bitmap. */
static ds_items rows_of(const struct column *it, int32_t kind)
{
    if (kind == DS_ITEMS_U64) return ds_items_u64(it->numbers, it->count);
    if (kind == DS_ITEMS_I64) return ds_items_i64(it->with_sign, it->count);
    return strings_of(&it->strings, kind, 0, it->count);
}

/* Returns whether two sketches have the same image. */
static bool are_same(ds_sketch *a, ds_sketch *b)
{
    static uint8_t one[1 << 13], two[1 << 13];
    size_t length = 0, again = 0;
    CHECK(ds_serialize(a, one, sizeof one, &length) == DS_OK && ds_serialize(b, two, sizeof two, &again) == DS_OK);
    return length == again && memcmp(one, two, length) == 0;
}

/* Checks that the results of all rows are those of the rows that are there, and `nothing` where a row is missing. */
#define CHECK_RESULTS(of_all, of_kept, nothing) \
    for (size_t i = 0, k = 0; i < all.count; i++) \
    CHECK(memcmp(&(of_all)[i], is_there[i] ? &(of_kept)[k++] : &(nothing), sizeof(nothing)) == 0)

static void check_filters(const ds_items *rows, const ds_items *others)
{
    static bool of_rows[MAX_ROWS], of_others[MAX_ROWS];
    static uint8_t image[1 << 13];
    const bool nothing = false;
    ds_sketch a = DS_NONE, b = DS_NONE;
    size_t length = 0;
    CHECK(ds_bloom_new(&a, 4096, 5, 9001) == DS_OK && ds_bloom_new(&b, 4096, 5, 9001) == DS_OK);
    memset(of_rows, 1, sizeof of_rows);
    CHECK(ds_bloom_contains_and_insert_all(&a, rows, of_rows, all.count) == DS_OK);
    CHECK(ds_bloom_contains_and_insert_all(&b, others, of_others, kept.count) == DS_OK);
    CHECK(ds_equal(&a, &b) == DS_YES);
    CHECK_RESULTS(of_rows, of_others, nothing);
    CHECK(ds_reset(&b) == DS_OK && ds_bloom_insert_all(&b, rows) == DS_OK && ds_equal(&a, &b) == DS_YES);
    /* in a filter of half of the rows */
    CHECK(ds_reset(&a) == DS_OK);
    for (size_t i = 0; i < kept.count; i += 2) {
        const ds_string *string = &kept.strings.strings[i];
        CHECK(ds_bloom_insert_u64(&a, kept.numbers[i]) == DS_OK && ds_bloom_insert_i64(&a, kept.with_sign[i]) == DS_OK);
        CHECK(ds_bloom_insert_string(&a, string->bytes, string->length) == DS_OK);
    }
    memset(of_rows, 1, sizeof of_rows);
    CHECK(ds_bloom_contains_all(&a, rows, of_rows, all.count) == DS_OK);
    CHECK(ds_bloom_contains_all(&a, others, of_others, kept.count) == DS_OK);
    CHECK_RESULTS(of_rows, of_others, nothing);
    CHECK(ds_serialize(&a, image, sizeof image, &length) == DS_OK);
    memset(of_rows, 1, sizeof of_rows);
    CHECK(ds_bloom_image_contains_all(image, length, rows, of_rows, all.count) == DS_OK);
    CHECK_RESULTS(of_rows, of_others, nothing);
    ds_free(&a);
    ds_free(&b);
}

static void check_counts(const ds_items *rows, const ds_items *others)
{
    static uint64_t of_rows[MAX_ROWS], of_others[MAX_ROWS];
    static int64_t signed_rows[MAX_ROWS], signed_others[MAX_ROWS];
    const uint64_t nothing = 0;
    const int64_t no_weight = 0;
    ds_sketch a = DS_NONE, b = DS_NONE;
    CHECK(ds_count_min_new(&a, DS_COUNT_MIN_U64, 4, 64, 9001) == DS_OK);
    CHECK(ds_count_min_new(&b, DS_COUNT_MIN_U64, 4, 64, 9001) == DS_OK);
    CHECK(ds_update_all(&a, rows) == DS_OK && ds_update_all(&b, others) == DS_OK && ds_equal(&a, &b) == DS_YES);
    CHECK(ds_update_all_weighted(&a, rows, all.weights, all.count) == DS_OK);
    CHECK(ds_update_all_weighted(&b, others, kept.weights, kept.count) == DS_OK && ds_equal(&a, &b) == DS_YES);
    memset(of_rows, 1, sizeof of_rows);
    CHECK(ds_count_min_u64_estimate_all(&a, rows, of_rows, all.count) == DS_OK);
    CHECK(ds_count_min_u64_estimate_all(&a, others, of_others, kept.count) == DS_OK);
    CHECK_RESULTS(of_rows, of_others, nothing);
    CHECK(ds_count_min_new(&a, DS_COUNT_MIN_I64, 4, 64, 9001) == DS_OK);
    CHECK(ds_count_min_new(&b, DS_COUNT_MIN_I64, 4, 64, 9001) == DS_OK);
    CHECK(ds_update_all(&a, rows) == DS_OK && ds_update_all(&b, others) == DS_OK && ds_equal(&a, &b) == DS_YES);
    CHECK(ds_count_min_i64_update_all_weighted(&a, rows, all.signed_weights, all.count) == DS_OK);
    CHECK(ds_count_min_i64_update_all_weighted(&b, others, kept.signed_weights, kept.count) == DS_OK);
    CHECK(ds_equal(&a, &b) == DS_YES);
    memset(signed_rows, 1, sizeof signed_rows);
    CHECK(ds_count_min_i64_estimate_all(&a, rows, signed_rows, all.count) == DS_OK);
    CHECK(ds_count_min_i64_estimate_all(&a, others, signed_others, kept.count) == DS_OK);
    CHECK_RESULTS(signed_rows, signed_others, no_weight);
    ds_free(&a);
    ds_free(&b);
}

/* In a table that purges. */
static void check_frequent(const ds_items *rows, const ds_items *others)
{
    static ds_item_bounds of_rows[MAX_ROWS], of_others[MAX_ROWS];
    const ds_item_bounds nothing = {0, 0, 0};
    const ds_key key = {7, 8};
    int32_t kind = rows->kind == DS_ITEMS_U64   ? DS_FREQUENT_ITEMS_U64
                   : rows->kind == DS_ITEMS_I64 ? DS_FREQUENT_ITEMS_I64
                                                : DS_FREQUENT_ITEMS_STRING;
    ds_sketch a = DS_NONE, b = DS_NONE;
    CHECK(ds_frequent_items_new(&a, kind, 16, 12, &key) == DS_OK && ds_frequent_items_new(&b, kind, 16, 12, &key) == DS_OK);
    CHECK(ds_update_all(&a, rows) == DS_OK && ds_update_all(&b, others) == DS_OK && are_same(&a, &b));
    CHECK(ds_update_all_weighted(&a, rows, all.weights, all.count) == DS_OK);
    CHECK(ds_update_all_weighted(&b, others, kept.weights, kept.count) == DS_OK && are_same(&a, &b));
    memset(of_rows, 1, sizeof of_rows);
    CHECK(ds_frequent_items_bounds_all(&a, rows, of_rows, all.count) == DS_OK);
    CHECK(ds_frequent_items_bounds_all(&a, others, of_others, kept.count) == DS_OK);
    CHECK_RESULTS(of_rows, of_others, nothing);
    ds_free(&a);
    ds_free(&b);
}

/* Columns of each kind and of several lengths, with each first bit and with few, some and only missing rows. */
static void columns(void)
{
    static const size_t counts[] = {0, 1, 8, 65, MAX_ROWS}, one_of[] = {1, 2, 50};
    for (size_t first_bit = 0; first_bit <= MAX_FIRST_BIT; first_bit++) {
        for (size_t k = 0; k < COUNT(counts) * COUNT(one_of); k++) {
            make_column(counts[k / COUNT(one_of)], first_bit, one_of[k % COUNT(one_of)]);
            for (int32_t kind = DS_ITEMS_U64; kind <= DS_ITEMS_STRINGS; kind++) {
                const ds_items rows = ds_items_with_validity(rows_of(&all, kind), validity, first_bit);
                const ds_items others = rows_of(&kept, kind);
                size_t count = 77;
                CHECK(rows.num_validity == (first_bit + all.count + 7) / 8 && ds_num_rows(&rows) == all.count);
                CHECK(ds_num_items(&rows, &count) == DS_OK && count == all.count);
                check_filters(&rows, &others);
                check_counts(&rows, &others);
                check_frequent(&rows, &others);
            }
        }
    }
}

/* What `ds_items_with_validity` sets, also for numbers that no column has. */
static void members(void)
{
    static const struct {
        size_t rows, first_bit, num_bytes;
    } wanted[] = {{0, 0, 0},
                  {0, 1, 1},
                  {1, 0, 1},
                  {8, 0, 1},
                  {9, 0, 2},
                  {8, 1, 2},
                  {1, 15, 2},
                  {2, 15, 3},
                  {SIZE_MAX, 0, (SIZE_MAX >> 3) + 1},
                  {0, SIZE_MAX, (SIZE_MAX >> 3) + 1},
                  {SIZE_MAX, 1, (SIZE_MAX >> 3) + 1},
                  {SIZE_MAX, 2, (SIZE_MAX >> 3) + 2},
                  {SIZE_MAX, SIZE_MAX, (SIZE_MAX >> 2) + 1}};
    const uint8_t text[] = "a b";
    ds_items items;
    for (size_t i = 0; i < COUNT(wanted); i++) {
        items = ds_items_with_validity(ds_items_u64(all.numbers, wanted[i].rows), validity, wanted[i].first_bit);
        CHECK(items.validity == validity && items.num_validity == wanted[i].num_bytes && items.first_bit == wanted[i].first_bit);
        CHECK(items.kind == DS_ITEMS_U64 && items.u64s == all.numbers && items.num_u64s == wanted[i].rows);
    }
    /* null takes a bitmap away */
    items = ds_items_with_validity(ds_items_with_validity(ds_items_u64(all.numbers, 3), validity, 9), NULL, 9);
    CHECK(items.validity && items.num_validity == 0 && items.first_bit == 0);
    /* words and lines, also none, are rejected */
    for (size_t length = 0; length <= 3; length++) {
        size_t count = 77;
        items = ds_items_with_validity(ds_items_words(text, length), validity, 0);
        CHECK(ds_num_items(&items, &count) == DS_BAD_ARGUMENT && count == 77);
        items = ds_items_with_validity(ds_items_lines(text, length), validity, 0);
        CHECK(ds_num_items(&items, &count) == DS_BAD_ARGUMENT && count == 77);
        items = ds_items_with_validity(ds_items_words(text, length), NULL, 0);
        CHECK(ds_num_items(&items, &count) == DS_OK && count == (length + 1) / 2);
    }
}

/* A word, a letter with a mark, and two symbols. */
static const uint8_t BYTES[] = "applea\xcc\x88\xe2\x82\xac!";

/* Arrow's offsets that are rejected for 12 bytes. */
static const struct {
    int64_t offsets[4];
    size_t count;
} HOSTILE[] = {{{-1, 3}, 1},
               {{-1, -1}, 1},
               {{0, 13}, 1},
               {{13, 13}, 1},
               {{0, 5, 3}, 2},
               {{0, 5, 3, 12}, 3},
               {{0, -5, 3, 12}, 3},
               {{5, 0}, 1},
               {{0, INT32_MAX}, 1},
               {{INT32_MIN, 0}, 1},
               {{INT32_MIN, INT32_MAX}, 1},
               {{0, 2, INT32_MAX, 12}, 3},
               {{0, INT32_MIN, 4, 12}, 3}};

/* Offsets with a sign, with a bitmap of no rows and without one. */
static void hostile_offsets(void)
{
    const uint8_t none_there[1] = {0};
    for (size_t i = 0; i < COUNT(HOSTILE); i++) {
        int32_t narrow[4];
        int64_t wide[4];
        size_t num_offsets = HOSTILE[i].count + 1;
        for (int k = 0; k < 4; k++) {
            narrow[k] = (int32_t)HOSTILE[i].offsets[k];
            /* the widest offsets in place of the narrow ones */
            wide[k] = HOSTILE[i].offsets[k] == INT32_MIN ? INT64_MIN : HOSTILE[i].offsets[k] == INT32_MAX ? INT64_MAX : narrow[k];
        }
        for (int k = 0; k < 4; k++) {
            ds_items items = k < 2 ? ds_items_offsets32(BYTES, 12, (const uint32_t *)narrow, num_offsets)
                                   : ds_items_offsets(BYTES, 12, (const uint64_t *)wide, num_offsets);
            size_t count = 77;
            items = ds_items_with_validity(items, k % 2 ? none_there : NULL, 0);
            CHECK(ds_num_items(&items, &count) == DS_BAD_OFFSETS && count == 77);
        }
    }
}

/* A column of strings with nulls and weights beside it, of which a slice is taken, and then the rows that may be in a filter. */
static void from_end_to_end(void)
{
    const int32_t offsets[8] = {0, 5, 5, 5, 8, 8, 11, 12};
    const uint64_t weights[6] = {1, 2, UINT64_MAX, 4, 5, 6};
    const uint8_t bits[1] = {0xd4};
    const ds_items slice = ds_items_offsets32(BYTES, 12, (const uint32_t *)offsets + 1, 7);
    const ds_items items = ds_items_with_validity(slice, bits, 1);
    ds_sketch count = DS_NONE, filter = DS_NONE;
    uint64_t estimates[6] = {77, 77, 77, 77, 77, 77};
    size_t positions[6], selected;
    bool results[6] = {true, true, true, true, true, true};
    ds_status status;

    /* the rows 1, 3 and 5 are there: two empty strings and the last symbol */
    CHECK(ds_count_min_new(&count, DS_COUNT_MIN_U64, 4, 128, 9001) == DS_OK && ds_bloom_new(&filter, 959, 7, 9001) == DS_OK);
    CHECK(ds_update_all_weighted(&count, &items, weights, 6) == DS_OK);
    CHECK(ds_get_status(&count, &status) == DS_OK && status.total_weight == 12);
    CHECK(ds_count_min_u64_estimate_all(&count, &items, estimates, 6) == DS_OK);
    CHECK(estimates[1] == 6 && estimates[3] == 6 && estimates[5] == 6);
    CHECK(estimates[0] == 0 && estimates[2] == 0 && estimates[4] == 0);
    CHECK(ds_bloom_insert_string(&filter, (const uint8_t *)"!", 1) == DS_OK);
    CHECK(ds_bloom_insert_string(&filter, BYTES + 5, 3) == DS_OK);
    CHECK(ds_bloom_contains_all(&filter, &items, results, 6) == DS_OK);
    selected = ds_select(results, 6, positions);
    CHECK(selected == 1 && positions[0] == 5);
    CHECK(ds_select(NULL, 0, NULL) == 0);
    ds_free(&count);
    ds_free(&filter);
}

int main(void)
{
    columns();
    members();
    hostile_offsets();
    from_end_to_end();
    return report();
}
