/* Known examples of many strings and weights, of reports of strings, and of words, lines and chunks. Prints the checks that failed.
 * Exits with 1 if there is any. */
#include <datasketches.h>
#include <string.h>

#include "check.h"

/* Four strings in one buffer after a byte that is in none: a word, a letter with a mark, the empty string, and two symbols. */
static const uint8_t MANY[] = "-applea\xcc\x88\xe2\x82\xac!";
static const uint64_t ENDS[5] = {1, 6, 9, 9, 13};

static void many_strings(void)
{
    ds_sketch filter = DS_NONE, count = DS_NONE, signs = DS_NONE, frequent = DS_NONE;
    const ds_items items = ds_items_offsets(MANY, sizeof MANY - 1, ENDS, 5);
    const ds_items first = ds_items_offsets(MANY, sizeof MANY - 1, ENDS, 2);
    ds_item_bounds bounds;
    bool answers[4];
    uint64_t estimates[4];
    int64_t with_sign[4];

    CHECK(ds_bloom_new(&filter, 959, 7, 9001) == DS_OK && ds_bloom_insert_all(&filter, &items) == DS_OK);
    CHECK(ds_bloom_contains_all(&filter, &items, answers, 4) == DS_OK);
    for (int i = 0; i < 4; i++) CHECK(answers[i]);
    CHECK(ds_reset(&filter) == DS_OK && ds_bloom_insert_string(&filter, (const uint8_t *)"apple", 5) == DS_OK);
    CHECK(ds_bloom_contains_all(&filter, &items, answers, 4) == DS_OK && answers[0] && !answers[1]);

    CHECK(ds_count_min_new(&count, DS_COUNT_MIN_U64, 4, 128, 9001) == DS_OK &&
          ds_count_min_new(&signs, DS_COUNT_MIN_I64, 4, 128, 9001) == DS_OK);
    CHECK(ds_count_min_u64_update_string(&count, (const uint8_t *)"apple", 5, 89) == DS_OK);
    CHECK(ds_update_all(&count, &items) == DS_OK);
    CHECK(ds_count_min_u64_estimate_all(&count, &items, estimates, 4) == DS_OK && estimates[0] == 90);
    CHECK(estimates[1] == 1 && estimates[2] == 1 && estimates[3] == 1);
    CHECK(ds_count_min_i64_update_string(&signs, (const uint8_t *)"apple", 5, -9) == DS_OK);
    CHECK(ds_update_all(&signs, &items) == DS_OK);
    CHECK(ds_count_min_i64_estimate_all(&signs, &items, with_sign, 4) == DS_OK && with_sign[0] == -8);
    /* room for two more */
    CHECK(ds_count_min_u64_update_u64(&count, 1, UINT64_MAX - 95) == DS_OK);
    CHECK(ds_update_all(&count, &items) == DS_WEIGHT_OVERFLOW);
    CHECK(ds_count_min_u64_estimate_all(&count, &items, estimates, 4) == DS_OK);
    CHECK(estimates[0] == 91 && estimates[1] == 2 && estimates[2] == 1 && estimates[3] == 1);

    CHECK(ds_frequent_items_new(&frequent, DS_FREQUENT_ITEMS_STRING, 64, 48, NULL) == DS_OK);
    CHECK(ds_update_all(&frequent, &items) == DS_OK && ds_update_all(&frequent, &first) == DS_OK);
    CHECK(ds_frequent_items_string_bounds(&frequent, (const uint8_t *)"apple", 5, &bounds) == DS_OK && bounds.estimate == 2);
    CHECK(ds_frequent_items_string_bounds(&frequent, NULL, 0, &bounds) == DS_OK && bounds.estimate == 1);
    ds_free(&filter);
    ds_free(&count);
    ds_free(&signs);
    ds_free(&frequent);
}

/* Many items, each with a weight. */
static void weights(void)
{
    ds_sketch count = DS_NONE, signs = DS_NONE, frequent = DS_NONE;
    ds_status status;
    ds_item_bounds bounds, all[4];
    const uint64_t numbers[3] = {3, 4, 3}, some[3] = {5, 0, 2}, most[3] = {1, UINT64_MAX - 15, 1}, of_four[4] = {1, 2, 0, 9};
    const int64_t same[3] = {3, -4, 3}, with_sign[3] = {5, -7, 0}, least[3] = {0, INT64_MIN, 0}, signs_of_four[4] = {-1, 2, 0, 9};
    const ds_items items = ds_items_u64(numbers, 3), two = ds_items_u64(numbers, 2), signed_items = ds_items_i64(same, 3);
    const ds_items four = ds_items_offsets(MANY, sizeof MANY - 1, ENDS, 5);
    const ds_items three = ds_items_offsets(MANY, sizeof MANY - 1, ENDS, 4);
    uint64_t estimates[4];
    int64_t estimate;

    CHECK(ds_count_min_new(&count, DS_COUNT_MIN_U64, 4, 128, 9001) == DS_OK);
    CHECK(ds_update_all_weighted(&count, &items, some, 3) == DS_OK);
    CHECK(ds_count_min_u64_estimate_all(&count, &items, estimates, 3) == DS_OK && estimates[0] == 7 && estimates[1] == 0);
    CHECK(ds_update_all_weighted(&count, &signed_items, some, 3) == DS_OK);
    CHECK(ds_count_min_u64_estimate_i64(&count, 3, estimates) == DS_OK && estimates[0] == 14);
    /* the last weight overflows, so none is added */
    CHECK(ds_update_all_weighted(&count, &items, most, 3) == DS_WEIGHT_OVERFLOW);
    CHECK(ds_get_status(&count, &status) == DS_OK && status.total_weight == 14);
    CHECK(ds_update_all_weighted(&count, &two, most, 2) == DS_OK);
    CHECK(ds_get_status(&count, &status) == DS_OK && status.total_weight == UINT64_MAX);
    CHECK(ds_count_min_new(&count, DS_COUNT_MIN_U64, 4, 128, 9001) == DS_OK);
    CHECK(ds_update_all_weighted(&count, &four, of_four, 4) == DS_OK);
    CHECK(ds_count_min_u64_estimate_all(&count, &four, estimates, 4) == DS_OK);
    CHECK(estimates[0] == 1 && estimates[1] == 2 && estimates[2] == 0 && estimates[3] == 9);

    CHECK(ds_count_min_new(&signs, DS_COUNT_MIN_I64, 4, 128, 9001) == DS_OK);
    CHECK(ds_count_min_i64_update_all_weighted(&signs, &signed_items, with_sign, 3) == DS_OK);
    CHECK(ds_count_min_i64_estimate_i64(&signs, -4, &estimate) == DS_OK && estimate == -7);
    CHECK(ds_get_status(&signs, &status) == DS_OK && status.total_weight == 12);
    CHECK(ds_count_min_i64_update_all_weighted(&signs, &items, least, 3) == DS_WEIGHT_OVERFLOW);
    CHECK(ds_count_min_i64_update_all_weighted(&signs, &items, with_sign, 3) == DS_OK);
    CHECK(ds_count_min_i64_estimate_u64(&signs, 3, &estimate) == DS_OK && estimate == 10);
    CHECK(ds_count_min_new(&signs, DS_COUNT_MIN_I64, 4, 128, 9001) == DS_OK);
    CHECK(ds_count_min_i64_update_all_weighted(&signs, &four, signs_of_four, 4) == DS_OK);
    CHECK(ds_count_min_i64_estimate_string(&signs, MANY + 1, 5, &estimate) == DS_OK && estimate == -1);

    CHECK(ds_frequent_items_new(&frequent, DS_FREQUENT_ITEMS_U64, 64, 48, NULL) == DS_OK);
    CHECK(ds_update_all_weighted(&frequent, &items, some, 3) == DS_OK);
    CHECK(ds_frequent_items_u64_bounds(&frequent, 3, &bounds) == DS_OK && bounds.lower_bound == 7 && bounds.upper_bound == 7);
    CHECK(ds_get_status(&frequent, &status) == DS_OK && status.num_active_items == 1 && status.total_weight == 7);
    CHECK(ds_update_all_weighted(&frequent, &items, most, 3) == DS_OK);
    CHECK(ds_update_all_weighted(&frequent, &items, some, 3) == DS_WEIGHT_OVERFLOW);
    CHECK(ds_get_status(&frequent, &status) == DS_OK && status.total_weight == UINT64_MAX - 6);
    CHECK(ds_frequent_items_new(&frequent, DS_FREQUENT_ITEMS_I64, 64, 48, NULL) == DS_OK);
    CHECK(ds_update_all_weighted(&frequent, &signed_items, some, 3) == DS_OK);
    CHECK(ds_frequent_items_i64_bounds(&frequent, 3, &bounds) == DS_OK && bounds.estimate == 7);
    CHECK(ds_frequent_items_new(&frequent, DS_FREQUENT_ITEMS_STRING, 64, 48, NULL) == DS_OK);
    CHECK(ds_update_all_weighted(&frequent, &four, of_four, 4) == DS_OK);
    CHECK(ds_frequent_items_string_bounds(&frequent, MANY + 9, 4, &bounds) == DS_OK && bounds.estimate == 9);
    CHECK(ds_frequent_items_bounds_all(&frequent, &four, all, 4) == DS_OK && all[3].estimate == 9);
    CHECK(all[0].lower_bound == 1 && all[1].upper_bound == 2 && all[2].estimate == 0);
    CHECK(ds_get_status(&frequent, &status) == DS_OK && status.num_active_items == 3 && status.total_weight == 12);
    CHECK(ds_update_all_weighted(&frequent, &three, most, 3) == DS_OK);
    CHECK(ds_update_all_weighted(&frequent, &three, most, 3) == DS_WEIGHT_OVERFLOW);
    CHECK(ds_get_status(&frequent, &status) == DS_OK && status.total_weight == UINT64_MAX - 1);
    ds_free(&count);
    ds_free(&signs);
    ds_free(&frequent);
}

/* The rows of a report of strings, with enough room and with too little room for each output. */
static void rows_of_strings(void)
{
    ds_sketch strings = DS_NONE, other = DS_NONE;
    const uint64_t of_four[4] = {5, 7, 1, 9};
    const ds_items items = ds_items_offsets(MANY, sizeof MANY - 1, ENDS, 5);
    uint8_t bytes[16], before[16];
    uint64_t offsets[6] = {8, 8, 8, 8, 8, 8};
    ds_item_bounds bounds[4] = {{0, 0, 0}, {0, 0, 0}, {0, 0, 0}, {3, 3, 3}};
    size_t count = 77, length = 78;

    memset(bytes, '.', sizeof bytes);
    memset(before, '.', sizeof before);
    CHECK(ds_frequent_items_string_rows(&strings, true, 0, SIZE_MAX, bytes, 16, offsets, 6, bounds, 4, &count, &length) ==
          DS_NO_SKETCH);
    CHECK(ds_bloom_new(&other, 64, 1, 9001) == DS_OK);
    CHECK(ds_frequent_items_string_rows(&other, true, 0, SIZE_MAX, bytes, 16, offsets, 6, bounds, 4, &count, &length) ==
          DS_WRONG_KIND);
    CHECK(count == 77 && length == 78);
    CHECK(ds_frequent_items_new(&strings, DS_FREQUENT_ITEMS_STRING, 64, 48, NULL) == DS_OK);
    CHECK(ds_frequent_items_string_rows(&strings, true, 0, SIZE_MAX, bytes, 16, offsets, 1, bounds, 0, &count, &length) == DS_OK);
    CHECK(count == 0 && length == 0 && offsets[0] == 0 && offsets[1] == 8);
    CHECK(ds_update_all_weighted(&strings, &items, of_four, 4) == DS_OK);
    CHECK(ds_frequent_items_string_rows(&strings, true, 1, SIZE_MAX, NULL, 0, NULL, 0, NULL, 0, &count, &length) == DS_NO_ROOM);
    CHECK(count == 3 && length == 12);
    CHECK(ds_frequent_items_string_rows(&strings, true, 1, SIZE_MAX, bytes, 11, offsets, 6, bounds, 4, &count, &length) ==
          DS_NO_ROOM);
    CHECK(ds_frequent_items_string_rows(&strings, true, 1, SIZE_MAX, bytes, 12, offsets, 3, bounds, 4, &count, &length) ==
          DS_NO_ROOM);
    CHECK(ds_frequent_items_string_rows(&strings, true, 1, SIZE_MAX, bytes, 12, offsets, 4, bounds, 2, &count, &length) ==
          DS_NO_ROOM);
    CHECK(ds_frequent_items_string_rows(&strings, true, 1, SIZE_MAX, NULL, 1, offsets, 4, bounds, 3, &count, &length) ==
          DS_BAD_ARGUMENT);
    CHECK(memcmp(bytes, before, 16) == 0 && offsets[1] == 8 && bounds[0].estimate == 0);
    CHECK(ds_frequent_items_string_rows(&strings, true, 1, SIZE_MAX, bytes, 16, offsets, 6, bounds, 4, &count, &length) == DS_OK);
    CHECK(count == 3 && length == 12 &&
          memcmp(bytes,
                 "\xe2\x82\xac!a\xcc\x88"
                 "apple....",
                 16) == 0);
    CHECK(offsets[0] == 0 && offsets[1] == 4 && offsets[2] == 7 && offsets[3] == 12 && offsets[4] == 8);
    CHECK(bounds[0].estimate == 9 && bounds[1].lower_bound == 7 && bounds[2].upper_bound == 5 && bounds[3].estimate == 3);
    /* the first row, in buffers for one */
    memset(bytes, '.', sizeof bytes);
    offsets[1] = offsets[2] = 8;
    CHECK(ds_frequent_items_string_rows(&strings, true, 1, 1, bytes, 4, offsets, 2, bounds, 1, &count, &length) == DS_OK);
    CHECK(count == 1 && length == 4 && offsets[0] == 0 && offsets[1] == 4 && offsets[2] == 8 && bounds[0].estimate == 9);
    CHECK(memcmp(bytes, "\xe2\x82\xac!.", 5) == 0);
    CHECK(ds_frequent_items_string_rows(&strings, true, 1, 1, bytes, 3, offsets, 2, bounds, 1, &count, &length) == DS_NO_ROOM);
    CHECK(ds_frequent_items_string_rows(&strings, true, 1, 0, bytes, 0, offsets, 1, bounds, 0, &count, &length) == DS_OK);
    CHECK(count == 0 && length == 0);
    CHECK(ds_frequent_items_string_rows(&strings, false, 6, SIZE_MAX, bytes, 7, offsets, 3, bounds, 2, &count, &length) == DS_OK);
    CHECK(count == 2);
    ds_free(&strings);
    ds_free(&other);
}

/* Add the words or the lines of a string. */
static int32_t add_words(ds_sketch *handle, const char *text)
{
    const ds_items items = ds_items_words((const uint8_t *)text, strlen(text));
    return ds_update_all(handle, &items);
}

static int32_t add_lines(ds_sketch *handle, const char *text)
{
    const ds_items items = ds_items_lines((const uint8_t *)text, strlen(text));
    return ds_update_all(handle, &items);
}

/* Returns whether an item is estimated so. */
static bool is_estimate(ds_sketch *handle, const char *item, uint64_t estimate)
{
    ds_item_bounds bounds;
    return ds_frequent_items_string_bounds(handle, (const uint8_t *)item, strlen(item), &bounds) == DS_OK &&
           bounds.estimate == estimate;
}

/* Words: white space, strings without words, and errors. */
static void words(void)
{
    ds_sketch sketch = DS_NONE;
    ds_status numbers;
    CHECK(ds_frequent_items_new(&sketch, DS_FREQUENT_ITEMS_STRING, 64, 48, NULL) == DS_OK);
    CHECK(add_words(&sketch, " to be\tor\nnot\r\n\fto  be") == DS_OK);
    CHECK(is_estimate(&sketch, "to", 2) && is_estimate(&sketch, "be", 2) && is_estimate(&sketch, "or", 1));
    CHECK(is_estimate(&sketch, "not", 1) && is_estimate(&sketch, "", 0));
    /* neither a vertical tab nor white space outside of ASCII ends a word */
    CHECK(add_words(&sketch, "a\vb caf\xc3\xa9\xc2\xa0x") == DS_OK);
    CHECK(is_estimate(&sketch, "a\vb", 1) && is_estimate(&sketch, "caf\xc3\xa9\xc2\xa0x", 1));
    CHECK(add_words(&sketch, "") == DS_OK && add_words(&sketch, " \t\n\f\r") == DS_OK);
    CHECK(add_words(&sketch, "to be \xff") == DS_INVALID_UTF8);
    CHECK(ds_get_status(&sketch, &numbers) == DS_OK && numbers.total_weight == 8);
    CHECK(numbers.num_active_items == 6 && is_estimate(&sketch, "to", 2));
    /* the total has room for two words more */
    CHECK(ds_frequent_items_string_update(&sketch, (const uint8_t *)"be", 2, UINT64_MAX - 10) == DS_OK);
    CHECK(add_words(&sketch, "to new last to") == DS_WEIGHT_OVERFLOW);
    CHECK(is_estimate(&sketch, "to", 3) && is_estimate(&sketch, "new", 1) && is_estimate(&sketch, "last", 0));
    CHECK(ds_get_status(&sketch, &numbers) == DS_OK && numbers.total_weight == UINT64_MAX);
    ds_free(&sketch);
}

/* Lines: their ends, empty lines, and a CR that is no end. */
static void lines(void)
{
    ds_sketch sketch = DS_NONE;
    ds_status numbers;
    CHECK(ds_frequent_items_new(&sketch, DS_FREQUENT_ITEMS_STRING, 64, 48, NULL) == DS_OK);
    CHECK(add_lines(&sketch, "to be\r\n\nto be\n or \rnot\r\n\r\r\nlast\r") == DS_OK);
    CHECK(is_estimate(&sketch, "to be", 2) && is_estimate(&sketch, "", 1) && is_estimate(&sketch, " or \rnot", 1));
    CHECK(is_estimate(&sketch, "\r", 1) && is_estimate(&sketch, "last\r", 1));
    CHECK(ds_get_status(&sketch, &numbers) == DS_OK && numbers.total_weight == 6 && numbers.num_active_items == 5);
    CHECK(add_lines(&sketch, "") == DS_OK && add_lines(&sketch, "to be\n\xff") == DS_INVALID_UTF8);
    CHECK(ds_get_status(&sketch, &numbers) == DS_OK && numbers.total_weight == 6);
    CHECK(add_lines(&sketch, "\n\n") == DS_OK && is_estimate(&sketch, "", 3));
    ds_free(&sketch);
}

/* Calls on chunks. */
static void chunks(void)
{
    static const uint8_t text[] = "to be \xff or\nnot";
    CHECK(ds_valid_utf8(text, sizeof text) == 6 && ds_valid_utf8(text, 6) == 6 && ds_valid_utf8(text, 0) == 0);
    CHECK(ds_valid_utf8((const uint8_t *)"a\xe2\x82", 3) == 1);
    CHECK(ds_finished_words(text, 5) == 3 && ds_finished_words(text, 6) == 6 && ds_finished_words(text, 2) == 0);
    CHECK(ds_finished_lines(text, 10) == 0 && ds_finished_lines(text, 13) == 11);
    CHECK(ds_finished_words(text, 0) == 0 && ds_finished_lines(text, 1) == 0);
    CHECK(ds_finished_words(NULL, 0) == 0 && ds_finished_lines(NULL, 2) == 0 && ds_valid_utf8(NULL, 0) == 0);
}

int main(void)
{
    many_strings();
    weights();
    rows_of_strings();
    words();
    lines();
    chunks();
    return report();
}
