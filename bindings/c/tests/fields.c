/* The items and weights in fields of records: the formats, what is left out, and the error of each record. */
#include <datasketches.h>

#include "check.h"

#include <stdlib.h>
#include <string.h>

#define TEXT(text) (const uint8_t *)(text), sizeof(text) - 1

static const ds_fields WORD_1 = {DS_FIELDS_WORDS, 0, 1, DS_NO_FIELD};

/* Returns the estimate of a string. */
static uint64_t in_counts(ds_sketch *counts, const char *item)
{
    uint64_t estimate = 0;
    CHECK(ds_count_min_u64_estimate_string(counts, (const uint8_t *)item, strlen(item), &estimate) == DS_OK);
    return estimate;
}

static uint64_t in_heavy(ds_sketch *heavy, const char *item)
{
    ds_item_bounds bounds = {0, 0, 0};
    CHECK(ds_frequent_items_string_bounds(heavy, (const uint8_t *)item, strlen(item), &bounds) == DS_OK);
    CHECK(bounds.lower_bound == bounds.upper_bound);
    return bounds.estimate;
}

static uint64_t total_of(ds_sketch *sketch)
{
    ds_status status;
    CHECK(ds_get_status(sketch, &status) == DS_OK);
    return status.total_weight;
}

/* Counts records in both sketches, each empty before. */
static int32_t count_both(ds_sketch *counts, ds_sketch *heavy, const uint8_t *bytes, size_t length, ds_fields fields,
                          ds_fields_read *read)
{
    ds_fields_read other = *read;
    CHECK(ds_count_min_new(counts, DS_COUNT_MIN_U64, 4, 1024, 9001) == DS_OK);
    CHECK(ds_frequent_items_new(heavy, DS_FREQUENT_ITEMS_STRING, 64, 48, NULL) == DS_OK);
    int32_t result = ds_update_fields(counts, bytes, length, &fields, read);
    CHECK(ds_update_fields(heavy, bytes, length, &fields, &other) == result);
    CHECK(other.num_records == read->num_records && other.num_items == read->num_items && other.offset == read->offset);
    CHECK(total_of(counts) == total_of(heavy));
    return result;
}

/* Words, fields between bytes, whole lines and CSV. */
static void formats(void)
{
    ds_sketch counts = DS_NONE, heavy = DS_NONE;
    ds_fields_read read = {7, 7, 7};
    const ds_fields word = {DS_FIELDS_WORDS, 0, 1, 2}, line = {DS_FIELDS_WORDS, 0, DS_NO_FIELD, 0};
    const ds_fields colons = {DS_FIELDS_DELIMITED, ':', 0, DS_NO_FIELD}, csv = {DS_FIELDS_CSV, ',', 1, 0};

    CHECK(count_both(&counts, &heavy, TEXT("x a 5\n  y  b 7 z\r\n\nshort\nx a 010"), word, &read) == DS_OK);
    CHECK(read.num_records == 5 && read.num_items == 3 && read.offset == 7);
    CHECK(in_counts(&counts, "a") == 15 && in_counts(&counts, "b") == 7 && in_heavy(&heavy, "a") == 15);
    CHECK(total_of(&heavy) == 22);

    CHECK(count_both(&counts, &heavy, TEXT("3 a b\n4 a b\n3 a b\n"), line, &read) == DS_OK);
    CHECK(read.num_records == 3 && read.num_items == 3 && in_heavy(&heavy, "3 a b") == 6 && in_counts(&counts, "4 a b") == 4);

    CHECK(count_both(&counts, &heavy, TEXT("a:b\n:c\n\nno\n"), colons, &read) == DS_OK); /* an empty line is an empty field */
    CHECK(read.num_records == 4 && read.num_items == 4);
    CHECK(in_heavy(&heavy, "") == 2 && in_heavy(&heavy, "no") == 1 && in_counts(&counts, "a") == 1);

    CHECK(count_both(&counts, &heavy, TEXT("5,\"a, \"\"b\"\"\nc\"\r\n\n\"6\",plain\n7\n"), csv, &read) == DS_OK);
    CHECK(read.num_records == 4 && read.num_items == 2 && total_of(&counts) == 11);
    CHECK(in_heavy(&heavy, "a, \"b\"\nc") == 5 && in_counts(&counts, "plain") == 6);

    CHECK(count_both(&counts, &heavy, TEXT(""), csv, &read) == DS_OK && read.num_records == 0 && read.num_items == 0);
    CHECK(ds_finished_csv_records(TEXT("a,b\n\"c\nd\",e\nf"), ',') == 12);
    CHECK(ds_finished_csv_records(TEXT("\"c\nd"), ',') == 0 && ds_finished_csv_records(TEXT("a\n\"c\nd\";"), ';') == 2);
    ds_free(&counts);
    ds_free(&heavy);
}

/* The first record with an error, and where it begins. Then no sketch is changed. */
static void errors(void)
{
    static const struct {
        const char *text;
        size_t length;
        ds_fields fields;
        int32_t result;
        size_t offset;
    } ROWS[] = {
        {"a 1\nb\nc 2", 9, {DS_FIELDS_WORDS, 0, 0, 1}, DS_BAD_WEIGHT, 4},
        {"a 1\n\nb x\n", 9, {DS_FIELDS_WORDS, 0, 0, 1}, DS_BAD_WEIGHT, 5},
        {"a -1\n", 5, {DS_FIELDS_WORDS, 0, 0, 1}, DS_BAD_WEIGHT, 0},
        {"a 18446744073709551616\n", 23, {DS_FIELDS_WORDS, 0, 0, 1}, DS_BAD_WEIGHT, 0},
        {"a 18446744073709551615\na 1\n", 27, {DS_FIELDS_WORDS, 0, 0, 1}, DS_WEIGHT_OVERFLOW, 9},
        {"ok,1\r\n\xff,2\n", 10, {DS_FIELDS_CSV, ',', 0, 1}, DS_INVALID_UTF8, 6},
        {"a;\xff\n\xff;b\n", 8, {DS_FIELDS_DELIMITED, ';', 0, DS_NO_FIELD}, DS_INVALID_UTF8, 4},
        {"\"a\nb\",1\nc,\"\"\"2\"\n", 16, {DS_FIELDS_CSV, ',', 0, 1}, DS_BAD_WEIGHT, 8},
        {"a", 1, {3, ',', 0, 1}, DS_BAD_ARGUMENT, 9},
        {"a", 1, {-1, ',', 0, 1}, DS_BAD_ARGUMENT, 9},
        {"a", 1, {DS_FIELDS_CSV, ',', DS_NO_FIELD, 1}, DS_BAD_ARGUMENT, 9},
        {"a", 1, {DS_FIELDS_CSV, '"', 0, 1}, DS_BAD_ARGUMENT, 9},
        {"a", 1, {DS_FIELDS_CSV, '\n', 0, 1}, DS_BAD_ARGUMENT, 9},
        {"a", 1, {DS_FIELDS_CSV, '\r', 0, 1}, DS_BAD_ARGUMENT, 9},
        {"a", 1, {DS_FIELDS_DELIMITED, 128, 0, 1}, DS_BAD_ARGUMENT, 9},
        {"a", 1, {DS_FIELDS_DELIMITED, 128, DS_NO_FIELD, 1}, DS_BAD_ARGUMENT, 9},
        {"a", 1, {DS_FIELDS_DELIMITED, 200, DS_NO_FIELD, DS_NO_FIELD}, DS_BAD_ARGUMENT, 9},
    };
    ds_sketch counts = DS_NONE, heavy = DS_NONE;
    for (size_t i = 0; i < sizeof ROWS / sizeof *ROWS; i++) {
        ds_fields_read read = {9, 9, 9};
        CHECK(count_both(&counts, &heavy, (const uint8_t *)ROWS[i].text, ROWS[i].length, ROWS[i].fields, &read) == ROWS[i].result);
        CHECK(read.offset == ROWS[i].offset && total_of(&counts) == 0);
        /* the error of a record or of an argument writes no numbers */
        CHECK(ROWS[i].result == DS_WEIGHT_OVERFLOW ? read.num_records == 2 && read.num_items == 2
                                                   : read.num_records == 9 && read.num_items == 9);
    }
    ds_free(&counts);
    ds_free(&heavy);
}

/* Weights with signs. */
static void signs(void)
{
    ds_sketch counts = DS_NONE;
    ds_fields_read read = {0, 0, 0};
    int64_t estimate;
    const ds_fields fields = {DS_FIELDS_DELIMITED, '\t', 0, 1};
    CHECK(ds_count_min_new(&counts, DS_COUNT_MIN_I64, 4, 1024, 9001) == DS_OK);
    CHECK(ds_update_fields(&counts, TEXT("a\t5\nb\t-7\na\t-2\nb\t00"), &fields, &read) == DS_OK && read.num_items == 4);
    CHECK(ds_count_min_i64_estimate_string(&counts, TEXT("a"), &estimate) == DS_OK && estimate == 3);
    CHECK(ds_count_min_i64_estimate_string(&counts, TEXT("b"), &estimate) == DS_OK && estimate == -7);
    CHECK(total_of(&counts) == 14);
    for (const char **bad =
             (const char *[]){"a\t9223372036854775808", "a\t-9223372036854775809", "a\t-", "a\t--1", "a\t+1", "a\t", "a", NULL};
         *bad != NULL; bad++)
        CHECK(ds_update_fields(&counts, (const uint8_t *)*bad, strlen(*bad), &fields, &read) == DS_BAD_WEIGHT);
    CHECK(ds_update_fields(&counts, TEXT("a\t-9223372036854775808"), &fields, &read) == DS_WEIGHT_OVERFLOW);
    CHECK(total_of(&counts) == 14);
    CHECK(ds_update_fields(&counts, TEXT("c\t9223372036854775793"), &fields, &read) == DS_OK && total_of(&counts) == INT64_MAX);
    ds_free(&counts);
}

/* Errors of handles come before those of records, and leave all that was read as it was: no sketch, a shared one, one of another kind. */
static void handles(void)
{
    ds_sketch none = DS_NONE, sketches[4] = {DS_NONE, DS_NONE, DS_NONE, DS_NONE};
    ds_fields_read read = {9, 9, 9};
    const ds_fields weighed = {DS_FIELDS_WORDS, 0, 0, 1};
    CHECK(ds_count_min_new(&sketches[0], DS_COUNT_MIN_I64, 4, 64, 9001) == DS_OK);
    CHECK(ds_count_min_new(&sketches[1], DS_COUNT_MIN_U64, 4, 64, 9001) == DS_OK);
    CHECK(ds_frequent_items_new(&sketches[2], DS_FREQUENT_ITEMS_STRING, 64, 48, NULL) == DS_OK);
    CHECK(ds_frequent_items_new(&sketches[3], DS_FREQUENT_ITEMS_I64, 64, 48, NULL) == DS_OK);
    for (const char **text = (const char *[]){"a -5\n", "a 5\n", "a x\n", "\xff 5\n", NULL}; *text != NULL; text++) {
        const uint8_t *bytes = (const uint8_t *)*text;
        size_t length = strlen(*text);
        CHECK(ds_update_fields(&none, bytes, length, &weighed, &read) == DS_NO_SKETCH);
        CHECK(ds_update_fields(&sketches[3], bytes, length, &weighed, &read) == DS_WRONG_KIND);
    }
    for (size_t i = 0; i < 4; i++) CHECK(ds_freeze(&sketches[i]) == DS_OK);
    for (const char **text = (const char *[]){"a -5\n", "a 5\n", "a x\n", NULL}; *text != NULL; text++) {
        const uint8_t *bytes = (const uint8_t *)*text;
        for (size_t i = 0; i < 4; i++) CHECK(ds_update_fields(&sketches[i], bytes, strlen(*text), &weighed, &read) == DS_SHARED);
    }
    CHECK(read.num_records == 9 && read.num_items == 9 && read.offset == 9);
    for (size_t i = 0; i < 4; i++) ds_free(&sketches[i]);
}

/* Filters, and handles that take no fields. */
static void filters(void)
{
    ds_sketch filter = DS_NONE, numbers = DS_NONE, none = DS_NONE;
    ds_fields_read read = {9, 9, 9};
    const ds_fields weighed = {DS_FIELDS_WORDS, 0, 1, 0};
    CHECK(ds_bloom_new(&filter, 1 << 16, 5, 9001) == DS_OK);
    CHECK(ds_update_fields(&filter, TEXT("1 a\n2 b\n3\n"), &WORD_1, &read) == DS_OK);
    CHECK(read.num_records == 3 && read.num_items == 2);
    CHECK(ds_bloom_contains_string(&filter, TEXT("a")) == DS_YES && ds_bloom_contains_string(&filter, TEXT("b")) == DS_YES);
    CHECK(ds_bloom_contains_string(&filter, TEXT("1 a")) == DS_NO && ds_bloom_contains_string(&filter, TEXT("3")) == DS_NO);
    CHECK(ds_update_fields(&filter, TEXT("1 c\nx d\n"), &weighed, &read) == DS_BAD_WEIGHT && read.offset == 4);
    CHECK(ds_bloom_contains_string(&filter, TEXT("c")) == DS_NO);
    CHECK(ds_frequent_items_new(&numbers, DS_FREQUENT_ITEMS_U64, 64, 48, NULL) == DS_OK);
    CHECK(ds_update_fields(&numbers, TEXT("1 2\n"), &WORD_1, &read) == DS_WRONG_KIND && total_of(&numbers) == 0);
    CHECK(ds_update_fields(&none, TEXT("1 2\n"), &WORD_1, &read) == DS_NO_SKETCH);
    CHECK(ds_freeze(&filter) == DS_OK && ds_update_fields(&filter, TEXT("1 c\n"), &WORD_1, &read) == DS_SHARED);
    CHECK(ds_update_fields(&none, NULL, 3, &WORD_1, &read) == DS_BAD_ARGUMENT);
    CHECK(ds_update_fields(&none, TEXT("a"), NULL, &read) == DS_BAD_ARGUMENT);
    CHECK(ds_update_fields(&none, TEXT("a"), &WORD_1, NULL) == DS_BAD_ARGUMENT);
    CHECK(ds_finished_csv_records(NULL, 3, ',') == 0);
    ds_free(&filter);
    ds_free(&numbers);
}

int main(void)
{
    formats();
    errors();
    signs();
    handles();
    filters();
    return report();
}
