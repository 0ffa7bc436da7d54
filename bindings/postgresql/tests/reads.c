/* Reads the images of a folder with the C library, and writes its answers and images of its own. reads FOLDER.
 *
 * FOLDER has the images `strings`, `bigints`, `counts`, `signed_counts`, `filter`, of items `item-I` and I from 0 to 99, or of
 * other bigints. For each of 200 items it prints the bounds, the estimates and whether the filter contains it. Then it writes
 * sketches of its own there: `c_strings` and so on, in which item I of 100 has the weight I + 1. */
#include <datasketches.h>
#include <stdio.h>
#include <stdlib.h>
#include <string.h>

static uint8_t bytes[1 << 20];

static int32_t checked(int32_t result, const char *what)
{
    if (result < 0) {
        fprintf(stderr, "%s: %s\n", what, ds_result_message(result));
        exit(1);
    }
    return result;
}

static FILE *file(const char *folder, const char *name, const char *mode)
{
    char path[4096];
    FILE *opened;
    snprintf(path, sizeof path, "%s/%s", folder, name);
    opened = fopen(path, mode);
    if (opened == NULL) {
        perror(path);
        exit(1);
    }
    return opened;
}

static size_t read_bytes(const char *folder, const char *name)
{
    FILE *opened = file(folder, name, "rb");
    size_t length = fread(bytes, 1, sizeof bytes, opened);
    fclose(opened);
    return length;
}

static void write_bytes(const char *folder, const char *name, size_t length)
{
    FILE *opened = file(folder, name, "wb");
    if (fwrite(bytes, 1, length, opened) != length || fclose(opened) != 0) exit(1);
}

static void read_sketch(ds_sketch *handle, int32_t kind, const char *folder, const char *name)
{
    ds_image_options options = {.max_bytes = 1 << 26, .seed = DS_DEFAULT_SEED};
    checked(ds_deserialize(handle, kind, bytes, read_bytes(folder, name), &options), name);
}

static void write_sketch(ds_sketch *handle, const char *folder, const char *name)
{
    size_t length;
    checked(ds_serialize(handle, bytes, sizeof bytes, &length), name);
    write_bytes(folder, name, length);
}

int main(int argc, char **argv)
{
    ds_sketch strings = DS_NONE, bigints = DS_NONE, counts = DS_NONE, signed_counts = DS_NONE, filter = DS_NONE;
    ds_item_bounds of_string, of_bigint;
    if (argc != 2) return 2;
    read_sketch(&strings, DS_FREQUENT_ITEMS_STRING, argv[1], "strings");
    read_sketch(&bigints, DS_FREQUENT_ITEMS_I64, argv[1], "bigints");
    read_sketch(&counts, DS_COUNT_MIN_U64, argv[1], "counts");
    read_sketch(&signed_counts, DS_COUNT_MIN_I64, argv[1], "signed_counts");
    read_sketch(&filter, DS_BLOOM, argv[1], "filter");
    for (int i = 0; i < 200; i++) {
        char item[32];
        size_t size = (size_t)snprintf(item, sizeof item, "item-%d", i);
        uint64_t estimate = 0;
        int64_t with_sign = 0;
        checked(ds_frequent_items_string_bounds(&strings, (uint8_t *)item, size, &of_string), "bounds");
        checked(ds_frequent_items_i64_bounds(&bigints, i, &of_bigint), "bounds");
        checked(ds_count_min_u64_estimate_string(&counts, (uint8_t *)item, size, &estimate), "estimate");
        checked(ds_count_min_i64_estimate_i64(&signed_counts, i, &with_sign), "estimate");
        printf("%d %llu %llu %llu %llu %llu %lld %d\n", i, (unsigned long long)of_string.lower_bound,
               (unsigned long long)of_string.upper_bound, (unsigned long long)of_bigint.lower_bound,
               (unsigned long long)of_bigint.upper_bound, (unsigned long long)estimate, (long long)with_sign,
               (int)checked(ds_bloom_contains_i64(&filter, i), "contains"));
    }
    checked(ds_frequent_items_new(&strings, DS_FREQUENT_ITEMS_STRING, 64, ds_frequent_items_max_sample_size(64), NULL), "new");
    checked(ds_frequent_items_new(&bigints, DS_FREQUENT_ITEMS_I64, 64, ds_frequent_items_max_sample_size(64), NULL), "new");
    checked(ds_count_min_new(&counts, DS_COUNT_MIN_U64, 4, 500, DS_DEFAULT_SEED), "new");
    checked(ds_count_min_new(&signed_counts, DS_COUNT_MIN_I64, 4, 500, DS_DEFAULT_SEED), "new");
    checked(ds_bloom_new(&filter, 4096, 5, DS_DEFAULT_SEED), "new");
    for (int i = 0; i < 100; i++) {
        char item[32];
        size_t size = (size_t)snprintf(item, sizeof item, "item-%d", i);
        checked(ds_frequent_items_string_update(&strings, (uint8_t *)item, size, (uint64_t)i + 1), "update");
        checked(ds_frequent_items_i64_update(&bigints, i, (uint64_t)i + 1), "update");
        checked(ds_count_min_u64_update_string(&counts, (uint8_t *)item, size, (uint64_t)i + 1), "update");
        checked(ds_count_min_i64_update_i64(&signed_counts, i, i + 1), "update");
        checked(ds_bloom_insert_i64(&filter, i), "insert");
    }
    write_sketch(&strings, argv[1], "c_strings");
    write_sketch(&bigints, argv[1], "c_bigints");
    write_sketch(&counts, argv[1], "c_counts");
    write_sketch(&signed_counts, argv[1], "c_signed_counts");
    write_sketch(&filter, argv[1], "c_filter");
    ds_free(&strings);
    ds_free(&bigints);
    ds_free(&counts);
    ds_free(&signed_counts);
    ds_free(&filter);
    return 0;
}
