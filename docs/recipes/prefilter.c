#include <datasketches.h>
#include <stdbool.h>
#include <stdio.h>
#include <stdlib.h>
#include <string.h>

int main(void)
{
    static const uint8_t keys[] = "10.0.0.3\n10.0.0.5\n";
    static uint8_t text[1 << 20];
    static bool may_join[1 << 16];
    const size_t length = fread(text, 1, sizeof text, stdin);
    const ds_items wanted = ds_items_lines(keys, sizeof keys - 1), rows = ds_items_lines(text, length);
    ds_sketch filter = DS_NONE;
    size_t count = 0, kept = 0;

    int32_t result = ds_bloom_new(&filter, 1 << 16, 7, DS_DEFAULT_SEED);
    if (result == DS_OK) result = ds_bloom_insert_all(&filter, &wanted);
    if (result == DS_OK) result = ds_num_items(&rows, &count);
    if (result == DS_OK) result = ds_bloom_contains_all(&filter, &rows, may_join, count);
    for (size_t i = 0; i < count && result == DS_OK; i++) kept += may_join[i];
    ds_free(&filter);
    if (result < 0) return fprintf(stderr, "%s\n", ds_result_message(result)), 1;
    printf("%zu of %zu rows may join\n", kept, count);
    return 0;
}
