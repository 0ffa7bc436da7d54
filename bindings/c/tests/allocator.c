/* Sets an allocator that counts. Checks that the library asks it alone, gives all back, and reports its failures. Prints the checks
 * that do not hold, and exits with 1 if there is any. */
#include <datasketches.h>
#include <stdint.h>
#include <stdio.h>
#include <stdlib.h>
#include <string.h>

#include "check.h"

/* What an allocator counts: blocks that are not given back, and requests until one fails, or -1. */
typedef struct {
    size_t blocks, requests, bytes;
    long left;
} counts;

/* Each block has its size before it. */
enum { BEFORE = 16 };

static void *allocate(void *context, size_t size)
{
    counts *counted = context;
    counted->requests++;
    CHECK(size > 0);
    if (counted->left == 0) {
        return NULL;
    }
    counted->left -= counted->left > 0;
    unsigned char *block = malloc(BEFORE + size);
    if (block == NULL) {
        return NULL;
    }
    memcpy(block, &size, sizeof size);
    counted->blocks++;
    counted->bytes += size;
    return block + BEFORE;
}

static void deallocate(void *context, void *block)
{
    counts *counted = context;
    size_t size;
    unsigned char *whole = (unsigned char *)block - BEFORE;
    memcpy(&size, whole, sizeof size);
    counted->blocks--;
    counted->bytes -= size;
    free(whole);
}

static void *reallocate(void *context, void *block, size_t kept, size_t size)
{
    size_t old;
    memcpy(&old, (unsigned char *)block - BEFORE, sizeof old);
    CHECK(kept <= old && kept <= size);
    void *moved = allocate(context, size);
    if (moved != NULL) {
        memcpy(moved, block, kept);
        deallocate(context, block);
    }
    return moved;
}

int main(void)
{
    counts counted = {.left = -1};
    const ds_allocator ours = {allocate, reallocate, deallocate, &counted};
    const ds_allocator without[] = {
        {NULL, reallocate, deallocate, NULL}, {allocate, NULL, deallocate, NULL}, {allocate, reallocate, NULL, NULL}};
    CHECK(ds_set_allocator(NULL) == DS_BAD_ARGUMENT);
    for (size_t i = 0; i < 3; i++) {
        CHECK(ds_set_allocator(&without[i]) == DS_BAD_ARGUMENT);
    }
    CHECK(ds_set_allocator(&ours) == DS_OK);

    ds_sketch filter = DS_NONE, heavy = DS_NONE, copy = DS_NONE;
    size_t bytes = 0;
    CHECK(ds_bloom_new(&filter, 1 << 20, 7, 9001) == DS_OK);
    CHECK(ds_memory_bytes(&filter, &bytes) == DS_OK && bytes == (1 << 20) / 8);
    CHECK(counted.blocks == 2 && counted.bytes >= bytes && counted.bytes < bytes + 512);
    CHECK(ds_set_allocator(&ours) == DS_BAD_ARGUMENT);

    CHECK(ds_frequent_items_new(&heavy, DS_FREQUENT_ITEMS_STRING, 1024, 768, &(ds_key){1, 2}) == DS_OK);
    char item[64];
    for (int i = 0; i < 4000; i++) {
        int length = snprintf(item, sizeof item, "an item of a name that is long %d", i % 1500);
        CHECK(ds_frequent_items_string_update(&heavy, (const uint8_t *)item, (size_t)length, 1) == DS_OK);
    }
    CHECK(ds_clone(&copy, &heavy) == DS_OK);
    CHECK(ds_memory_bytes(&heavy, &bytes) == DS_OK && counted.bytes > 2 * bytes);

    /* A clone whose first, second, ... request fails. */
    size_t before = counted.blocks;
    int32_t result = DS_NO_MEMORY;
    ds_sketch other = DS_NONE;
    long at;
    for (at = 0; result == DS_NO_MEMORY; at++) {
        counted.left = at;
        result = ds_clone(&other, &heavy);
        counted.left = -1;
        CHECK(result == DS_OK || (result == DS_NO_MEMORY && counted.blocks == before && other.sketch == NULL));
    }
    CHECK(result == DS_OK && at > 100);

    ds_free(&filter);
    ds_free(&heavy);
    ds_free(&copy);
    ds_free(&other);
    CHECK(counted.blocks == 0 && counted.bytes == 0 && counted.requests > 100);

    return report();
}
