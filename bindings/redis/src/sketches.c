/* The values of keys. */
#include "module.h"

#include <math.h>
#include <string.h>

Types types;
size_t max_bytes = (size_t)64 << 20;
size_t max_merge_bytes = (size_t)256 << 20;
size_t max_hashes = 255;
uint64_t default_seed = DS_DEFAULT_SEED;
uint64_t default_capacity = 100000;
double default_rate = 0.01;

Sketch *new_value(Kind kind)
{
    Sketch *sketch = try_block(sizeof *sketch);
    if (sketch != NULL) *sketch = (Sketch){.handle = DS_NONE, .kind = kind};
    return sketch;
}

Sketch *clone_value(Sketch *sketch)
{
    Sketch *copied = new_value(sketch->kind);
    if (copied == NULL) return NULL;
    *copied = *sketch;
    copied->handle = (ds_sketch)DS_NONE;
    copied->bytes = NULL;
    copied->length = copied->room = copied->total = 0;
    copied->top = NULL;
    copied->top_count = 0;
    if (ds_clone(&copied->handle, &sketch->handle) == DS_OK) return copied;
    free_value(copied);
    return NULL;
}

void free_value(void *value)
{
    Sketch *sketch = value;
    if (sketch == NULL) return;
    ds_free(&sketch->handle);
    free_block(sketch->bytes);
    free_block(sketch->top);
    free_block(sketch);
}

RedisModuleType *type_of(Kind kind)
{
    switch (kind) {
    case DS_BLOOM: return types.filters;
    case DS_COUNT_MIN_U64: return types.counts;
    case DS_FREQUENT_ITEMS_STRING: return types.frequent;
    default: return types.parts;
    }
}

uint64_t number_of(Sketch *sketch, int32_t which)
{
    uint64_t number = 0;
    ds_number(&sketch->handle, which, &number);
    return number;
}

ds_status status_of(Sketch *sketch)
{
    ds_status status = {0};
    ds_get_status(&sketch->handle, &status);
    return status;
}

uint64_t random_word(void)
{
    uint64_t word = 0;
    RedisModule_GetRandomBytes((unsigned char *)&word, sizeof word);
    return word;
}

bool is_usable_seed(uint64_t seed)
{
    ds_sketch tried = DS_NONE;
    bool is_usable = ds_count_min_new(&tried, DS_COUNT_MIN_U64, 1, 3, seed) != DS_ZERO_SEED_HASH;
    ds_free(&tried);
    return is_usable;
}

uint64_t random_seed(void)
{
    uint64_t seed;
    do seed = random_word();
    while (!is_usable_seed(seed));
    return seed;
}

void count_strings(Sketch *sketch)
{
    size_t bytes = 0, slots = number_of(sketch, DS_NUMBER_CURRENT_MAP_CAPACITY) / 3 * 4;
    ds_memory_bytes(&sketch->handle, &bytes);
    sketch->string_bytes = bytes - slots * BYTES_OF_SLOT;
    sketch->spare_bytes = 0;
}

uint64_t estimated_items(Sketch *sketch)
{
    ds_status status = status_of(sketch);
    double bits = (double)status.num_bits, used = (double)status.bits_used;
    if (status.bits_used >= status.num_bits) used = bits - 1; /* a full filter has no estimate: that of one free bit is below it */
    return (uint64_t)llround(-bits / status.num_hashes * log1p(-used / bits));
}

uint64_t capacity_of(Sketch *sketch)
{
    ds_status status = status_of(sketch);
    uint64_t items = (uint64_t)((double)status.num_bits / status.num_hashes * log(2));
    return items > 0 ? items : 1;
}
