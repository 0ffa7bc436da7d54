/* The calls that create filters and Count-Min sketches. Each passes its sizes to the proved call that creates a sketch of any kind. */
#include "proved.h"

int32_t ds_bloom_new(ds_sketch *handle, uint64_t num_bits, uint16_t num_hashes, uint64_t seed)
{
    const ds_sizes sizes = {.num_bits = num_bits, .num_hashes = num_hashes, .seed = seed};
    return ds_new(handle, DS_BLOOM, &sizes);
}

int32_t ds_count_min_new(ds_sketch *handle, int32_t kind, uint8_t num_hashes, uint32_t num_buckets, uint64_t seed)
{
    const ds_sizes sizes = {.num_hashes = num_hashes, .num_buckets = num_buckets, .seed = seed};
    if (kind != DS_COUNT_MIN_U64 && kind != DS_COUNT_MIN_I64) return DS_WRONG_KIND;
    return ds_new(handle, kind, &sizes);
}
