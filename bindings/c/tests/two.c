/* Uses the library beside a second one, whose calls begin with `other_`. Prints whether each filter contains the item of its own
 * library, and whether one contains that of the other. */
#include <datasketches.h>
#include <stdio.h>

int32_t other_bloom_new(ds_sketch *handle, uint64_t num_bits, uint16_t num_hashes, uint64_t seed);
int32_t other_bloom_insert_u64(ds_sketch *handle, uint64_t item);
int32_t other_bloom_contains_u64(ds_sketch *handle, uint64_t item);
void other_free(ds_sketch *handle);

int main(void)
{
    ds_sketch one = DS_NONE, other = DS_NONE;
    if (ds_bloom_new(&one, 1 << 16, 7, 9001) != DS_OK || other_bloom_new(&other, 1 << 16, 7, 9001) != DS_OK) return 1;
    if (ds_bloom_insert_u64(&one, 1) != DS_OK || other_bloom_insert_u64(&other, 2) != DS_OK) return 1;
    printf("%d %d %d\n", ds_bloom_contains_u64(&one, 1), other_bloom_contains_u64(&other, 2), other_bloom_contains_u64(&other, 1));
    ds_free(&one);
    other_free(&other);
    return 0;
}
