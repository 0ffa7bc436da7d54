/* Calls each function that returns a size, and compares the results with values that were computed separately. Prints those that
 * differ, and exits with 1 if there is any. */
#include <datasketches.h>

#include "check.h"

static void frequent(void)
{
    size_t size = 7;
    CHECK(ds_frequent_items_suggest_max_map_size(0, &size) == DS_OK && size == 8);
    CHECK(ds_frequent_items_suggest_max_map_size(3, &size) == DS_OK && size == 8);
    CHECK(ds_frequent_items_suggest_max_map_size(100, &size) == DS_OK && size == 512);
    CHECK(ds_frequent_items_suggest_max_map_size(384, &size) == DS_OK && size == 1024);
    CHECK(ds_frequent_items_suggest_max_map_size(512, &size) == DS_OK && size == 2048);
    CHECK(ds_frequent_items_suggest_max_map_size(513, &size) == DS_MAP_SIZE_TOO_LARGE && size == 2048);
    CHECK(ds_frequent_items_suggest_max_map_size(SIZE_MAX, &size) == DS_MAP_SIZE_TOO_LARGE && size == 2048);
}

static void count(void)
{
    uint32_t buckets = 7;
    uint8_t hashes = 7;
    CHECK(ds_count_min_suggest_num_buckets(0, &buckets) == DS_BAD_NUM_BUCKETS && buckets == 7);
    CHECK(ds_count_min_suggest_num_buckets(1, &buckets) == DS_OK && buckets == 3);
    CHECK(ds_count_min_suggest_num_buckets(1000, &buckets) == DS_OK && buckets == 2719);
    CHECK(ds_count_min_suggest_num_buckets(395007541, &buckets) == DS_OK && buckets == 1073741821);
    CHECK(ds_count_min_suggest_num_buckets(395007542, &buckets) == DS_TABLE_TOO_LARGE && buckets == 1073741821);
    CHECK(ds_count_min_suggest_num_buckets(UINT64_MAX, &buckets) == DS_TABLE_TOO_LARGE && buckets == 1073741821);
    CHECK(ds_count_min_suggest_num_hashes(1, &hashes) == DS_BAD_NUM_HASHES && hashes == 7);
    CHECK(ds_count_min_suggest_num_hashes(20, &hashes) == DS_OK && hashes == 3);
    CHECK(ds_count_min_suggest_num_hashes(21, &hashes) == DS_OK && hashes == 4);
    CHECK(ds_count_min_suggest_num_hashes(UINT64_MAX, &hashes) == DS_OK && hashes == 45);
}

static void filter(void)
{
    uint64_t bits = 7;
    uint16_t hashes = 7;
    CHECK(ds_bloom_suggest_num_bits(0, 100, &bits) == DS_BAD_NUM_BITS && bits == 7);
    CHECK(ds_bloom_suggest_num_bits(100, 1, &bits) == DS_BAD_NUM_BITS && bits == 7);
    CHECK(ds_bloom_suggest_num_bits(1, 2, &bits) == DS_OK && bits == 2);
    CHECK(ds_bloom_suggest_num_bits(1000, 1024, &bits) == DS_OK && bits == 14427);
    CHECK(ds_bloom_suggest_num_bits(1000, 100, &bits) == DS_OK && bits == 9603);
    CHECK(ds_bloom_suggest_num_bits(95265423098, 2, &bits) == DS_BAD_NUM_BITS && bits == 9603);
    CHECK(ds_bloom_suggest_num_bits(UINT64_MAX, UINT64_MAX, &bits) == DS_BAD_NUM_BITS && bits == 9603);
    /* 4 * sqrt(1000) is 126.5, and 4 * sqrt(100 * 10000) is 4000 */
    CHECK(ds_bloom_min_num_bits(1, 1000, &bits) == DS_OK && bits == 127);
    CHECK(ds_bloom_min_num_bits(100, 10000, &bits) == DS_OK && bits == 4000);
    CHECK(ds_bloom_min_num_bits(0, 100, &bits) == DS_OK && bits == 0);
    CHECK(ds_bloom_min_num_bits(34359738288, 34359738288, &bits) == DS_OK && bits == 137438953152);
    CHECK(ds_bloom_min_num_bits(34359738289, 34359738288, &bits) == DS_BAD_NUM_BITS && bits == 137438953152);
    CHECK(ds_bloom_min_num_bits(UINT64_MAX, UINT64_MAX, &bits) == DS_BAD_NUM_BITS && bits == 137438953152);
    CHECK(ds_bloom_suggest_num_hashes(0, 1, &hashes) == DS_BAD_NUM_BITS && hashes == 7);
    CHECK(ds_bloom_suggest_num_hashes(137438953153, 1, &hashes) == DS_BAD_NUM_BITS && hashes == 7);
    CHECK(ds_bloom_suggest_num_hashes(9603, 0, &hashes) == DS_BAD_NUM_HASHES && hashes == 7);
    CHECK(ds_bloom_suggest_num_hashes(137438953152, 1, &hashes) == DS_BAD_NUM_HASHES && hashes == 7);
    CHECK(ds_bloom_suggest_num_hashes(9603, 1000, &hashes) == DS_OK && hashes == 7);
    CHECK(ds_bloom_suggest_num_hashes(1, UINT64_MAX, &hashes) == DS_OK && hashes == 1);
}

/* Another size than the six, and choices of other calls. */
static void others(void)
{
    const uint8_t text[] = {'a', ' ', 'b', '\n', 'c'};
    ds_sketch filter = DS_NONE, other = DS_NONE;
    uint64_t found = 7;
    int32_t none[] = {INT32_MIN, -1, 0, 7, INT32_MAX};
    CHECK(ds_bloom_new(&filter, 64, 1, 1) == DS_OK && ds_bloom_new(&other, 64, 1, 1) == DS_OK);
    CHECK(ds_bloom_insert_u64(&other, 5) == DS_OK);
    for (size_t i = 0; i < sizeof none / sizeof *none; i++) {
        CHECK(ds_suggest(none[i], 100, 100, &found) == DS_BAD_ARGUMENT && found == 7);
        CHECK(ds_finished(none[i], text, sizeof text, ',') == 0);
        CHECK(ds_join(&filter, &other, none[i]) == DS_BAD_ARGUMENT && ds_bloom_contains_u64(&filter, 5) == DS_NO);
    }
    CHECK(ds_suggest(DS_SIZE_NUM_BITS, 1000, 100, &found) == DS_OK && found == 9603);
    CHECK(ds_finished(DS_CHUNK_WORDS, text, sizeof text, 0) == 4 && ds_finished(DS_CHUNK_WORDS, text, 3, 0) == 2);
    CHECK(ds_finished(DS_CHUNK_LINES, text, sizeof text, 0) == 4 && ds_finished(DS_CHUNK_LINES, text, 3, 0) == 0);
    CHECK(ds_join(&filter, &other, DS_JOIN_MERGE) == DS_OK && ds_bloom_contains_u64(&filter, 5) == DS_YES);
    CHECK(ds_join(&filter, &other, DS_JOIN_DIFFERENCE) == DS_OK && ds_bloom_contains_u64(&filter, 5) == DS_NO);
    ds_free(&filter);
    ds_free(&other);
}

int main(void)
{
    others();
    frequent();
    count();
    filter();
    return report();
}
