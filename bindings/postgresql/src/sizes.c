/* Empty sketches of the sizes in the arguments of a call. */
#include "extension.h"

#include <math.h>

/* Returns 1 / `fraction` as a whole number, rounded up, unless rounding alone put it above a whole number. */
static uint64 inverse(double fraction, const char *message)
{
    double number, nearest;
    if (!(fraction > 0 && fraction < 1)) raise_argument(message);
    number = 1 / fraction;
    nearest = rint(number);
    if (fabs(number - nearest) > nearest * 1e-9) nearest = ceil(number);
    return nearest < 9.2e18 ? (uint64)nearest : PG_INT64_MAX;
}

/* Returns 1 / `relative_error` as a whole number. */
static uint64 parts_argument(FunctionCallInfo fcinfo, int number)
{
    return inverse(PG_GETARG_FLOAT8(number), "relative_error must be above 0 and below 1");
}

/* Raises an error if a sketch whose stored form has about as many bytes exceeds a limit, or what is stored. */
static void check_stored(Kind kind, uint64 bytes)
{
    check_bytes(limit_of(kind, USERS_LIMITS), bytes);
    if (bytes > MAX_STORED_BYTES - 64) raise_stored(bytes);
}

/* Makes the sketch of frequent items. */
static void make_frequent(Kind kind, ds_sketch *handle, int64 max_map_size)
{
    size_t sample = ds_frequent_items_max_sample_size(max_map_size);
    if (max_map_size < 0) check_result(DS_MAP_SIZE_TOO_SMALL);
    check_bytes(limit_of(kind, USERS_LIMITS),
                (uint64)max_map_size * (kind == DS_FREQUENT_ITEMS_STRING ? BYTES_OF_SLOT : BYTES_OF_BIGINT_SLOT));
    check_result(ds_frequent_items_new(handle, kind, max_map_size, sample, NULL));
}

/* Makes a Count-Min sketch. */
static void make_count(Kind kind, ds_sketch *handle, int64 num_hashes, int64 num_buckets)
{
    if (num_hashes < 0 || num_hashes > UINT8_MAX) check_result(DS_BAD_NUM_HASHES);
    if (num_buckets < 0) check_result(DS_BAD_NUM_BUCKETS);
    check_stored(kind, (uint64)num_hashes * (num_buckets + 1) * 8);
    check_result(ds_count_min_new(handle, kind, (uint8_t)num_hashes, (uint32_t)num_buckets, DS_DEFAULT_SEED));
}

/* Makes a filter. */
static void make_filter(Kind kind, ds_sketch *handle, int64 num_bits, int64 num_hashes)
{
    if (num_bits < 0) check_result(DS_BAD_NUM_BITS);
    if (num_hashes < 0 || num_hashes > UINT16_MAX) check_result(DS_BAD_NUM_HASHES);
    check_stored(kind, (uint64)num_bits / 8);
    check_result(ds_bloom_new(handle, num_bits, (uint16_t)num_hashes, DS_DEFAULT_SEED));
}

void frequent_by_size(FunctionCallInfo fcinfo, Kind kind, ds_sketch *handle, int number)
{
    make_frequent(kind, handle, PG_NARGS() > number ? PG_GETARG_INT32(number) : DEFAULT_MAX_MAP_SIZE);
}

void frequent_by_error(FunctionCallInfo fcinfo, Kind kind, ds_sketch *handle, int number)
{
    size_t max_map_size = 0;
    check_result(ds_frequent_items_suggest_max_map_size(parts_argument(fcinfo, number), &max_map_size));
    make_frequent(kind, handle, max_map_size);
}

void count_by_size(FunctionCallInfo fcinfo, Kind kind, ds_sketch *handle, int number)
{
    make_count(kind, handle, PG_GETARG_INT32(number), PG_GETARG_INT32(number + 1));
}

void count_by_error(FunctionCallInfo fcinfo, Kind kind, ds_sketch *handle, int number)
{
    uint64 parts = parts_argument(fcinfo, number);
    uint64 questions = inverse(1 - PG_GETARG_FLOAT8(number + 1), "confidence must be above 0 and below 1");
    uint32_t num_buckets = 0;
    uint8_t num_hashes = 0;
    check_result(ds_count_min_suggest_num_buckets(parts, &num_buckets));
    check_result(ds_count_min_suggest_num_hashes(questions, &num_hashes));
    make_count(kind, handle, num_hashes, num_buckets);
}

void filter_by_size(FunctionCallInfo fcinfo, Kind kind, ds_sketch *handle, int number)
{
    make_filter(kind, handle, PG_GETARG_INT64(number), PG_GETARG_INT32(number + 1));
}

void filter_by_error(FunctionCallInfo fcinfo, Kind kind, ds_sketch *handle, int number)
{
    int64 items = PG_GETARG_INT64(number);
    uint64 questions = inverse(PG_GETARG_FLOAT8(number + 1), "false_positive_rate must be above 0 and below 1");
    uint64_t num_bits = 0, least = 0;
    uint16_t num_hashes = 0;
    if (items < 1) raise_argument("expected_items must be above 0");
    check_result(ds_bloom_suggest_num_bits(items, questions, &num_bits));
    check_result(ds_bloom_suggest_num_hashes(num_bits, items, &num_hashes));
    check_result(ds_bloom_min_num_bits(items, questions, &least));
    make_filter(kind, handle, Max(num_bits, least), num_hashes);
}
