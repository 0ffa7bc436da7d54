/* Times calls of the C library, and prints a line for each: its name and nanoseconds an item, the minimum of 15 rounds.
 * `calls.py` does the same from Python, and prints both. */
#include <datasketches.h>
#include <stdio.h>
#include <stdlib.h>
#include <time.h>

enum { ITEMS = 1 << 20, ROUNDS = 15 };

static uint64_t items[ITEMS], estimates[ITEMS];
static bool answers[ITEMS];
static char texts[ITEMS][8];

static double now(void)
{
    struct timespec time;
    clock_gettime(CLOCK_THREAD_CPUTIME_ID, &time);
    return time.tv_sec * 1e9 + time.tv_nsec;
}

static uint64_t mix(uint64_t x)
{
    x = (x ^ (x >> 30)) * 0xbf58476d1ce4e5b9u;
    x = (x ^ (x >> 27)) * 0x94d049bb133111ebu;
    return x ^ (x >> 31);
}

#define TIME(name, prepare, call) \
    do { \
        double least = 1e18; \
        for (int round = 0; round < ROUNDS; round++) { \
            prepare; \
            double begin = now(); \
            call; \
            double took = now() - begin; \
            if (took < least) least = took; \
        } \
        printf("%s %.2f\n", name, least / ITEMS); \
    } while (0)

int main(void)
{
    ds_sketch filter = DS_NONE, count = DS_NONE, frequent = DS_NONE;
    uint64_t sum = 0, estimate;
    const ds_items all = ds_items_u64(items, ITEMS), with_sign = ds_items_i64((const int64_t *)items, ITEMS);
    for (uint64_t i = 0; i < ITEMS; i++) {
        items[i] = mix(i + 0x9e3779b97f4a7c15u) >> 1;
        snprintf(texts[i], 8, "t%06llx", (unsigned long long)(items[i] & 0xffffff));
    }
    if (ds_bloom_new(&filter, 1 << 20, 7, 9001) || ds_count_min_new(&count, DS_COUNT_MIN_U64, 4, 1 << 16, 9001)) return 1;
    TIME("filter_insert_all", ds_reset(&filter), ds_bloom_insert_all(&filter, &all));
    TIME("filter_contains_all", , ds_bloom_contains_all(&filter, &all, answers, ITEMS));
    TIME("count_update_all", , ds_update_all(&count, &all));
    TIME("count_estimate_all", , ds_count_min_u64_estimate_all(&count, &all, estimates, ITEMS));
    TIME("frequent_update_all", ds_frequent_items_new(&frequent, DS_FREQUENT_ITEMS_I64, 1 << 16, 1024, NULL),
         ds_update_all(&frequent, &with_sign));
    TIME("filter_insert_all_texts", ds_reset(&filter),
         for (size_t i = 0; i < ITEMS; i++) ds_bloom_insert_string(&filter, (const uint8_t *)texts[i], 7));
    TIME("filter_insert_one", ds_reset(&filter), for (size_t i = 0; i < ITEMS; i++) ds_bloom_insert_u64(&filter, items[i]));
    TIME("filter_contains_one", , for (size_t i = 0; i < ITEMS; i++) sum += (uint64_t)ds_bloom_contains_u64(&filter, items[i]));
    TIME("count_update_one", , for (size_t i = 0; i < ITEMS; i++) ds_count_min_u64_update_u64(&count, items[i], 1));
    TIME(
        "count_estimate_one", , for (size_t i = 0; i < ITEMS; i++) {
            ds_count_min_u64_estimate_u64(&count, items[i], &estimate);
            sum += estimate;
        });
    ds_free(&filter);
    ds_free(&count);
    ds_free(&frequent);
    return sum == 0;
}
