/* Makes each call of the C library that reads input on an input of size n and of 10 n. Callgrind counts the instructions of each,
 * and writes them to a file with the name and the size. `run.py` runs it.
 *
 *     costs --numbers FILE    writes numbers of one home, 8 bytes each
 *     costs --tenants FILE    writes tenants of one group of a map, 8 bytes each
 *     costs --names FILE      the same of names, which have 8 bytes
 *     costs FILE              makes the calls, with these numbers */
#include "../../bench/hostile_items.h"
#include "../../bindings/c/tests/options.h"
#include <datasketches.h>
#include <stdio.h>
#include <valgrind/callgrind.h>

enum { N = 1000, MOST = 10 * N, SLOTS = 1 << 14, SAMPLE = 1024, WORD = 8 };

static uint64_t numbers[2 * MOST], one_home[MOST], weights[MOST], offsets[MOST + 1], estimates[MOST];
static int32_t offsets_32[MOST + 1];
static int64_t signed_weights[MOST], signed_estimates[MOST];
static ds_item_bounds bounds[MOST];
static bool answers[MOST];
static size_t positions[MOST];
static ds_string strings[MOST];
static uint8_t words[WORD * MOST], lines[WORD * MOST], spaces[WORD * MOST], one_word[WORD * MOST];
static uint8_t bitmap[MOST / 8 + 1]; /* seven rows of eight are there */
static uint8_t colliding[COLLIDING * COLLIDING_LENGTH], image[1 << 24];
static ds_sketch others[MOST];
static const ds_key key = {1, 2};
static const ds_image_options unlimited = {SIZE_MAX, 9001, NULL}, keyed = {SIZE_MAX, 9001, &key};

static void check(bool holds, const char *what)
{
    if (holds) return;
    fprintf(stderr, "costs: %s\n", what);
    exit(1);
}

static void label(const char *name, size_t n)
{
    static char text[100];
    snprintf(text, sizeof text, "%s %zu", name, n);
    CALLGRIND_DUMP_STATS_AT(text);
}

/* Counts the instructions of a call at n and 10 n, after a preparation. The call returns `expected`. */
#define COST_OF(name, prepare, call, expected) \
    for (size_t n = N; n <= MOST; n *= 10) { \
        int64_t result; \
        prepare; \
        CALLGRIND_ZERO_STATS; \
        result = (int64_t)(call); \
        label(name, n); \
        check(result == (int64_t)(expected), name); \
    }
#define COST(name, prepare, call) COST_OF(name, prepare, call, 0)

static ds_sketch sketch = DS_NONE, other = DS_NONE;

static void new_filter(ds_sketch *handle, size_t bits)
{
    check(!ds_bloom_new(handle, bits, 7, 9001), "filter");
}
static void new_count(ds_sketch *handle, size_t buckets)
{
    check(!ds_count_min_new(handle, DS_COUNT_MIN_U64, 4, buckets, 9001), "count");
}
static void new_signed(size_t buckets)
{
    check(!ds_count_min_new(&sketch, DS_COUNT_MIN_I64, 4, buckets, 9001), "count");
}
static void new_numbers(ds_sketch *handle)
{
    check(!ds_frequent_items_new(handle, DS_FREQUENT_ITEMS_U64, SLOTS, SAMPLE, NULL), "numbers");
}
static void new_keyed(ds_sketch *handle)
{
    check(!ds_frequent_items_new(handle, DS_FREQUENT_ITEMS_U64, SLOTS, SAMPLE, &key), "key");
}
static void new_strings(ds_sketch *handle)
{
    check(!ds_frequent_items_new(handle, DS_FREQUENT_ITEMS_STRING, SLOTS, SAMPLE, NULL), "strings");
}

/* The forms of items: each kind, and then each kind of rows with a bitmap, of which the last are strings. */
enum { NUMBERS_WITH_BITMAP = DS_ITEMS_LINES + 1, STRINGS_WITH_BITMAP = NUMBERS_WITH_BITMAP + DS_ITEMS_OFFSETS, FORMS = 12 };

/* Returns n items of a form. */
static ds_items items_of(int32_t form, size_t n)
{
    if (form >= NUMBERS_WITH_BITMAP) return ds_items_with_validity(items_of(form - NUMBERS_WITH_BITMAP, n), bitmap, 3);
    switch (form) {
    case DS_ITEMS_U64: return ds_items_u64(numbers, n);
    case DS_ITEMS_I64: return ds_items_i64((const int64_t *)numbers, n);
    case DS_ITEMS_OFFSETS: return ds_items_offsets(words, WORD * n, offsets, n + 1);
    case DS_ITEMS_OFFSETS32: return ds_items_offsets32(words, WORD * n, (const uint32_t *)offsets_32, n + 1);
    case DS_ITEMS_STRINGS: return ds_items_strings(strings, n);
    case DS_ITEMS_WORDS: return ds_items_words(words, WORD * n);
    default: return ds_items_lines(lines, WORD * n);
    }
}

/* The forms of items, as names of costs have them. */
static const char *const NAMES[FORMS] = {"u64s",
                                         "i64s",
                                         "offsets",
                                         "offsets32",
                                         "strings",
                                         "words",
                                         "lines",
                                         "u64s with a bitmap",
                                         "i64s with a bitmap",
                                         "offsets with a bitmap",
                                         "offsets32 with a bitmap",
                                         "strings with a bitmap"};

/* Returns the name of a call on items. */
static const char *named(const char *call, const char *items)
{
    static char name[100];
    snprintf(name, sizeof name, "%s of %s", call, items);
    return name;
}

/* The cost of a call on `items`: n of a form. */
#define COST_OF_FORM(name, prepare, call) COST(named(name, NAMES[form]), const ds_items items = items_of(form, n); prepare, call)

/* Writes the image of `other` n times, one after another, and returns the length of all. */
static size_t images_of(size_t n)
{
    size_t at = 0, written;
    for (size_t i = 0; i < n; i++, at += written) check(!ds_serialize(&other, image + at, sizeof image - at, &written), "images");
    return at;
}

/* Reads images of a kind one after another, each from the front of all that is left, and returns their number. */
static size_t read_images(int32_t kind, size_t length)
{
    size_t count = 0, used;
    for (size_t at = 0; at < length; at += used, count++)
        check(!ds_deserialize_prefix(&sketch, kind, image + at, length - at, &unlimited, &used), "images");
    return count;
}

static void filters(void)
{
    size_t length = 0;
    new_filter(&sketch, 1 << 20);
    for (int32_t form = 0; form < FORMS; form++) {
        COST_OF_FORM("num_items", , ds_num_items(&items, &length))
        COST_OF_FORM("bloom_insert_all", , ds_bloom_insert_all(&sketch, &items))
        COST_OF_FORM("bloom_contains_all", , ds_bloom_contains_all(&sketch, &items, answers, n))
        COST_OF_FORM("bloom_contains_and_insert_all", , ds_bloom_contains_and_insert_all(&sketch, &items, answers, n))
        COST_OF_FORM("bloom_image_contains_all", check(!ds_serialize(&sketch, image, sizeof image, &length), "image"),
                     ds_bloom_image_contains_all(image, length, &items, answers, n))
    }
    COST("bloom_insert_all of spaces", , ds_bloom_insert_all(&sketch, AS_ITEMS(words, spaces, WORD * n)))
    COST("bloom_insert_all of one word", , ds_bloom_insert_all(&sketch, AS_ITEMS(words, one_word, WORD * n)))
    COST("bloom_insert_string", , ds_bloom_insert_string(&sketch, one_word, WORD * n))
    COST("bloom_insert_fed", , ds_bloom_insert_fed(&sketch, one_word, WORD * n))
    COST_OF("bloom_image_contains_string", check(!ds_serialize(&sketch, image, sizeof image, &length), "image"),
            ds_bloom_image_contains_string(image, length, one_word, WORD * n) >= 0, true)
    COST("bloom_deserialize", new_filter(&other, 64 * n); ds_bloom_insert_u64(&other, 1);
         check(!ds_serialize(&other, image, sizeof image, &length), "image"),
         ds_deserialize(&sketch, DS_BLOOM, image, length, &unlimited))
    COST("bloom_deserialize of an empty filter", new_filter(&other, 64 * n);
         check(!ds_serialize(&other, image, sizeof image, &length), "image"),
         ds_deserialize(&sketch, DS_BLOOM, image, length, &unlimited))
    COST_OF("bloom_deserialize, rejected at the end", new_filter(&other, 64 * n); ds_bloom_insert_u64(&other, 1);
            check(!ds_serialize(&other, image, sizeof image, &length), "image");
            image[24]++, ds_deserialize(&sketch, DS_BLOOM, image, length, &unlimited), DS_BAD_BIT_COUNT)
    COST_OF("bloom_deserialize_prefix of each image", new_filter(&other, 64); ds_bloom_insert_u64(&other, 1);
            length = images_of(n), read_images(DS_BLOOM, length), n)
    COST("bloom_merge", new_filter(&sketch, 64 * n); new_filter(&other, 64 * n), ds_merge(&sketch, &other))
    COST("bloom_merge_all", new_filter(&sketch, 64);
         for (size_t i = 0; i < n; i++) new_filter(&others[i], 64), ds_merge_all(&sketch, others, n))
}

static void counts(void)
{
    size_t length = 0;
    new_count(&sketch, 1 << 12);
    for (int32_t form = 0; form < FORMS; form++) {
        COST_OF_FORM("count_min_update_all", , ds_update_all(&sketch, &items))
        COST_OF_FORM("count_min_update_all_weighted", , ds_update_all_weighted(&sketch, &items, weights, n))
        COST_OF_FORM("count_min_estimate_all", , ds_count_min_u64_estimate_all(&sketch, &items, estimates, n))
    }
    COST("count_min_update_all of spaces", , ds_update_all(&sketch, AS_ITEMS(words, spaces, WORD * n)))
    COST("count_min_update_string", , ds_count_min_u64_update_string(&sketch, one_word, WORD * n, 1))
    COST("count_min_update_fed", , ds_count_min_u64_update_fed(&sketch, one_word, WORD * n, 1))
    COST("count_min_image_estimate_string", check(!ds_serialize(&sketch, image, sizeof image, &length), "image"),
         ds_count_min_u64_image_estimate_string(image, length, 9001, one_word, WORD * n, estimates))
    COST("count_min_deserialize", new_count(&other, n); ds_count_min_u64_update_u64(&other, 1, 1);
         check(!ds_serialize(&other, image, sizeof image, &length), "image"),
         ds_deserialize(&sketch, DS_COUNT_MIN_U64, image, length, &unlimited))
    COST("count_min_deserialize of an empty sketch", new_count(&other, n);
         check(!ds_serialize(&other, image, sizeof image, &length), "image"),
         ds_deserialize(&sketch, DS_COUNT_MIN_U64, image, length, &unlimited))
    COST_OF("count_min_deserialize, rejected at the end", new_count(&other, n); ds_count_min_u64_update_u64(&other, 1, 1);
            check(!ds_serialize(&other, image, sizeof image, &length), "image");
            image[length - 8] = 9, ds_deserialize(&sketch, DS_COUNT_MIN_U64, image, length, &unlimited), DS_CELL_ABOVE_TOTAL)
    COST_OF("count_min_deserialize_prefix of each image", new_count(&other, 3); ds_count_min_u64_update_u64(&other, 1, 1);
            length = images_of(n), read_images(DS_COUNT_MIN_U64, length), n)
    COST("count_min_merge", new_count(&sketch, n); new_count(&other, n);
         ds_count_min_u64_update_u64(&other, 1, 1), ds_merge(&sketch, &other))
    COST("count_min_merge_all", new_count(&sketch, 3);
         for (size_t i = 0; i < n; i++) new_count(&others[i], 3), ds_merge_all(&sketch, others, n))
    COST("count_min_reset", new_count(&sketch, n); ds_count_min_u64_update_u64(&sketch, 1, 1), ds_reset(&sketch))
    new_signed(1 << 12);
    for (int32_t form = 0; form < FORMS; form++) {
        COST_OF_FORM("count_min_i64_update_all", , ds_update_all(&sketch, &items))
        COST_OF_FORM("count_min_i64_update_all_weighted", ,
                     ds_count_min_i64_update_all_weighted(&sketch, &items, signed_weights, n))
        COST_OF_FORM("count_min_i64_estimate_all", , ds_count_min_i64_estimate_all(&sketch, &items, signed_estimates, n))
    }
}

/* Writes an image of n numbers of weight 1 in this order, in a table of 2^14 slots. Returns its length. */
static size_t image_of(const uint64_t *items, size_t n)
{
    const uint8_t head[6] = {4, 1, 10, 14, 14, 0};
    uint64_t total = n, one = 1;
    memset(image, 0, 32);
    memcpy(image, head, 6);
    memcpy(image + 8, &n, 4);
    memcpy(image + 16, &total, 8);
    for (size_t i = 0; i < n; i++) memcpy(image + 32 + 8 * i, &one, 8), memcpy(image + 32 + 8 * (n + i), items + i, 8);
    return 32 + 16 * n;
}

static void frequent_numbers(const char *kind, const uint64_t *items)
{
    COST(named("frequent_items_update_all", kind), new_numbers(&sketch), ds_update_all(&sketch, AS_ITEMS(u64, items, n)))
    COST(named("frequent_items_update_all_weighted", kind), new_numbers(&sketch),
         ds_update_all_weighted(&sketch, AS_ITEMS(u64, items, n), weights, n))
    COST(named("frequent_items_bounds_all", kind), , ds_frequent_items_bounds_all(&sketch, AS_ITEMS(u64, items, n), bounds, n))
    COST(named("frequent_items_deserialize", kind), size_t length = image_of(items, n),
         ds_deserialize(&sketch, DS_FREQUENT_ITEMS_U64, image, length, &unlimited))
    COST(named("frequent_items_serialized_bytes", kind), size_t length; new_numbers(&sketch);
         ds_update_all(&sketch, AS_ITEMS(u64, items, n)), ds_serialized_bytes(&sketch, &length))
    COST(named("frequent_items_serialize", kind), size_t length; new_numbers(&sketch);
         ds_update_all(&sketch, AS_ITEMS(u64, items, n)), ds_serialize(&sketch, image, sizeof image, &length))
    COST(named("frequent_items_merge", kind), new_numbers(&sketch); new_numbers(&other);
         ds_update_all(&sketch, AS_ITEMS(u64, items, n / 2));
         ds_update_all(&other, AS_ITEMS(u64, items + n / 2, n / 2)), ds_merge(&sketch, &other))
}

static void frequent_items(void)
{
    size_t length = 0;
    frequent_numbers("random numbers", numbers);
    COST(
        "frequent_items_merge_all", new_numbers(&sketch); for (size_t i = 0; i < n; i++) {
            new_numbers(&others[i]);
            ds_frequent_items_u64_update(&others[i], numbers[i], 1);
        },
                                                          ds_merge_all(&sketch, others, n))
    for (int32_t form = DS_ITEMS_OFFSETS; form < FORMS; form++) {
        if (form >= NUMBERS_WITH_BITMAP && form < STRINGS_WITH_BITMAP) continue;
        COST_OF_FORM("frequent_items_update_all", new_strings(&sketch), ds_update_all(&sketch, &items))
        COST_OF_FORM("frequent_items_update_all_weighted", new_strings(&sketch),
                     ds_update_all_weighted(&sketch, &items, weights, n))
        COST_OF_FORM("frequent_items_bounds_all", , ds_frequent_items_bounds_all(&sketch, &items, bounds, n))
    }
    COST("frequent_items_update_string", new_strings(&sketch), ds_frequent_items_string_update(&sketch, one_word, WORD * n, 1))
    COST("frequent_items_update_all of spaces", new_strings(&sketch), ds_update_all(&sketch, AS_ITEMS(words, spaces, WORD * n)))
    COST("frequent_items_deserialize, strings", new_strings(&other);
         ds_update_all(&other, AS_ITEMS(offsets, words, WORD * n, offsets, n + 1));
         check(!ds_serialize(&other, image, sizeof image, &length), "image"),
         ds_deserialize(&sketch, DS_FREQUENT_ITEMS_STRING, image, length, &unlimited))
    COST_OF("frequent_items_deserialize_prefix of each image, numbers", new_numbers(&other);
            ds_frequent_items_u64_update(&other, 7, 1); length = images_of(n), read_images(DS_FREQUENT_ITEMS_U64, length), n)
    COST_OF("frequent_items_deserialize_prefix of each image, strings", new_strings(&other);
            ds_frequent_items_string_update(&other, words, WORD, 1);
            length = images_of(n), read_images(DS_FREQUENT_ITEMS_STRING, length), n)
    COST("frequent_items_serialized_bytes, strings", new_strings(&other);
         ds_update_all(&other, AS_ITEMS(offsets, words, WORD * n, offsets, n + 1)), ds_serialized_bytes(&other, &length))
    COST("frequent_items_serialize, strings", new_strings(&other);
         ds_update_all(&other, AS_ITEMS(offsets, words, WORD * n, offsets, n + 1)),
         ds_serialize(&other, image, sizeof image, &length))
    COST_OF("frequent_items_deserialize, rejected at the end", new_strings(&other);
            ds_update_all(&other, AS_ITEMS(offsets, words, WORD * n, offsets, n + 1));
            check(!ds_serialize(&other, image, sizeof image, &length), "image");
            image[length - 1] = 0xff, ds_deserialize(&sketch, DS_FREQUENT_ITEMS_STRING, image, length, &unlimited), DS_INVALID_UTF8)
    COST_OF("frequent_items_update_all, bad offset at the end", uint64_t last = offsets[n];
            offsets[n] = 0, ds_update_all(&sketch, AS_ITEMS(offsets, words, WORD * n, offsets, n + 1)),
            (offsets[n] = last, DS_BAD_OFFSETS))
    COST_OF("frequent_items_update_all of words, bad byte at the end", uint8_t last = words[WORD * n - 1];
            words[WORD * n - 1] = 0xff, ds_update_all(&sketch, AS_ITEMS(words, words, WORD * n)),
            (words[WORD * n - 1] = last, DS_INVALID_UTF8))
}

/* Puts n words of one byte into `image`. */
static const uint8_t *filled(uint8_t byte, size_t n)
{
    for (size_t i = 0; i < WORD * n; i++) image[i] = byte;
    return image;
}

/* Fields of records, also of one long record, of empty ones, and of those that end in a quote that is not closed. */
static void fields(void)
{
    const ds_fields word = {DS_FIELDS_WORDS, 0, 0, DS_NO_FIELD}, cell = {DS_FIELDS_DELIMITED, ',', 0, DS_NO_FIELD};
    const ds_fields csv = {DS_FIELDS_CSV, ',', 0, DS_NO_FIELD}, last = {DS_FIELDS_CSV, ',', WORD * MOST + 1, 0};
    const ds_fields weighed = {DS_FIELDS_WORDS, 0, DS_NO_FIELD, 1};
    ds_fields_read read;
    new_count(&sketch, 1 << 12);
    COST("update_fields of lines", , ds_update_fields(&sketch, lines, WORD * n, &word, &read))
    COST("update_fields of CSV", , ds_update_fields(&sketch, lines, WORD * n, &csv, &read))
    COST("update_fields of ends", filled('\n', n), ds_update_fields(&sketch, image, WORD * n, &cell, &read))
    COST("update_fields of delimiters", filled(',', n), ds_update_fields(&sketch, image, WORD * n, &last, &read))
    COST("update_fields of quotes", filled('"', n), ds_update_fields(&sketch, image, WORD * n, &csv, &read))
    COST("update_fields of an open quote", filled('\n', n); image[0] = '"', ds_update_fields(&sketch, image, WORD * n, &csv, &read))
    COST_OF("update_fields without a weight", , ds_update_fields(&sketch, lines, WORD * n, &weighed, &read), DS_BAD_WEIGHT)
    COST("finished_csv_records of an open quote", filled('\n', n); image[0] = '"', ds_finished_csv_records(image, WORD * n, ','))
    new_filter(&sketch, 1 << 16);
    COST("bloom_insert_fields of lines", , ds_update_fields(&sketch, lines, WORD * n, &word, &read))
    new_strings(&sketch);
    COST("update_fields of lines, strings", , ds_update_fields(&sketch, lines, WORD * n, &word, &read))
}

/* Items that collide in a table without a key. */
static void hostile_items(void)
{
    enum { EACH = COLLIDING_LENGTH };
    frequent_numbers("numbers of one home", one_home);
    COST("frequent_items_update_all, numbers of one home, given key", new_keyed(&sketch),
         ds_update_all(&sketch, AS_ITEMS(u64, one_home, n)))
    COST("frequent_items_update_all, strings of one hash", new_strings(&sketch);
         for (size_t i = 0; i <= n * 4 / 5; i++) offsets[i] = EACH * i,
         ds_update_all(&sketch, AS_ITEMS(offsets, colliding, EACH * (n * 4 / 5), offsets, n * 4 / 5 + 1)))
    COST("frequent_items_bounds_all, strings of one hash", ,
         ds_frequent_items_bounds_all(&sketch, AS_ITEMS(offsets, colliding, EACH * (n * 4 / 5), offsets, n * 4 / 5 + 1), bounds,
                                      n * 4 / 5))
}

/* Tables under one key, as those of a session or of a tenant's windows. A walk yields the items of one table in an order of homes,
 * which are those of the other table. */
static void one_key(void)
{
    COST("frequent_items_merge, tables of one key and size", new_keyed(&sketch); new_keyed(&other);
         ds_update_all(&sketch, AS_ITEMS(u64, numbers, n / 2));
         ds_update_all(&other, AS_ITEMS(u64, numbers + n / 2, n / 2)), ds_merge(&sketch, &other))
    COST("frequent_items_merge, an empty table of the same key", new_keyed(&sketch); new_keyed(&other);
         ds_update_all(&other, AS_ITEMS(u64, numbers, n)), ds_merge(&sketch, &other))
    COST("frequent_items_deserialize, an image of a table of the same key", size_t length; new_keyed(&other);
         ds_update_all(&other, AS_ITEMS(u64, numbers, n)); check(!ds_serialize(&other, image, sizeof image, &length), "image"),
                                                           ds_deserialize(&sketch, DS_FREQUENT_ITEMS_U64, image, length, &keyed))
}

static void others_calls(void)
{
    COST_OF("keyed_hash", , (int64_t)(ds_keyed_hash(one_word, WORD * n, 1, 2) & 0), 0)
    COST_OF("valid_utf8", , ds_valid_utf8(words, WORD * n), WORD * n)
    COST_OF("finished_words of one word", , ds_finished_words(one_word, WORD * n), 0)
    COST_OF("finished_lines of one line", , ds_finished_lines(words, WORD * n), 0)
    COST_OF("select", , ds_select(answers, n, positions) & 0, 0)
}

int main(int argc, char **argv)
{
    bool writes = argc == 3;
    FILE *file = argc < 2 ? NULL : fopen(argv[argc - 1], writes ? "wb" : "rb");
    check(file, "usage: costs [--numbers | --tenants | --names] FILE");
    if (writes) {
        if (strcmp(argv[1], "--numbers") == 0) numbers_of_one_home(SLOTS, 5, one_home, MOST);
        else words_of_one_group(strcmp(argv[1], "--names") == 0, one_home, MOST);
        check(fwrite(one_home, 8, MOST, file) == MOST && !fclose(file), "write");
        return 0;
    }
    check(fread(one_home, 8, MOST, file) == MOST && !fclose(file), "read");
    for (size_t i = 0; i < 2 * MOST; i++) numbers[i] = random_of(i);
    memset(spaces, ' ', sizeof spaces);
    memset(bitmap, 0xdf, sizeof bitmap);
    memset(one_word, 'a', sizeof one_word);
    for (size_t i = 0; i < MOST; i++) {
        weights[i] = 1 + i % 3, signed_weights[i] = (int64_t)(i % 5) - 2;
        offsets[i] = WORD * i, offsets_32[i] = WORD * (int32_t)i;
        snprintf((char *)words + WORD * i, WORD, "w%06zu", i % 1000000);
        memcpy(lines + WORD * i, words + WORD * i, WORD - 1);
        words[WORD * i + WORD - 1] = ' ', lines[WORD * i + WORD - 1] = '\n';
        strings[i] = (ds_string){words + WORD * i, WORD - 1};
    }
    offsets[MOST] = WORD * MOST, offsets_32[MOST] = WORD * MOST;
    colliding_strings(colliding, COLLIDING);
    filters();
    counts();
    frequent_items();
    fields();
    hostile_items();
    one_key();
    others_calls();
    ds_free(&sketch);
    ds_free(&other);
    for (size_t i = 0; i < MOST; i++) ds_free(&others[i]);
    puts("all calls made");
    return 0;
}
