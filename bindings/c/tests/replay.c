/* Performs the program's lines on filters, `countu` sketches and frequent items with calls of the C library, and prints the
 * program's replies. */
#include <datasketches.h>
#include <inttypes.h>
#include <stdio.h>
#include <stdlib.h>
#include <string.h>

#include "options.h"

enum { NAMES = 512, WORDS = 8 };

struct named {
    char name[32];
    ds_sketch handle;
    uint8_t *image;
    size_t length;
};

static struct named sketches[NAMES], images[NAMES];

/* The words of the key whose bytes are 0 to 15, under which the program runs too. */
static const uint64_t K0 = 0x0706050403020100, K1 = 0x0f0e0d0c0b0a0908;

static struct named *look_up(struct named *table, const char *name)
{
    for (int i = 0; i < NAMES; i++)
        if (strcmp(table[i].name, name) == 0) return &table[i];
    return NULL;
}

/* Stores a name in a free place, and returns the place. */
static struct named *place(struct named *table, const char *name)
{
    struct named *it = look_up(table, "");
    if (!it || strlen(name) >= sizeof it->name) abort();
    strcpy(it->name, name);
    return it;
}

static void reply(int32_t answer)
{
    if (answer < 0) printf("refused %s\n", ds_result_name(answer));
    else puts("ok");
}

/* Replies to a call that created a sketch under a name. After an error the name is free again. */
static void made(struct named *it, int32_t answer)
{
    if (answer < 0) it->name[0] = 0;
    reply(answer);
}

static uint8_t *bytes_of(const char *hex, size_t *length)
{
    *length = strcmp(hex, "-") ? strlen(hex) / 2 : 0;
    uint8_t *bytes = malloc(*length + 1);
    for (size_t i = 0; i < *length; i++) {
        unsigned byte;
        sscanf(hex + 2 * i, "%2x", &byte);
        bytes[i] = (uint8_t)byte;
    }
    return bytes;
}

/* Adds a weight to a string's in a sketch of either kind that has weights. */
static int32_t add(ds_sketch *handle, const char *text, uint64_t weight)
{
    const uint8_t *bytes = (const uint8_t *)text;
    int32_t answer = ds_count_min_u64_update_string(handle, bytes, strlen(text), weight);
    return answer == DS_WRONG_KIND ? ds_frequent_items_string_update(handle, bytes, strlen(text), weight) : answer;
}

static bool has_filter(ds_sketch *handle)
{
    ds_status status;
    return ds_get_status(handle, &status) == DS_OK && status.kind == DS_BLOOM;
}

static void save(struct named *sketch, struct named *image)
{
    size_t length, written;
    int32_t answer = ds_serialize(&sketch->handle, NULL, 0, &length);
    if (answer != DS_NO_ROOM) abort();
    image->image = malloc(length);
    image->length = length;
    answer = ds_serialize(&sketch->handle, image->image, length, &written);
    if (answer < 0 || written != length) abort();
    reply(answer);
}

static int32_t join(const char *verb, ds_sketch *into, ds_sketch *from)
{
    if (strcmp(verb, "intersect") == 0) return ds_bloom_intersect(into, from);
    if (strcmp(verb, "difference") == 0) return ds_bloom_difference(into, from);
    /* one call merges sketches of each kind, and the program has two commands: for filters and for the others */
    if (into != from && has_filter(into) != (strcmp(verb, "union") == 0)) return DS_WRONG_KIND;
    return ds_merge(into, from);
}

static void create(char **words)
{
    if (look_up(sketches, words[1])) {
        puts("refused NameTaken");
        return;
    }
    struct named *it = place(sketches, words[1]);
    if (strcmp(words[0], "frequent") == 0) {
        size_t greatest = strtoull(words[2], 0, 10), sample = ds_frequent_items_max_sample_size(greatest);
        made(it, ds_frequent_items_new(&it->handle, DS_FREQUENT_ITEMS_STRING, greatest, sample, &(ds_key){K0, K1}));
        return;
    }
    uint64_t seed = strtoull(words[4], 0, 10), size = strtoull(words[3], 0, 10);
    if (strcmp(words[0], "bloom") == 0) made(it, ds_bloom_new(&it->handle, strtoull(words[2], 0, 10), (uint16_t)size, seed));
    else made(it, ds_count_min_new(&it->handle, DS_COUNT_MIN_U64, (uint8_t)atoi(words[2]), (uint32_t)size, seed));
}

static void load(char **words)
{
    if (look_up(sketches, words[1])) {
        puts("refused NameTaken");
        return;
    }
    struct named *it = place(sketches, words[1]);
    int filter = strcmp(words[2], "bloom") == 0, frequent = strcmp(words[2], "frequent") == 0;
    size_t length, most = strtoull(words[3], 0, 10);
    uint8_t *bytes = bytes_of(words[filter || frequent ? 4 : 5], &length);
    if (filter) made(it, ds_deserialize(&it->handle, DS_BLOOM, bytes, length, WITHIN(most)));
    else if (frequent) made(it, ds_deserialize(&it->handle, DS_FREQUENT_ITEMS_STRING, bytes, length, WITHIN_KEY(most, K0, K1)));
    else made(it, ds_deserialize(&it->handle, DS_COUNT_MIN_U64, bytes, length, WITHIN_SEED(most, strtoull(words[4], 0, 10))));
    free(bytes);
}

static void ask(ds_sketch *handle, const uint8_t *text, size_t length)
{
    ds_item_bounds bounds;
    int32_t answer = ds_bloom_contains_string(handle, text, length);
    if (answer != DS_WRONG_KIND) {
        puts(answer == DS_YES ? "yes" : "no");
        return;
    }
    if (ds_count_min_u64_estimate_string(handle, text, length, &bounds.estimate) == DS_OK) {
        bounds.lower_bound = bounds.estimate;
        if (ds_count_min_u64_upper_bound_string(handle, text, length, &bounds.upper_bound) != DS_OK) abort();
    } else if (ds_frequent_items_string_bounds(handle, text, length, &bounds) != DS_OK) abort();
    printf("estimate %" PRIu64 " lower %" PRIu64 " upper %" PRIu64 "\n", bounds.estimate, bounds.lower_bound, bounds.upper_bound);
}

static void status(ds_sketch *handle)
{
    ds_status numbers;
    if (ds_get_status(handle, &numbers) != DS_OK) abort();
    if (numbers.kind == DS_BLOOM)
        printf("bloom bits %" PRIu64 " capacity %" PRIu64 " hashes %u seed %" PRIu64 "\n", numbers.bits_used, numbers.num_bits,
               (unsigned)numbers.num_hashes, numbers.seed);
    else if (numbers.kind == DS_COUNT_MIN_U64)
        printf("countu total %" PRIu64 " hashes %u buckets %u seed %" PRIu64 "\n", numbers.total_weight,
               (unsigned)numbers.num_hashes, (unsigned)numbers.num_buckets, numbers.seed);
    else abort();
}

static void show(char **words)
{
    struct named *it = look_up(images, words[1]);
    if (!it) {
        puts("refused NoSuchName");
        return;
    }
    printf("image ");
    for (size_t i = 0; i < it->length; i++) printf("%02x", it->image[i]);
    puts("");
}

/* Performs a command that merges or combines another sketch into the first one. */
static void joined(char **words, struct named *it)
{
    struct named *other = look_up(sketches, words[2]);
    if (!other) puts("refused NoSuchName");
    else if (it == other) {
        if (join(words[0], &it->handle, &other->handle) != DS_BAD_ARGUMENT) abort();
        puts("refused SameName");
    } else reply(join(words[0], &it->handle, &other->handle));
}

static void of_sketch(char **words)
{
    struct named *it = look_up(sketches, words[1]);
    if (!it) {
        puts("refused NoSuchName");
        return;
    }
    ds_sketch *handle = &it->handle;
    const uint8_t *text = (const uint8_t *)words[2];
    size_t length = words[2] ? strlen(words[2]) : 0;
    if (strcmp(words[0], "insert") == 0) reply(ds_bloom_insert_string(handle, text, length));
    else if (strcmp(words[0], "add") == 0) reply(add(handle, words[3], strtoull(words[2], 0, 10)));
    else if (strcmp(words[0], "ask") == 0) ask(handle, text, length);
    else if (strcmp(words[0], "reset") == 0) reply(has_filter(handle) ? ds_reset(handle) : DS_WRONG_KIND);
    else if (strcmp(words[0], "halve") == 0) reply(ds_count_min_u64_halve(handle));
    else if (strcmp(words[0], "decay") == 0)
        reply(ds_count_min_u64_decay(handle, strtoull(words[2], 0, 10), strtoull(words[3], 0, 10)));
    else if (strcmp(words[0], "status") == 0) status(handle);
    else if (strcmp(words[0], "save") == 0) {
        if (look_up(images, words[2])) puts("refused NameTaken");
        else save(it, place(images, words[2]));
    } else joined(words, it);
}

int main(void)
{
    static char line[1 << 20];
    while (fgets(line, sizeof line, stdin)) {
        char *words[WORDS] = {0};
        int count = 0;
        for (char *word = strtok(line, " \n"); word && count < WORDS; word = strtok(NULL, " \n")) words[count++] = word;
        if (!count) continue;
        if (strcmp(words[0], "bloom") == 0 || strcmp(words[0], "countu") == 0 || strcmp(words[0], "frequent") == 0) create(words);
        else if (strcmp(words[0], "load") == 0) load(words);
        else if (strcmp(words[0], "image") == 0) show(words);
        else of_sketch(words);
    }
    for (int i = 0; i < NAMES; i++) {
        ds_free(&sketches[i].handle);
        free(images[i].image);
    }
    return 0;
}
