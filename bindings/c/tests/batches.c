/* Performs the program's lines `bloom`, `countu`, `frequent`, `insert`, `add` and `ask` with calls of the C library that take
 * many strings, and prints the program's replies. Makes one call for each run of lines that begin with the same two words. The
 * argument is the kind of items as which the strings are passed, such as 2 for DS_ITEMS_OFFSETS. */
#include <datasketches.h>
#include <inttypes.h>
#include <stdio.h>
#include <stdlib.h>
#include <string.h>

#include "forms.h"

enum { NAMES = 16, RUN = 512, WORDS = 5 };

struct line {
    char words[WORDS][64];
};

/* A run's strings, and their weights. */
static struct forms strings;
static uint64_t weights[RUN];

/* The kind of items as which strings are passed. */
static int32_t kind_of_items;

/* The words of the key whose bytes are 0 to 15, under which the program runs too. */
static const uint64_t K0 = 0x0706050403020100, K1 = 0x0f0e0d0c0b0a0908;

static char names[NAMES][64];
static ds_sketch sketches[NAMES];

static ds_sketch *look_up(const char *name)
{
    for (int i = 0; i < NAMES; i++) {
        if (!names[i][0]) strcpy(names[i], name);
        if (strcmp(names[i], name) == 0) return &sketches[i];
    }
    abort();
}

static void create(const struct line *it)
{
    ds_sketch *handle = look_up(it->words[1]);
    uint64_t size = strtoull(it->words[2], 0, 10), other = strtoull(it->words[3], 0, 10), seed = strtoull(it->words[4], 0, 10);
    int32_t answer;
    if (strcmp(it->words[0], "bloom") == 0) answer = ds_bloom_new(handle, size, (uint16_t)other, seed);
    else if (strcmp(it->words[0], "countu") == 0)
        answer = ds_count_min_new(handle, DS_COUNT_MIN_U64, (uint8_t)size, (uint32_t)other, seed);
    else
        answer = ds_frequent_items_new(handle, DS_FREQUENT_ITEMS_STRING, size, ds_frequent_items_max_sample_size(size),
                                       &(ds_key){K0, K1});
    if (answer != DS_OK) abort();
    puts("ok");
}

/* Takes the strings and weights of lines, and returns the strings as items. */
static ds_items collect(const struct line *lines, size_t count, int place)
{
    clear_forms(&strings);
    for (size_t i = 0; i < count; i++) {
        add_string(&strings, lines[i].words[place], strlen(lines[i].words[place]));
        weights[i] = strtoull(lines[i].words[2], 0, 10);
    }
    return strings_of(&strings, kind_of_items, 0, count);
}

static void insert(ds_sketch *handle, const ds_items *items)
{
    if (ds_bloom_insert_all(handle, items) != DS_OK) abort();
    for (size_t i = 0; i < strings.count; i++) puts("ok");
}

/* Returns whether all weights are 1. */
static int are_ones(void)
{
    for (size_t i = 0; i < strings.count; i++)
        if (weights[i] != 1) return 0;
    return 1;
}

static void add(ds_sketch *handle, const ds_items *items)
{
    if ((are_ones() ? ds_update_all(handle, items) : ds_update_all_weighted(handle, items, weights, strings.count)) != DS_OK)
        abort();
    for (size_t i = 0; i < strings.count; i++) puts("ok");
}

static void show(uint64_t estimate, uint64_t lower, uint64_t upper)
{
    printf("estimate %" PRIu64 " lower %" PRIu64 " upper %" PRIu64 "\n", estimate, lower, upper);
}

static void ask(ds_sketch *handle, const ds_items *items)
{
    static bool answers[RUN];
    static uint64_t estimates[RUN];
    static ds_item_bounds bounds[RUN];
    size_t count = strings.count;
    int32_t contains = ds_bloom_contains_all(handle, items, answers, count);
    int32_t counts = ds_count_min_u64_estimate_all(handle, items, estimates, count);
    if (contains != DS_OK && counts != DS_OK && ds_frequent_items_bounds_all(handle, items, bounds, count) != DS_OK) abort();
    for (size_t i = 0; i < count; i++) {
        const ds_string *text = &strings.strings[i];
        uint64_t upper;
        if (contains == DS_OK) puts(answers[i] ? "yes" : "no");
        else if (counts == DS_OK) {
            if (ds_count_min_u64_upper_bound_string(handle, text->bytes, text->length, &upper) != DS_OK) abort();
            show(estimates[i], estimates[i], upper);
        } else {
            show(bounds[i].estimate, bounds[i].lower_bound, bounds[i].upper_bound);
        }
    }
}

static void play(const struct line *lines, size_t count)
{
    const char *verb = lines->words[0];
    ds_sketch *handle = look_up(lines->words[1]);
    const ds_items items = collect(lines, count, strcmp(verb, "add") == 0 ? 3 : 2);
    if (strcmp(verb, "insert") == 0) insert(handle, &items);
    else if (strcmp(verb, "add") == 0) add(handle, &items);
    else if (strcmp(verb, "ask") == 0) ask(handle, &items);
    else
        for (size_t i = 0; i < count; i++) create(&lines[i]);
}

static int is_of_run(const struct line *first, const struct line *it)
{
    return strcmp(first->words[0], it->words[0]) == 0 && strcmp(first->words[1], it->words[1]) == 0;
}

int main(int argc, char **argv)
{
    kind_of_items = argc > 1 ? atoi(argv[1]) : -1;
    static char text[1 << 10];
    static struct line lines[RUN + 1];
    size_t count = 0;
    while (fgets(text, sizeof text, stdin)) {
        struct line *it = &lines[count];
        memset(it, 0, sizeof *it);
        int place = 0;
        for (char *word = strtok(text, " \n"); word && place < WORDS; word = strtok(NULL, " \n"))
            strncpy(it->words[place++], word, sizeof it->words[0] - 1);
        if (count && (count == RUN || !is_of_run(lines, it))) {
            play(lines, count);
            lines[0] = *it;
            count = 0;
        }
        count++;
    }
    if (count) play(lines, count);
    for (int i = 0; i < NAMES; i++) ds_free(&sketches[i]);
    return 0;
}
