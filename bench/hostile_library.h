/* The functions of the libraries that `hostile.c` compares: one that has no keys, of an earlier version, and one that has them. */
#ifndef HOSTILE_LIBRARY_H
#define HOSTILE_LIBRARY_H

#include <datasketches.h>
#include <dlfcn.h>
#include <stdio.h>
#include <stdlib.h>
#include <sys/random.h>

#include "hostile_items.h"

/* The calls on items of a library without keys, for each kind. */
struct plain_calls {
    int32_t (*i64_update)(ds_sketch *, int64_t, uint64_t);
    int32_t (*string_update)(ds_sketch *, const uint8_t *, size_t, uint64_t);
    int32_t (*i64_update_all)(ds_sketch *, const int64_t *, size_t);
    int32_t (*i64_update_all_weighted)(ds_sketch *, const int64_t *, size_t, const uint64_t *, size_t);
    int32_t (*i64_bounds_all)(ds_sketch *, const int64_t *, size_t, ds_item_bounds *, size_t);
    int32_t (*string_update_all)(ds_sketch *, const uint8_t *, size_t, const uint64_t *, size_t);
    int32_t (*string_bounds_all)(ds_sketch *, const uint8_t *, size_t, const uint64_t *, size_t, ds_item_bounds *, size_t);
};

/* The calls of the library with keys that create and read a sketch of a kind under a key. Its archive exports them. */
typedef int32_t new_frequent_items(ds_sketch *, int32_t, size_t, size_t, uint64_t, uint64_t);
typedef int32_t read_image_call(ds_sketch *, int32_t, const uint8_t *, size_t, size_t, uint64_t, uint64_t, uint64_t, size_t *);

/* The functions of a library. One without keys has calls of each kind, for numbers and for strings: `create` and `read`, and those
 * on items in `plain`. One with keys has `create_under_key`, `read_under_key` and the calls on items of any kind. */
struct library {
    const char *label, *program;
    bool is_keyed;
    struct plain_calls plain;
    __typeof__(&ds_update) update;
    __typeof__(&ds_update_all) update_all;
    __typeof__(&ds_update_all_weighted) update_all_weighted;
    __typeof__(&ds_frequent_items_bounds_all) bounds_all;
    int32_t (*create[2])(ds_sketch *, size_t, size_t);
    int32_t (*read[2])(ds_sketch *, const uint8_t *, size_t, size_t);
    new_frequent_items *create_under_key;
    read_image_call *read_under_key;
    __typeof__(&ds_merge) merge[2];
    __typeof__(&ds_serialize) serialize[2];
    __typeof__(&ds_clone) clone;
    __typeof__(&ds_free) free;
};

static void check(bool holds, const char *what)
{
    if (holds) return;
    fprintf(stderr, "hostile: %s\n", what);
    exit(2);
}

static void *function(void *object, const char *name)
{
    void *found = dlsym(object, name);
    check(found, dlerror());
    return found;
}

static struct library opened(const char *path, const char *program)
{
    void *object = dlopen(path, RTLD_NOW | RTLD_LOCAL);
    check(object, dlerror());
    struct library library = {.program = program};
    library.is_keyed = dlsym(object, "ds_new_frequent_items") != NULL;
    library.label = library.is_keyed ? "keyed" : "plain";
    for (int strings = 0; strings < 2; strings++) {
        char name[80];
#define LOAD_NAMED(field, call) \
    snprintf(name, sizeof name, "ds_frequent_items_%s_%s", strings ? "string" : "i64", call), \
        library.field[strings] = function(object, name);
        if (library.is_keyed) {
            library.merge[strings] = function(object, "ds_merge");
            library.serialize[strings] = function(object, "ds_serialize");
        } else {
            LOAD_NAMED(create, "new")
            LOAD_NAMED(read, "deserialize")
            LOAD_NAMED(merge, "merge")
            LOAD_NAMED(serialize, "serialize")
        }
    }
    if (library.is_keyed) {
        library.create_under_key = function(object, "ds_new_frequent_items");
        library.read_under_key = function(object, "ds_read_image");
        library.update = function(object, "ds_update");
        library.update_all = function(object, "ds_update_all");
        library.update_all_weighted = function(object, "ds_update_all_weighted");
        library.bounds_all = function(object, "ds_frequent_items_bounds_all");
    } else {
#define LOAD(call) library.plain.call = function(object, "ds_frequent_items_" #call);
        LOAD(i64_update)
        LOAD(string_update)
        LOAD(i64_update_all)
        LOAD(i64_update_all_weighted)
        LOAD(i64_bounds_all)
        LOAD(string_update_all)
        LOAD(string_bounds_all)
    }
    library.clone = function(object, "ds_clone");
    library.free = function(object, dlsym(object, "ds_free") ? "ds_free" : "ds_free_handle");
    return library;
}

/* A word of a key, which no item depends on. */
static uint64_t key_word(void)
{
    static uint64_t start = 0, count = 0;
    if (!start) check(getrandom(&start, sizeof start, 0) == sizeof start, "getrandom");
    return random_of(start + count++);
}

static int32_t kind_of(bool numbers)
{
    return numbers ? DS_FREQUENT_ITEMS_I64 : DS_FREQUENT_ITEMS_STRING;
}

/* Creates a sketch of the largest sample size. */
static void create(const struct library *library, ds_sketch *sketch, bool numbers, size_t slots)
{
    size_t sample = ds_frequent_items_max_sample_size(slots);
    check(!(library->is_keyed ? library->create_under_key(sketch, kind_of(numbers), slots, sample, key_word(), key_word())
                              : library->create[!numbers](sketch, slots, sample)),
          "new");
}

static int32_t read_image(const struct library *library, ds_sketch *sketch, bool numbers, const uint8_t *image, size_t length)
{
    size_t used;
    if (!library->is_keyed) return library->read[!numbers](sketch, image, length, SIZE_MAX);
    return library->read_under_key(sketch, kind_of(numbers), image, length, SIZE_MAX, 0, key_word(), key_word(), &used);
}

#endif
