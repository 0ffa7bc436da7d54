/* Checks how keys are drawn: the arguments that `ds_frequent_items_new`, `ds_deserialize` and `ds_deserialize_prefix` pass on, and
 * what these return if the system has no random bytes. Prints the checks that failed. Exits with 1 if there is any.
 *
 * It is linked with the sources in C and the proved archive, and with `--wrap` for getrandom, open and the two proved calls that
 * take a key. Each check that needs a process that has drawn nothing runs in a child. */
#define _POSIX_C_SOURCE 200809L

#include <datasketches.h>
#include <errno.h>
#include <pthread.h>
#include <stdatomic.h>
#include <stdlib.h>
#include <string.h>
#include <sys/types.h>
#include <sys/wait.h>
#include <unistd.h>

#include "../src/proved.h"
#include "check.h"
#include "options.h"

enum { THREADS = 8, CREATED = 400, MOST = 1 << 14 };

/* The image of an empty sketch of 64 slots. */
static const uint8_t EMPTY[8] = {1, 1, 10, 6, 3, 5, 0, 0};

/* What the system has: its call, its device, and how often the call is interrupted. */
static bool has_call = true, has_device = true;
static atomic_int interrupted, asked, opened;

/* The keys that were passed on, in any order, and the last kind, sizes and options. */
static ds_key keys[MOST];
static atomic_size_t num_keys;
static int32_t kind_passed;
static size_t sizes_passed[2], limit_passed;
static uint64_t seed_passed;

ssize_t __real_getrandom(void *bytes, size_t length, unsigned flags);
ssize_t __wrap_getrandom(void *bytes, size_t length, unsigned flags);
int __real_open(const char *path, int flags, ...);
int __wrap_open(const char *path, int flags, ...);

ssize_t __wrap_getrandom(void *bytes, size_t length, unsigned flags)
{
    atomic_fetch_add(&asked, 1);
    if (!has_call || atomic_load(&interrupted) > 0) {
        errno = has_call ? EINTR : ENOSYS;
        atomic_fetch_sub(&interrupted, has_call);
        return -1;
    }
    return __real_getrandom(bytes, length, flags);
}

int __wrap_open(const char *path, int flags, ...)
{
    atomic_fetch_add(&opened, 1);
    if (!has_device || strcmp(path, "/dev/urandom") != 0) {
        errno = ENOENT;
        return -1;
    }
    return __real_open(path, flags);
}

static void note(uint64_t k0, uint64_t k1)
{
    size_t i = atomic_fetch_add(&num_keys, 1);
    if (i < MOST) keys[i] = (ds_key){k0, k1};
}

int32_t __real_ds_new(ds_sketch *, int32_t, const ds_sizes *);
int32_t __wrap_ds_new(ds_sketch *, int32_t, const ds_sizes *);
int32_t __real_ds_read_image(ds_sketch *, int32_t, const uint8_t *, size_t, size_t, uint64_t, uint64_t, uint64_t, size_t *);
int32_t __wrap_ds_read_image(ds_sketch *, int32_t, const uint8_t *, size_t, size_t, uint64_t, uint64_t, uint64_t, size_t *);

/* Whether the last arguments are kept, which threads that call at once do not. */
static bool keeps_arguments = true;

int32_t __wrap_ds_new(ds_sketch *handle, int32_t kind, const ds_sizes *sizes)
{
    note(sizes->k0, sizes->k1);
    if (keeps_arguments) {
        kind_passed = kind;
        sizes_passed[0] = sizes->max_map_size;
        sizes_passed[1] = sizes->sample_size;
    }
    return __real_ds_new(handle, kind, sizes);
}

int32_t __wrap_ds_read_image(ds_sketch *handle, int32_t kind, const uint8_t *image, size_t length, size_t max_bytes, uint64_t seed,
                             uint64_t k0, uint64_t k1, size_t *used)
{
    note(k0, k1);
    if (keeps_arguments) {
        kind_passed = kind;
        limit_passed = max_bytes;
        seed_passed = seed;
    }
    return __real_ds_read_image(handle, kind, image, length, max_bytes, seed, k0, k1, used);
}

enum { CALLS = 9 };

/* The kind of the call of this number, below. */
static int32_t kind_of(int which)
{
    return DS_FREQUENT_ITEMS_U64 + which % 3;
}

/* Makes the call of this number: with each kind of frequent items, `ds_frequent_items_new` and the two that read an image. A key is
 * drawn if `key` is null. */
static int32_t draw_unless(const ds_key *key, int which, ds_sketch *handle, size_t max_map_size)
{
    const ds_image_options options = {1 << 20, 9001, key};
    size_t used;
    switch (which / 3) {
    case 0: return ds_frequent_items_new(handle, kind_of(which), max_map_size, 6, key);
    case 1: return ds_deserialize(handle, kind_of(which), EMPTY, sizeof EMPTY, &options);
    default: return ds_deserialize_prefix(handle, kind_of(which), EMPTY, sizeof EMPTY, &options, &used);
    }
}

static int32_t draw(int which, ds_sketch *handle, size_t max_map_size)
{
    return draw_unless(NULL, which, handle, max_map_size);
}

/* Each call passes on its arguments, and a key with the first word counted up. */
static void in_turn(void)
{
    ds_sketch sketch = DS_NONE;
    ds_status status;
    size_t used = 77;
    for (int i = 0; i < 2 * CALLS; i++) {
        CHECK(draw(i % CALLS, &sketch, 8) == DS_OK && num_keys == (size_t)i + 1 && kind_passed == kind_of(i % CALLS));
        CHECK(keys[i].k0 == keys[0].k0 + (uint64_t)i && keys[i].k1 == keys[0].k1);
        CHECK(ds_get_status(&sketch, &status) == DS_OK && status.kind == kind_of(i % CALLS));
    }
    CHECK(asked == 2 && opened == 0);
    CHECK(sizes_passed[0] == 8 && sizes_passed[1] == 6 && limit_passed == 1 << 20 && seed_passed == 9001);
    CHECK(draw(1, &sketch, 16) == DS_OK && ds_get_status(&sketch, &status) == DS_OK);
    CHECK(status.max_map_size == 16 && status.sample_size == 6 && draw(0, &sketch, 9) == DS_MAP_SIZE_NOT_POWER_OF_TWO);
    CHECK(draw(3, &sketch, 0) == DS_OK && ds_get_status(&sketch, &status) == DS_OK);
    CHECK(status.max_map_size == 64 && ds_deserialize(&sketch, DS_FREQUENT_ITEMS_U64, NULL, 1, WITHIN(8)) == DS_BAD_ARGUMENT);
    CHECK(ds_deserialize(&sketch, DS_FREQUENT_ITEMS_STRING, EMPTY, 8, WITHIN(351)) == DS_TABLE_TOO_LARGE);
    CHECK(ds_deserialize(&sketch, DS_FREQUENT_ITEMS_STRING, NULL, 0, WITHIN(8)) == DS_INSUFFICIENT_DATA);
    CHECK(ds_deserialize_prefix(&sketch, DS_FREQUENT_ITEMS_STRING, EMPTY, 8, WITHIN(351), &used) == DS_TABLE_TOO_LARGE &&
          used == 77);
    CHECK(ds_deserialize_prefix(&sketch, DS_FREQUENT_ITEMS_STRING, EMPTY, 8, WITHIN(352), &used) == DS_OK && used == 8);
    CHECK(ds_deserialize_prefix(&sketch, DS_FREQUENT_ITEMS_I64, NULL, 0, WITHIN(8), &used) == DS_INSUFFICIENT_DATA && used == 8);
    ds_free(&sketch);
}

/* A key of the caller is passed on, and none is drawn. */
static void given_keys(void)
{
    ds_sketch sketch = DS_NONE;
    for (int i = 0; i < CALLS; i++) {
        const ds_key key = {7 + (uint64_t)i, 8};
        CHECK(draw_unless(&key, i, &sketch, 8) == DS_OK && num_keys == (size_t)i + 1 && kind_passed == kind_of(i));
        CHECK(keys[i].k0 == key.k0 && keys[i].k1 == 8);
    }
    /* a key of two words that are 0 is a key too */
    CHECK(draw_unless(&(ds_key){0, 0}, 0, &sketch, 8) == DS_OK && keys[CALLS].k0 == 0 && keys[CALLS].k1 == 0);
    CHECK(asked == 0 && opened == 0);
    CHECK(draw(0, &sketch, 8) == DS_OK && asked == 2);
    ds_free(&sketch);
}

/* Other kinds, and numbers that are no kind, draw no key: they need no random bytes. */
static void other_kinds(void)
{
    static const uint8_t FILTER[24] = {3, 1, 21, 4, 3, 0, 0, 0, 0x29, 0x23, 0, 0, 0, 0, 0, 0, 4, 0, 0, 0, 0, 0, 0, 0};
    static const uint8_t COUNTS[16] = {2, 1, 18, 1, 0, 0, 0, 0, 64, 0, 0, 0, 3, 0xcc, 0x93, 0};
    static const int32_t UNKNOWN[] = {0, -1, 7, 260, INT32_MIN, INT32_MAX};
    ds_sketch sketch = DS_NONE;
    size_t used = 77;
    has_call = has_device = false;
    CHECK(draw(0, &sketch, 8) == DS_NO_RANDOM && draw(3, &sketch, 8) == DS_NO_RANDOM && draw(6, &sketch, 8) == DS_NO_RANDOM);
    asked = opened = 0;
    for (size_t i = 0; i < sizeof UNKNOWN / sizeof *UNKNOWN; i++) {
        CHECK(ds_frequent_items_new(&sketch, UNKNOWN[i], 8, 6, NULL) == DS_WRONG_KIND);
        CHECK(ds_frequent_items_new(&sketch, UNKNOWN[i], 9, 6, NULL) == DS_WRONG_KIND);
        CHECK(ds_deserialize(&sketch, UNKNOWN[i], EMPTY, 8, WITHIN(1 << 20)) == DS_WRONG_KIND);
        CHECK(ds_deserialize_prefix(&sketch, UNKNOWN[i], EMPTY, 8, WITHIN(1 << 20), &used) == DS_WRONG_KIND && used == 77);
    }
    for (int32_t kind = DS_BLOOM; kind < DS_FREQUENT_ITEMS_U64; kind++)
        CHECK(ds_frequent_items_new(&sketch, kind, 8, 6, NULL) == DS_WRONG_KIND && !sketch.sketch);
    CHECK(ds_deserialize(&sketch, DS_BLOOM, FILTER, 24, WITHIN(32)) == DS_OK);
    CHECK(limit_passed == 32 && seed_passed == 9001 && kind_passed == DS_BLOOM);
    CHECK(ds_deserialize_prefix(&sketch, DS_COUNT_MIN_U64, COUNTS, 16, WITHIN(1 << 20), &used) == DS_OK && used == 16);
    CHECK(ds_deserialize(&sketch, DS_COUNT_MIN_I64, COUNTS, 16, WITHIN_SEED(1 << 20, 9002)) == DS_SEED_HASH_MISMATCH);
    CHECK(seed_passed == 9002 && kind_passed == DS_COUNT_MIN_I64);
    /* a key of the caller needs none either */
    CHECK(draw_unless(&(ds_key){7, 8}, 0, &sketch, 8) == DS_OK && draw_unless(&(ds_key){7, 8}, 3, &sketch, 8) == DS_OK);
    CHECK(asked == 0 && opened == 0);
    ds_free(&sketch);
}

/* Without random bytes each call returns an error, before those of sizes and images, and changes nothing, until there are some. */
static void no_random_bytes(void)
{
    ds_sketch none = DS_NONE, sketch = DS_NONE;
    void *before;
    CHECK(draw_unless(&(ds_key){1, 2}, 0, &sketch, 8) == DS_OK);
    before = sketch.sketch;
    num_keys = 0;
    has_call = has_device = false;
    for (int i = 0; i < 2 * CALLS; i++) {
        CHECK(draw(i % CALLS, &none, 9) == DS_NO_RANDOM && !none.sketch);
        CHECK(draw(i % CALLS, &sketch, 8) == DS_NO_RANDOM && sketch.sketch == before);
    }
    CHECK(num_keys == 0 && strcmp(ds_result_name(DS_NO_RANDOM), "NoRandom") == 0);
    CHECK(strcmp(ds_result_message(DS_NO_RANDOM), "the system has no random bytes for a key") == 0);
    has_call = true;
    CHECK(draw(0, &none, 8) == DS_OK && draw(3, &sketch, 8) == DS_OK && num_keys == 2 && keys[1].k0 == keys[0].k0 + 1);
    /* later calls need none */
    has_call = false;
    CHECK(draw(5, &none, 8) == DS_OK && num_keys == 3 && keys[2].k1 == keys[0].k1 && keys[2].k1 != 0);
    ds_free(&none);
    ds_free(&sketch);
}

static void from_the_device(void)
{
    ds_sketch sketch = DS_NONE;
    has_call = false;
    CHECK(draw(2, &sketch, 8) == DS_OK && opened == 2 && num_keys == 1 && keys[0].k0 != 0 && keys[0].k1 != 0);
    CHECK(keys[0].k0 != keys[0].k1 && draw(2, &sketch, 8) == DS_OK && opened == 2);
    ds_free(&sketch);
}

static void after_interrupts(void)
{
    ds_sketch sketch = DS_NONE;
    interrupted = 3;
    CHECK(draw(1, &sketch, 8) == DS_OK && asked == 5 && opened == 0 && keys[0].k0 != keys[0].k1);
    ds_free(&sketch);
}

static void *create(void *argument)
{
    ds_sketch sketch = DS_NONE;
    for (int i = 0; i < CREATED; i++)
        if (draw(i % CALLS, &sketch, 8) != DS_OK) return argument;
    ds_free(&sketch);
    return NULL;
}

/* Compares first words that lie close together, by what they are above `base`. */
static uint64_t base;

static int by_first_word(const void *first, const void *second)
{
    uint64_t a = ((const ds_key *)first)->k0 - base, b = ((const ds_key *)second)->k0 - base;
    return (a > b) - (a < b);
}

/* Threads that begin at once get different keys: their first words count up by one, and the second is the same. */
static void in_threads(void)
{
    pthread_t ids[THREADS];
    keeps_arguments = false;
    for (int i = 0; i < THREADS; i++) CHECK(pthread_create(&ids[i], NULL, create, ids) == 0);
    for (int i = 0; i < THREADS; i++) {
        void *failed;
        CHECK(pthread_join(ids[i], &failed) == 0 && !failed);
    }
    CHECK(num_keys == THREADS * CREATED && asked >= 2 && asked <= 2 * THREADS && opened == 0);
    base = keys[0].k0 - MOST;
    qsort(keys, THREADS * CREATED, sizeof *keys, by_first_word);
    for (size_t i = 0; i < THREADS * CREATED; i++) CHECK(keys[i].k0 == keys[0].k0 + i && keys[i].k1 == keys[0].k1);
}

/* Runs checks in a child, and adds its counts. Writes the first key that the child passed on. */
static void in_child(void (*run)(void), ds_key *key)
{
    struct {
        int checks, failures;
        ds_key key;
    } report = {0, 1, {0, 0}};
    int ends[2], status;
    pid_t child;
    if (pipe(ends) < 0 || fflush(stdout) < 0 || (child = fork()) < 0) abort();
    if (child == 0) {
        checks = failures = 0;
        run();
        report.checks = checks;
        report.failures = failures;
        report.key = keys[0];
        fflush(stdout);
        _exit(write(ends[1], &report, sizeof report) != sizeof report);
    }
    close(ends[1]);
    CHECK(read(ends[0], &report, sizeof report) == sizeof report);
    CHECK(waitpid(child, &status, 0) == child && status == 0);
    close(ends[0]);
    checks += report.checks;
    failures += report.failures;
    *key = report.key;
}

static void draw_one(void)
{
    ds_sketch sketch = DS_NONE;
    num_keys = 0;
    CHECK(draw(0, &sketch, 8) == DS_OK && num_keys == 1);
    ds_free(&sketch);
}

int main(void)
{
    void (*const runs[])(void) = {in_turn, no_random_bytes, from_the_device, after_interrupts, in_threads, draw_one};
    enum { RUNS = sizeof runs / sizeof *runs };
    ds_key drawn[RUNS], of_child;
    for (int i = 0; i < RUNS; i++) in_child(runs[i], &drawn[i]);
    /* each process draws words of its own: two of them are close with a probability below 2^-40 */
    for (int i = 0; i < RUNS; i++)
        for (int j = 0; j < i; j++) CHECK(drawn[i].k1 != drawn[j].k1 && drawn[i].k0 - drawn[j].k0 + MOST > 2 * MOST);
    in_child(given_keys, &of_child);
    in_child(other_kinds, &of_child);
    /* a child of a process that drew its words draws others, and the parent counts on from its own */
    draw_one();
    ds_key before = keys[0];
    in_child(draw_one, &of_child);
    CHECK(of_child.k1 != before.k1 && of_child.k0 - before.k0 + MOST > 2 * MOST);
    draw_one();
    CHECK(keys[0].k0 == before.k0 + 1 && keys[0].k1 == before.k1);
    return report();
}
