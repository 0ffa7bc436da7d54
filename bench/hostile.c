/* Times frequent items and the program on items that collide, beside random ones, and prints tables:
 *
 *     hostile LIBRARY PROGRAM [LIBRARY PROGRAM]
 *
 * A LIBRARY is a shared object of the C library, and a PROGRAM is `datasketches_cli`. Of two of each the first has no keys and
 * the second has them. They run by turns, and a further table compares the two on random items. A time is the least of 15
 * rounds, or of fewer once a row has taken a second. The exit status is 1 if a ratio of a keyed library exceeds 2. */
#define _GNU_SOURCE
#include "hostile_items.h"
#include "hostile_library.h"
#include <fcntl.h>
#include <math.h>
#include <stdio.h>
#include <sys/resource.h>
#include <sys/wait.h>
#include <time.h>
#include <unistd.h>

enum { SLOTS = 1 << 16, MOST = SLOTS / 4 * 3, ROUNDS = 15 };

/* --- Items --- */

/* Numbers, or strings in one buffer with offsets. */
struct items {
    size_t count;
    int64_t *numbers;
    uint8_t *bytes;
    uint64_t *offsets;
};

static void *room_for(size_t count, size_t size)
{
    void *room = malloc(count * size);
    check(room, "out of memory");
    return room;
}

static struct items numbers_of(const uint64_t *numbers, size_t count)
{
    struct items items = {.count = count, .numbers = room_for(count, 8)};
    memcpy(items.numbers, numbers, 8 * count);
    return items;
}

/* Random numbers, from number `from` on. */
static struct items random_numbers(uint64_t from, size_t count)
{
    struct items items = {.count = count, .numbers = room_for(count, 8)};
    for (size_t i = 0; i < count; i++) items.numbers[i] = (int64_t)random_of(from + i);
    return items;
}

static struct items strings_of(const uint8_t *strings, size_t count, size_t length)
{
    struct items items = {.count = count, .bytes = room_for(count, length), .offsets = room_for(count + 1, 8)};
    memcpy(items.bytes, strings, count * length);
    for (size_t i = 0; i <= count; i++) items.offsets[i] = i * length;
    return items;
}

/* A string for each number, of `min` to `max` letters, which the number decides. */
static struct items strings_for(const struct items *numbers, size_t min, size_t max)
{
    struct items items = {.count = numbers->count, .bytes = room_for(numbers->count, max)};
    items.offsets = room_for(numbers->count + 1, 8);
    items.offsets[0] = 0;
    for (size_t i = 0; i < numbers->count; i++) {
        uint64_t word = random_of((uint64_t)numbers->numbers[i]), at = items.offsets[i], length = min + word % (max - min + 1);
        for (size_t b = 0; b < length; b++) items.bytes[at + b] = 'a' + random_of(word + b / 8) % (17 + b % 8);
        items.offsets[i + 1] = at + length;
    }
    return items;
}

/* A part of the items, from one index up to another. */
static struct items part(const struct items *all, size_t from, size_t to)
{
    struct items items = {.count = to - from, .bytes = all->bytes};
    if (all->numbers) items.numbers = all->numbers + from;
    if (all->offsets) items.offsets = all->offsets + from;
    return items;
}

/* The same items in a random order. */
static struct items shuffled(const struct items *all)
{
    size_t *order = room_for(all->count, sizeof *order), size = all->offsets ? all->offsets[all->count] - all->offsets[0] : 0;
    for (size_t i = 0; i < all->count; i++) {
        size_t other = random_of(i) % (i + 1);
        order[i] = i;
        order[i] = order[other];
        order[other] = i;
    }
    struct items items = {.count = all->count};
    if (all->numbers) items.numbers = room_for(all->count, 8);
    if (all->offsets) items.bytes = room_for(size, 1), items.offsets = room_for(all->count + 1, 8), items.offsets[0] = 0;
    for (size_t i = 0; i < all->count; i++) {
        if (all->numbers) items.numbers[i] = all->numbers[order[i]];
        if (!all->offsets) continue;
        uint64_t from = all->offsets[order[i]], length = all->offsets[order[i] + 1] - from;
        memcpy(items.bytes + items.offsets[i], all->bytes + from, length);
        items.offsets[i + 1] = items.offsets[i] + length;
    }
    free(order);
    return items;
}

/* An image of the items in this order, of weight 1 each, in a table of 2^16 slots. */
static uint8_t *image_of(const struct items *items, size_t *length)
{
    size_t size = items->offsets ? items->offsets[items->count] - items->offsets[0] + 4 * items->count : 8 * items->count;
    uint8_t *image = calloc(32 + 8 * items->count + size, 1), *at = image + 32;
    check(image, "out of memory");
    uint8_t head[6] = {4, 1, 10, 16, 16, 0};
    uint64_t total = items->count, one = 1;
    memcpy(image, head, 6);
    memcpy(image + 8, &items->count, 4);
    memcpy(image + 16, &total, 8);
    for (size_t i = 0; i < items->count; i++, at += 8) memcpy(at, &one, 8);
    for (size_t i = 0; i < items->count; i++) {
        if (items->numbers) {
            memcpy(at, &items->numbers[i], 8);
            at += 8;
            continue;
        }
        uint32_t bytes = (uint32_t)(items->offsets[i + 1] - items->offsets[i]);
        memcpy(at, &bytes, 4);
        memcpy(at + 4, items->bytes + items->offsets[i], bytes);
        at += 4 + bytes;
    }
    *length = (size_t)(at - image);
    return image;
}

/* --- Operations --- */

/* Returns the items as an argument of calls. */
static ds_items as_argument(const struct items *items)
{
    if (items->numbers) return ds_items_i64(items->numbers, items->count);
    return ds_items_offsets(items->bytes, items->offsets[items->count], items->offsets, items->count + 1);
}

static void update_all(const struct library *library, ds_sketch *sketch, const struct items *items)
{
    const ds_items all = as_argument(items);
    check(!(library->is_keyed ? library->update_all(sketch, &all)
            : items->numbers  ? library->plain.i64_update_all(sketch, all.i64s, all.num_i64s)
                              : library->plain.string_update_all(sketch, all.bytes, all.num_bytes, all.offsets, all.num_offsets)),
          "update_all");
}

static void update_each(const struct library *library, ds_sketch *sketch, const struct items *items)
{
    const struct plain_calls *plain = &library->plain;
    int32_t result = 0;
    for (size_t i = 0; i < items->count; i++) {
        const uint8_t *bytes = items->numbers ? NULL : items->bytes + items->offsets[i];
        size_t length = items->numbers ? 0 : items->offsets[i + 1] - items->offsets[i];
        const ds_item item = items->numbers ? ds_item_i64(items->numbers[i]) : ds_item_string(bytes, length);
        result |= library->is_keyed ? library->update(sketch, &item, 1)
                  : items->numbers  ? plain->i64_update(sketch, items->numbers[i], 1)
                                    : plain->string_update(sketch, bytes, length, 1);
    }
    check(!result, "update");
}

static void bounds_all(const struct library *library, ds_sketch *sketch, const struct items *items, ds_item_bounds *bounds)
{
    const ds_items all = as_argument(items);
    size_t count = items->count;
    check(!(library->is_keyed ? library->bounds_all(sketch, &all, bounds, count)
            : items->numbers
                ? library->plain.i64_bounds_all(sketch, all.i64s, count, bounds, count)
                : library->plain.string_bounds_all(sketch, all.bytes, all.num_bytes, all.offsets, all.num_offsets, bounds, count)),
          "bounds_all");
}

enum operation { INSERT, AGAIN, EACH, PRESENT, ABSENT, WRITE, READ, MERGE, WEIGHTED };
static const char *const OPERATIONS[] = {"update_all", "update_all again", "update", "bounds_all, present", "bounds_all, absent",
                                         "serialize",  "deserialize",      "merge",  "update_all_weighted"};

/* What an operation works on: a table's maximum size, items, absent ones, and weights. */
struct work {
    size_t slots;
    struct items items, order, absent;
    uint64_t *weights;
    size_t image_length;
    uint8_t *image;
    size_t used; /* the number of items that an operation's time is divided by */
};

static struct work work_on(struct items items, struct items absent)
{
    struct work work = {.slots = SLOTS, .items = items, .order = shuffled(&items), .absent = absent};
    work.image = image_of(&items, &work.image_length);
    return work;
}

static int32_t update_all_weighted(const struct library *library, ds_sketch *sketch, const struct work *work)
{
    const ds_items all = as_argument(&work->items);
    size_t count = work->items.count;
    if (library->is_keyed) return library->update_all_weighted(sketch, &all, work->weights, count);
    return library->plain.i64_update_all_weighted(sketch, all.i64s, count, work->weights, count);
}

static double now(void)
{
    struct timespec time;
    clock_gettime(CLOCK_THREAD_CPUTIME_ID, &time);
    return time.tv_sec * 1e9 + time.tv_nsec;
}

static ds_item_bounds bounds[1 << 20];
static uint8_t buffer[1 << 24];

/* Runs an operation once, and returns its nanoseconds an item. `held` keeps a sketch of all items from round to round. */
static double run(const struct library *library, enum operation operation, struct work *work, ds_sketch *held)
{
    ds_sketch sketch = DS_NONE;
    bool numbers = work->items.numbers != NULL;
    size_t half = work->items.count / 2, count = work->items.count, written;
    struct items first = part(&work->items, 0, half), second = part(&work->items, half, work->items.count);
    bool needs_held = operation == AGAIN || operation == PRESENT || operation == ABSENT || operation == WRITE;
    if (needs_held && !held->sketch) {
        create(library, held, numbers, work->slots);
        update_all(library, held, &work->items);
    }
    if (operation == MERGE && !held->sketch) {
        create(library, held, numbers, work->slots);
        update_all(library, held, &second);
    }
    if (operation == INSERT || operation == EACH || operation == MERGE || operation == WEIGHTED)
        create(library, &sketch, numbers, work->slots);
    if (operation == MERGE) update_all(library, &sketch, &first);
    int32_t result = 0;
    double began = now();
    switch (operation) {
    case INSERT: update_all(library, &sketch, &work->items); break;
    case AGAIN: update_all(library, held, &work->order); break;
    case EACH: update_each(library, &sketch, &work->items); break;
    case PRESENT: bounds_all(library, held, &work->order, bounds); break;
    case ABSENT:
        bounds_all(library, held, &work->absent, bounds);
        count = work->absent.count;
        break;
    case WRITE: result = library->serialize[!numbers](held, buffer, sizeof buffer, &written); break;
    case READ: result = read_image(library, &sketch, numbers, work->image, work->image_length); break;
    case MERGE: result = library->merge[!numbers](&sketch, held); break;
    case WEIGHTED: result = update_all_weighted(library, &sketch, work); break;
    }
    double took = now() - began;
    check(!result, OPERATIONS[operation]);
    library->free(&sketch);
    return took / (work->used ? work->used : count);
}

static bool exceeded = false;

/* Prints a row for each library: the time of random and of chosen items, and their ratio. */
static void row(const struct library *libraries, int number, enum operation operation, const char *name, struct work *random,
                struct work *chosen)
{
    struct work *works[2] = {random, chosen};
    double least[2][2] = {{0}}, spent[2][2] = {{0}};
    ds_sketch held[2][2] = {{DS_NONE, DS_NONE}, {DS_NONE, DS_NONE}};
    for (int round = 0; round < ROUNDS; round++) {
        for (int l = 0; l < number; l++) {
            for (int side = 0; side < 2; side++) {
                if (spent[l][side] > 1e9) continue;
                double began = now(), took = run(&libraries[l], operation, works[side], &held[l][side]);
                spent[l][side] += now() - began;
                if (!round || took < least[l][side]) least[l][side] = took;
            }
        }
    }
    for (int l = 0; l < number; l++) {
        double ratio = least[l][1] / least[l][0];
        printf("| %s, %s | %s | %.1f | %.1f | %.2f |\n", OPERATIONS[operation], name, libraries[l].label, least[l][0], least[l][1],
               ratio);
        exceeded |= libraries[l].is_keyed && ratio > 2;
        for (int side = 0; side < 2; side++) libraries[l].free(&held[l][side]);
    }
    fflush(stdout);
}

/* Prints the rows of chosen items beside as many random ones. The last `absent` of each are not inserted. */
static void rows(const struct library *libraries, int number, const char *name, struct items all, struct items others,
                 size_t absent)
{
    size_t present = all.count - absent;
    struct work chosen = work_on(part(&all, 0, present), part(&all, present, all.count));
    struct work random = work_on(part(&others, 0, present), part(&others, present, all.count));
    enum operation operations[] = {INSERT, AGAIN, PRESENT, ABSENT, WRITE, READ, MERGE};
    for (size_t i = 0; i < sizeof operations / sizeof *operations; i++)
        row(libraries, number, operations[i], name, &random, &chosen);
}

/* Numbers of `homes` homes, `each` of them: first `present` of each, then the others. Group after group, or home by home. */
static struct items groups(uint64_t (*hash)(uint64_t), size_t homes, size_t apart, size_t each, size_t present, bool by_home)
{
    uint64_t *found = room_for(homes * each, 8), *ordered = room_for(homes * each, 8);
    size_t at = 0;
    numbers_of_homes(hash, homes, apart, each, found);
    for (size_t k = 0; k < present * homes; k++)
        ordered[at++] = by_home ? found[k % homes * each + k / homes] : found[k / present * each + k % present];
    for (size_t h = 0; h < homes; h++)
        for (size_t k = present; k < each; k++) ordered[at++] = found[h * each + k];
    struct items items = numbers_of(ordered, homes * each);
    free(found);
    free(ordered);
    return items;
}

/* A stream of items with weights, in 2^16 slots. */
static struct work stream_of(struct items items, uint64_t *weights)
{
    return (struct work){.slots = SLOTS, .items = items, .weights = weights};
}

/* Prints the rows of streams that make purges dear: light items before heavy ones, and light items in the slots that a purge
 * samples with heavy items in all others. */
static void floods(const struct library *libraries, int number)
{
    enum { LIGHT = 1 << 18, HEAVY = MOST - 1024 };
    struct items items = random_numbers(1u << 20, LIGHT + HEAVY), mixed = numbers_of((uint64_t *)items.numbers, LIGHT + HEAVY);
    uint64_t *weights = room_for(LIGHT + HEAVY, 8), *mixed_weights = room_for(LIGHT + HEAVY, 8);
    for (size_t i = 0; i < LIGHT + HEAVY; i++) mixed_weights[i] = weights[i] = i < LIGHT ? 1 : 1u << 20;
    for (size_t i = 1; i < LIGHT + HEAVY; i++) {
        size_t other = random_of(i) % (i + 1);
        int64_t number = mixed.numbers[i];
        uint64_t weight = mixed_weights[i];
        mixed.numbers[i] = mixed.numbers[other], mixed.numbers[other] = number;
        mixed_weights[i] = mixed_weights[other], mixed_weights[other] = weight;
    }
    struct work in_random_order = stream_of(mixed, mixed_weights), light_first = stream_of(items, weights);
    row(libraries, number, WEIGHTED, "light before heavy", &in_random_order, &light_first);

    struct items sampled = {.count = LIGHT + HEAVY, .numbers = room_for(LIGHT + HEAVY, 8)};
    size_t light = 0, heavy = 0;
    for (uint64_t i = 1u << 24; light < LIGHT || heavy < HEAVY; i++) {
        uint64_t home = hash_of_number(random_of(i)) % SLOTS;
        if (home < 1200 && light < LIGHT) sampled.numbers[HEAVY + light++] = (int64_t)random_of(i);
        if (home >= 4096 && heavy < HEAVY) sampled.numbers[heavy++] = (int64_t)random_of(i);
    }
    for (size_t i = 0; i < LIGHT + HEAVY; i++) weights[i] = i < HEAVY ? 1u << 20 : 1;
    struct work anywhere = stream_of(items, weights), in_sample = stream_of(sampled, weights);
    row(libraries, number, WEIGHTED, "light ones where purges sample", &anywhere, &in_sample);
}

/* Prints a row of items that a caller learned from images of sketches with the same key: those whose homes are near each other,
 * since an image lists its items in the order of their slots. It does not count for the exit status: no key helps against it. */
static void learned(const struct library *library)
{
    enum { IMAGES = 8, EACH = 49000 };
    struct items random = random_numbers(1ull << 33, EACH), near = random_numbers(1ull << 34, EACH), *sides[2] = {&random, &near};
    ds_sketch empty = DS_NONE, sketch = DS_NONE;
    size_t written, found = 0;
    double least[2] = {0};
    create(library, &empty, true, SLOTS);
    for (size_t i = 0; i < IMAGES; i++) {
        struct items items = random_numbers((1ull << 35) + i * EACH, EACH);
        check(!library->clone(&sketch, &empty), "clone");
        update_all(library, &sketch, &items);
        check(!library->serialize[0](&sketch, buffer, sizeof buffer, &written), "serialize");
        memcpy(near.numbers + found, buffer + 32 + 8 * EACH, EACH / IMAGES * 8);
        found += EACH / IMAGES;
        free(items.numbers);
    }
    near.count = random.count = found;
    for (int round = 0; round < 3; round++) {
        for (int side = 0; side < 2; side++) {
            check(!library->clone(&sketch, &empty), "clone");
            double began = now();
            update_all(library, &sketch, sides[side]);
            double took = (now() - began) / found;
            if (!round || took < least[side]) least[side] = took;
        }
    }
    printf("| update_all, learned from 8 images of one key (not counted) | %s | %.1f | %.1f | %.2f |\n", library->label, least[0],
           least[1], least[1] / least[0]);
    library->free(&empty);
    library->free(&sketch);
}

/* --- The program --- */

/* Runs a program on a script. Returns its processor time in nanoseconds. */
static double program_time(const char *program, const char *script)
{
    pid_t child = fork();
    check(child >= 0, "fork");
    if (child == 0) {
        int in = open(script, O_RDONLY), out = open("/dev/null", O_WRONLY);
        if (in < 0 || out < 0 || dup2(in, 0) < 0 || dup2(out, 1) < 0) _exit(126);
        execl(program, program, (char *)NULL);
        _exit(127);
    }
    int status;
    struct rusage used;
    check(wait4(child, &status, 0, &used) == child && WIFEXITED(status) && WEXITSTATUS(status) == 0, program);
    return (used.ru_utime.tv_sec + used.ru_stime.tv_sec) * 1e9 + (used.ru_utime.tv_usec + used.ru_stime.tv_usec) * 1e3;
}

static FILE *script_of(const char *path)
{
    FILE *script = fopen(path, "w");
    check(script, path);
    return script;
}

/* Scripts in the working directory: an empty one, and lines with random items and with chosen ones. */
static const char *const SCRIPTS[3] = {"lines.empty", "lines.random", "lines.chosen"};

/* Prints a row for each program: the time of a line with a random item and with a chosen one. */
static void program_row(const struct library *libraries, int number, const char *name, size_t lines)
{
    double least[2][3] = {{0}};
    fclose(script_of(SCRIPTS[0]));
    for (int l = 0; l < number; l++) {
        for (int side = 0; side < 3; side++) {
            double spent = 0;
            least[l][side] = INFINITY;
            for (int round = 0; round < ROUNDS && spent < 3e9; round++) {
                double took = program_time(libraries[l].program, SCRIPTS[side]);
                spent += took;
                if (took < least[l][side]) least[l][side] = took;
            }
        }
        double random = (least[l][1] - least[l][0]) / lines, chosen = (least[l][2] - least[l][0]) / lines;
        printf("| program, %s | %s | %.1f | %.1f | %.2f |\n", name, libraries[l].label, random, chosen, chosen / random);
        exceeded |= libraries[l].is_keyed && chosen / random > 2;
    }
    fflush(stdout);
}

static void program_rows(const struct library *libraries, int number)
{
    enum { COUNT = 49152 };
    uint64_t *words = room_for(COUNT, 8);
    words_of_one_group(false, words, COUNT);
    for (int side = 0; side < 2; side++) {
        FILE *script = script_of(SCRIPTS[1 + side]);
        fprintf(script, "windows 1 8\n");
        for (size_t i = 0; i < 2 * COUNT; i++)
            fprintf(script, "hadd %llu 1 x\n", (unsigned long long)(side ? words[i % COUNT] : random_of((1u << 28) + i % COUNT)));
        fclose(script);
    }
    program_row(libraries, number, "tenants", 2 * COUNT);
    words_of_one_group(true, words, COUNT);
    for (int side = 0; side < 2; side++) {
        FILE *script = script_of(SCRIPTS[1 + side]);
        for (size_t i = 0; i < 2 * COUNT; i++) {
            uint64_t word = side ? words[i % COUNT] : name_word(random_of(i % COUNT));
            fprintf(script, i < COUNT ? "bloom %.8s 64 1 9001\n" : "insert %.8s x\n", (const char *)&word);
        }
        fclose(script);
    }
    program_row(libraries, number, "names", 2 * COUNT);
    free(words);
}

static void program_strings(const struct library *libraries, int number, const struct items *chosen, const struct items *random)
{
    for (int side = 0; side < 2; side++) {
        const struct items *items = side ? chosen : random;
        FILE *script = script_of(SCRIPTS[1 + side]);
        fprintf(script, "frequent s 65536\n");
        for (size_t i = 0; i < items->count; i++) {
            fprintf(script, "add s 1 ");
            fwrite(items->bytes + items->offsets[i], 1, items->offsets[i + 1] - items->offsets[i], script);
            fprintf(script, "\n");
        }
        fclose(script);
    }
    program_row(libraries, number, "strings as items", chosen->count);
}

/* --- Keyed beside plain --- */

/* Prints a row: the time of each library, and their ratio. */
static void compare(const struct library *libraries, enum operation operation, const char *name, struct work *work)
{
    double least[2] = {0};
    ds_sketch held[2] = {DS_NONE, DS_NONE};
    for (int round = 0; round < ROUNDS; round++) {
        for (int l = 0; l < 2; l++) {
            double took = run(&libraries[l], operation, work, &held[l]);
            if (!round || took < least[l]) least[l] = took;
        }
    }
    printf("| %s, %s | %.1f | %.1f | %.2f |\n", OPERATIONS[operation], name, least[0], least[1], least[1] / least[0]);
    fflush(stdout);
    for (int l = 0; l < 2; l++) libraries[l].free(&held[l]);
}

/* Numbers by a Zipf law with exponent 1.1, of 2^20. */
static struct items zipf(uint64_t seed, size_t count)
{
    enum { RANKS = 1 << 20 };
    double *sums = room_for(RANKS, sizeof *sums), sum = 0;
    for (size_t rank = 0; rank < RANKS; rank++) sums[rank] = sum += pow(rank + 1, -1.1);
    struct items items = {.count = count, .numbers = room_for(count, 8)};
    for (size_t i = 0; i < count; i++) {
        double at = (random_of(seed + i) >> 11) * 0x1p-53 * sum;
        size_t low = 0, high = RANKS - 1;
        while (low < high) {
            size_t middle = (low + high) / 2;
            if (sums[middle] <= at) low = middle + 1;
            else high = middle;
        }
        items.numbers[i] = (int64_t)random_of(low);
    }
    free(sums);
    return items;
}

static void comparisons(const struct library *libraries)
{
    enum { COUNT = 1 << 19 };
    static const struct {
        const char *name;
        size_t min, max;
    } KINDS[] = {{"numbers", 0, 0}, {"strings of 10 to 14 bytes", 10, 14}, {"strings of 20 to 31 bytes", 20, 31}};
    static const size_t SIZES[] = {1024, 4096, SLOTS};
    struct items stream = zipf(1ull << 40, COUNT), others = random_numbers(1ull << 41, SLOTS);
    for (size_t k = 0; k < 3; k++) {
        for (size_t s = 0; s < 3; s++) {
            char name[80];
            size_t slots = SIZES[s], top = slots / 8;
            if (k && slots == 4096) continue;
            snprintf(name, sizeof name, "%s, %zu slots", KINDS[k].name, slots);
            struct items common = random_numbers(0, top), full = random_numbers(0, slots / 4 * 3);
            struct items common_items = k ? strings_for(&common, KINDS[k].min, KINDS[k].max) : common;
            struct work work = {.slots = slots, .items = k ? strings_for(&stream, KINDS[k].min, KINDS[k].max) : stream};
            work.absent = k ? strings_for(&others, KINDS[k].min, KINDS[k].max) : others;
            work.order = common_items;
            compare(libraries, INSERT, name, &work);
            compare(libraries, EACH, name, &work);
            compare(libraries, ABSENT, name, &work);
            work.used = top;
            compare(libraries, PRESENT, name, &work);
            work.items = k ? strings_for(&full, KINDS[k].min, KINDS[k].max) : full;
            work.used = work.items.count;
            work.image = image_of(&work.items, &work.image_length);
            while (1u << work.image[3] > slots) work.image[3]--, work.image[4]--;
            compare(libraries, READ, name, &work);
            compare(libraries, MERGE, name, &work);
        }
    }
}

int main(int argc, char **argv)
{
    check(argc == 3 || argc == 5, "usage: hostile LIBRARY PROGRAM [LIBRARY PROGRAM]");
    int number = argc / 2;
    struct library libraries[2] = {opened(argv[1], argv[2])};
    if (number == 2) libraries[1] = opened(argv[3], argv[4]);
    check(number == 1 || (!libraries[0].is_keyed && libraries[1].is_keyed), "the first library has keys, or the second has none");

    printf("| operation | table | random, ns | chosen, ns | ratio |\n|---|---|---|---|---|\n");
    enum { ONE_HOME = 49000, OF_ONE_HOME = ONE_HOME + 1000 };
    struct items random = random_numbers(1u << 31, SLOTS);
    uint64_t *found = room_for(OF_ONE_HOME, 8);
    numbers_of_one_home(SLOTS, 0x1234, found, OF_ONE_HOME);
    rows(libraries, number, "one home", numbers_of(found, OF_ONE_HOME), random, OF_ONE_HOME - ONE_HOME);
    rows(libraries, number, "511 a home", groups(hash_of_number, 96, 682, 532, 511, false), random, 96 * 21);
    rows(libraries, number, "homes in a row", groups(hash_of_number, MOST / 2, 1, 3, 2, true),
         random_numbers(1u << 31, MOST * 3 / 2), MOST / 2);
    rows(libraries, number, "511 a home of the key 0, 0", groups(sip_hash_of_number, 96, 682, 532, 511, false), random, 96 * 21);
    uint8_t *bytes = room_for(COLLIDING, COLLIDING_LENGTH);
    colliding_strings(bytes, COLLIDING);
    struct items strings = strings_of(bytes, COLLIDING, COLLIDING_LENGTH), some = part(&random, 0, COLLIDING);
    struct items random_strings = strings_for(&some, COLLIDING_LENGTH, COLLIDING_LENGTH);
    rows(libraries, number, "strings of one hash", strings, random_strings, 512);
    floods(libraries, number);
    learned(&libraries[number - 1]);
    program_strings(libraries, number, &strings, &random_strings);
    program_rows(libraries, number);
    if (number == 2) {
        printf("\n| operation | plain, ns | keyed, ns | ratio |\n|---|---|---|---|\n");
        comparisons(libraries);
    }
    if (exceeded) printf("\na ratio of the library or the program with keys exceeds 2\n");
    return exceeded;
}
