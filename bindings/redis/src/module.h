/* Declarations that the files of the module share. */
#ifndef MODULE_H
#define MODULE_H

#include <stdbool.h>
#include <stddef.h>
#include <stdint.h>

#include "redismodule.h"

#include "datasketches.h"

/* --- allocator.c: the memory of the library and of this module. --- */

/* Makes the library allocate from the server. Returns whether it does. */
bool set_allocator(void);

/* Returns a new block, or null if there is no memory. The server's own calls for a command end the server then. */
void *try_block(size_t bytes);

/* Frees a block of `try_block`. Null is no block. */
void free_block(void *block);

/* Sets bytes aside for the allocations of the calls up to `end_reserve`, which then succeed. Returns false if there is no memory. */
bool begin_reserve(size_t bytes);
void end_reserve(void);

/* Returns the bytes of a reserve that an allocation may take. */
static inline size_t reserve_for(size_t bytes)
{
    return (bytes + 15) / 16 * 16 + 32;
}

/* --- Numbers in bytes, the lowest first. --- */

static inline uint64_t read_number(const uint8_t *from, int bytes)
{
    uint64_t number = 0;
    for (int i = 0; i < bytes; i++) number |= (uint64_t)from[i] << 8 * i;
    return number;
}

static inline void write_number(uint8_t *to, uint64_t number)
{
    for (int i = 0; i < 8; i++) to[i] = (uint8_t)(number >> 8 * i);
}

/* Where the image of frequent items that has counters has its numbers: that of the counters in four bytes, and others in eight. The
 * weights of the counters are followed by the items, each with its length in four bytes before it. */
enum { COUNTERS_AT = 8, TOTAL_AT = 16, ERROR_AT = 24, WEIGHTS_AT = 32 };

#ifdef RATTLE_FAILING_ALLOCATIONS
/* Makes the allocation after `count` others fail, and each after it if `for_good`. Below 0, none fails. Returns the number of
 * allocations that were left until the failure that was set before. */
long long fail_allocations(long long count, bool for_good);
#endif

/* --- sketches.c: the values of keys. --- */

/* A kind of sketches, by the library's number: DS_BLOOM, DS_COUNT_MIN_U64 or DS_FREQUENT_ITEMS_STRING. */
typedef int32_t Kind;

/* The kind of a value that is not yet a sketch: the first bytes of a state, of which others come. */
#define PARTS 100

/* The value of a key. What stays 0 for a kind is not used by it. */
typedef struct Sketch {
    ds_sketch handle; /* none if the value is parts of a state */
    Kind kind;
    uint64_t seed;     /* of filters and Count-Min sketches */
    ds_key table_key;  /* of frequent items: under which the table hashes. It is secret */
    uint64_t capacity; /* of a filter: the items that it was made for. Of frequent items: the k of TOPK */
    uint64_t inserted; /* of a filter: the additions that changed it */
    double rate;       /* of a filter: the rate of false positives at its capacity. Of frequent items: the decay of TOPK.RESERVE */
    uint64_t width;    /* of frequent items: the width and depth of TOPK.RESERVE */
    uint64_t depth;
    size_t string_bytes; /* of frequent items: no less than the bytes of the strings in the table */
    size_t spare_bytes;  /* of frequent items: the most by which `string_bytes` is above them */
    uint64_t *top;       /* of frequent items: the k largest estimates, in descending order, or null: see ranks.c */
    size_t top_count;    /* how many there are: k, or fewer if there are fewer counters */
    uint64_t kth;        /* of frequent items: the k-th largest estimate at the time of a total, or 0 if that is not known */
    uint64_t kth_total;
    uint8_t *bytes; /* of a state that comes in parts: those that came, and how many come in all. A sketch has them until the last
                          * part is there, and is then replaced. They are no part of it: no file and no copy has them */
    size_t length, room, total;
} Sketch;

/* The types of keys' values. */
typedef struct Types {
    RedisModuleType *filters, *counts, *frequent, *parts;
} Types;
extern Types types;

/* The arguments of the module. */
extern size_t max_bytes;       /* a sketch may take */
extern size_t max_merge_bytes; /* a merge may read */
extern size_t max_hashes;      /* of an item, in a sketch */

/* The seed of filters and Count-Min sketches that are created without one: an argument of the module, or the library's own. So those
 * of all servers with the same argument can be merged. */
extern uint64_t default_seed;

/* The capacity of a filter that an addition creates, and its rate of false positives there: arguments of the module. */
extern uint64_t default_capacity;
extern double default_rate;

/* Returns a new value without a sketch, or null if there is no memory. */
Sketch *new_value(Kind kind);

/* Returns a copy of a value with its sketch, or null if there is no memory. Parts of a state are left out. */
Sketch *clone_value(Sketch *sketch);

/* Frees a value with its sketch. */
void free_value(void *value);

/* Returns the type of the values of a kind. */
RedisModuleType *type_of(Kind kind);

/* Returns a number of a value's sketch, DS_NUMBER_SEED .., or 0 if its kind does not have it. */
uint64_t number_of(Sketch *sketch, int32_t which);

/* Returns all numbers of a value's sketch, which takes a call for each: `number_of` for one or two. */
ds_status status_of(Sketch *sketch);

/* Returns random bytes as a number. */
uint64_t random_word(void);

/* Returns whether Count-Min sketches take a seed. One of 65,536 seeds has a hash that they do not take. */
bool is_usable_seed(uint64_t seed);

/* Returns a random seed. */
uint64_t random_seed(void);

/* Counts the bytes of the strings of frequent items. */
void count_strings(Sketch *sketch);

/* Gives frequent items what TOPK commands know of a sketch: k, and what TOPK.INFO returns. */
void make_top(Sketch *sketch, uint64_t k);

/* Returns an estimate of the number of items of a filter by its set bits. */
uint64_t estimated_items(Sketch *sketch);

/* Returns the number of items at which a filter's hashes fit its bits best. */
uint64_t capacity_of(Sketch *sketch);

/* What a slot of a table of strings takes, by the formula of `ds_memory_bytes`. */
#define BYTES_OF_SLOT 44

/* --- calls.c: calls of commands. --- */

/* A call of a command on a key, which is its first argument. */
typedef struct Call {
    RedisModuleCtx *ctx;
    RedisModuleString **argv;
    int argc;
    RedisModuleKey *key;
    Sketch *sketch;   /* the key's value, or null if there is no key */
    const char *name; /* of the command, as the table of commands has it */
    bool is_noted;    /* whether `note_change` was called */
} Call;

/* What a command does with its key. */
typedef enum Access {
    READS,      /* reads a sketch */
    READS_ANY,  /* reads a sketch, or knows what to do without one */
    WRITES,     /* changes a sketch */
    WRITES_ANY, /* changes a sketch, or creates one */
    CREATES,    /* creates a sketch, where there is no key */
    REPLACES    /* puts a sketch in place of any value of this module */
} Access;

/* Opens the key of a call for a kind, or for sketches of every kind if it is 0. Returns false after an error. */
bool open_call(Call *call, Kind kind, Access access);
void close_call(Call *call);

/* Opens another key of a kind for reading. Returns null after an error. */
RedisModuleKey *open_other(Call *call, RedisModuleString *name, Kind kind, Sketch **sketch);

/* Puts a value into the key, in place of the one that it has. The key keeps its time to live. */
void put_value(Call *call, Sketch *sketch);

/* Puts a new value into the key, and replicates it. */
void create_value(Call *call, Sketch *sketch);

/* Notes that the key changed: for clients that watch it, and as an event of the key space with the name of the command. A command has
 * one event, however often this is called. */
void note_change(Call *call);

/* Notes a change, and replicates the call as it came. */
void replicate_call(Call *call);

/* Reads an argument as a whole number from `least` to `most`. Returns false after this error. */
bool number_argument(Call *call, int at, long long least, long long most, const char *error, long long *number);

/* Reads an argument as a number above 0 and below 1. Returns false after one of these errors. */
bool fraction_argument(Call *call, int at, const char *no_number, const char *out_of_range, double *number);

/* Reads a seed: a whole number from 0 to 2^64 - 1. Returns whether it is one. */
bool read_seed(RedisModuleString *from, uint64_t *seed);

/* Reads the option SEED N or KEYED at a position, if it is one of them, and moves on. Returns false after an error. */
bool seed_option(Call *call, int *at, uint64_t *seed);

/* Returns whether an argument is a word, in any case. */
bool is_word(Call *call, int at, const char *word);

/* Returns the bytes that a sketch of this call may take. What the master or the file of commands sends has no limit here. */
size_t limit_of(Call *call);

/* Returns whether a sketch may take these bytes. Returns false after an error. */
bool check_limit(Call *call, uint64_t bytes);

/* Returns whether a sketch may have these hashes of an item. Returns false after an error. */
bool check_hashes(Call *call, uint64_t hashes);

/* Returns 1 / `fraction` as a whole number, rounded up, unless rounding alone put it above a whole number. */
uint64_t inverse(double fraction);

/* --- errors.c --- */

/* Errors that several commands return. Each family of commands has its own words for the first two, which its clients know. */
extern const char no_memory[], bad_data[], bad_syntax[], bad_number[], too_much[], too_many_hashes[];

/* Results beside those of the library. */
enum { BAD_CHECKSUM = -1000, TOO_MANY_HASHES = -1001, TOO_MUCH_TO_MERGE = -1002 };

/* Returns the words of a result below 0. */
const char *message_of(int32_t result);

/* Returns an error to the client. */
int reply_error(Call *call, const char *error);

/* Returns the error of a result below 0 to the client. */
int reply_result(Call *call, int32_t result);

/* Returns a number and its name, as a part of a map. */
void reply_number(Call *call, const char *name, uint64_t number);

/* A number of sketches, DS_NUMBER_SEED .., and its name for clients. */
typedef struct Field {
    const char *name;
    int32_t number;
} Field;

/* Returns numbers of the call's sketch and their names, as a map. */
int reply_fields(Call *call, const Field *fields, size_t count);

/* Return the errors that a key is not there, and that it is there, in the words of the command's family. */
int reply_missing(Call *call);
int reply_exists(Call *call);

/* --- items.c: the items of a call. --- */

/* The items of a call, with the memory that they take: of their own up to a number of bytes, and then blocks. */
typedef struct Items {
    ds_items rows;
    size_t count;
    size_t bytes; /* of all items */
    ds_string *strings;
    void *block, *more;
    size_t used;
    uint64_t room[512];
} Items;

/* Takes the arguments from `first` on, each `step`th, as items of filters and Count-Min sketches: as the bytes that are hashed.
 * Returns false after an error. */
bool hashed_items(Call *call, int first, int step, Items *items);

/* Takes them as items of frequent items: as strings in UTF-8. Returns false after an error. */
bool string_items(Call *call, int first, int step, Items *items);

/* Takes the lines of an argument as items of frequent items. Returns false after an error. */
bool string_lines(Call *call, int at, Items *items);

void free_items(Items *items);

/* The most strings that `next_strings` takes. */
#define MOST_STRINGS 256

/* Writes the next strings of items of frequent items, from a position on, which begins at 0 and is then after them. Returns their
 * number: 0 at the end. */
size_t next_strings(const Items *items, size_t *at, ds_string *strings);

/* Returns a string of frequent items to the client, as the bytes that the item had. Overwrites the string. */
void reply_item(Call *call, uint8_t *bytes, size_t length);

/* --- distinct.c: strings without repeats. --- */

/* A place of a set: a string with its hash and its weight, or none if the bytes are null. */
typedef struct Place {
    ds_string string;
    uint64_t hash, weight;
} Place;

/* A set of strings, which is not copied. It keeps pointers to the caller's bytes. Few strings need no other memory. */
typedef struct Distinct {
    Place *places;
    size_t room, count; /* places, and those with a string */
    Place few[128];
} Distinct;

/* Makes a set empty, before the first use of it. */
static inline void begin_distinct(Distinct *set)
{
    set->places = NULL;
    set->room = set->count = 0;
}

/* Adds to the weight of a string. Returns DS_YES if it is new, DS_NO if the set has it, and DS_NO_MEMORY. */
int32_t add_distinct(Distinct *set, ds_string string, uint64_t weight);

void free_distinct(Distinct *set);

/* --- updates.c --- */

/* Adds items to frequent items, with weights or once each if they are null, and replicates that. Returns false after an error: then
 * nothing changed. */
bool update(Call *call, const Items *items, const uint64_t *weights);

/* --- ranks.c --- */

/* Writes the k-th largest estimate of a sketch that has at least k counters, k from 1. Returns DS_NO_MEMORY and DS_ITEM_TOO_LONG. */
int32_t kth_estimate(Sketch *sketch, uint64_t k, uint64_t *estimate);

/* Writes an estimate that these items reach if they are among the first k, and only then. Returns the errors of `kth_estimate`. */
int32_t least_of_top(Sketch *sketch, const ds_item_bounds *bounds, size_t count, uint64_t *least);

/* Updates the k largest estimates of a sketch that keeps them, after updates with items, with weights or 1 each if they are null. */
void follow_top(Sketch *sketch, const Items *items, const uint64_t *weights);

/* Keeps the k largest estimates of a new sketch from its first update on, if k is not too large for that. */
void begin_top(Sketch *sketch);

/* Forgets the largest estimates of a sketch, before it changes in another way. */
void forget_top(Sketch *sketch);

/* --- lines.c: the lines of an argument as items of filters and Count-Min sketches. --- */

/* The most lines that one call of the library takes. */
#define MOST_LINES 256

/* The lines of an argument, copied: those of up to a number of bytes take no other memory. */
typedef struct Lines {
    uint8_t *next, *end; /* the bytes of lines that were not taken yet */
    void *block;
    ds_string strings[MOST_LINES];
    uint8_t room[8192];
} Lines;

/* Copies the lines of an argument. Returns false after an error. */
bool begin_lines(Call *call, int at, Lines *lines);

/* Copies the same lines again, to take them from the first one on. Those that were taken are overwritten. */
void copy_lines(Call *call, int at, Lines *lines);

/* Takes the next lines as items, and returns their number: 0 at the end. */
size_t next_lines(Lines *lines, ds_items *rows);

void end_lines(Lines *lines);

/* Returns the number of lines of an argument. */
uint64_t count_lines(Call *call, int at);

/* --- states.c: a value as bytes, for files and replicas. --- */

/* Returns a value as bytes, to free by `free_block`, or null if there is no memory. The key of a table is left out unless
 * `with_key`. */
uint8_t *write_state(Sketch *sketch, bool with_key, size_t *length);

/* Returns the value of bytes. Returns null, and the result, if they are damaged or the sketch takes more than `limit` bytes. If there
 * is a limit, it returns null for too many hashes, too. */
Sketch *read_state(const uint8_t *bytes, size_t length, size_t limit, int32_t *result);

/* Takes bytes of a state from a position on for the key, and replicates what changed. With the last ones, the key gets the sketch, of a
 * kind or of any kind if it is 0. Until then it keeps the one that it has, if any. Returns false after an error: then nothing changed. */
bool take_part(Call *call, Kind kind, uint64_t position, const uint8_t *bytes, size_t length);

/* Notes a change, and replicates a call as the state of its key's value. */
void replicate_state(Call *call, Sketch *sketch);

/* Returns the image of a sketch, to free by `free_block`. That of frequent items has its items in the order of their bytes, so equal
 * sketches have equal images. Returns null if there is no memory. */
uint8_t *write_image(Sketch *sketch, size_t *length);

/* Returns the limit of an image for a limit of a sketch. In the image of frequent items a string counts 4 bytes more than it takes. */
size_t limit_of_image(Kind kind, const uint8_t *image, size_t length, size_t limit);

/* Returns the hashes of an item in the image of a filter, and 0 for other kinds, whose images have few. */
uint32_t hashes_in_image(Kind kind, const uint8_t *image, size_t length);

/* Creates the types of values. Returns whether it did. */
bool create_types(RedisModuleCtx *ctx);

/* --- The commands. Each function gets a call whose key is open. --- */

int bf_reserve(Call *call), bf_add(Call *call), bf_madd(Call *call), bf_addlines(Call *call), bf_insert(Call *call),
    bf_exists(Call *call), bf_mexists(Call *call), bf_card(Call *call), bf_info(Call *call), bf_scandump(Call *call),
    bf_loadchunk(Call *call), bf_merge(Call *call);
int cms_initbydim(Call *call), cms_initbyprob(Call *call), cms_incrby(Call *call), cms_addlines(Call *call), cms_query(Call *call),
    cms_merge(Call *call), cms_info(Call *call), cms_decay(Call *call), cms_halve(Call *call);
int topk_reserve(Call *call), topk_add(Call *call), topk_incrby(Call *call), topk_query(Call *call), topk_count(Call *call),
    topk_list(Call *call), topk_info(Call *call);
int freq_reserve(Call *call), freq_add(Call *call), freq_addlines(Call *call), freq_incrby(Call *call), freq_bounds(Call *call),
    freq_rows(Call *call), freq_info(Call *call), freq_halve(Call *call), freq_merge(Call *call);
int sketch_image(Call *call), sketch_load(Call *call), sketch_info(Call *call), sketch_seed(Call *call), sketch_state(Call *call);

/* Creates the commands. Returns whether it did. */
bool create_commands(RedisModuleCtx *ctx);

#endif
