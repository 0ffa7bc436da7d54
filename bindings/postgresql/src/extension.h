/* Declarations that the files of the extension share. */
#ifndef EXTENSION_H
#define EXTENSION_H

#include "postgres.h"

#include "access/tupdesc.h"
#include "fmgr.h"
#include "lib/ilist.h"
#include "mb/pg_wchar.h"
#if PG_VERSION_NUM >= 160000
#include "varatt.h"
#endif

#include "datasketches.h"

/* A bigint, a number with fraction and a pointer each fit a Datum: the library is built for 64 bits. */
StaticAssertDecl(SIZEOF_DATUM == 8, "a Datum has 64 bits");

#define DEFAULT_MAX_MAP_SIZE 1024

/* What a slot of a table of strings takes, and one of a table of bigints, by the formula of `ds_memory_bytes`. */
#define BYTES_OF_SLOT 44
#define BYTES_OF_BIGINT_SLOT 28

/* What strings count for `max_frequent_bytes` at most, each on average: calls take longer by their number than by their bytes. */
#define COUNTED_BYTES 64

/* PostgreSQL loads libraries with RTLD_GLOBAL, so what only these files share is hidden. */
#pragma GCC visibility push(hidden)

/* --- heap.c --- */

/* The most memory that all sketches of a session or of a worker, and their stored forms, may take together. */
extern int max_statement_kilobytes;

/* Makes the library allocate from memory contexts: each call from the context that is current then. */
void set_allocator(void);

/* Returns the bytes that all sketches together take, and the stored forms that functions read, keep or return. */
size_t total_bytes(void);

/* Allocates a block in the current context, and counts it with the sketches. Raises an error if all together would take more than a
 * statement may. */
void *counted_alloc(size_t bytes);

/* Returns a value detoasted. A copy is counted. */
struct varlena *counted_detoast(Datum datum);

/* Frees a counted block. */
void counted_free(void *block);

/* Frees what `counted_detoast` returned for a value, if it is a copy. */
static inline void free_copy(void *detoasted, Datum datum)
{
    if (detoasted != DatumGetPointer(datum)) counted_free(detoasted);
}

/* Returns the bytes that all sketches together would have taken when a request was refused for that, and forgets them. Returns 0 if
 * none was refused. */
size_t take_refused(void);

/* --- errors.c --- */

/* Raises the error of a result below 0. */
void raise_result(int32_t result) __attribute__((noreturn));

/* Raises the error of sketches that would take more memory together than they may. */
void raise_total(size_t bytes) __attribute__((noreturn));

/* Raises an error of an argument: 22023, with this message. */
void raise_argument(const char *message) __attribute__((noreturn));

/* Raises an error of items: a sketch of one type of items was used as one of another type. The hint may be null. */
void raise_items(const char *message, const char *hint) __attribute__((noreturn));

/* Raises an error of a value that is no sketch of this type. */
void raise_kind(const char *message) __attribute__((noreturn));

/* Raises the error of a value with another version of the stored form than the one that is read. */
void raise_version(int version, int read) __attribute__((noreturn));

/* Raises the error of sizes that differ between rows of a group. */
void raise_sizes(void) __attribute__((noreturn));

/* Raises the error of a sketch of more bytes than a stored one has. */
void raise_stored(uint64 bytes) __attribute__((noreturn));

/* Raises the error of two sketches that do not merge, with the shapes of both. */
void raise_mismatch(ds_sketch *handle, ds_sketch *other) __attribute__((noreturn));

static inline void check_result(int32_t result)
{
    if (unlikely(result < 0)) raise_result(result);
}

/* Returns a number of the library as a bigint. Raises 22003 if it is above the greatest bigint. */
int64 as_bigint(uint64 number);

/* --- sketch.c --- */

/* A kind of sketches, by the library's number: DS_BLOOM, DS_COUNT_MIN_U64, DS_COUNT_MIN_I64, DS_FREQUENT_ITEMS_I64 or
 * DS_FREQUENT_ITEMS_STRING. Each has a type. */
typedef int32_t Kind;

/* Passed in place of a kind, for a stored sketch of any kind. */
#define ANY_KIND 0

/* Returns whether a kind is one of frequent items. */
static inline bool is_frequent(Kind kind)
{
    return kind == DS_FREQUENT_ITEMS_STRING || kind == DS_FREQUENT_ITEMS_I64;
}

/* The types of a sketch's items, as bits. Filters and counts may have both, and have none before their first item. The numbers are
 * stored. */
enum { NO_ITEMS = 0, STRINGS = 1, BIGINTS = 2 };

/* Returns the type of items that a kind of frequent items has, or `others` for another kind. */
static inline uint8 items_of(Kind kind, uint8 others)
{
    return kind == DS_FREQUENT_ITEMS_STRING ? STRINGS : kind == DS_FREQUENT_ITEMS_I64 ? BIGINTS : others;
}

/* A stored sketch: a header and the image that all interfaces of the library read and write. */
typedef struct Sketch {
    int32 length;    /* PostgreSQL's own: of the whole */
    uint8 format[4]; /* "SKR" and the version of this format */
    uint8 kind;      /* a number of the stored form: see `kind_of` */
    uint8 items;
    uint8 zero[2];
    uint8 seed[8];     /* of Count-Min, whose image has only a hash of it, and 0 otherwise; lowest byte first */
    uint8 checksum[4]; /* the CRC-32C of the bytes from `format` up to here, and of the image; lowest byte first */
    uint8 image[FLEXIBLE_ARRAY_MEMBER];
} Sketch;

#define IMAGE_BYTES(sketch) (VARSIZE(sketch) - offsetof(Sketch, image))

/* Returns the number that a stored sketch has as its seed. */
static inline uint64 seed_of(const Sketch *sketch)
{
    uint64 seed = 0;
    for (int i = 0; i < 8; i++) seed |= (uint64)sketch->seed[i] << 8 * i;
    return seed;
}

/* The most bytes that a sketch may take, by the formula of `ds_memory_bytes`, which counts strings. Frequent items keep to both
 * limits, and count at most `COUNTED_BYTES` of a string for the second one. No interrupt is checked during a call of the library.
 * Calls of frequent items take longer than others, and the defaults keep them to about 100 ms. */
extern int max_image_bytes;
extern int max_frequent_bytes;

/* The greatest value that users can give to both limits. */
extern int max_user_bytes;

/* The most bytes of a stored sketch. Its text form then leaves 24 MB to the other columns of a row, which `COPY` and `pg_dump` write in
 * less than 1 GB. */
#define MAX_STORED_BYTES (750 * 1024 * 1024)

/* The limits that a sketch keeps to. What the type's own text and binary forms have was stored before, in this database or another one,
 * and restores and replicas read it with the settings of their sessions. So a user's settings do not limit it. */
typedef enum Limits { USERS_LIMITS, ADMINISTRATORS_LIMITS, NO_LIMITS } Limits;

/* Returns the limit of all that a sketch takes. */
static inline size_t limit_of_all(Limits limits)
{
    return limits == NO_LIMITS               ? SIZE_MAX
           : limits == ADMINISTRATORS_LIMITS ? (size_t)max_user_bytes
                                             : Min(max_user_bytes, max_image_bytes);
}

/* Returns the limit of a kind, for which strings count in part. */
static inline size_t limit_of(Kind kind, Limits limits)
{
    size_t all = limit_of_all(limits);
    return is_frequent(kind) && limits == USERS_LIMITS ? Min(all, (size_t)max_frequent_bytes) : all;
}

/* Raises the error of a sketch that exceeds a limit. `bytes` is 0 if they are not known. */
void raise_limit(size_t limit, uint64 bytes) __attribute__((noreturn));

/* Raises an error if bytes exceed a limit. */
static inline void check_bytes(size_t limit, uint64 bytes)
{
    if (bytes > limit) raise_limit(limit, bytes);
}

/* Reads an image into a handle that has no sketch, in the current context. The seed is that of Count-Min, and not read for other
 * kinds. Raises an error if the sketch exceeds the limits of its kind. */
void read_image(Kind kind, ds_sketch *handle, const void *image, size_t length, uint64 seed, Limits limits);

/* Returns the bytes that a handle's sketch takes. */
size_t bytes_of(ds_sketch *handle);

/* Returns the numbers of a handle's sketch. */
ds_status status_of(ds_sketch *handle);

/* Writes the image of a handle's sketch after `header` bytes, which the caller fills. Returns the whole as a new varlena. */
struct varlena *write_image(ds_sketch *handle, size_t header);

/* Raises an error if a handle's sketch exceeds the limits of its kind. */
void check_limit(ds_sketch *handle, Limits limits);

/* Returns a stored sketch from a handle. Raises an error if the sketch exceeds the limits of users. */
Sketch *store(uint8 items, ds_sketch *handle);

/* Returns the kind of a stored sketch, or 0 if its header has none. */
Kind kind_of(const Sketch *sketch);

/* Returns whether a detoasted value is a stored sketch of a kind, or of ANY_KIND, with the checksum of its bytes. */
bool is_sound(const Sketch *sketch, Kind kind);

/* Returns a stored sketch of a kind, or of ANY_KIND, detoasted. Raises an error if its header or its checksum is wrong. `free_copy` frees
 * it. */
Sketch *detoast_sketch(Datum datum, Kind kind);

/* Reads a stored sketch, whose checksum was verified, into a handle that has no sketch. */
void load(const Sketch *sketch, ds_sketch *handle);

/* Returns whether a sketch may have items of this type. */
static inline bool may_have(const Sketch *sketch, uint8 items)
{
    return (sketch->items & items) != 0 || sketch->items == NO_ITEMS;
}

/* Raises an error unless the sketch may have items of this type. */
void check_items(const Sketch *sketch, uint8 items);

/* Returns the types of a sketch's items as a text: 'strings', 'bigints' or 'strings or bigints'. */
Datum items_name(const Sketch *sketch);

/* Returns a seed as a numeric. */
Datum seed_value(uint64 seed);

/* Returns a number of some bytes, lowest first. */
static inline uint64 number_at(const uint8 *image, int bytes)
{
    uint64 number = 0;
    for (int i = 0; i < bytes; i++) number |= (uint64)image[i] << 8 * i;
    return number;
}

/* The bytes of the image of a filter without set bits, and of counts with the total weight 0. */
#define EMPTY_FILTER 24
#define EMPTY_COUNTS 16

/* --- large.c --- */

/* Returns the bytes that a sketch takes by the sizes in its image, without strings, or 0 if the image is too short for sizes. */
uint64 stated_bytes(Kind kind, const uint8 *image, size_t length);

/* Reads an image in place if it is one of an empty filter or of counts with the total weight 0. Leaves the bytes that the library writes,
 * and returns their number, or 0 if it is another image. Raises the error of a failed check. */
size_t read_empty(Kind kind, uint8 *image, size_t length, uint64 seed);

/* Gives an image of frequent items the smallest table that has room for its items. Returns the size of the table that it had, as in the
 * image. */
uint8 shrink_table(uint8 *image, size_t length);

/* --- image_items.c --- */

/* Raises an error if a string of an image of frequent strings has a zero byte. Returns the bytes of strings that the library counts,
 * and that do not count for `max_frequent_bytes`. */
size_t check_zero_bytes(const void *image, size_t length);

/* Raises an error if an image can be of frequent strings alone, and not of bigints. */
void check_bigints(const void *image, size_t length);

/* --- sizes.c --- */

/* Each of these makes an empty sketch in a handle that has none, from the sizes in the arguments from a number on. They allocate in
 * the current context. */
typedef void (*Make)(FunctionCallInfo fcinfo, Kind kind, ds_sketch *handle, int number);
void frequent_by_size(FunctionCallInfo fcinfo, Kind kind, ds_sketch *handle, int number);
void frequent_by_error(FunctionCallInfo fcinfo, Kind kind, ds_sketch *handle, int number);
void count_by_size(FunctionCallInfo fcinfo, Kind kind, ds_sketch *handle, int number);
void count_by_error(FunctionCallInfo fcinfo, Kind kind, ds_sketch *handle, int number);
void filter_by_size(FunctionCallInfo fcinfo, Kind kind, ds_sketch *handle, int number);
void filter_by_error(FunctionCallInfo fcinfo, Kind kind, ds_sketch *handle, int number);

/* --- items.c --- */

/* How the values of a type become items: as bigints, or as strings. */
typedef enum Form {
    NO_FORM, /* the values are no items */
    OF_SMALLINT,
    OF_INTEGER,
    OF_BIGINT,
    OF_OID,
    OF_NUMERAL, /* a text that is a bigint */
    OF_TEXT,
    OF_BPCHAR,
    OF_NAME,
    OF_CHAR,
    OF_UUID,
    OF_BYTEA,
    OF_DATE,
    OF_TIMESTAMPTZ,
    OF_NUMERIC
} Form;

/* Returns the type of items of a form. */
static inline uint8 type_of(Form form)
{
    return form <= OF_NUMERAL ? BIGINTS : STRINGS;
}

/* Returns the form of a type or of a domain over it, or NO_FORM. */
Form form_of(Oid type);

/* Returns the form of an argument's type. Raises an error if its values are no items of the kind, or if the collation compares
 * otherwise than by bytes. For frequent bigints a text is a number: a parameter without a type comes as text. */
Form form_argument(FunctionCallInfo fcinfo, int number, Kind kind);

#define ROOM_FOR_ITEM 144

/* An item: a string in UTF-8, or a bigint. */
typedef struct SketchItem {
    uint8 type; /* STRINGS or BIGINTS */
    ds_string string;
    int64 bigint;
    char room[ROOM_FOR_ITEM]; /* of some strings */
} SketchItem;

/* Returns an item for a call of the library. It points to the item's bytes. */
static inline ds_item in_c(const SketchItem *item)
{
    return item->type == STRINGS ? ds_item_string(item->string.bytes, item->string.length) : ds_item_i64(item->bigint);
}

/* The encoding of the database, or -1 if no string was read yet. */
extern int database_encoding;

/* Returns a string of the database in UTF-8. */
ds_string converted(ds_string string);

/* Reads a value of any form but NO_FORM into an item. */
void convert_item(Datum datum, Form form, SketchItem *item);

/* Reads an argument into an item. */
static inline void read_item(FunctionCallInfo fcinfo, int number, Form form, SketchItem *item)
{
    if (likely(form == OF_TEXT)) {
        struct varlena *text = PG_GETARG_RAW_VARLENA_P(number);
        if (unlikely(VARATT_IS_COMPRESSED(text) || VARATT_IS_EXTERNAL(text))) text = PG_DETOAST_DATUM_PACKED(PointerGetDatum(text));
        item->type = STRINGS;
        item->string.bytes = (const uint8_t *)VARDATA_ANY(text);
        item->string.length = VARSIZE_ANY_EXHDR(text);
        if (unlikely(database_encoding != PG_UTF8)) item->string = converted(item->string);
    } else if (form == OF_BIGINT) {
        item->type = BIGINTS;
        item->bigint = PG_GETARG_INT64(number);
    } else {
        convert_item(PG_GETARG_DATUM(number), form, item);
    }
}

/* --- filter.c --- */

/* Returns whether a verified filter contains an item, as the library's result. */
int32_t filter_contains(const Sketch *filter, const SketchItem *item);

/* --- kept.c --- */

/* A sketch that a function keeps from row to row. `handle` has it only if `is_loaded`. */
typedef struct Kept {
    MemoryContext context; /* of its own */
    size_t bytes;          /* of the context */
    dlist_node by_use;
    uint64 hash; /* of the key */
    const void *address;
    size_t key_bytes;
    void *key;
    Sketch *sketch;
    bool is_loaded;
    ds_sketch handle;
} Kept;

/* Returns the sketch that is the call's first argument, verified. The function keeps its last sketches, so a sketch that comes
 * at many rows is detoasted and verified once. */
Kept *kept_argument(FunctionCallInfo fcinfo, Kind kind);

/* The same, and its handle has the sketch. */
Kept *kept_handle(FunctionCallInfo fcinfo, Kind kind);

/* Reads the call's second argument into an item. The call has called `kept_argument` before. */
void kept_item(FunctionCallInfo fcinfo, SketchItem *item);

/* Returns the call's result type, and a row of it. The call has called `kept_argument` before. */
TupleDesc kept_row_type(FunctionCallInfo fcinfo);
Datum kept_row(FunctionCallInfo fcinfo, Datum *values, bool *nulls);

#pragma GCC visibility pop

/* Defines a function of SQL that passes its call on, with more arguments. */
#define FUNCTION(name, call, ...) \
    PG_FUNCTION_INFO_V1(name); \
    Datum name(PG_FUNCTION_ARGS) \
    { \
        return call(fcinfo, __VA_ARGS__); \
    }

#endif
