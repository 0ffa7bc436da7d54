/* Declarations of items: how they are read from Python's objects, and passed to the library. */
#ifndef ITEMS_H
#define ITEMS_H

#include "sketches.h"

/* --- items.c --- */

#define CHUNK 1024

/* An item: a string, or the eight bytes of a number. */
typedef struct {
    const char *text;
    uint64_t value; /* of a string: its length in bytes */
    bool negative;
    bool missing; /* a null: neither counted nor inserted */
} Item;

bool is_single(PyObject *object);
bool item_of(PyObject *object, Item *item);

/* Returns an item for a call on the sketch. It points to the item's bytes. */
ds_item item_in_c(const Sketch *self, const Item *item);

/* Read a 64-bit number that is unsigned, or signed if `with_sign`. The error message names it by `what`. */
bool natural_of(PyObject *object, const char *what, uint64_t *number);
bool number_of_kind(PyObject *object, const char *what, bool with_sign, uint64_t *number);

/* Returns whether a number is in the range of the signed or unsigned 64-bit type. Sets an error if not. `negative` says whether
 * it is below 0. */
bool number_fits(const char *what, bool with_sign, uint64_t value, bool negative);

/* Reads the maximum number of bytes of a sketch that a call may create. */
bool limit_of(PyObject *object, size_t *limit);

/* --- given.c --- */

/* Returns the attribute of this name, or NULL with an error set. */
PyObject *attribute(PyObject *object, const char *name);

/* Calls a method without arguments. */
PyObject *called(PyObject *object, const char *name);

/* The tests of an object below return 1 or 0, or -1 with an error set: only an error that means 'no' is cleared. */

/* Returns whether the object's type has an attribute of this name. */
int type_has(PyObject *object, const char *name);

/* Returns whether the object's type has attributes of both names. */
int type_has_both(PyObject *object, const char *first, const char *second);

/* Returns whether a module is imported and the object is an instance of its class. */
int is_of(PyObject *object, const char *module, const char *name);

/* Returns whether the object is a mapping of items to weights: it has keys and items, and is not a table or a pandas Series. */
int is_mapping(PyObject *object);

/* Returns the keys and the values of a mapping as two lists in the same order. */
bool mapping_split(PyObject *mapping, PyObject **keys, PyObject **values);

/* What items or weights are read from. */
typedef struct {
    const char *call, *type; /* the names of the call and of the object's type, for errors */
    PyObject *values;        /* a list, tuple, set, buffer or other iterable; of categories their codes */
    PyObject *missing;       /* NULL, or an array of bool that is true for missing values */
    PyObject *categories;    /* NULL, or a list of the categories */
    bool of_arrow;           /* whether `values` exports a column of Arrow: then it is a capsule, or a tuple of two */
    bool in_array;           /* whether the results of a query are a numpy array */
} Source;

/* Finds out what items are read from, or weights if `of_weights`. Sets an error, which names the call, for a table and for a
 * mapping. `source_release` releases the references. */
bool source_of(PyObject *object, const char *call, bool of_weights, Source *source);
void source_release(Source *source);

/* Sets the error for a table, and returns false. */
bool no_table(const Source *source);

int is_numpy_array(PyObject *object);

/* Returns whether the object is an array of the module `array` or of numpy, in which unsigned 8-bit numbers are numbers. In other
 * buffers they are bytes. */
int is_array_of_bytes(PyObject *object);

/* Returns a list of the entries of a numpy array. Sets an error, which names them by `what`, if they are neither strings nor
 * objects. An empty array is accepted. */
PyObject *array_entries(PyObject *array, const char *what);

/* Returns whether the object is a numpy array that may have masked entries. */
int is_masked(PyObject *object);

/* Returns the letter for the kind of an array's type, 0 if it has none, or -1 with an error set. */
int kind_of_array(PyObject *dtype);

/* --- series.c --- */

/* Returns whether the object is a column with a type and an array of its values, such as a pandas Series or Index. */
int is_series(PyObject *object);

/* Finds out what the items of a Series are read from. Its missing values are those of its `isna`. */
bool series_source(PyObject *series, bool of_weights, Source *source);

/* Takes the array of results of a query. Returns a Series of them with the labels of the items if these are a Series of pandas, or a
 * DataFrame if a result is three numbers, and else the array. */
PyObject *series_results(PyObject *given, PyObject *results);

/* Returns whether the object is no Series that looks as `value_counts` returns it. Sets an error if it is: its weights would be items. */
bool no_counts(PyObject *given, const char *call);

/* --- runs.c --- */

/* How the rows of a run are stored. In strings of a fixed size, NULs at the end are dropped, as numpy does. */
typedef enum {
    NUMBERS,
    STRINGS_32, /* Arrow's strings with offsets of 32 bits */
    STRINGS_64,
    VIEWS,       /* Arrow's strings in views of 16 bytes */
    FIXED_BYTES, /* UTF-8 in a fixed number of bytes */
    FIXED_WIDE,  /* a fixed number of code points of 32 bits */
    NOTHING      /* all rows are missing */
} Layout;

/* Arrow's C data interface. */
typedef struct ArrowSchema {
    const char *format, *name, *metadata;
    int64_t flags, n_children;
    struct ArrowSchema **children, *dictionary;
    void (*release)(struct ArrowSchema *);
    void *private_data;
} ArrowSchema;

typedef struct ArrowArray {
    int64_t length, null_count, offset, n_buffers, n_children;
    const void **buffers;
    struct ArrowArray **children, *dictionary;
    void (*release)(struct ArrowArray *);
    void *private_data;
} ArrowArray;

/* Releases what is owned, keeping the error that is set: a release may call Python. */
#define RELEASE(owned) \
    do { \
        PyObject *type_, *error_, *trace_; \
        PyErr_Fetch(&type_, &error_, &trace_); \
        if ((owned)->release != NULL) (owned)->release(owned); \
        PyErr_Restore(type_, error_, trace_); \
    } while (0)

/* Rows that are stored in one way: those of a buffer, or of an array of an Arrow column. */
typedef struct {
    Layout layout;
    size_t first, count; /* the index of its first row among all, and the number of its rows */
    const char *start;   /* the first row's number, offset, view or string of a fixed size */
    Py_ssize_t stride, size;
    bool with_sign, swapped;
    const uint8_t *validity;    /* a bit for each row, which is 0 if the row is missing; NULL if no row is missing */
    size_t bit;                 /* the bit of the first row */
    const uint8_t *bytes;       /* the strings behind the offsets */
    uint64_t num_bytes;         /* the last offset when the offsets were checked */
    const void *const *buffers; /* the strings behind the views */
    const int64_t *sizes;
    size_t num_buffers;
    const Item *entries; /* NULL, or a dictionary's values; then the numbers are indices into them */
    size_t num_entries;
    bool gaps_by_code; /* whether the index -1 is a missing row */
    bool has_gaps;     /* whether `run_check` found that a row may be missing */
    bool has_bad_gaps; /* whether it found that a missing row has a string that is not UTF-8 */
    Item *own_entries;
    ArrowArray array; /* to be released, unless its `release` is NULL */
} Run;

/* Returns whether the rows are strings with offsets. */
static inline bool has_offsets(const Run *run)
{
    return run->layout == STRINGS_32 || run->layout == STRINGS_64;
}

/* Bitmaps of rows, as the library takes them: the bit of a row is 1 if it is not missing. */
static inline bool is_present(const uint8_t *bits, size_t at)
{
    return bits[at / 8] >> at % 8 & 1;
}

static inline void drop(uint8_t *bits, size_t at, bool missing)
{
    bits[at / 8] &= (uint8_t) ~((unsigned)missing << at % 8);
}

/* Copies `count` numbers from row `at` on: of a dictionary the indices. Of a missing row it copies any number. */
void run_numbers(const Run *run, size_t at, size_t count, uint64_t *numbers);

/* Returns a row's value in the dictionary: a missing one for a missing row, or NULL if its index is out of range. */
const Item *run_entry(const Run *run, size_t at);

/* Does the same for a row whose index was read. */
const Item *run_entry_by_index(const Run *run, size_t at, uint64_t index);

/* Sets to 0 the bits of missing rows, from bit `bit` on. */
void run_present(const Run *run, size_t at, size_t count, uint8_t *present, size_t bit);

/* Finds the string of a row that is not missing. `room` has `size` bytes for a string of a fixed size. Returns false if the row is
 * malformed: then a buffer changed after `run_check`. */
bool run_string(const Run *run, size_t at, uint8_t *room, ds_string *string);

/* Checks all rows that are not missing: offsets, indices and UTF-8. Sets an error if one is malformed. `missing` is NULL or has a
 * bool for each row, `array` is NULL or a numpy array with the rows. */
bool run_check(Run *run, const bool *missing, PyObject *array);

/* --- many.c --- */

/* Many items: those of runs, the strings and numbers of a list, or those of an iterator. Runs and a list are read as a whole, and
 * an iterator in chunks. All items here were checked. Weights are read in the same way. */
typedef struct {
    size_t count; /* with the missing ones */
    bool of_weights;
    bool weights_with_sign;
    bool with_texts;   /* whether some item may be a string */
    bool with_numbers; /* of a list or an iterator: whether some item is a number */
    bool below_top; /* of runs: whether all numbers were checked to be below 2^63, since the sketch's have the other signedness */
    Item *items;    /* NULL for runs */
    PyObject *tuple;
    Run *runs;
    size_t num_runs;
    bool with_sign;  /* whether the numbers of runs are signed */
    bool of_entries; /* whether the runs have dictionaries */
    bool has_gaps;   /* whether an item may be missing */
    bool *missing;   /* NULL, or a bool for each item, and of an iterator for each of `room` */
    Py_buffer view;
    PyObject *iterator; /* NULL if all items are read */
    PyObject **held;    /* the objects of the iterator's chunk */
    size_t num_held, room;
} Items;

#define STREAM_CHUNK 4096

/* Opens a source. Items of an iterator are not read yet. */
bool items_open(const Source *source, Items *items);

/* Reads the next items of an iterator, at most `most`. Sets `iterator` to NULL at its end. */
bool items_next(Items *items, size_t most);
void items_release(Items *items);

/* Appends a run, and takes its array. Returns false, with an error set, if that fails: then the caller releases the array. */
bool items_add(Items *items, const Run *run);

/* --- arrow.c --- */

/* Returns whether the object exports a column by Arrow's C data interface, or -1 with an error set. */
int is_arrow(PyObject *object);

/* Calls the object's export. Returns a capsule of a stream, or a tuple of the capsules of a schema and an array. */
PyObject *arrow_export(PyObject *object);

/* Opens what `arrow_export` returns. Takes over what the capsules own. */
bool arrow_open(const Source *source, Items *items);

/* --- weights.c --- */

/* The weights of items: one for all, or one for each. */
typedef struct {
    uint64_t same;
    bool each;
    bool with_sign; /* whether a weight may be below 0 */
    Items items;
} Weights;

/* Opens the arguments of an update: a mapping, or items with weights, which may be NULL. */
bool update_open(PyObject *given, PyObject *given_weights, bool with_sign, Items *items, Weights *weights);

/* Opens the argument of a call that takes no weights. */
bool items_of(PyObject *given, const char *call, Items *items, Weights *weights);

/* Reads the next items and weights if they come from iterators. */
bool update_next(Items *items, Weights *weights);

/* Returns DS_WEIGHT_OVERFLOW if the sum of the weights of all items is above `room`, and CHANGED if one is out of the sketch's
 * range. Signed weights count by their absolute value. */
int32_t weights_fit(const Items *items, const Weights *weights, uint64_t room);

/* --- batches.c --- */

typedef struct Call Call;

/* A running call for many items. */
typedef struct {
    Sketch *self; /* NULL if the call uses no sketch */
    const Call *call;
    Use use;
    ds_sketch *handle; /* that of the work on the items that were read */
    const Items *items;
    PyThreadState *thread; /* while the interpreter's lock is released */
    bool in_use;           /* whether `use` has begun */
    uint64_t due;          /* the time of the next check for Ctrl-C, in nanoseconds, or 0 */
    uint64_t began, took;  /* start and duration of an iterator's chunk, in nanoseconds */
    uint64_t turn;         /* the time from which its chunks keep the interpreter's lock, or 0 */
    size_t done;           /* the number of items that were counted or inserted */
    bool takes_missing;    /* whether missing items have the result `missing` */
    uint64_t missing;
} Batch;

/* Results of work besides the library's: STOPPED if an error is set, and CHANGED if a buffer changed after it was checked. */
#define STOPPED INT32_MIN
#define CHANGED (INT32_MIN + 1)

/* Adds a note to the error that is set: the number of items that the call has counted or inserted. */
void note_taken(size_t done);

/* Some items as the library takes them: all strings, or all numbers. */
typedef struct {
    ds_items items;
    size_t rows;       /* the number of items */
    size_t count;      /* the number of those that are not missing */
    uint64_t *weights; /* NULL if each item weighs 1 */
    uint8_t *present;  /* the bitmap of the rows: `few_present`, or room for more */

    /* Where items and weights come from, and room for them. */
    const Batch *batch;
    const Weights *weights_from;     /* NULL if each item weighs 1 */
    size_t most;                     /* the maximum number of rows with numbers; of strings it is CHUNK at most */
    size_t ahead;                    /* the maximum number of rows that are read next, at most twice those of the chunk before */
    uint64_t *numbers;               /* `few_numbers`, or room for more */
    uint64_t few_numbers[CHUNK + 1]; /* also the offsets of CHUNK strings */
    uint8_t few_present[CHUNK / 8];
    uint64_t few_weights[CHUNK];
    ds_string strings[CHUNK];
    uint8_t *room; /* for strings of a fixed size */
    size_t room_size;
} Chunk;

/* A call for many items: an update, whose items may have weights, or a query. */
struct Call {
    const char *name; /* of the method, for errors */
    bool changes;     /* whether it changes the sketch */

    /* Checks all items before the first is taken, unless it is NULL. Returns false, with an error set, if the call rejects them. */
    bool (*check)(const Sketch *self, Items *items);

    /* Takes a chunk. If it returns an error, it adds to `done` the number of items before it. */
    int32_t (*take)(Batch *batch, const Chunk *chunk, void *results);
    const void *context; /* what `take` reads besides the sketch */
    const char *type;    /* of a query: numpy's name of the type of a result: "?", "u8" or "i8" */
    int width;           /* of a query: how many numbers of this type a result has: 1, or the 3 of bounds */
    bool has_missing;    /* of a query: whether it has the argument `missing` */
};

/* Updates the sketch with all items, and releases them. */
PyObject *update_all(Sketch *self, Items *items, Weights *weights, const Call *call);

/* Returns the results of a query: a Series if the items come from a Series of pandas, an array if they come from an array of numpy or
 * another column, else a list. `missing` is the result of missing items, or NULL or None if the query rejects them. */
PyObject *ask_all(Sketch *self, PyObject *given, const Call *call, PyObject *missing);

/* Finds the argument `missing` of a query, or NULL. Returns false, with an error set, if the arguments are others. */
bool query_arguments(const char *name, PyObject *const *args, Py_ssize_t count, PyObject *names, PyObject **missing);

/* Returns bounds as a tuple. */
PyObject *bounds_tuple(const ds_item_bounds *bounds);

/* --- chunks.c --- */

/* Writes the bitmap of rows that are not missing, neither among the items nor among the others, which may be NULL. Returns the
 * number of these rows. */
size_t rows_present(const Items *items, const Items *others, size_t first, size_t count, uint8_t *present);

/* Returns the number of missing items. */
size_t items_gaps(const Items *items);

/* Finds a number of 2^63 or more in a row that is not missing, neither among the numbers nor among the others. */
bool find_above_top(const Items *numbers, const Items *others, uint64_t *number);

/* Copies `count` weights from index `first` on. The weight of a missing item may be out of the sketch's range. */
void weights_chunk(const Weights *weights, size_t first, size_t count, uint64_t *chunk);

/* Prepares a chunk for the items of the batch and their weights, which are NULL if each item weighs 1. */
void chunk_open(Chunk *chunk, const Batch *batch, const Weights *weights);
void chunk_close(Chunk *chunk);

/* Reads items and weights from row `first` on. Other threads cannot change the numbers here. Returns CHANGED if a buffer changed
 * after it was checked so that a value is malformed, and DS_NO_MEMORY. */
int32_t chunk_read(Chunk *chunk, size_t first);

/* --- frequent.c --- */

/* Returns whether the sketch counts this item, which may be missing. Sets an error if not. Other sketches than those of frequent
 * items count all. */
bool counts(const Sketch *self, const Item *item);

/* Does the same for all items. */
bool counts_all(const Sketch *self, Items *items);

/* --- updates.c --- */

/* Adds weights to those of items, of Count-Min sketches and of frequent items. */
PyObject *sketch_update(PyObject *object, PyObject *const *args, Py_ssize_t count, PyObject *names);

#endif
