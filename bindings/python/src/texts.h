/* Declarations of text that is split into words, lines or fields of records: of a string, of a buffer and of a file. */
#ifndef TEXTS_H
#define TEXTS_H

#include "sketches.h"

#include <string.h>

/* How many bytes one call of the library takes, and more only up to the end of a word or line. */
#define PIECE ((size_t)1 << 20)

/* What is taken of a text: its words, its lines, or a field of each of its records. */
typedef struct {
    bool of_lines;           /* whether a piece ends with a line, and not with a word */
    const ds_fields *fields; /* the fields of records, or NULL for words and lines */
} Taken;

/* Returns whether a byte ends a word, or a line if `of_lines`. */
static inline bool is_end(uint8_t byte, bool of_lines)
{
    return byte == '\n' || (!of_lines && (byte == ' ' || byte == '\t' || byte == '\f' || byte == '\r'));
}

/* Returns the offset after the first byte from `from` on that ends a word or line, or `length` if there is none. */
static inline size_t end_after(const uint8_t *bytes, size_t length, bool of_lines, size_t from)
{
    if (of_lines) {
        const uint8_t *last = memchr(bytes + from, '\n', length - from);
        return last != NULL ? (size_t)(last - bytes) + 1 : length;
    }
    while (from < length && !is_end(bytes[from], false)) from++;
    return from < length ? from + 1 : length;
}

/* Returns the end of the piece of memory that begins at `from`: no word, line or record goes on after it. */
static inline size_t piece_end(const uint8_t *bytes, size_t length, const Taken *taken, size_t from)
{
    if (length - from <= PIECE) return length;
    if (taken->fields == NULL || taken->fields->format != DS_FIELDS_CSV)
        return end_after(bytes, length, taken->of_lines, from + PIECE);
    for (size_t size = PIECE; size < length - from; size *= 2) {
        size_t end = ds_finished_csv_records(bytes + from, size, taken->fields->delimiter);
        if (end > 0) return from + end;
    }
    return length;
}

/* Returns the words or the lines of bytes as the library takes them. */
static inline ds_items items_in(const uint8_t *bytes, size_t length, bool of_lines)
{
    return ds_items_in(of_lines ? DS_ITEMS_LINES : DS_ITEMS_WORDS, bytes, length);
}

/* Counts or inserts the words, lines or fields of bytes. `read` is written for fields alone. */
static inline int32_t take_bytes(ds_sketch *handle, int32_t kind, const uint8_t *bytes, size_t length, const Taken *taken,
                                 ds_fields_read *read)
{
    if (taken->fields != NULL) return ds_update_fields(handle, bytes, length, taken->fields, read);
    ds_items items = items_in(bytes, length, taken->of_lines);
    return kind == DS_BLOOM ? ds_bloom_insert_all(handle, &items) : ds_update_all(handle, &items);
}

/* Returns whether the sketch takes strings. */
static inline bool takes_texts(const Sketch *self)
{
    return self->kind != DS_FREQUENT_ITEMS_U64 && self->kind != DS_FREQUENT_ITEMS_I64;
}

/* --- threads.c --- */

/* Where threads read text from. */
typedef enum {
    FROM_MEMORY,
    FROM_FILE,  /* a regular file, which threads read at once */
    FROM_STREAM /* a file that they read in turns, as a pipe */
} Origin;

typedef struct {
    Origin origin;
    const uint8_t *bytes; /* of memory */
    bool may_change;      /* of memory: then each piece is copied before the library reads it */
    int file;             /* of a file or a stream: its descriptor */
    uint64_t start;       /* of a file or a stream: the place of the first byte */
    uint64_t length;      /* the number of bytes, but of a stream 0 */
    const uint8_t *front; /* of a stream: bytes that were read before, and come first */
    size_t front_length;
} Input;

/* Reads a number of threads, from 1 to 1024. None is one for each processor that the process may use, as far as sketches like this
 * one take at most 1 GiB in all. Returns false, with an error set, if the object is none of these. */
bool threads_of(Sketch *self, PyObject *object, size_t *threads);

/* Counts or inserts all words, lines or fields, by threads that take pieces of about PIECE bytes. A regular file has no fields: those of
 * a file are read as a stream. Each thread has a sketch of its own, and all are merged at the end. Calls `progress`, unless it is NULL,
 * with numbers of bytes that were taken. For fields it sets `numbers` to the tuple that `field_numbers` returns. Returns false, with an
 * error set, if some bytes are rejected or cannot be read, or if Ctrl-C ends the call. Then the sketch is as before. */
bool take_by_threads(Sketch *self, const Input *input, const Taken *taken, size_t threads, PyObject *progress, PyObject **numbers);

/* --- words.c --- */

/* Returns a tuple of the number of records, and of those without an item. */
PyObject *field_numbers(size_t num_records, size_t num_items);

/* Reads the arguments of a call for fields: indices, of which `weight` may be NULL, a delimiter, which may be NULL, and the format.
 * Returns false, with an error set, if one is wrong. */
bool fields_of(PyObject *item, PyObject *weight, PyObject *delimiter, bool csv, ds_fields *fields);

#endif
