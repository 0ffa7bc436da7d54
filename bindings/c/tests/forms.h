/* The same strings as items of each kind: with offsets of 64 and of 32 bits, in an array, and as words and lines. */
#ifndef FORMS_H
#define FORMS_H

#include <datasketches.h>
#include <string.h>

enum { MAX_STRINGS = 600, MAX_BYTES = 1 << 15 };

/* Strings. None is empty or has white space. A byte that belongs to no string comes before the first one. */
struct forms {
    uint8_t bytes[MAX_BYTES], text[MAX_BYTES];
    uint64_t offsets[MAX_STRINGS + 1];
    uint32_t offsets32[MAX_STRINGS + 1];
    ds_string strings[MAX_STRINGS];
    size_t count;
};

/* Puts no strings into the forms. */
static inline void clear_forms(struct forms *it)
{
    it->bytes[0] = 0xff;
    it->count = 0;
    it->offsets[0] = it->offsets32[0] = 1;
}

/* Adds a string at the end. */
static inline void add_string(struct forms *it, const void *string, size_t length)
{
    size_t start = (size_t)it->offsets[it->count], of_line = start - 1 + it->count;
    memcpy(it->bytes + start, string, length);
    memcpy(it->text + of_line, string, length);
    it->text[of_line + length] = '\n';
    it->strings[it->count++] = (ds_string){it->bytes + start, length};
    it->offsets[it->count] = start + length;
    it->offsets32[it->count] = (uint32_t)(start + length);
}

/* Returns `count` strings from index `from` on as items of a kind. */
static inline ds_items strings_of(const struct forms *it, int32_t kind, size_t from, size_t count)
{
    size_t num_bytes = (size_t)it->offsets[it->count], end = from + count;
    const uint8_t *text = it->text + it->offsets[from] - 1 + from;
    size_t length = (size_t)(it->offsets[end] - it->offsets[from]) + count;
    switch (kind) {
    case DS_ITEMS_OFFSETS: return ds_items_offsets(it->bytes, num_bytes, it->offsets + from, count + 1);
    case DS_ITEMS_OFFSETS32: return ds_items_offsets32(it->bytes, num_bytes, it->offsets32 + from, count + 1);
    case DS_ITEMS_STRINGS: return ds_items_strings(it->strings + from, count);
    case DS_ITEMS_WORDS: return ds_items_words(text, length);
    default: return ds_items_lines(text, length);
    }
}

#endif
