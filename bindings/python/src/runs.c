/* Rows of runs: numbers, strings, and which rows are missing. The memory of a run may belong to other threads too, so what was
 * checked at first is checked again where it is used: by the library, if it gets the offsets of strings. */
#include "items.h"

#include <string.h>

/* The number of rows that are checked between two checks for signals. */
#define SIGNALS ((size_t)1 << 16)

/* The bytes of a view: its length, and its string, or the string's first bytes, buffer and offset. */
#define VIEW_SIZE 16
#define VIEW_INLINE 12

static const uint8_t empty[1];
static const Item gap = {.missing = true};

/* Copies numbers of a C type into 64-bit numbers. */
#define WIDEN(type) \
    for (size_t i = 0; i < count; i++) { \
        type number; \
        memcpy(&number, start + (Py_ssize_t)i * stride, sizeof number); \
        numbers[i] = (uint64_t)number; \
    } \
    break

static void copy_native(const char *start, Py_ssize_t stride, Py_ssize_t size, bool with_sign, size_t count, uint64_t *numbers)
{
    switch (with_sign ? size : -size) {
    case 1: WIDEN(int8_t);
    case 2: WIDEN(int16_t);
    case 4: WIDEN(int32_t);
    case -1: WIDEN(uint8_t);
    case -2: WIDEN(uint16_t);
    case -4: WIDEN(uint32_t);
    default: WIDEN(uint64_t);
    }
}

/* Copies numbers whose bytes are in the other order. */
static void copy_swapped(const char *start, Py_ssize_t stride, Py_ssize_t size, bool with_sign, size_t count, uint64_t *numbers)
{
    unsigned char bytes[8] = {0};
    for (size_t i = 0; i < count; i++) {
        for (Py_ssize_t j = 0; j < size; j++) bytes[j] = (unsigned char)start[(Py_ssize_t)i * stride + size - 1 - j];
        copy_native((const char *)bytes, size, size, with_sign, 1, &numbers[i]);
    }
}

static const char *row_start(const Run *run, size_t at)
{
    return run->start + (Py_ssize_t)at * run->stride;
}

static void copy_numbers(const Run *run, size_t at, size_t count, uint64_t *numbers)
{
    const char *start = row_start(run, at);
    if (run->swapped) copy_swapped(start, run->stride, run->size, run->with_sign, count, numbers);
    else if (run->size == 8 && run->stride == 8) memcpy(numbers, start, count * 8);
    else copy_native(start, run->stride, run->size, run->with_sign, count, numbers);
}

static bool is_valid(const Run *run, size_t at)
{
    return run->layout != NOTHING && (run->validity == NULL || is_present(run->validity, run->bit + at));
}

void run_numbers(const Run *run, size_t at, size_t count, uint64_t *numbers)
{
    if (run->layout == NOTHING) memset(numbers, 0, count * sizeof *numbers);
    else copy_numbers(run, at, count, numbers);
}

const Item *run_entry_by_index(const Run *run, size_t at, uint64_t index)
{
    if (run->validity != NULL && !is_valid(run, at)) return &gap;
    if (index < run->num_entries) return &run->entries[index];
    return run->gaps_by_code && index == UINT64_MAX ? &gap : NULL;
}

const Item *run_entry(const Run *run, size_t at)
{
    uint64_t index;
    copy_numbers(run, at, 1, &index);
    return run_entry_by_index(run, at, index);
}

void run_present(const Run *run, size_t at, size_t count, uint8_t *present, size_t bit)
{
    size_t i = 0, start = run->bit + at, shift = start % 8;
    const uint8_t *bits = run->validity;
    bool by_bytes = bits != NULL && run->entries == NULL && bit % 8 == 0;
    if (!run->has_gaps) return;
    for (size_t byte = start / 8; by_bytes && i + 8 <= count; i += 8, byte++)
        present[(bit + i) / 8] &= (uint8_t)(bits[byte] >> shift | (shift > 0 ? bits[byte + 1] << (8 - shift) : 0));
    for (; i < count; i++) {
        const Item *entry = run->entries != NULL ? run_entry(run, at + i) : NULL;
        drop(present, bit + i, run->entries != NULL ? entry != NULL && entry->missing : !is_valid(run, at + i));
    }
}

/* Finds a string by its offsets. */
static bool string_by_offsets(const Run *run, size_t at, ds_string *string)
{
    uint64_t ends[2];
    copy_native(row_start(run, at), run->stride, run->size, true, 2, ends);
    if (ends[0] > ends[1] || ends[1] > run->num_bytes) return false;
    *string = (ds_string){run->bytes + ends[0], ends[1] - ends[0]};
    return true;
}

/* Finds a string by its view. */
static bool string_by_view(const Run *run, size_t at, ds_string *string)
{
    const char *view = row_start(run, at);
    int32_t length, where[2];
    memcpy(&length, view, sizeof length);
    memcpy(where, view + 8, sizeof where);
    *string = (ds_string){(const uint8_t *)view + 4, (size_t)length};
    if (length >= 0 && length <= VIEW_INLINE) return true;
    if (length < 0 || where[0] < 0 || where[1] < 0 || (size_t)where[0] >= run->num_buffers) return false;
    const uint8_t *bytes = run->buffers[where[0]];
    int64_t size;
    memcpy(&size, &run->sizes[where[0]], sizeof size);
    string->bytes = bytes + where[1];
    return bytes != NULL && size - where[1] >= length;
}

/* Copies the bytes of a string of a fixed size, without NULs at the end. */
static void copy_fixed_bytes(const Run *run, size_t at, uint8_t *out, ds_string *string)
{
    size_t length = (size_t)run->size;
    memcpy(out, row_start(run, at), length);
    while (length > 0 && out[length - 1] == 0) length--;
    *string = (ds_string){out, length};
}

static uint32_t code_point(const Run *run, const char *start)
{
    uint32_t code;
    memcpy(&code, start, sizeof code);
    return run->swapped ? __builtin_bswap32(code) : code;
}

/* Writes a code point as UTF-8, and returns the number of bytes, or 0 if it is none of Unicode's characters. */
static size_t encode(uint32_t code, uint8_t *out)
{
    if (code < 0x80) {
        out[0] = (uint8_t)code;
        return 1;
    }
    size_t more = code < 0x800 ? 1 : code < 0x10000 ? 2 : 3;
    if (code > 0x10FFFF || (code >= 0xD800 && code < 0xE000)) return 0;
    out[0] = (uint8_t)(0xF0 << (3 - more) | code >> 6 * more);
    for (size_t i = 1; i <= more; i++) out[i] = (uint8_t)(0x80 | (code >> 6 * (more - i) & 0x3F));
    return more + 1;
}

/* Encodes the code points of a string of a fixed size, without NULs at the end. They take at most the size that they have. */
static bool encode_fixed_wide(const Run *run, size_t at, uint8_t *out, ds_string *string)
{
    const char *start = row_start(run, at);
    Py_ssize_t size = run->size;
    size_t length = 0, used = 1;
    while (size > 0 && code_point(run, start + size - 4) == 0) size -= 4;
    for (Py_ssize_t i = 0; i < size && used > 0; i += 4) {
        used = encode(code_point(run, start + i), out + length);
        length += used;
    }
    *string = (ds_string){out, length};
    return used > 0;
}

bool run_string(const Run *run, size_t at, uint8_t *room, ds_string *string)
{
    switch (run->layout) {
    case STRINGS_32:
    case STRINGS_64: return string_by_offsets(run, at, string);
    case VIEWS: return string_by_view(run, at, string);
    case FIXED_BYTES: copy_fixed_bytes(run, at, room, string); return true;
    case FIXED_WIDE: return encode_fixed_wide(run, at, room, string);
    default: *string = (ds_string){empty, 0}; return true;
    }
}

static bool is_ascii(const uint8_t *bytes, size_t length)
{
    uint8_t last = 0;
    uint64_t all = 0, word;
    for (; length >= sizeof word; bytes += sizeof word, length -= sizeof word) {
        memcpy(&word, bytes, sizeof word);
        all |= word;
    }
    for (size_t i = 0; i < length; i++) last |= bytes[i];
    return (all & 0x8080808080808080) == 0 && last < 0x80;
}

static bool is_utf8(const ds_string *string)
{
    return is_ascii(string->bytes, string->length) || ds_valid_utf8(string->bytes, string->length) == string->length;
}

/* Sets the error for a string that is not Unicode: that of Python's own conversion. */
static bool not_unicode(PyObject *array, size_t at, const ds_string *string)
{
    PyObject *entry = array != NULL ? PySequence_GetItem(array, (Py_ssize_t)at) : NULL;
    if (array == NULL || (entry != NULL && PyBytes_Check(entry)))
        Py_XDECREF(PyUnicode_DecodeUTF8((const char *)string->bytes, (Py_ssize_t)string->length, NULL));
    else if (entry != NULL && PyUnicode_Check(entry)) PyUnicode_AsUTF8(entry);
    Py_XDECREF(entry);
    if (!PyErr_Occurred()) PyErr_SetString(PyExc_RuntimeError, "another thread changed a buffer during the call");
    return false;
}

static bool malformed(const char *what, size_t row)
{
    PyErr_Format(PyExc_ValueError, "malformed column: %s at row %zu", what, row);
    return false;
}

/* Returns whether the offsets never descend from 0 on, and notes the last. Those of missing rows count too. */
static bool check_offsets(Run *run)
{
    uint64_t ends[CHUNK + 1], before = 0;
    for (size_t at = 0, count; at < run->count; at += count) {
        count = run->count - at < CHUNK ? run->count - at : CHUNK;
        copy_native(row_start(run, at), run->stride, run->size, true, count + 1, ends);
        for (size_t i = 0; i <= count; i++, before = ends[i - 1])
            if (ends[i] > INT64_MAX || ends[i] < before) return malformed("offsets descend or are below 0", run->first + at + i);
    }
    run->num_bytes = before;
    if (run->bytes == NULL && before > 0) return malformed("strings without bytes", run->first);
    if (run->bytes == NULL) run->bytes = empty;
    return true;
}

/* Returns whether all strings behind the offsets are ASCII. */
static bool all_ascii(const Run *run)
{
    uint64_t begin = 0;
    if (!has_offsets(run)) return false;
    copy_native(row_start(run, 0), run->stride, run->size, true, 1, &begin);
    return begin <= run->num_bytes && is_ascii(run->bytes + begin, run->num_bytes - begin);
}

/* Checks the index of a row. Notes whether some value is missing. */
static bool check_index(Run *run, size_t at)
{
    const Item *entry = run_entry(run, at);
    run->has_gaps |= entry != NULL && entry->missing;
    return entry != NULL || malformed("an index out of range", run->first + at);
}

/* Checks the string of a row. */
static bool check_row(const Run *run, size_t at, uint8_t *room, PyObject *array)
{
    ds_string string = {empty, 0};
    if (!run_string(run, at, room, &string))
        return run->layout == FIXED_WIDE ? not_unicode(array, at, &string) : malformed("a view out of range", run->first + at);
    return run->layout == FIXED_WIDE || is_utf8(&string) || not_unicode(array, at, &string);
}

bool run_check(Run *run, const bool *missing, PyObject *array)
{
    bool fixed = run->layout == FIXED_BYTES || run->layout == FIXED_WIDE, good = true;
    run->has_gaps = run->layout == NOTHING || run->validity != NULL;
    if (run->count == 0 || run->layout == NOTHING || (run->layout == NUMBERS && run->entries == NULL)) return true;
    if (has_offsets(run) && !check_offsets(run)) return false;
    if (all_ascii(run)) return true;
    uint8_t *room = PyMem_Malloc(fixed ? (size_t)run->size : 1);
    if (room == NULL) PyErr_NoMemory();
    for (size_t at = 0; room != NULL && good && at < run->count; at++) {
        ds_string string;
        if ((missing != NULL && missing[at]) || !is_valid(run, at))
            run->has_bad_gaps |= has_offsets(run) && string_by_offsets(run, at, &string) && !is_utf8(&string);
        else good = run->entries != NULL ? check_index(run, at) : check_row(run, at, room, array);
        good = good && (at % SIGNALS != SIGNALS - 1 || PyErr_CheckSignals() == 0);
    }
    PyMem_Free(room);
    return room != NULL && good;
}
