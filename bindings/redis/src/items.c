/* The items of a call.
 *
 * Filters and Count-Min sketches hash an item as its bytes and then the byte 255. So do the other interfaces of the library with
 * strings, so an item in UTF-8 is the same in all of them. Other bytes are hashed here the same way.
 *
 * Frequent items keep the items themselves, as strings in UTF-8. An item of other bytes is kept as the character U+10FFFF and then
 * one character, U+0000 to U+00FF, for each byte. An item in UTF-8 that begins with U+10FFFF is kept in the same way. So no two
 * items are kept as one string. */
#include "module.h"

#include <string.h>

/* The character U+10FFFF in UTF-8. */
static const uint8_t mark[4] = {0xf4, 0x8f, 0xbf, 0xbf};

static bool has_mark(const uint8_t *bytes, size_t length)
{
    return length >= sizeof mark && memcmp(bytes, mark, sizeof mark) == 0;
}

/* Returns room for bytes: in the items themselves if there is some, and otherwise in a block, which is then noted. Returns null after
 * an error. */
static void *room_for(Call *call, Items *items, size_t bytes, void **block)
{
    size_t left = sizeof items->room - items->used;
    void *room = (uint8_t *)items->room + items->used;
    if (bytes <= left) {
        items->used += bytes;
    } else {
        room = *block = try_block(bytes);
        if (room == NULL) reply_error(call, no_memory);
    }
    return room;
}

/* Takes the arguments from `first` on, each `step`th, as they are. Returns false after an error. */
static bool take_arguments(Call *call, int first, int step, Items *items)
{
    items->count = ((size_t)(call->argc - first) + (size_t)step - 1) / (size_t)step;
    items->bytes = items->used = 0;
    items->block = items->more = NULL;
    items->strings = room_for(call, items, items->count * sizeof *items->strings, &items->block);
    if (items->strings == NULL) return false;
    for (size_t i = 0; i < items->count; i++) {
        ds_string *string = &items->strings[i];
        string->bytes = (const uint8_t *)RedisModule_StringPtrLen(call->argv[first + (int)i * step], &string->length);
        items->bytes += string->length;
    }
    items->rows = ds_items_strings(items->strings, items->count);
    return true;
}

bool hashed_items(Call *call, int first, int step, Items *items)
{
    uint8_t *to;
    if (!take_arguments(call, first, step, items)) return false;
    items->bytes += items->count;
    to = room_for(call, items, items->bytes, &items->more);
    if (to == NULL) {
        free_items(items);
        return false;
    }
    for (size_t i = 0; i < items->count; i++) {
        ds_string *string = &items->strings[i];
        memcpy(to, string->bytes, string->length);
        string->bytes = to;
        to += string->length;
        *to++ = 0xff;
        string->length++;
    }
    items->rows = ds_items_fed(items->strings, items->count);
    return true;
}

/* Writes the string that an item is kept as, and returns its length. */
static size_t marked(const uint8_t *item, size_t length, uint8_t *out)
{
    uint8_t *to = out + sizeof mark;
    memcpy(out, mark, sizeof mark);
    for (size_t i = 0; i < length; i++) {
        if (item[i] >= 0x80) *to++ = (uint8_t)(0xc0 | item[i] >> 6);
        *to++ = item[i] >= 0x80 ? (uint8_t)(0x80 | (item[i] & 0x3f)) : item[i];
    }
    return (size_t)(to - out);
}

/* Returns whether an item is kept as another string than its bytes. */
static bool is_marked(const uint8_t *item, size_t length)
{
    return has_mark(item, length) || ds_valid_utf8(item, length) != length;
}

bool string_items(Call *call, int first, int step, Items *items)
{
    size_t more = 0;
    uint8_t *to;
    if (!take_arguments(call, first, step, items)) return false;
    for (size_t i = 0; i < items->count; i++)
        if (is_marked(items->strings[i].bytes, items->strings[i].length)) more += sizeof mark + 2 * items->strings[i].length;
    if (more == 0) return true;
    to = room_for(call, items, more, &items->more);
    if (to == NULL) {
        free_items(items);
        return false;
    }
    items->bytes = 0;
    for (size_t i = 0; i < items->count; i++) {
        ds_string *string = &items->strings[i];
        if (is_marked(string->bytes, string->length)) {
            string->length = marked(string->bytes, string->length, to);
            string->bytes = to;
            to += string->length;
        }
        items->bytes += string->length;
    }
    return true;
}

/* Returns whether a line begins with the mark. */
static bool has_marked_line(const uint8_t *text, size_t length)
{
    const uint8_t *at = text, *end = text + length;
    while ((at = memchr(at, mark[0], (size_t)(end - at))) != NULL) {
        if ((at == text || at[-1] == '\n') && has_mark(at, (size_t)(end - at))) return true;
        at++;
    }
    return false;
}

/* Writes the strings that the lines are kept as, with the ends of lines as they are, and returns the number of bytes. Returns at
 * least this number if `out` is null. */
static size_t marked_lines(const uint8_t *text, size_t length, uint8_t *out)
{
    const uint8_t *end = text + length;
    size_t bytes = 0;
    while (text < end) {
        const uint8_t *feed = memchr(text, '\n', (size_t)(end - text));
        size_t line = (size_t)((feed != NULL ? feed : end) - text);
        bool is_kept = !is_marked(text, line);
        if (out == NULL) {
            bytes += is_kept ? line : sizeof mark + 2 * line;
        } else if (is_kept) {
            memcpy(out + bytes, text, line);
            bytes += line;
        } else {
            bytes += marked(text, line, out + bytes);
        }
        if (feed != NULL && out != NULL) out[bytes] = '\n';
        bytes += feed != NULL;
        text += line + (feed != NULL);
    }
    return bytes;
}

bool string_lines(Call *call, int at, Items *items)
{
    size_t length;
    const uint8_t *text = (const uint8_t *)RedisModule_StringPtrLen(call->argv[at], &length);
    uint8_t *to;
    items->used = 0;
    items->block = items->more = NULL;
    items->rows = ds_items_lines(text, length);
    items->bytes = length;
    if (!has_marked_line(text, length) && ds_num_items(&items->rows, &items->count) == DS_OK) return true;
    to = room_for(call, items, marked_lines(text, length, NULL), &items->more);
    if (to == NULL) return false;
    items->bytes = marked_lines(text, length, to);
    items->rows = ds_items_lines(to, items->bytes);
    ds_num_items(&items->rows, &items->count);
    return true;
}

/* Returns the next line of a string from a position on, without its line feed and a carriage return before that. The position is
 * then after the line. */
static ds_string next_line(const uint8_t *text, size_t length, size_t *at)
{
    const uint8_t *line = text + *at, *feed = memchr(line, '\n', length - *at), *end = feed != NULL ? feed : text + length;
    *at = (size_t)(end - text) + (feed != NULL);
    if (feed != NULL && feed > line && feed[-1] == '\r') end--;
    return (ds_string){line, (size_t)(end - line)};
}

size_t next_strings(const Items *items, size_t *at, ds_string *strings)
{
    size_t count = 0;
    if (items->rows.kind == DS_ITEMS_STRINGS) {
        while (count < MOST_STRINGS && *at < items->count) strings[count++] = items->strings[(*at)++];
    } else {
        while (count < MOST_STRINGS && *at < items->bytes) strings[count++] = next_line(items->rows.bytes, items->bytes, at);
    }
    return count;
}

void free_items(Items *items)
{
    free_block(items->block);
    free_block(items->more);
}

/* Reads the character at a position of UTF-8, if it is at most U+00FF, and moves on. Returns false for another one. */
static bool read_byte(const uint8_t *bytes, size_t length, size_t *at, uint8_t *byte)
{
    uint8_t first = bytes[*at];
    if (first >= 0x80 && (*at + 1 >= length || (first != 0xc2 && first != 0xc3))) return false;
    *byte = first < 0x80 ? first : (uint8_t)(first << 6 | (bytes[*at + 1] & 0x3f));
    *at += first < 0x80 ? 1 : 2;
    return true;
}

void reply_item(Call *call, uint8_t *bytes, size_t length)
{
    size_t at = sizeof mark, written = 0;
    uint8_t byte = 0;
    if (!has_mark(bytes, length)) {
        RedisModule_ReplyWithStringBuffer(call->ctx, (const char *)bytes, length);
        return;
    }
    while (at < length && read_byte(bytes, length, &at, &byte)) continue;
    if (at == length) { /* otherwise the string came with an image, and is no item that this module kept */
        for (at = sizeof mark; at < length; bytes[written++] = byte) read_byte(bytes, length, &at, &byte);
        length = written;
    }
    RedisModule_ReplyWithStringBuffer(call->ctx, (const char *)bytes, length);
}
