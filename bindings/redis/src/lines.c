/* The lines of an argument as items. A line ends at a line feed or at the end of the argument. It has neither the line feed nor a
 * carriage return before it. So do the lines of the library.
 *
 * One argument of many lines costs the server far less than as many arguments, which it copies and frees one by one. */
#include "module.h"

#include <string.h>

void copy_lines(Call *call, int at, Lines *lines)
{
    size_t length;
    const char *text = RedisModule_StringPtrLen(call->argv[at], &length);
    lines->next = lines->block != NULL ? lines->block : lines->room;
    lines->end = lines->next + length;
    memcpy(lines->next, text, length);
}

bool begin_lines(Call *call, int at, Lines *lines)
{
    size_t length;
    RedisModule_StringPtrLen(call->argv[at], &length);
    lines->block = length < sizeof lines->room ? NULL : try_block(length + 1);
    if (length >= sizeof lines->room && lines->block == NULL) {
        reply_error(call, no_memory);
        return false;
    }
    copy_lines(call, at, lines);
    return true;
}

size_t next_lines(Lines *lines, ds_items *rows)
{
    size_t count = 0;
    while (count < MOST_LINES && lines->next < lines->end) {
        uint8_t *line = lines->next, *feed = memchr(line, '\n', (size_t)(lines->end - line)), *end = feed;
        lines->next = feed != NULL ? feed + 1 : lines->end;
        if (feed == NULL) end = lines->end; /* there is room for one byte more */
        else if (feed > line && feed[-1] == '\r') end--;
        *end++ = 0xff;
        lines->strings[count++] = (ds_string){line, (size_t)(end - line)};
    }
    *rows = ds_items_fed(lines->strings, count);
    return count;
}

void end_lines(Lines *lines)
{
    free_block(lines->block);
}

uint64_t count_lines(Call *call, int at)
{
    size_t length;
    const char *text = RedisModule_StringPtrLen(call->argv[at], &length), *end = text + length;
    uint64_t count = 0;
    while (text < end) {
        const char *feed = memchr(text, '\n', (size_t)(end - text));
        text = feed != NULL ? feed + 1 : end;
        count++;
    }
    return count;
}
