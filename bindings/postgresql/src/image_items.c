/* What an image of frequent items tells of its items. The library has read it before, or will. */
#include "extension.h"

#define WEIGHTS 32 /* the first byte of the weights, of 8 bytes each */

/* Returns the number of counters of an image, or 0 if it states an empty sketch or is cut before its items. */
static uint64 count_of(const uint8 *image, size_t length)
{
    uint64 count = length >= WEIGHTS && (image[0] & 63) == 4 ? number_at(image + 8, 4) : 0;
    return count <= (length - WEIGHTS) / 8 ? count : 0;
}

/* The bytes of the string that begins at `at`, after its length of 4 bytes. Returns false if they are not all there. */
static bool string_at(const uint8 *image, size_t length, size_t at, ds_string *string)
{
    if (length - at < 4) return false;
    string->length = number_at(image + at, 4);
    string->bytes = image + at + 4;
    return string->length <= length - at - 4;
}

size_t check_zero_bytes(const void *bytes, size_t length)
{
    const uint8 *image = bytes;
    uint64 count = count_of(image, length);
    size_t first = WEIGHTS + 8 * count, at = first;
    ds_string string;
    for (uint64 i = 0; i < count && string_at(image, length, at, &string); i++) {
        const uint8 *zero = string.length > 0 ? memchr(string.bytes, 0, string.length) : NULL;
        if (zero != NULL)
            ereport(ERROR, (errcode(ERRCODE_CHARACTER_NOT_IN_REPERTOIRE),
                            errmsg("string " UINT64_FORMAT " of the image has a zero byte, at byte %zu of the image", i + 1,
                                   (size_t)(zero - image)),
                            errdetail("Strings of PostgreSQL have none.")));
        at += 4 + string.length;
    }
    return at - first - Min(at - first, COUNTED_BYTES * count);
}

void check_bigints(const void *bytes, size_t length)
{
    const uint8 *image = bytes;
    uint64 count = count_of(image, length), i = 0;
    size_t at = WEIGHTS + 8 * count;
    ds_string string;
    if (count == 0 || length == WEIGHTS + 16 * count) return;
    for (; i < count && string_at(image, length, at, &string); i++) at += 4 + string.length;
    if (i == count && at == length) raise_items("the image is of strings, not of bigints", NULL);
}
