/* The call that checks UTF-8: that of chunks, with a choice. */
#define DS_NO_CHECKS

#include "datasketches.h"

size_t ds_valid_utf8(const uint8_t *text, size_t length)
{
    return ds_finished(DS_CHUNK_UTF8, text, length, 0);
}
