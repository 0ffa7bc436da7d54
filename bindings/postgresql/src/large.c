/* Stored forms of sketches above the limits of users, which are read from texts: those limits do not hold for them, and the texts may be
 * untrusted. So they take memory by their own bytes, and not by the sizes that they state. */
#include "extension.h"

/* The flags of the images of a filter without set bits, and of counts with the total weight 0. */
enum { EMPTY_FILTER_FLAG = 4, EMPTY_COUNTS_FLAG = 1 };

uint64 stated_bytes(Kind kind, const uint8 *image, size_t length)
{
    if (kind == DS_BLOOM) return length >= EMPTY_FILTER ? 8 * number_at(image + 16, 4) : 0;
    if (!is_frequent(kind)) return length >= EMPTY_COUNTS ? 8 * image[12] * (number_at(image + 8, 4) + 1) : 0;
    if (length < EMPTY_COUNTS || image[4] > 30) return 0;
    return (uint64)(kind == DS_FREQUENT_ITEMS_STRING ? BYTES_OF_SLOT : BYTES_OF_BIGINT_SLOT) << image[4];
}

size_t read_empty(Kind kind, uint8 *image, size_t length, uint64 seed)
{
    uint64_t none = 0;
    int64_t signed_none = 0;
    if (is_frequent(kind) || (image[3] & (kind == DS_BLOOM ? EMPTY_FILTER_FLAG : EMPTY_COUNTS_FLAG)) == 0) return 0;
    if (kind == DS_BLOOM) {
        check_result(ds_bloom_image_contains_u64(image, length, 0));
        image[0] = 3, image[3] = EMPTY_FILTER_FLAG;
        memset(image + 6, 0, 2);
        memset(image + 20, 0, 4);
        return EMPTY_FILTER;
    }
    check_result(kind == DS_COUNT_MIN_U64 ? ds_count_min_u64_image_estimate_u64(image, length, seed, 0, &none)
                                          : ds_count_min_i64_image_estimate_u64(image, length, seed, 0, &signed_none));
    image[0] = 2, image[3] = EMPTY_COUNTS_FLAG, image[15] = 0;
    memset(image + 4, 0, 4);
    return EMPTY_COUNTS;
}

uint8 shrink_table(uint8 *image, size_t length)
{
    uint64 count = length >= 32 && (image[0] & 63) == 4 ? number_at(image + 8, 4) : UINT64_MAX;
    uint8 stated = image[4], least = 3;
    while (least < 30 && ((uint64)1 << least) / 4 * 3 < count) least++;
    if (least < stated && stated <= image[3] && image[3] <= 30) image[4] = least;
    return stated;
}
