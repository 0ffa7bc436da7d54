/* The proved calls that only the library's own C calls. They are not exported. */
#ifndef DATASKETCHES_PROVED_H
#define DATASKETCHES_PROVED_H

#define DS_NO_CHECKS

#include "datasketches.h"

/* The sizes of a new sketch. Each kind reads its own. */
typedef struct ds_sizes {
    uint64_t num_bits;
    uint64_t seed;
    size_t max_map_size;
    size_t sample_size;
    uint64_t k0;
    uint64_t k1;
    uint32_t num_buckets;
    uint16_t num_hashes;
} ds_sizes;

/* Frees the sketch of a handle that is not null. */
void ds_free_handle(ds_sketch *handle);

/* Puts an empty sketch of a kind into the handle. Returns DS_WRONG_KIND for a kind that it does not know. */
int32_t ds_new(ds_sketch *handle, int32_t kind, const ds_sizes *sizes);

/* Reads a sketch of a kind from an image. Returns DS_WRONG_KIND for a kind that it does not know. */
int32_t ds_read_image(ds_sketch *handle, int32_t kind, const uint8_t *image, size_t length, size_t max_bytes, uint64_t seed,
                      uint64_t k0, uint64_t k1, size_t *used);

/* Freezes or thaws the handle's sketch. */
int32_t ds_set_frozen(ds_sketch *handle, bool frozen);

#endif
