/* Options of images, and many items, as arguments in test programs. They live until the end of the block. */
#ifndef OPTIONS_H
#define OPTIONS_H

/* How many bytes the sketch may take, under the default seed and a drawn key, or under a given seed or key. */
#define WITHIN(bytes) (&(ds_image_options){(bytes), DS_DEFAULT_SEED, NULL})
#define WITHIN_SEED(bytes, seed) (&(ds_image_options){(bytes), (seed), NULL})
#define WITHIN_KEY(bytes, k0, k1) (&(ds_image_options){(bytes), DS_DEFAULT_SEED, &(ds_key){(k0), (k1)}})

/* Many items: `ds_update_all(&sketch, AS_ITEMS(u64, numbers, count))`. */
#define AS_ITEMS(form, ...) ((const ds_items[]){ds_items_##form(__VA_ARGS__)})

#endif
