#include <datasketches.h>
#include <stdio.h>

int main(void)
{
    static uint8_t image[1 << 16];
    const ds_image_options options = DS_IMAGE_OPTIONS(1 << 20);
    const size_t length = fread(image, 1, sizeof image, stdin);
    ds_item_bounds bounds;
    ds_sketch drinks = DS_NONE;

    int32_t result = ds_deserialize(&drinks, DS_FREQUENT_ITEMS_STRING, image, length, &options);
    if (result == DS_OK) result = ds_frequent_items_string_bounds(&drinks, (const uint8_t *)"tea", 3, &bounds);
    ds_free(&drinks);
    if (result < 0) return fprintf(stderr, "%s\n", ds_result_message(result)), 1;
    printf("tea: %llu to %llu\n", (unsigned long long)bounds.lower_bound, (unsigned long long)bounds.upper_bound);
    return 0;
}
