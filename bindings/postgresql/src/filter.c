/* Queries of Bloom filters. `contains` reads the image in place. */
#include "extension.h"

int32_t filter_contains(const Sketch *filter, const SketchItem *item)
{
    const ds_item asked = in_c(item);
    return ds_bloom_image_contains(filter->image, IMAGE_BYTES(filter), &asked);
}

PG_FUNCTION_INFO_V1(bloom_filter_contains);

/* Returns whether a filter contains an item. */
Datum bloom_filter_contains(PG_FUNCTION_ARGS)
{
    Sketch *sketch = kept_argument(fcinfo, DS_BLOOM)->sketch;
    int32_t result;
    SketchItem item;
    kept_item(fcinfo, &item);
    check_items(sketch, item.type);
    result = filter_contains(sketch, &item);
    check_result(result);
    PG_RETURN_BOOL(result == DS_YES);
}
