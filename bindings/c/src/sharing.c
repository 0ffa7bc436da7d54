/* The calls that freeze and thaw a sketch: a proved call with a choice. */
#include "proved.h"

int32_t ds_freeze(ds_sketch *handle)
{
    return ds_set_frozen(handle, true);
}

int32_t ds_thaw(ds_sketch *handle)
{
    return ds_set_frozen(handle, false);
}
