/* The call that frees a handle's sketch. The proved call takes no null. */
#include "proved.h"

void ds_free(ds_sketch *handle)
{
    if (handle != NULL) ds_free_handle(handle);
}
