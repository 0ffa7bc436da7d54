/* All numbers of a sketch, one by one. */
#include "datasketches.h"

int32_t ds_get_status(ds_sketch *handle, ds_status *status)
{
    ds_status found;
    uint64_t value;
    int32_t result;
#define DS_AS_MEMBER(number, constant, type, member, text) \
    value = 0; \
    result = ds_number(handle, constant, &value); \
    if (result < 0 && result != DS_WRONG_KIND) return result; \
    found.member = (type)value;
    DS_SKETCH_NUMBERS(DS_AS_MEMBER)
#undef DS_AS_MEMBER
    *status = found;
    return DS_OK;
}
