/* The version of the library that runs, which may be newer than the header that the caller was compiled with. */
#include "datasketches.h"

const char *ds_version(void)
{
    return DS_VERSION;
}
