/* The functions of `datasketches_typed.h` as calls of the library, for callers without the headers. */
#define DS_TYPED
#include "datasketches.h"
