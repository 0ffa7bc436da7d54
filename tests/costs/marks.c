/* Marks for callgrind, which `calls.py` makes: what is counted begins, and what was counted is written under a name. */
#include <valgrind/callgrind.h>

void marks_begin(void)
{
    CALLGRIND_ZERO_STATS;
}

void marks_end(const char *name)
{
    CALLGRIND_DUMP_STATS_AT(name);
}
