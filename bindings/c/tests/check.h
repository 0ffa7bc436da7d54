/* Checks of a test program. One that fails prints its place and its text, and the program goes on. */
#ifndef CHECK_H
#define CHECK_H

#include <stdio.h>

static int checks, failures;

#define CHECK(...) \
    do { \
        checks++; \
        if (!(__VA_ARGS__)) { \
            failures++; \
            printf("%s:%d: %s\n", __FILE__, __LINE__, #__VA_ARGS__); \
        } \
    } while (0)

/* Prints how many checks hold. Returns the program's status: 0 if all do. */
static inline int report(void)
{
    printf("%d of %d checks hold\n", checks - failures, checks);
    return failures != 0;
}

#endif
