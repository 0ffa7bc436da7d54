/* Prints the strings of `hostile_items.h` that have one MurmurHash3 under every seed, a line each, for `redis.py`. */
#include "hostile_items.h"

#include <stdio.h>

enum { COUNT = 1 << 13, LENGTH = 416 };

int main(void)
{
    static uint8_t strings[COUNT * LENGTH];
    colliding_strings(strings, COUNT);
    for (int i = 0; i < COUNT; i++) {
        if (fwrite(strings + i * LENGTH, 1, LENGTH, stdout) != LENGTH || putchar('\n') == EOF) return 1;
    }
    return 0;
}
