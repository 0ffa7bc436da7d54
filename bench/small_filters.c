/* Measures the false positives of filters for few items, with random numbers in place of hashes: no call of the library is made.
 *
 *     cc -O2 bench/small_filters.c -o /tmp/small_filters -lm && /tmp/small_filters
 *
 * Each row has a rate, a number of items, and for two sizes the bits and the measured rate over the wanted one. The first size is that of
 * the published formula, the second at least 4 times the square root of items over rate. Both have the hashes of the first. */
#include <math.h>
#include <stdint.h>
#include <stdio.h>
#include <stdlib.h>
#include <string.h>

#define MIN_SEEN 4000
#define MAX_ASKED 80000000

static uint64_t state = 1;

/* Returns a random number: SplitMix64 (Steele, Lea & Flood 2014). */
static uint64_t drawn(void)
{
    uint64_t x = state += 0x9e3779b97f4a7c15;
    x = (x ^ (x >> 30)) * 0xbf58476d1ce4e5b9;
    x = (x ^ (x >> 27)) * 0x94d049bb133111eb;
    return x ^ (x >> 31);
}

/* Returns the place of an item's hash in a filter, from two random hashes, as `sketch_bloom/specs/Positions.antt` has it. */
static uint64_t place(uint64_t one, uint64_t other, int hash, uint64_t bits)
{
    return ((one + (uint64_t)hash * other) >> 1) % bits;
}

static void insert(uint64_t *words, int hashes, uint64_t bits)
{
    uint64_t one = drawn(), other = drawn();
    for (int i = 1; i <= hashes; i++) words[place(one, other, i, bits) / 64] |= (uint64_t)1 << place(one, other, i, bits) % 64;
}

static int contains(const uint64_t *words, int hashes, uint64_t bits)
{
    uint64_t one = drawn(), other = drawn();
    for (int i = 1; i <= hashes; i++) {
        uint64_t at = place(one, other, i, bits);
        if (!(words[at / 64] >> at % 64 & 1)) return 0;
    }
    return 1;
}

/* Returns the measured rate of filters of this shape. False positives of one filter come together, so many filters are made. */
static double rate_of(uint64_t items, int hashes, uint64_t bits, uint64_t most)
{
    uint64_t *words = calloc(bits / 64, 8), asked = 0, seen = 0, each = 100 + 10 * items;
    if (words == NULL) exit(1);
    while (seen < MIN_SEEN && asked < most) {
        memset(words, 0, bits / 8);
        for (uint64_t i = 0; i < items; i++) insert(words, hashes, bits);
        for (uint64_t i = 0; i < each; i++) seen += (uint64_t)contains(words, hashes, bits);
        asked += each;
    }
    free(words);
    return (double)seen / (double)asked;
}

int main(void)
{
    const uint64_t counts[] = {1, 2, 3, 5, 10, 30, 100, 300, 1000, 3000};
    for (double rate = 0.1; rate > 5e-7; rate /= 10) {
        uint64_t most = 2 * MIN_SEEN / rate < MAX_ASKED ? (uint64_t)(2 * MIN_SEEN / rate) : MAX_ASKED;
        for (size_t i = 0; i < sizeof counts / sizeof *counts; i++) {
            double items = (double)counts[i], formula = ceil(-items * log(rate) / (log(2) * log(2)));
            double least = ceil(4 * sqrt(items / rate));
            int hashes = (int)ceil(formula / items * log(2));
            uint64_t one = ((uint64_t)formula + 63) / 64 * 64, other = ((uint64_t)fmax(formula, least) + 63) / 64 * 64;
            printf("%g %4.0f items: %6llu bits %.2f, %6llu bits %.2f\n", rate, items, (unsigned long long)one,
                   rate_of(counts[i], hashes, one, most) / rate, (unsigned long long)other,
                   rate_of(counts[i], hashes, other, most) / rate);
            fflush(stdout);
        }
    }
    return 0;
}
