/* Items that collide: what a caller who chooses the items can send. `hostile.c` and `tests/costs/costs.c` include it.
 *
 * Numbers and strings are chosen against MurmurHash3 x64 128 (Appleby), by which a plain table of counters finds an item's slot,
 * and numbers also against SipHash-1-3 under the key (0, 0). Names and tenants are chosen against the hash of `HashMap` with its
 * default seed. */
#ifndef HOSTILE_ITEMS_H
#define HOSTILE_ITEMS_H

#include <pthread.h>
#include <stdbool.h>
#include <stddef.h>
#include <stdint.h>
#include <stdlib.h>
#include <string.h>

/* A random number: the step number `x` of SplitMix64. */
static inline uint64_t random_of(uint64_t x)
{
    x = (x + 1) * 0x9e3779b97f4a7c15u;
    x = (x ^ (x >> 30)) * 0xbf58476d1ce4e5b9u;
    x = (x ^ (x >> 27)) * 0x94d049bb133111ebu;
    return x ^ (x >> 31);
}

static inline uint64_t rotated(uint64_t x, int by)
{
    return x << by | x >> (64 - by);
}

/* The number whose product with the odd number `x` is 1, modulo 2^64. */
static inline uint64_t inverse_of(uint64_t x)
{
    uint64_t inverse = x;
    for (int i = 0; i < 6; i++) inverse *= 2 - x * inverse;
    return inverse;
}

/* --- MurmurHash3 x64 128 --- */

enum { TABLE_SEED = 9001 };
static const uint64_t MURMUR_C1 = 0x87c37b91114253d5u, MURMUR_C2 = 0x4cf5ad432745937fu;

static inline uint64_t final_mix(uint64_t k)
{
    k = (k ^ (k >> 33)) * 0xff51afd7ed558ccdu;
    k = (k ^ (k >> 33)) * 0xc4ceb9fe1a85ec53u;
    return k ^ (k >> 33);
}

/* Both halves of the state before the final mix are the seed and the length, but for the number in the first one. */
static const uint64_t NUMBER_STATE = TABLE_SEED ^ 8;

/* The table's hash of a number whose first half before the final mix, plus the second half, is `sum`. */
static inline uint64_t hash_of_sum(uint64_t sum)
{
    return final_mix(sum) + final_mix(sum + NUMBER_STATE);
}

/* That number. */
static inline uint64_t number_of_sum(uint64_t sum)
{
    uint64_t mixed = (sum - NUMBER_STATE) ^ NUMBER_STATE;
    return rotated(mixed * inverse_of(MURMUR_C2), 33) * inverse_of(MURMUR_C1);
}

/* The table's hash of a number. Its home in a table of 2^n slots is the lowest n bits. */
static inline uint64_t hash_of_number(uint64_t number)
{
    return hash_of_sum((NUMBER_STATE ^ rotated(number * MURMUR_C1, 31) * MURMUR_C2) + NUMBER_STATE);
}

/* A search for numbers whose home in a table of `slots` slots, a power of two, is `home`, by one of `step` threads. */
struct one_home {
    uint64_t slots, home, from, step, *numbers;
    size_t count;
};

static void *search_one_home(void *argument)
{
    struct one_home *search = argument;
    const uint64_t home = search->home, mask = search->slots - 1;
    enum { BLOCK = 256 };
    size_t found = 0;
    for (uint64_t block = search->from; found < search->count; block += search->step) {
        uint64_t hits = 0;
        for (uint64_t i = 0; i < BLOCK; i++) hits += ((hash_of_sum(block * BLOCK + i) - home) & mask) == 0;
        for (uint64_t i = 0; hits && i < BLOCK; i++) {
            if (((hash_of_sum(block * BLOCK + i) - home) & mask) || found == search->count) continue;
            search->numbers[found++] = number_of_sum(block * BLOCK + i);
        }
    }
    return NULL;
}

/* Writes numbers that have one home in a table of `slots` slots, a power of two, and so in each smaller table. */
static inline void numbers_of_one_home(uint64_t slots, uint64_t home, uint64_t *numbers, size_t count)
{
    enum { THREADS = 2 };
    pthread_t threads[THREADS];
    struct one_home searches[THREADS];
    for (uint64_t t = 0; t < THREADS; t++) {
        size_t from = count * t / THREADS, to = count * (t + 1) / THREADS;
        searches[t] = (struct one_home){slots, home, t, THREADS, numbers + from, to - from};
        if (pthread_create(&threads[t], NULL, search_one_home, &searches[t])) abort();
    }
    for (int t = 0; t < THREADS; t++) pthread_join(threads[t], NULL);
}

/* Writes numbers of many homes in a table of 2^16 slots: `each` of each home 0, apart, 2 * apart and so on, of which there are
 * `homes`. `hash` is the table's hash of a number. Group after group. */
static inline void numbers_of_homes(uint64_t (*hash)(uint64_t), size_t homes, size_t apart, size_t each, uint64_t *numbers)
{
    size_t *found = calloc(homes, sizeof *found), complete = 0;
    if (!found) abort();
    for (uint64_t i = 0; complete < homes; i++) {
        uint64_t number = random_of(i + (1u << 30)), home = hash(number) & 0xffff;
        if (home % apart || home / apart >= homes || found[home / apart] == each) continue;
        numbers[home / apart * each + found[home / apart]] = number;
        if (++found[home / apart] == each) complete++;
    }
    free(found);
}

/* Strings that collide under every seed.
 *
 * A block of 16 bytes k1, k2 changes the state h1, h2 by h1 = (rotl(h1 ^ mix(k1), 27) + h2) * 5 + .. and
 * h2 = (rotl(h2 ^ mix(k2), 31) + h1) * 5 + .., where mix is invertible. A flip of the top bit passes +, and * 5, as a flip of the
 * top bit. So flip bit 36 of a block's mix(k1), bit 32 of its mix(k2), and bit 63 of the next block's mix(k1). The first flips
 * the top bit of h1. The second and this one cancel in h2. The third cancels the flip of h1. After both blocks the state is the
 * same, whatever it was before. So a string of n pairs of blocks has 2^n versions. Both versions of each word are ASCII. */

enum { MOST_PAIRS = 13, COLLIDING_LENGTH = 32 * MOST_PAIRS, COLLIDING = 1 << MOST_PAIRS };

static inline bool is_word_of_ascii(uint64_t word)
{
    for (int i = 0; i < 8; i++) {
        uint8_t byte = word >> 8 * i;
        if (byte == 0 || byte == ' ' || (byte >= '\t' && byte <= '\r') || byte >= 0x80) return false;
    }
    return true;
}

/* Writes two words of ASCII without white space, whose mixed values differ by a flip. */
static void ascii_versions(uint64_t first, int by, uint64_t second, uint64_t flip, uint64_t words[2])
{
    for (uint64_t i = 0;; i++) {
        words[0] = random_of(i) & 0x7f7f7f7f7f7f7f7fu;
        words[1] = rotated((rotated(words[0] * first, by) * second ^ flip) * inverse_of(second), 64 - by) * inverse_of(first);
        if (is_word_of_ascii(words[0]) && is_word_of_ascii(words[1])) return;
    }
}

/* Writes up to 2^13 strings of 416 bytes with the same MurmurHash3 under every seed, one after another. */
static inline void colliding_strings(uint8_t *strings, size_t count)
{
    uint64_t k1[2], k2[2], next[2];
    ascii_versions(MURMUR_C1, 31, MURMUR_C2, 1ull << 36, k1);
    ascii_versions(MURMUR_C2, 33, MURMUR_C1, 1ull << 32, k2);
    ascii_versions(MURMUR_C1, 31, MURMUR_C2, 1ull << 63, next);
    for (size_t i = 0; i < count; i++) {
        for (int pair = 0; pair < MOST_PAIRS; pair++) {
            size_t version = i >> pair & 1;
            uint64_t words[4] = {k1[version], k2[version], next[version], k2[0]};
            memcpy(strings + COLLIDING_LENGTH * i + 32 * pair, words, 32);
        }
    }
}

/* --- SipHash-1-3 --- */

static inline void sip_round(uint64_t v[4])
{
    v[0] += v[1], v[2] += v[3];
    v[1] = rotated(v[1], 13) ^ v[0], v[3] = rotated(v[3], 16) ^ v[2];
    v[0] = rotated(v[0], 32);
    v[2] += v[1], v[0] += v[3];
    v[1] = rotated(v[1], 17) ^ v[2], v[3] = rotated(v[3], 21) ^ v[0];
    v[2] = rotated(v[2], 32);
}

/* SipHash-1-3 of the 8 bytes of a number under the key (0, 0). */
static inline uint64_t sip_hash_of_number(uint64_t number)
{
    uint64_t v[4] = {0x736f6d6570736575u, 0x646f72616e646f6du, 0x6c7967656e657261u, 0x7465646279746573u};
    uint64_t words[2] = {number, 8ull << 56};
    for (int i = 0; i < 2; i++) {
        v[3] ^= words[i];
        sip_round(v);
        v[0] ^= words[i];
    }
    v[2] ^= 0xff;
    for (int i = 0; i < 3; i++) sip_round(v);
    return v[0] ^ v[1] ^ v[2] ^ v[3];
}

/* --- The hash of `HashMap` with its default seed --- */

static inline uint64_t folded(uint64_t a, uint64_t b)
{
    unsigned __int128 product = (unsigned __int128)a * b;
    return (uint64_t)product ^ (uint64_t)(product >> 64);
}

static const uint64_t FOLD_START = 0x243f6a8885a308d3u, FOLD_MULTIPLIER = 0x9e3779b97f4a7c15u;

/* Whether a number or a name of 8 bytes begins its search at the first of the 2^13 groups that a map of 49,152 entries has. */
static inline bool is_in_first_group(uint64_t word, bool is_name)
{
    uint64_t hash = folded(FOLD_START ^ word, FOLD_MULTIPLIER ^ 16);
    if (is_name) hash = folded(hash ^ 0xffffff, FOLD_MULTIPLIER ^ 2);
    return ((hash ^ hash >> 32) & 0x1fff) == 0;
}

/* The name number `i`: 8 lower-case letters and digits, as a word. */
static inline uint64_t name_word(uint64_t i)
{
    uint64_t word = 0;
    for (int b = 0; b < 8; b++) word |= (uint64_t) "abcdefghijklmnopqrstuvwxyz012345"[i >> 5 * b & 31] << 8 * b;
    return word;
}

/* Writes tenants, or names as words, that all begin their search in one group. */
static inline void words_of_one_group(bool are_names, uint64_t *words, size_t count)
{
    size_t found = 0;
    for (uint64_t i = 0; found < count; i++) {
        uint64_t word = are_names ? name_word(i) : random_of(i);
        if (is_in_first_group(word, are_names)) words[found++] = word;
    }
}

#endif
