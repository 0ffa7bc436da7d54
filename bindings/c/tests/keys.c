/* Compares keyed hashes with known ones, of bytes at the end of a block of memory. Prints the checks that failed. Exits with 1 if
 * there is any. */
#include <datasketches.h>
#include <stdlib.h>

#include "check.h"

/* The words of the key whose bytes are 0 to 15. */
static const uint64_t K0 = 0x0706050403020100, K1 = 0x0f0e0d0c0b0a0908;

/* Numbers of bytes, and the hashes of the bytes 0, 1, .. modulo 256. Those of up to 63 bytes are published vectors of
 * SipHash-1-3, the others are those of Rust's `SipHasher13`. */
static const struct {
    size_t length;
    uint64_t hash;
} rows[] = {{0, 0xabac0158050fc4dc},  {1, 0xc9f49bf37d57ca93},   {2, 0x82cb9b024dc7d44d},   {3, 0x8bf80ab8e7ddf7fb},
            {4, 0xcf75576088d38328},  {5, 0xdef9d52f49533b67},   {6, 0xc50d2b50c59f22a7},   {7, 0xd3927d989bb11140},
            {8, 0x369095118d299a8e},  {9, 0x25a48eb36c063de4},   {10, 0x79de85ee92ff097f},  {11, 0x70c118c1f94dc352},
            {12, 0x78a384b157b4d9a2}, {13, 0x306f760c1229ffa7},  {14, 0x605aa111c0f95d34},  {15, 0xd320d86d2a519956},
            {16, 0xcc4fdd1a7d908b66}, {23, 0x525a0e7fdae6c123},  {24, 0xf464aeb267349c8c},  {31, 0x2370dd1f8c21d1bc},
            {63, 0x9d199062b7bbb3a8}, {255, 0xf76214e3153c4a15}, {256, 0x75b3e64e167de370}, {300, 0x4016a23bda5a2224}};

static void known_hashes(void)
{
    for (size_t row = 0; row < sizeof rows / sizeof *rows; row++) {
        uint8_t *block = malloc(rows[row].length + 1);
        if (!block) abort();
        for (size_t i = 0; i < rows[row].length; i++) block[i + 1] = (uint8_t)i;
        CHECK(ds_keyed_hash(block + 1, rows[row].length, K0, K1) == rows[row].hash);
        free(block);
    }
}

static void no_bytes(void)
{
    CHECK(ds_keyed_hash(NULL, 0, K0, K1) == rows[0].hash && ds_keyed_hash(NULL, 9, K0, K1) == rows[0].hash);
    CHECK((ds_keyed_hash)((const uint8_t *)"", 0, K0, K1) == rows[0].hash);
}

/* A filter contains the hash that was inserted in place of an item, and not that of the same item under another key. */
static void in_place_of_an_item(void)
{
    const uint8_t *user = (const uint8_t *)"alice";
    ds_sketch seen = DS_NONE;
    CHECK(ds_bloom_new(&seen, 1 << 16, 7, 9001) == DS_OK);
    CHECK(ds_bloom_insert_u64(&seen, ds_keyed_hash(user, 5, K0, K1)) == DS_OK);
    CHECK(ds_bloom_contains_u64(&seen, ds_keyed_hash(user, 5, K0, K1)) == DS_YES);
    CHECK(ds_bloom_contains_u64(&seen, ds_keyed_hash(user, 5, K1, K0)) == DS_NO);
    ds_free(&seen);
}

int main(void)
{
    known_hashes();
    no_bytes();
    in_place_of_an_item();
    return report();
}
