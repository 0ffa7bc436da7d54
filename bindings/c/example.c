/* Reads words from standard input, and counts those that came before, in memory that does not grow.
 *
 *     $ printf 'to be or not to be' | ./example
 *     6 words, 4 of them for the first time
 *     the filter has 28 of 65536 bits set
 */
#include <datasketches.h>
#include <stdio.h>
#include <string.h>

static int failed(const char *call, int32_t result)
{
    if (result < 0) fprintf(stderr, "%s: %s, %s\n", call, ds_result_name(result), ds_result_message(result));
    return result < 0;
}

int main(void)
{
    ds_sketch seen = DS_NONE;
    ds_status status;
    char word[256];
    unsigned long words = 0, first = 0;

    if (failed("ds_bloom_new", ds_bloom_new(&seen, 1 << 16, 7, 9001))) return 1;
    while (scanf("%255s", word) == 1) {
        const uint8_t *text = (const uint8_t *)word;
        int32_t contains = ds_bloom_contains_string(&seen, text, strlen(word));
        /* skips a word that is not UTF-8 */
        if (failed("ds_bloom_contains_string", contains)) continue;
        words++;
        if (contains == DS_NO) {
            first++;
            ds_bloom_insert_string(&seen, text, strlen(word));
        }
    }
    ds_get_status(&seen, &status);
    printf("%lu words, %lu of them for the first time\n", words, first);
    printf("the filter has %llu of %llu bits set\n", (unsigned long long)status.bits_used, (unsigned long long)status.num_bits);
    ds_free(&seen);
    return 0;
}
