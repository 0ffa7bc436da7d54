/* The calls that create sketches of frequent items or read images. Each passes its arguments and a key to a proved call: the
 * caller's key, or one that it draws.
 *
 * The first call of a process asks the system for two random words. Each call counts the first word up, as Rust's `RandomState`
 * does, so no two sketches of a process get the same key. Both words stay secret. After a `fork` the child draws words of its own.
 * There is no lock that a `fork` could leave held. */
#define _POSIX_C_SOURCE 200809L

#include "proved.h"

#include <errno.h>
#include <fcntl.h>
#include <pthread.h>
#include <stdatomic.h>
#include <unistd.h>

#ifdef __has_include
#if __has_include(<sys/random.h>)
#include <sys/random.h>
#define HAS_GETRANDOM
#endif
#endif

/* The words of the next key. A word that is 0 was not drawn yet. */
static _Atomic uint64_t words[2];

static void forget_words(void)
{
    atomic_store(&words[0], 0);
    atomic_store(&words[1], 0);
}

/* Lets a child of `fork` draw words of its own. */
__attribute__((constructor)) static void forget_words_after_fork(void)
{
    pthread_atfork(NULL, NULL, forget_words);
}

/* Reads a random word from the device, for systems without `getrandom`. */
static bool read_device(uint64_t *word)
{
    ssize_t length;
    int device = open("/dev/urandom", O_RDONLY | O_CLOEXEC);
    if (device < 0) return false;
    do length = read(device, word, sizeof *word);
    while (length < 0 && errno == EINTR);
    close(device);
    return length == sizeof *word;
}

/* Asks the system for a random word. Returns false if it has none. */
static bool random_word(uint64_t *word)
{
#ifdef HAS_GETRANDOM
    ssize_t length;
    do length = getrandom(word, sizeof *word, 0);
    while (length < 0 && errno == EINTR);
    if (length == sizeof *word) return true;
#endif
    return read_device(word);
}

/* Draws a word of the key unless it is drawn. Of several threads that do so at once, the first one's word stays. */
static bool draw_word(_Atomic uint64_t *drawn)
{
    while (atomic_load(drawn) == 0) {
        uint64_t none = 0, word;
        if (!random_word(&word)) return false;
        atomic_compare_exchange_strong(drawn, &none, word);
    }
    return true;
}

/* Draws the key of a new sketch. Returns false if the system has no random bytes. */
static bool draw_key(ds_key *key)
{
    if (!draw_word(&words[0]) || !draw_word(&words[1])) return false;
    key->k0 = atomic_fetch_add(&words[0], 1);
    key->k1 = atomic_load(&words[1]);
    return true;
}

/* Returns whether sketches of a kind have a key. */
static bool has_key(int32_t kind)
{
    return kind == DS_FREQUENT_ITEMS_U64 || kind == DS_FREQUENT_ITEMS_I64 || kind == DS_FREQUENT_ITEMS_STRING;
}

/* Writes the key of a new sketch of a kind: the caller's, or one that is drawn if that is null. Other kinds have no key, and draw
 * none. Returns false if a key is drawn and the system has no random bytes. */
static bool choose_key(int32_t kind, const ds_key *given, ds_key *key)
{
    if (has_key(kind) && given == NULL) return draw_key(key);
    *key = has_key(kind) ? *given : (ds_key){0, 0};
    return true;
}

int32_t ds_frequent_items_new(ds_sketch *handle, int32_t kind, size_t max_map_size, size_t sample_size, const ds_key *key)
{
    ds_key chosen;
    ds_sizes sizes = {.max_map_size = max_map_size, .sample_size = sample_size};
    if (!has_key(kind)) return DS_WRONG_KIND;
    if (!choose_key(kind, key, &chosen)) return DS_NO_RANDOM;
    sizes.k0 = chosen.k0;
    sizes.k1 = chosen.k1;
    return ds_new(handle, kind, &sizes);
}

int32_t ds_deserialize_prefix(ds_sketch *handle, int32_t kind, const uint8_t *image, size_t length, const ds_image_options *options,
                              size_t *used)
{
    ds_key key;
    if (!choose_key(kind, options->key, &key)) return DS_NO_RANDOM;
    return ds_read_image(handle, kind, image, length, options->max_bytes, options->seed, key.k0, key.k1, used);
}

int32_t ds_deserialize(ds_sketch *handle, int32_t kind, const uint8_t *image, size_t length, const ds_image_options *options)
{
    size_t used;
    return ds_deserialize_prefix(handle, kind, image, length, options, &used);
}
