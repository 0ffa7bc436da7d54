/* The allocator of the library and of this module: the server's, so that the server counts what sketches take.
 *
 * The server's `RedisModule_Alloc` ends the server if there is no memory. `RedisModule_TryAlloc` returns null. Redis 7.0 has no such
 * call that reallocates, so a block that grows is copied.
 *
 * A command on many frequent items allocates for each new one. So that it never ends halfway, it sets a reserve aside first, from
 * which the library gets what the server cannot give. A block from a reserve may live as long as its sketch, and is freed by any
 * thread that frees the sketch. The reserve is freed with its last block.
 *
 * A purge frees the strings of many items, and the next items take as many blocks of their sizes. So the main thread keeps some
 * small blocks that it frees, and takes them before it asks the server. The server counts them as used: 64 KB at most. */
#include "module.h"

#include <pthread.h>
#include <stdatomic.h>
#include <string.h>

/* Bytes set aside. */
typedef struct Reserve {
    struct Reserve *next;
    size_t size, used;
    size_t live;     /* blocks that are not freed */
    bool is_current; /* whether the command that it was set aside for still runs */
    _Alignas(16) uint8_t bytes[];
} Reserve;

static Reserve *current;            /* the reserve of the command that runs */
static _Atomic(Reserve *) reserves; /* those with blocks that are not freed */
static pthread_mutex_t lock = PTHREAD_MUTEX_INITIALIZER;

#ifdef RATTLE_FAILING_ALLOCATIONS
static long long until_failure = -1;
static bool fails_for_good;

long long fail_allocations(long long count, bool for_good)
{
    long long left = until_failure;
    until_failure = count;
    fails_for_good = for_good;
    return left;
}

static bool fails_now(void)
{
    if (until_failure < 0) return false;
    if (until_failure > 0) {
        until_failure--;
        return false;
    }
    if (!fails_for_good) until_failure = -1;
    return true;
}
#else
static bool fails_now(void)
{
    return false;
}
#endif

void *try_block(size_t bytes)
{
    return fails_now() ? NULL : RedisModule_TryAlloc(bytes != 0 ? bytes : 1);
}

void free_block(void *block)
{
    if (block != NULL) RedisModule_Free(block);
}

bool begin_reserve(size_t bytes)
{
    current = try_block(sizeof(Reserve) + bytes);
    if (current == NULL) return false;
    *current = (Reserve){.size = bytes, .is_current = true};
    return true;
}

/* Takes a reserve out of the list. The lock is held. */
static void unlist(Reserve *reserve)
{
    Reserve *before = atomic_load(&reserves);
    if (before == reserve) {
        atomic_store(&reserves, reserve->next);
        return;
    }
    while (before != NULL && before->next != reserve) before = before->next;
    if (before != NULL) before->next = reserve->next;
}

void end_reserve(void)
{
    Reserve *reserve = current;
    bool is_free;
    current = NULL;
    if (reserve->used == 0) {
        RedisModule_Free(reserve);
        return;
    }
    pthread_mutex_lock(&lock);
    reserve->is_current = false;
    is_free = reserve->live == 0;
    if (is_free) unlist(reserve);
    pthread_mutex_unlock(&lock);
    if (is_free) RedisModule_Free(reserve);
}

/* Returns a block of the reserve, or null if there is none or it is used up. */
static void *take_reserved(size_t size)
{
    size_t whole = (size + 15) / 16 * 16;
    void *block;
    if (current == NULL || whole > current->size - current->used) return NULL;
    block = current->bytes + current->used;
    pthread_mutex_lock(&lock);
    if (current->used == 0) {
        current->next = atomic_load(&reserves);
        atomic_store(&reserves, current);
    }
    current->used += whole;
    current->live++;
    pthread_mutex_unlock(&lock);
    return block;
}

/* Frees a block if it is of a reserve. Returns whether it is. */
static bool give_back(const void *block)
{
    const uint8_t *at = block;
    Reserve *reserve;
    bool is_free = false;
    pthread_mutex_lock(&lock);
    reserve = atomic_load(&reserves);
    while (reserve != NULL && !(at >= reserve->bytes && at < reserve->bytes + reserve->size)) reserve = reserve->next;
    if (reserve != NULL) {
        reserve->live--;
        is_free = reserve->live == 0 && !reserve->is_current;
        if (is_free) unlist(reserve);
    }
    pthread_mutex_unlock(&lock);
    if (is_free) RedisModule_Free(reserve);
    return reserve != NULL;
}

/* Blocks that are kept, by their size in 16 bytes. The first bytes of one point to the next. */
enum { MOST_PARTS = 4, MOST_KEPT_PARTS = 4096 };
static void *kept[MOST_PARTS + 1];
static size_t kept_parts;
static pthread_t main_thread;

static bool is_main_thread(void)
{
    return pthread_equal(pthread_self(), main_thread) != 0;
}

/* Returns a kept block, or null if there is none. */
static void *take_kept(size_t size)
{
    size_t parts = (size + 15) / 16;
    void *block;
    if (parts > MOST_PARTS || kept[parts] == NULL || !is_main_thread()) return NULL;
    block = kept[parts];
    memcpy(&kept[parts], block, sizeof block);
    kept_parts -= parts;
    return block;
}

/* Keeps a block of the server. Returns false if it is to be freed. */
static bool keep(void *block)
{
    size_t parts = RedisModule_MallocSize(block) / 16;
    if (parts == 0 || parts > MOST_PARTS || !is_main_thread() || kept_parts + parts > MOST_KEPT_PARTS) return false;
    memcpy(block, &kept[parts], sizeof block);
    kept[parts] = block;
    kept_parts += parts;
    return true;
}

static void *allocate(void *unused, size_t size)
{
    void *block = NULL;
    (void)unused;
    if (!fails_now()) {
        block = take_kept(size);
        if (block == NULL) block = RedisModule_TryAlloc(size);
    }
    return block != NULL ? block : take_reserved(size);
}

static void deallocate(void *unused, void *block)
{
    (void)unused;
    if (atomic_load_explicit(&reserves, memory_order_acquire) != NULL && give_back(block)) return;
    if (!keep(block)) RedisModule_Free(block);
}

static void *reallocate(void *unused, void *block, size_t kept, size_t size)
{
    void *moved = allocate(unused, size);
    if (moved != NULL) {
        memcpy(moved, block, kept < size ? kept : size);
        deallocate(unused, block);
    }
    return moved;
}

bool set_allocator(void)
{
    ds_allocator own = {allocate, reallocate, deallocate, NULL};
    main_thread = pthread_self();
    return ds_set_allocator(&own) == DS_OK;
}
