/* The heap from which the proved code allocates: over malloc, realloc and free, or over the functions that `ds_set_allocator`
 * sets. */
#include "datasketches.h"

#include <stdatomic.h>
#include <stdlib.h>

/* Whether the block was allocated, and where it is. What is not allocated is at a byte of no use, so that no pointer is null. */
typedef struct {
    bool ok;
    unsigned char *block;
} tried;

static unsigned char nothing;

static void *allocate(void *context, size_t size)
{
    (void)context;
    return malloc(size);
}

static void *reallocate(void *context, void *block, size_t kept, size_t size)
{
    (void)context;
    (void)kept;
    return realloc(block, size);
}

static void deallocate(void *context, void *block)
{
    (void)context;
    free(block);
}

static ds_allocator current = {allocate, reallocate, deallocate, NULL};

/* Whether a block was asked for. From then on `current` does not change, so threads read it without a lock. */
static atomic_bool used;

static tried answer(void *block)
{
    return (tried){block != NULL, block != NULL ? block : &nothing};
}

tried rattle_alloc(size_t size, size_t align);
tried rattle_realloc(unsigned char *block, size_t kept, size_t size, size_t align);
void rattle_dealloc(unsigned char *block);

tried rattle_alloc(size_t size, size_t align)
{
    if (!atomic_load_explicit(&used, memory_order_relaxed)) {
        atomic_store_explicit(&used, true, memory_order_relaxed);
    }
    return answer(current.allocate(current.context, size != 0 ? size : align));
}

tried rattle_realloc(unsigned char *block, size_t kept, size_t size, size_t align)
{
    return answer(current.reallocate(current.context, block, kept, size != 0 ? size : align));
}

void rattle_dealloc(unsigned char *block)
{
    current.deallocate(current.context, block);
}

int32_t ds_set_allocator(const ds_allocator *allocator)
{
    if (allocator == NULL || allocator->allocate == NULL || allocator->reallocate == NULL || allocator->deallocate == NULL) {
        return DS_BAD_ARGUMENT;
    }
    if (atomic_load_explicit(&used, memory_order_relaxed)) {
        return DS_BAD_ARGUMENT;
    }
    current = *allocator;
    return DS_OK;
}
