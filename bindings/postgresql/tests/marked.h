/* Included first where the extension is built for valgrind. PostgreSQL allocates many small blocks from one large one, so valgrind
 * does not see where they end. Here each block that the extension allocates has bytes after it that must not be touched, and is
 * undefined until it is written. The marks go when the block's context does, so no block is freed before. */
#ifndef MARKED_H
#define MARKED_H

#include "postgres.h"

#include "utils/memutils.h"
#include "utils/palloc.h"

#include <valgrind/memcheck.h>

#define MARKED_BYTES 16

typedef struct Mark {
    MemoryContextCallback callback;
    char *block;
    Size size;
} Mark;

static void unmark(void *mark)
{
    VALGRIND_MAKE_MEM_DEFINED(((Mark *)mark)->block, ((Mark *)mark)->size + MARKED_BYTES);
}

/* Returns a block of the context, with a mark after it, or null if there is no memory and the flags allow that. */
static inline void *marked_alloc(MemoryContext context, Size size, int flags)
{
    char *block = MemoryContextAllocExtended(context, size + MARKED_BYTES, flags & ~MCXT_ALLOC_ZERO);
    Mark *mark;
    if (block == NULL) return NULL;
    mark = MemoryContextAlloc(context, sizeof(Mark));
    mark->block = block;
    mark->size = size;
    mark->callback.func = unmark;
    mark->callback.arg = mark;
    MemoryContextRegisterResetCallback(context, &mark->callback);
    VALGRIND_MAKE_MEM_UNDEFINED(block, size);
    VALGRIND_MAKE_MEM_NOACCESS(block + size, MARKED_BYTES);
    if ((flags & MCXT_ALLOC_ZERO) != 0) memset(block, 0, size);
    return block;
}

/* Returns a copy of a block, of another length. The old one has `kept` bytes or more. */
static inline void *marked_realloc(void *block, Size kept, Size size, int flags)
{
    void *copy = marked_alloc(GetMemoryChunkContext(block), size, flags);
    if (copy != NULL) memcpy(copy, block, Min(kept, size));
    return copy;
}

#define palloc(size) marked_alloc(CurrentMemoryContext, size, 0)
#define palloc0(size) marked_alloc(CurrentMemoryContext, size, MCXT_ALLOC_ZERO)
#define palloc_extended(size, flags) marked_alloc(CurrentMemoryContext, size, flags)
#define MemoryContextAlloc(context, size) marked_alloc(context, size, 0)
#define MemoryContextAllocZero(context, size) marked_alloc(context, size, MCXT_ALLOC_ZERO)
#define MemoryContextAllocExtended(context, size, flags) marked_alloc(context, size, flags)
#define repalloc_extended(block, size, flags) marked_realloc(block, kept, size, flags)
#define pfree(block) ((void)(block))

#endif
