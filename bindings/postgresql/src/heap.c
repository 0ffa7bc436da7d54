/* The allocator of the library: PostgreSQL's memory contexts.
 *
 * A call allocates from the context that is current when it is made. So what a sketch holds is seen by `work_mem`, and goes with
 * its context after an error. The bytes of all sketches together are counted, and limited. No function that the library calls raises
 * an error, since that would jump through the library.
 *
 * Stored forms that functions read, keep or return are counted too. A result is counted until its context is reset, as it is before
 * the next row. */
#include "extension.h"

#include "access/detoast.h"
#include "nodes/memnodes.h"
#include "utils/memutils.h"

/* The bytes that sketches and stored forms hold in a context. It lies in the context, whose end takes them off, and is found by its
 * callback. */
typedef struct Account {
    MemoryContext context;
    size_t bytes;
    MemoryContextCallback at_end;
} Account;

static Account *last; /* the one that was used last, or null if its context ended */
static size_t total;
static size_t refused;

/* Takes off what was held in a context that ends. */
static void close_account(void *argument)
{
    Account *account = argument;
    if (last == account) last = NULL;
    total -= account->bytes;
}

/* Returns the account of a context, or null if there is no memory for one. */
static Account *account_of(MemoryContext context)
{
    MemoryContextCallback *callback = context->reset_cbs;
    if (last != NULL && last->context == context) return last;
    while (callback != NULL && callback->func != close_account) callback = callback->next;
    if (callback != NULL) {
        last = callback->arg;
    } else {
        Account *account = MemoryContextAllocExtended(context, sizeof *account, MCXT_ALLOC_NO_OOM);
        if (account == NULL) return NULL;
        account->context = context;
        account->bytes = 0;
        account->at_end.func = close_account;
        account->at_end.arg = account;
        MemoryContextRegisterResetCallback(context, &account->at_end);
        last = account;
    }
    return last;
}

/* Returns the account of a context if all sketches may take `more` bytes, or null. */
static Account *account_with_room(MemoryContext context, size_t more)
{
    size_t limit = (size_t)max_statement_kilobytes * 1024;
    if (!AllocHugeSizeIsValid(more)) return NULL;
    if (total <= limit && more <= limit - total) return account_of(context);
    refused = total + more;
    return NULL;
}

/* Counts a block that a context has now, and not the `before` bytes that it had. */
static void count_block(Account *account, const void *block, size_t before)
{
    size_t bytes = GetMemoryChunkSpace((void *)block);
    account->bytes += bytes - before;
    total += bytes - before;
}

/* Returns a new block, or null if there is no memory. */
static void *allocate(void *unused, size_t size)
{
    Account *account = account_with_room(CurrentMemoryContext, size);
    void *block;
    (void)unused;
    if (account == NULL) return NULL;
    block = MemoryContextAllocExtended(account->context, size, MCXT_ALLOC_HUGE | MCXT_ALLOC_NO_OOM);
    if (block != NULL) count_block(account, block, 0);
    return block;
}

/* Returns a longer or shorter block with the first `kept` bytes of the old one, or null if there is no memory. */
static void *reallocate(void *unused, void *block, size_t kept, size_t size)
{
    size_t before = GetMemoryChunkSpace(block);
    Account *account = account_with_room(GetMemoryChunkContext(block), size > before ? size - before : 0);
    void *moved;
    (void)unused;
    if (account == NULL || !AllocHugeSizeIsValid(size)) return NULL;
#if PG_VERSION_NUM >= 150000
    (void)kept;
    moved = repalloc_extended(block, size, MCXT_ALLOC_HUGE | MCXT_ALLOC_NO_OOM);
#else
    moved = MemoryContextAllocExtended(account->context, size, MCXT_ALLOC_HUGE | MCXT_ALLOC_NO_OOM);
    if (moved != NULL) {
        memcpy(moved, block, Min(kept, size));
        pfree(block);
    }
#endif
    if (moved != NULL) count_block(account, moved, before);
    return moved;
}

/* Frees a block. */
static void deallocate(void *unused, void *block)
{
    (void)unused;
    counted_free(block);
}

void set_allocator(void)
{
    static const ds_allocator contexts = {allocate, reallocate, deallocate, NULL};
    check_result(ds_set_allocator(&contexts));
}

/* Returns the account of the current context if `more` bytes have room. Raises an error otherwise. */
static Account *account_or_error(size_t more)
{
    Account *account = account_with_room(CurrentMemoryContext, more);
    if (account != NULL) return account;
    if (refused > 0) raise_total(take_refused());
    ereport(ERROR, (errcode(ERRCODE_OUT_OF_MEMORY), errmsg("out of memory"), errdetail("Failed on a request of %zu bytes.", more)));
    pg_unreachable();
}

void *counted_alloc(size_t bytes)
{
    Account *account = account_or_error(bytes);
    void *block = palloc_extended(bytes, MCXT_ALLOC_HUGE);
    count_block(account, block, 0);
    return block;
}

struct varlena *counted_detoast(Datum datum)
{
    struct varlena *value = (struct varlena *)DatumGetPointer(datum), *copy;
    Account *account;
    if (likely(!VARATT_IS_EXTENDED(value))) return value;
    account = account_or_error(toast_raw_datum_size(datum));
    copy = PG_DETOAST_DATUM(datum);
    count_block(account, copy, 0);
    return copy;
}

void counted_free(void *block)
{
    Account *account = account_of(GetMemoryChunkContext(block));
    if (account != NULL) {
        account->bytes -= GetMemoryChunkSpace(block);
        total -= GetMemoryChunkSpace(block);
    }
    pfree(block);
}

size_t total_bytes(void)
{
    return total;
}

size_t take_refused(void)
{
    size_t bytes = refused;
    refused = 0;
    return bytes;
}
