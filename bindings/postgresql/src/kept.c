/* Sketches that a function keeps from row to row, in `fn_extra`.
 *
 * A sketch is known again by the bytes of its datum: those of a pointer to a toasted value, or of the value itself. So the last
 * sketches of a function are detoasted and verified once. There are many, since a nested loop may bring all sketches of a table in
 * turn. A sketch is forgotten if there are too many, or if they take too much. If it comes again, the function may keep one more,
 * and gets room for it: otherwise a loop over slightly more sketches than are kept would read each of them at each row. If there
 * is no more room, most of the loop's sketches stay, and only the others are read at each row. */
#include "extension.h"

#include "access/detoast.h"
#include "access/htup_details.h"
#include "common/hashfn.h"
#include "funcapi.h"
#include "miscadmin.h"
#include "utils/memutils.h"

/* All but the last sketch are at most this many and take at most these bytes, or `work_mem` if it is more. */
#define USUAL_SKETCHES 32
#define USUAL_BYTES ((size_t)16 * 1024 * 1024)

/* With those that came again they take at most these bytes, and at most a quarter of what a statement may take. What all functions of
 * the process keep takes at most half of it, or is one sketch. */
#define MAX_BYTES ((size_t)256 * 1024 * 1024)

/* If there is no more room, a sketch that comes again is the next to be forgotten, but for each 8th one. That one stays, so that a
 * later loop over other sketches gets its own kept. (The bimodal insertion of Qureshi et al. 2007.) */
#define TURNS 8

/* A longer key is compared in full only if it lies at another address than before. */
#define SHORT_KEY 1024
#define ENDS 64

/* A sketch that was forgotten: the hash of its key, and what it took. A later one with the same remainder replaces it. */
typedef struct Forgotten {
    uint64 hash;
    size_t bytes;
} Forgotten;

#define NUM_FORGOTTEN 4096

/* A table of kept sketches by the hashes of their keys. */
typedef struct Place {
    uint64 hash;
    Kept *kept;
    char status;
} Place;

#define SH_PREFIX places
#define SH_ELEMENT_TYPE Place
#define SH_KEY_TYPE uint64
#define SH_KEY hash
#define SH_HASH_KEY(table, key) ((uint32)(key))
#define SH_EQUAL(table, one, other) ((one) == (other))
#define SH_SCOPE static inline
#define SH_DECLARE
#define SH_DEFINE
#include "lib/simplehash.h"

/* A function's sketches, of which no two keys have one hash. */
typedef struct Cache {
    dlist_node of_process;
    MemoryContext context;
    Form form;         /* of the call's second argument, if there is one */
    Kept *last;        /* the one that was used last, or null if it was forgotten */
    dlist_head by_use; /* the next one to be forgotten comes last */
    Kept *spare;       /* empty, or null */
    places_hash *places;
    Forgotten *forgotten; /* by remainders of hashes, or null before the first */
    uint32 max_sketches;
    uint32 turn;
    size_t bytes;
    size_t more_bytes; /* beyond the usual, for sketches that came again */
    TupleDesc row;
    MemoryContextCallback at_end;
} Cache;

/* The caches of the process, and the bytes of all sketches that functions keep, with their stored forms. */
static dlist_head caches = DLIST_STATIC_INIT(caches);
static size_t all_bytes;

/* Takes off what a function kept, when its expression ends. */
static void end_cache(void *argument)
{
    Cache *cache = argument;
    dlist_delete(&cache->of_process);
    all_bytes -= cache->bytes;
}

/* Returns the function's cache, which lives as long as the expression. */
static Cache *cache_of(FunctionCallInfo fcinfo, Kind kind)
{
    Cache *cache = fcinfo->flinfo->fn_extra;
    if (unlikely(cache == NULL)) {
        MemoryContext context = fcinfo->flinfo->fn_mcxt;
        Form form = PG_NARGS() > 1 ? form_argument(fcinfo, 1, kind) : NO_FORM;
        cache = MemoryContextAllocZero(context, sizeof(Cache));
        cache->context = context;
        cache->form = form;
        dlist_init(&cache->by_use);
        cache->places = places_create(context, USUAL_SKETCHES, NULL);
        cache->max_sketches = USUAL_SKETCHES;
        cache->at_end.func = end_cache;
        cache->at_end.arg = cache;
        MemoryContextRegisterResetCallback(context, &cache->at_end);
        dlist_push_head(&caches, &cache->of_process);
        fcinfo->flinfo->fn_extra = cache;
    }
    return cache;
}

/* Returns whether a datum has the bytes of a kept key. A long datum at the same address is compared at its ends, which have its
 * length and its checksum. Between two calls the address may have got another sketch, of the same length. Its checksum is the same
 * with a chance of 1 in 2^32. */
static inline bool is_key(const Kept *kept, const void *datum, size_t bytes)
{
    if (kept->key_bytes != bytes) return false;
    if (bytes <= SHORT_KEY || kept->address != datum) return memcmp(kept->key, datum, bytes) == 0;
    return memcmp(kept->key, datum, ENDS) == 0 &&
           memcmp((const char *)kept->key + bytes - ENDS, (const char *)datum + bytes - ENDS, ENDS) == 0;
}

/* Returns a hash of a key's first bytes, which have its checksum, and of its length. */
static uint64 hash_of(const void *key, size_t bytes)
{
    return hash_bytes_extended(key, (int)Min(bytes, ENDS), bytes);
}

/* Counts the bytes of a kept sketch. */
static void count_bytes(Cache *cache, Kept *kept)
{
    size_t bytes = MemoryContextMemAllocated(kept->context, false);
    cache->bytes += bytes - kept->bytes;
    all_bytes += bytes - kept->bytes;
    kept->bytes = bytes;
}

/* Forgets a kept sketch. Leaves an empty `Kept` for the next one. */
static void forget(Cache *cache, Kept *kept)
{
    if (cache->forgotten == NULL) cache->forgotten = MemoryContextAllocZero(cache->context, NUM_FORGOTTEN * sizeof(Forgotten));
    cache->forgotten[kept->hash % NUM_FORGOTTEN] = (Forgotten){kept->hash, kept->bytes};
    if (cache->last == kept) cache->last = NULL;
    places_delete(cache->places, kept->hash);
    dlist_delete(&kept->by_use);
    cache->bytes -= kept->bytes;
    all_bytes -= kept->bytes;
    if (cache->spare == NULL) {
        MemoryContextReset(kept->context);
        cache->spare = kept;
    } else {
        MemoryContextDelete(kept->context);
        pfree(kept);
    }
}

/* Returns the bytes that a function may keep without sketches that came again. */
static size_t usual_bytes(void)
{
    return Max(USUAL_BYTES, (size_t)work_mem * 1024);
}

/* Returns the bytes that all sketches of a statement may take. */
static size_t statement_bytes(void)
{
    return (size_t)max_statement_kilobytes * 1024;
}

/* Returns the bytes that a function may keep now. */
static size_t room(const Cache *cache)
{
    size_t usual = usual_bytes();
    return Max(usual, Min(usual + cache->more_bytes, Min(MAX_BYTES, statement_bytes() / 4)));
}

/* Gets a place and room for a sketch that comes again after it was forgotten. Returns false if it comes again and there is no more
 * room: half of what a statement may take is left to other sketches. */
static bool grow(Cache *cache, uint64 hash)
{
    Forgotten *forgotten = cache->forgotten == NULL ? NULL : &cache->forgotten[hash % NUM_FORGOTTEN];
    if (forgotten == NULL || forgotten->bytes == 0 || forgotten->hash != hash) return true;
    if (cache->places->members >= cache->max_sketches) cache->max_sketches++;
    if (Max(total_bytes(), all_bytes) >= statement_bytes() / 2 || room(cache) < usual_bytes() + cache->more_bytes) return false;
    cache->more_bytes += forgotten->bytes;
    forgotten->bytes = 0;
    return true;
}

/* Returns the sketch of a cache that is the next to be forgotten and is not `used`, or null. */
static Kept *next_to_forget(Cache *cache, const Kept *used)
{
    dlist_iter iter;
    dlist_reverse_foreach(iter, &cache->by_use)
    {
        Kept *kept = dlist_container(Kept, by_use, iter.cur);
        if (kept != used) return kept;
    }
    return NULL;
}

/* Forgets sketches of all functions until `bytes` more bytes fit, those first of the functions that keep most. `used` stays. */
static void make_common_room(const Kept *used, size_t bytes)
{
    while (all_bytes + bytes > statement_bytes() / 2) {
        Cache *largest = NULL;
        dlist_iter iter;
        dlist_foreach(iter, &caches)
        {
            Cache *cache = dlist_container(Cache, of_process, iter.cur);
            if ((largest == NULL || cache->bytes > largest->bytes) && next_to_forget(cache, used) != NULL) largest = cache;
        }
        if (largest == NULL) return;
        forget(largest, next_to_forget(largest, used));
    }
}

/* Forgets sketches until another one of `bytes` bytes fits. */
static void make_room(Cache *cache, size_t bytes)
{
    size_t limit = room(cache);
    while (!dlist_is_empty(&cache->by_use) && (cache->bytes + bytes > limit || cache->places->members >= cache->max_sketches))
        forget(cache, dlist_tail_element(Kept, by_use, &cache->by_use));
    make_common_room(NULL, bytes);
}

/* Returns an empty `Kept`. Frees what an error left in its context. */
static Kept *spare(Cache *cache)
{
    MemoryContext context = cache->context;
    if (cache->spare == NULL) cache->spare = MemoryContextAllocZero(context, sizeof(Kept));
    if (cache->spare->context == NULL) cache->spare->context = AllocSetContextCreate(context, "kept sketch", ALLOCSET_SMALL_SIZES);
    MemoryContextReset(cache->spare->context);
    *cache->spare = (Kept){.context = cache->spare->context};
    return cache->spare;
}

/* Keeps a sketch. After an error it is not kept. */
static Kept *keep(Cache *cache, uint64 hash, struct varlena *datum, size_t bytes, Kind kind)
{
    bool stays = grow(cache, hash) || cache->turn++ % TURNS == 0, found;
    MemoryContext before;
    Kept *kept;
    make_room(cache, VARATT_IS_EXTENDED(datum) ? bytes + toast_raw_datum_size(PointerGetDatum(datum)) : bytes);
    kept = spare(cache);
    before = MemoryContextSwitchTo(kept->context);
    kept->key = counted_alloc(bytes);
    memcpy(kept->key, datum, bytes);
    kept->sketch = detoast_sketch(PointerGetDatum(kept->key), kind);
    MemoryContextSwitchTo(before);
    kept->hash = hash;
    kept->address = datum;
    kept->key_bytes = bytes;
    places_insert(cache->places, hash, &found)->kept = kept;
    cache->spare = NULL;
    if (stays) dlist_push_head(&cache->by_use, &kept->by_use);
    else dlist_push_tail(&cache->by_use, &kept->by_use);
    count_bytes(cache, kept);
    cache->last = kept;
    return kept;
}

/* Returns the kept sketch of a datum that is not the last one's, or keeps it. In a loop, the next one is the one that was not used
 * for the longest time. */
static Kept *look_up(Cache *cache, struct varlena *datum, size_t bytes, Kind kind)
{
    Kept *kept = dlist_is_empty(&cache->by_use) ? NULL : dlist_tail_element(Kept, by_use, &cache->by_use);
    if (kept == NULL || !is_key(kept, datum, bytes)) {
        uint64 hash = hash_of(datum, bytes);
        Place *place = places_lookup(cache->places, hash);
        if (place != NULL && !is_key(place->kept, datum, bytes)) forget(cache, place->kept), place = NULL;
        if (place == NULL) return keep(cache, hash, datum, bytes, kind);
        kept = place->kept;
    }
    kept->address = datum;
    dlist_move_head(&cache->by_use, &kept->by_use);
    cache->last = kept;
    return kept;
}

Kept *kept_argument(FunctionCallInfo fcinfo, Kind kind)
{
    Cache *cache = cache_of(fcinfo, kind);
    struct varlena *datum = (struct varlena *)PG_GETARG_POINTER(0);
    size_t bytes;
    /* A pointer to memory is no key. */
    if (VARATT_IS_EXTERNAL(datum) && !VARATT_IS_EXTERNAL_ONDISK(datum)) datum = counted_detoast(PointerGetDatum(datum));
    bytes = VARSIZE_ANY(datum);
    if (likely(cache->last != NULL && is_key(cache->last, datum, bytes))) {
        cache->last->address = datum;
        return cache->last;
    }
    return look_up(cache, datum, bytes, kind);
}

Kept *kept_handle(FunctionCallInfo fcinfo, Kind kind)
{
    Kept *kept = kept_argument(fcinfo, kind);
    if (unlikely(!kept->is_loaded)) {
        MemoryContext before = MemoryContextSwitchTo(kept->context);
        load(kept->sketch, &kept->handle);
        MemoryContextSwitchTo(before);
        kept->is_loaded = true;
        count_bytes(fcinfo->flinfo->fn_extra, kept);
        make_common_room(kept, 0);
    }
    return kept;
}

void kept_item(FunctionCallInfo fcinfo, SketchItem *item)
{
    read_item(fcinfo, 1, ((const Cache *)fcinfo->flinfo->fn_extra)->form, item);
}

TupleDesc kept_row_type(FunctionCallInfo fcinfo)
{
    Cache *cache = fcinfo->flinfo->fn_extra;
    if (cache->row == NULL) {
        TupleDesc row;
        MemoryContext before;
        if (get_call_result_type(fcinfo, NULL, &row) != TYPEFUNC_COMPOSITE) elog(ERROR, "return type must be a row type");
        before = MemoryContextSwitchTo(fcinfo->flinfo->fn_mcxt);
        cache->row = BlessTupleDesc(CreateTupleDescCopy(row));
        MemoryContextSwitchTo(before);
    }
    return cache->row;
}

Datum kept_row(FunctionCallInfo fcinfo, Datum *values, bool *nulls)
{
    return HeapTupleGetDatum(heap_form_tuple(kept_row_type(fcinfo), values, nulls));
}
