/* Chunks: some items at a time, as the library takes them. */
#include "items.h"

#include <string.h>

/* The maximum number of bytes of strings of a fixed size in a chunk with more than one of them. */
#define MOST_BYTES ((size_t)1 << 20)

/* A Count-Min sketch takes many numbers row by row, so that a row stays in a near cache. It gets many more than CHUNK numbers if
 * there is memory for a copy of them. With more than 16 rows it gets fewer, since a batch checks for Ctrl-C only between calls. */
#define LONG_CHUNK ((size_t)1 << 19)
#define LONG_WORK ((size_t)1 << 23)

/* Returns whether the numbers of all rows that are not missing are below 2^63, and so have the same value as signed numbers. */
static bool below_top(const Chunk *chunk, const uint64_t *numbers)
{
    uint64_t all = 0;
    for (size_t i = 0; i < chunk->rows; i++) all |= numbers[i];
    for (size_t i = 0; all > INT64_MAX && i < chunk->rows; i++)
        if (numbers[i] > INT64_MAX && is_present(chunk->present, i)) return false;
    return true;
}

/* Returns the run of a row. Sets the row's index in it, and limits `count` to the number of rows from there on. */
static const Run *run_of(const Items *items, size_t row, size_t *at, size_t *count)
{
    size_t low = 0, high = items->num_runs;
    while (high - low > 1) {
        size_t middle = low + (high - low) / 2;
        if (items->runs[middle].first <= row) low = middle;
        else high = middle;
    }
    const Run *run = &items->runs[low];
    *at = row - run->first;
    if (*count > run->count - *at) *count = run->count - *at;
    return run;
}

/* Sets to 0 the bits of missing items. */
static void drop_missing(const Items *items, size_t first, size_t count, uint8_t *present)
{
    if (!items->has_gaps) return;
    for (size_t i = 0; items->missing != NULL && i < count; i++) drop(present, i, items->missing[first + i]);
    for (size_t i = 0, at, some; items->items == NULL && i < count; i += some) {
        some = count - i;
        const Run *run = run_of(items, first + i, &at, &some);
        run_present(run, at, some, present, i);
    }
}

size_t rows_present(const Items *items, const Items *others, size_t first, size_t count, uint8_t *present)
{
    size_t found = 0;
    memset(present, 0xff, (count + 7) / 8);
    if (!items->has_gaps && (others == NULL || !others->has_gaps)) return count;
    drop_missing(items, first, count, present);
    if (others != NULL) drop_missing(others, first, count, present);
    if (count % 8 > 0) present[count / 8] &= (uint8_t)((1u << count % 8) - 1);
    for (size_t i = 0; i < (count + 7) / 8; i++) found += (size_t)__builtin_popcount(present[i]);
    return found;
}

size_t items_gaps(const Items *items)
{
    uint8_t present;
    size_t gaps = 0;
    for (size_t i = 0; items->has_gaps && i < items->count; i++) gaps += 1 - rows_present(items, NULL, i, 1, &present);
    return gaps;
}

static void read_numbers(const Items *items, size_t first, size_t count, uint64_t *numbers)
{
    for (size_t i = 0; items->items != NULL && i < count; i++) numbers[i] = items->items[first + i].value;
    for (size_t i = 0, at, some; items->items == NULL && i < count; i += some) {
        some = count - i;
        const Run *run = run_of(items, first + i, &at, &some);
        run_numbers(run, at, some, numbers + i);
    }
}

bool find_above_top(const Items *numbers, const Items *others, uint64_t *number)
{
    uint64_t some[CHUNK];
    uint8_t present;
    for (size_t i = 0, count; i < numbers->count; i += count) {
        count = numbers->count - i < CHUNK ? numbers->count - i : CHUNK;
        read_numbers(numbers, i, count, some);
        for (size_t j = 0; j < count; j++) {
            *number = some[j];
            if (*number > INT64_MAX && rows_present(numbers, others, i + j, 1, &present) > 0) return true;
        }
    }
    return false;
}

void weights_chunk(const Weights *weights, size_t first, size_t count, uint64_t *chunk)
{
    if (weights->each) read_numbers(&weights->items, first, count, chunk);
    for (size_t i = 0; !weights->each && i < count; i++) chunk[i] = weights->same;
}

static const ds_string no_string = {(const uint8_t *)"", 0};

/* Reads the items of a list, or of a run with a dictionary, up to the first of the other type. `run` is NULL for a list. */
static bool read_entries(Chunk *chunk, const Run *run, size_t at, bool *with_texts)
{
    const Items *items = chunk->batch->items;
    size_t i = 0;
    *with_texts = false;
    chunk->count = 0;
    if (run != NULL) run_numbers(run, at, chunk->rows, chunk->numbers);
    for (; i < chunk->rows; i++) {
        const Item *item = run != NULL ? run_entry_by_index(run, at + i, chunk->numbers[i]) : &items->items[at + i];
        if (item == NULL) return false;
        chunk->numbers[i] = item->value;
        if (items->with_texts)
            chunk->strings[i] = item->text != NULL ? (ds_string){(const uint8_t *)item->text, item->value} : no_string;
        drop(chunk->present, i, item->missing);
        if (!is_present(chunk->present, i)) continue;
        if (chunk->count > 0 && *with_texts != (item->text != NULL)) break;
        *with_texts = item->text != NULL;
        chunk->count++;
    }
    chunk->rows = i;
    return true;
}

static bool read_strings(Chunk *chunk, const Run *run, size_t at)
{
    for (size_t i = 0; i < chunk->rows; i++) {
        uint8_t *room = chunk->room != NULL ? chunk->room + i * (size_t)run->size : NULL;
        chunk->strings[i] = no_string;
        if (is_present(chunk->present, i) && !run_string(run, at + i, room, &chunk->strings[i])) return false;
    }
    return true;
}

/* Passes the strings of a run by a copy of their offsets, which nothing changes after the library has checked them. */
static ds_items copy_offsets(Chunk *chunk, const Run *run, size_t at)
{
    size_t count = chunk->rows + 1;
    memcpy(chunk->numbers, run->start + (Py_ssize_t)at * run->stride, count * (size_t)run->size);
    return run->layout == STRINGS_32 ? ds_items_offsets32(run->bytes, run->num_bytes, (const uint32_t *)chunk->numbers, count)
                                     : ds_items_offsets(run->bytes, run->num_bytes, chunk->numbers, count);
}

/* Sets the number of rows that are read, of the `left` ones, and makes room for their strings. */
static bool prepare(Chunk *chunk, const Run *run, size_t left)
{
    size_t most = chunk->batch->items->with_texts && chunk->most > CHUNK ? CHUNK : chunk->most, size = 0;
    if (run != NULL && (run->layout == FIXED_BYTES || run->layout == FIXED_WIDE)) size = (size_t)run->size;
    if (size > MOST_BYTES / CHUNK) most = size < MOST_BYTES ? MOST_BYTES / size : 1;
    if (most > chunk->ahead) most = chunk->ahead;
    chunk->rows = left < most ? left : most;
    chunk->count = 0;
    if (chunk->room_size >= size * chunk->rows) return true;
    PyMem_RawFree(chunk->room);
    chunk->room_size = size * chunk->rows;
    chunk->room = PyMem_RawMalloc(chunk->room_size);
    return chunk->room != NULL;
}

/* Reads the rows of the chunk from row `first` on, which is row `at` of a run, or of a list if `run` is NULL. */
static bool read_rows(Chunk *chunk, size_t first, const Run *run, size_t at)
{
    const Items *items = chunk->batch->items, *others = chunk->weights != NULL ? &chunk->weights_from->items : NULL;
    const Sketch *sketch = chunk->batch->self;
    bool with_texts = items->with_texts, of_entries = run == NULL || run->entries != NULL, read = true;
    bool by_offsets = !of_entries && with_texts && sketch != NULL && has_offsets(run) && !run->has_bad_gaps;
    if (chunk->weights != NULL) weights_chunk(chunk->weights_from, first, chunk->rows, chunk->weights);
    chunk->count = rows_present(items, others, first, chunk->rows, chunk->present);
    if (of_entries) read = read_entries(chunk, run, at, &with_texts);
    else if (!with_texts) read_numbers(items, first, chunk->rows, chunk->numbers);
    else if (!by_offsets) read = read_strings(chunk, run, at);
    if (by_offsets) chunk->items = copy_offsets(chunk, run, at);
    else if (with_texts) chunk->items = ds_items_strings(chunk->strings, chunk->rows);
    else if (sketch != NULL && sketch->kind == DS_FREQUENT_ITEMS_I64)
        chunk->items = ds_items_i64((const int64_t *)chunk->numbers, chunk->rows);
    else chunk->items = ds_items_u64(chunk->numbers, chunk->rows);
    if (chunk->count < chunk->rows) chunk->items = ds_items_with_validity(chunk->items, chunk->present, 0);
    return read && (!items->below_top || below_top(chunk, chunk->numbers));
}

int32_t chunk_read(Chunk *chunk, size_t first)
{
    const Items *items = chunk->batch->items;
    size_t left = items->count - first, in_run = left, at = first;
    const Run *run = items->items == NULL ? run_of(items, first, &at, &in_run) : NULL;
    /* numbers may be of many runs, and strings and values of a dictionary are of one */
    if (!prepare(chunk, run, items->with_texts || items->of_entries ? in_run : left)) return DS_NO_MEMORY;
    bool read = read_rows(chunk, first, run, at);
    chunk->ahead = 2 * chunk->rows;
    bool holds = chunk->weights == NULL || !chunk->weights_from->items.below_top || below_top(chunk, chunk->weights);
    return read && holds ? DS_OK : CHANGED;
}

/* Returns the maximum number of numbers without weights in one call. */
static size_t longest(const Batch *batch)
{
    uint64_t hashes = 0;
    if (batch->self == NULL || (batch->self->kind != DS_COUNT_MIN_U64 && batch->self->kind != DS_COUNT_MIN_I64)) return CHUNK;
    ds_number(batch->handle, DS_NUMBER_NUM_HASHES, &hashes);
    return hashes > 16 ? LONG_WORK / hashes : LONG_CHUNK;
}

void chunk_open(Chunk *chunk, const Batch *batch, const Weights *weights)
{
    size_t most = weights == NULL && batch->items->count > CHUNK ? longest(batch) : CHUNK;
    if (most > batch->items->count) most = batch->items->count;
    chunk->batch = batch;
    chunk->weights_from = weights;
    chunk->weights = weights != NULL ? chunk->few_weights : NULL;
    chunk->numbers = most > CHUNK ? PyMem_RawMalloc(most * sizeof *chunk->numbers + (most + 7) / 8) : NULL;
    chunk->most = chunk->numbers != NULL ? most : CHUNK;
    chunk->present = chunk->numbers != NULL ? (uint8_t *)(chunk->numbers + most) : chunk->few_present;
    if (chunk->numbers == NULL) chunk->numbers = chunk->few_numbers;
    chunk->ahead = SIZE_MAX;
    chunk->room = NULL;
    chunk->room_size = 0;
}

void chunk_close(Chunk *chunk)
{
    if (chunk->numbers != chunk->few_numbers) PyMem_RawFree(chunk->numbers);
    PyMem_RawFree(chunk->room);
}
