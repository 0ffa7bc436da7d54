/* A library that is loaded before the C library. It fails the n-th allocation, read or write, and writes a report of
 * what it counted at exit.
 *
 * REFUSED_AT is the number of the allocation that fails, counted from 1 over malloc, calloc and realloc. With 0 none
 * fails. With REFUSED_MARKED, allocations are counted only after one of MARK_BEGIN bytes and up to one of MARK_END bytes.
 * Those two are not counted. REFUSED_REPORT is the path of the report, which has five numbers:
 * - the number of allocations
 * - whether one failed
 * - the number of blocks that were not freed
 * - the number of blocks that were freed while allocations were counted
 * - the number of bytes that the allocations requested
 *
 * FAILS_READ_AT and FAILS_WRITE_AT are the numbers of the read of standard input and of the write to standard output that
 * fail. With INTERRUPTED such a call fails with EINTR, as after a signal. READ_STEP and WRITE_STEP are the maximum numbers
 * of bytes that such a read and such a write move. If one of these four is set, the report has four numbers instead:
 * - the number of reads
 * - whether a call failed
 * - the number of writes
 * - the number of reads before which the number of lines written was not the number of lines read
 *
 * With NO_RANDOM_BYTES, getentropy fails.
 */
#define _GNU_SOURCE
#include <dlfcn.h>
#include <stdio.h>
#include <stdlib.h>
#include <errno.h>
#include <unistd.h>

#define MARK_BEGIN 7919
#define MARK_END 7927

static void *(*real_malloc)(size_t);
static void *(*real_realloc)(void *, size_t);
static void *(*real_calloc)(size_t, size_t);
static void (*real_free)(void *);
static ssize_t (*real_read)(int, void *, size_t);
static ssize_t (*real_write)(int, const void *, size_t);
static int (*real_getentropy)(void *, size_t);

static long refused_at;
static long requests;
static long refusals;
static long blocks;
static long given_back;
static size_t requested;
static int loaded;
static int counting;

static long fails_read_at;
static long fails_write_at;
static int interrupted;
static long read_step;
static long write_step;
static int streams;
static long reads;
static long writes;
static long failures;
static long lines_read;
static long lines_written;
static long late_reads;

static long number_of(const char *name)
{
    const char *text = getenv(name);
    return text ? atol(text) : 0;
}

__attribute__((constructor)) static void begin(void)
{
    real_malloc = dlsym(RTLD_NEXT, "malloc");
    real_realloc = dlsym(RTLD_NEXT, "realloc");
    real_calloc = dlsym(RTLD_NEXT, "calloc");
    real_free = dlsym(RTLD_NEXT, "free");
    real_read = dlsym(RTLD_NEXT, "read");
    real_write = dlsym(RTLD_NEXT, "write");
    real_getentropy = dlsym(RTLD_NEXT, "getentropy");
    refused_at = number_of("REFUSED_AT");
    fails_read_at = number_of("FAILS_READ_AT");
    fails_write_at = number_of("FAILS_WRITE_AT");
    interrupted = number_of("INTERRUPTED") > 0;
    read_step = number_of("READ_STEP");
    write_step = number_of("WRITE_STEP");
    streams = read_step || write_step || fails_read_at || fails_write_at;
    loaded = 1;
    counting = !getenv("REFUSED_MARKED");
}

__attribute__((destructor)) static void end(void)
{
    loaded = 0;
    counting = 0;
    const char *path = getenv("REFUSED_REPORT");
    FILE *report = path ? fopen(path, "w") : NULL;
    if (report) {
        if (streams) {
            fprintf(report, "%ld %ld %ld %ld\n", reads, failures, writes, late_reads);
        } else {
            fprintf(report, "%ld %ld %ld %ld %zu\n", requests, refusals, blocks, given_back, requested);
        }
        fclose(report);
    }
}

/* Counts an allocation of this many bytes. Returns whether it is the one that fails. */
static int refuses(size_t size)
{
    if (!counting) {
        return 0;
    }
    requests += 1;
    requested += size;
    if (requests != refused_at) {
        return 0;
    }
    refusals += 1;
    errno = ENOMEM;
    return 1;
}

void *malloc(size_t size)
{
    if (!real_malloc) {
        real_malloc = dlsym(RTLD_NEXT, "malloc");
    }
    if (size == MARK_BEGIN || size == MARK_END) {
        counting = loaded && size == MARK_BEGIN;
    } else if (refuses(size)) {
        return NULL;
    }
    void *block = real_malloc(size);
    blocks += loaded && block;
    return block;
}

void *calloc(size_t count, size_t size)
{
    if (!real_calloc) {
        return NULL; /* dlsym's own first allocation, which may fail */
    }
    if (refuses(count * size)) {
        return NULL;
    }
    void *block = real_calloc(count, size);
    blocks += loaded && block;
    return block;
}

void *realloc(void *block, size_t size)
{
    if (refuses(size)) {
        return NULL;
    }
    void *moved = real_realloc(block, size);
    blocks += loaded && !block && moved;
    return moved;
}

void free(void *block)
{
    blocks -= loaded && block;
    given_back += counting && block;
    if (real_free) {
        real_free(block);
    }
}

/* Counts a read or a write. Returns whether it is the one that fails. */
static int fails(long *calls, long at)
{
    *calls += 1;
    if (*calls != at) {
        return 0;
    }
    failures += 1;
    errno = interrupted ? EINTR : EIO;
    return 1;
}

/* Returns the number of line feeds. */
static long lines_in(const char *bytes, ssize_t size)
{
    long lines = 0;
    for (ssize_t i = 0; i < size; i++) {
        lines += bytes[i] == '\n';
    }
    return lines;
}

ssize_t read(int file, void *bytes, size_t size)
{
    if (file != 0 || !streams || !loaded) {
        return real_read(file, bytes, size);
    }
    late_reads += lines_written != lines_read;
    if (fails(&reads, fails_read_at)) {
        return -1;
    }
    if (read_step && size > (size_t)read_step) {
        size = read_step;
    }
    ssize_t moved = real_read(file, bytes, size);
    lines_read += lines_in(bytes, moved);
    return moved;
}

ssize_t write(int file, const void *bytes, size_t size)
{
    if (file != 1 || !streams || !loaded) {
        return real_write(file, bytes, size);
    }
    if (fails(&writes, fails_write_at)) {
        return -1;
    }
    if (write_step && size > (size_t)write_step) {
        size = write_step;
    }
    ssize_t moved = real_write(file, bytes, size);
    lines_written += lines_in(bytes, moved);
    return moved;
}

ssize_t __write(int file, const void *bytes, size_t size)
{
    return write(file, bytes, size);
}

int getentropy(void *bytes, size_t size)
{
    if (getenv("NO_RANDOM_BYTES")) {
        errno = ENOSYS;
        return -1;
    }
    return real_getentropy(bytes, size);
}
