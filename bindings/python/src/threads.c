/* The words, the lines and the fields of a text by several threads, each with a sketch of its own. */
#include "items.h"
#include "texts.h"

#include <errno.h>
#include <poll.h>
#include <pthread.h>
#include <signal.h>
#include <stdatomic.h>
#include <time.h>
#include <unistd.h>

#define MOST_THREADS 1024

/* The maximum number of bytes of all threads' sketches if no number of threads is given. */
#define MOST_BYTES ((uint64_t)1 << 30)

/* The result of a read that failed. */
#define NOT_READ INT32_MIN

/* In nanoseconds: the time between two checks for Ctrl-C. */
#define LISTENS 100000000

/* How many bytes a thread first reads to find the end of a word or line that goes on after a piece. */
#define LITTLE ((size_t)1 << 12)

/* The bytes that a thread has read. */
typedef struct {
    uint8_t *bytes;
    size_t length, room;
} Buffer;

/* Some bytes of the input, which hold whole words or lines. */
typedef struct {
    const uint8_t *bytes;
    size_t length;
    uint64_t at; /* the offset of the first byte */
} Piece;

/* The work of a call. `turn` guards what follows it, and `state` what follows that. */
typedef struct {
    const Input *input;
    const Taken *what;
    int32_t kind;
    ds_status sizes; /* those of the sketch */
    atomic_bool stopped;
    atomic_uint_fast64_t taken;   /* bytes of pieces that were taken */
    atomic_size_t records, items; /* of fields */

    pthread_mutex_t turn;
    uint64_t next; /* the offset of the next piece */
    Buffer rest;   /* of a stream: the bytes that were read and come first in the next piece */
    bool at_end;   /* of a stream */

    pthread_mutex_t state;
    pthread_cond_t ended;
    size_t running;   /* the number of threads that did not end */
    ds_sketch model;  /* an empty sketch of frequent items, with the sketch's sizes and key */
    ds_sketch *parts; /* the threads' sketches */
    size_t num_parts; /* the number of threads that have one */
    int32_t answer;   /* the first error by its place, or DS_OK */
    uint64_t byte;    /* its place */
    int reason;       /* errno, if a read failed */
} Job;

/* Makes room for `count` more bytes. */
static bool make_room(Buffer *buffer, size_t count)
{
    if (count <= buffer->room - buffer->length) return true;
    size_t room = buffer->length + count;
    if (room < 2 * buffer->room) room = 2 * buffer->room;
    uint8_t *bytes = PyMem_RawRealloc(buffer->bytes, room);
    if (bytes == NULL) return false;
    buffer->bytes = bytes;
    buffer->room = room;
    return true;
}

static int32_t append(Buffer *buffer, const uint8_t *bytes, size_t count)
{
    if (!make_room(buffer, count)) return DS_NO_MEMORY;
    if (count > 0) memcpy(buffer->bytes + buffer->length, bytes, count);
    buffer->length += count;
    return DS_OK;
}

/* --- Pieces of memory --- */

static int32_t memory_piece(Job *job, Buffer *buffer, Piece *piece)
{
    const Input *input = job->input;
    int32_t answer = DS_OK;
    size_t from = (size_t)job->next, length = (size_t)input->length;
    size_t end = piece_end(input->bytes, length, job->what, from);
    job->next = end;
    pthread_mutex_unlock(&job->turn);
    *piece = (Piece){input->bytes + from, end - from, from};
    if (!input->may_change) return DS_OK;
    buffer->length = 0;
    answer = append(buffer, piece->bytes, piece->length);
    piece->bytes = buffer->bytes;
    return answer;
}

/* --- Pieces of a regular file --- */

/* Appends the bytes of the file from an offset on. Fewer than `count` are there if the file ends before. */
static int32_t read_at(const Input *input, uint64_t at, size_t count, Buffer *buffer)
{
    if (!make_room(buffer, count)) return DS_NO_MEMORY;
    while (count > 0) {
        ssize_t got = pread(input->file, buffer->bytes + buffer->length, count, (off_t)(input->start + at));
        if (got < 0 && errno == EINTR) continue;
        if (got < 0) return NOT_READ;
        if (got == 0) break;
        buffer->length += (size_t)got;
        at += (uint64_t)got;
        count -= (size_t)got;
    }
    return DS_OK;
}

static size_t at_most(uint64_t count, size_t most)
{
    return count < most ? (size_t)count : most;
}

/* Reads on up to the end of the word or line that the buffer ends in. `at` is the offset of the buffer. */
static int32_t read_to_end(Job *job, uint64_t at, Buffer *buffer)
{
    const Input *input = job->input;
    int32_t answer = DS_OK;
    bool found = is_end(buffer->bytes[buffer->length - 1], job->what->of_lines);
    for (size_t more = LITTLE; !found && answer >= 0; more = buffer->length) {
        size_t length = buffer->length, count = at_most(input->length - at - length, more);
        answer = read_at(input, at + length, count, buffer);
        if (buffer->length == length) break;
        size_t end = end_after(buffer->bytes, buffer->length, job->what->of_lines, length);
        found = is_end(buffer->bytes[end - 1], job->what->of_lines);
        buffer->length = end;
    }
    return answer;
}

/* Words and lines belong to the piece in which they begin. The thread also reads the byte before the piece: it says whether one
 * begins there. A piece inside of a long word or line is empty. */
static int32_t file_piece(Job *job, Buffer *buffer, Piece *piece)
{
    const Input *input = job->input;
    uint64_t from = job->next;
    size_t before = from > 0;
    job->next = input->length - from <= PIECE ? input->length : from + PIECE;
    pthread_mutex_unlock(&job->turn);
    uint64_t at = from - before;
    size_t wanted = before + at_most(input->length - from, PIECE), begin = 0;
    buffer->length = 0;
    int32_t answer = read_at(input, at, wanted, buffer);
    if (answer >= 0 && before > 0) begin = end_after(buffer->bytes, buffer->length, job->what->of_lines, 0);
    if (answer >= 0 && begin < buffer->length && buffer->length == wanted) answer = read_to_end(job, at, buffer);
    *piece = (Piece){buffer->bytes + begin, buffer->length - begin, at + begin};
    return answer;
}

/* --- Pieces of a stream --- */

/* Appends at least one byte, unless the stream is at its end or the job is stopped. Waits for bytes in short steps, so that a call
 * with a silent pipe can be stopped. */
static int32_t read_next(Job *job, Buffer *buffer, size_t count)
{
    struct pollfd file = {.fd = job->input->file, .events = POLLIN};
    if (!make_room(buffer, count)) return DS_NO_MEMORY;
    while (!atomic_load(&job->stopped)) {
        int ready = poll(&file, 1, LISTENS / 1000000);
        if (ready == 0 || (ready < 0 && errno == EINTR)) continue;
        ssize_t got = ready < 0 ? -1 : read(file.fd, buffer->bytes + buffer->length, count);
        if (got < 0 && ready > 0 && (errno == EINTR || errno == EAGAIN)) continue;
        if (got < 0) return NOT_READ;
        job->at_end = got == 0;
        buffer->length += (size_t)got;
        break;
    }
    return DS_OK;
}

/* Returns the number of bytes through the last end of a word, line or record. */
static size_t finished(const Taken *what, const Buffer *buffer)
{
    if (what->fields != NULL && what->fields->format == DS_FIELDS_CSV)
        return ds_finished_csv_records(buffer->bytes, buffer->length, what->fields->delimiter);
    return what->of_lines ? ds_finished_lines(buffer->bytes, buffer->length) : ds_finished_words(buffer->bytes, buffer->length);
}

/* Reads a piece, and leaves what follows its last whole word, line or record for the next one. Without an end of one in it, the piece
 * grows to twice its size. */
static int32_t read_piece(Job *job, Buffer *buffer, size_t *used)
{
    buffer->length = 0;
    int32_t answer = append(buffer, job->rest.bytes, job->rest.length);
    job->rest.length = 0;
    *used = 0;
    for (size_t wanted = PIECE; answer >= 0 && *used == 0; wanted = 2 * wanted) {
        while (answer >= 0 && buffer->length < wanted && !job->at_end && !atomic_load(&job->stopped))
            answer = read_next(job, buffer, wanted - buffer->length);
        if (atomic_load(&job->stopped)) return DS_OK;
        if (job->at_end) *used = buffer->length;
        else if (answer >= 0) *used = finished(job->what, buffer);
        if (job->at_end) break;
    }
    return answer >= 0 ? append(&job->rest, buffer->bytes + *used, buffer->length - *used) : answer;
}

static int32_t stream_piece(Job *job, Buffer *buffer, Piece *piece)
{
    size_t used;
    int32_t answer = read_piece(job, buffer, &used);
    *piece = (Piece){buffer->bytes, used, job->next};
    job->next += used;
    pthread_mutex_unlock(&job->turn);
    return answer;
}

/* --- The threads --- */

/* Skips a byte order mark at the front of a file. */
static void skip_mark(Job *job, Piece *piece)
{
    if (piece->at > 0 || piece->length < 3 || memcmp(piece->bytes, "\xef\xbb\xbf", 3) != 0) return;
    *piece = (Piece){piece->bytes + 3, piece->length - 3, 3};
    atomic_fetch_add(&job->taken, 3);
}

/* Takes the next piece. Returns false if there is none. Pieces are taken in their order, so those before an error are taken. */
static bool next_piece(Job *job, Buffer *buffer, Piece *piece, int32_t *answer)
{
    const Input *input = job->input;
    pthread_mutex_lock(&job->turn);
    bool is_none = input->origin == FROM_STREAM ? job->at_end : job->next == input->length;
    if (is_none || atomic_load(&job->stopped)) {
        pthread_mutex_unlock(&job->turn);
        return false;
    }
    *answer = input->origin == FROM_MEMORY ? memory_piece(job, buffer, piece)
              : input->origin == FROM_FILE ? file_piece(job, buffer, piece)
                                           : stream_piece(job, buffer, piece);
    if (input->origin != FROM_MEMORY && *answer >= 0) skip_mark(job, piece);
    return true;
}

/* Returns whether an error has a place: an item that is not UTF-8, or a record without a weight. */
static bool has_place(int32_t answer)
{
    return answer == DS_INVALID_UTF8 || answer == DS_BAD_WEIGHT;
}

/* Stores the error of a piece if it is the first by its place, and lets all threads end after the pieces that they have. */
static void stop(Job *job, int32_t answer, const Piece *piece, const ds_fields_read *read)
{
    int reason = errno;
    uint64_t byte = piece->at;
    if (has_place(answer)) byte += job->what->fields != NULL ? read->offset : ds_valid_utf8(piece->bytes, piece->length);
    pthread_mutex_lock(&job->state);
    if (job->answer >= 0 || byte < job->byte) {
        job->answer = answer;
        job->byte = byte;
        job->reason = reason;
    }
    pthread_mutex_unlock(&job->state);
    atomic_store(&job->stopped, true);
}

/* Creates the empty sketch of a thread. */
static int32_t part_new(Job *job, ds_sketch *part)
{
    const ds_status *sizes = &job->sizes;
    if (job->kind == DS_BLOOM) return ds_bloom_new(part, sizes->num_bits, sizes->num_hashes, sizes->seed);
    if (job->kind == DS_COUNT_MIN_U64 || job->kind == DS_COUNT_MIN_I64)
        return ds_count_min_new(part, job->kind, (uint8_t)sizes->num_hashes, sizes->num_buckets, sizes->seed);
    pthread_mutex_lock(&job->state);
    int32_t answer = ds_clone(part, &job->model);
    pthread_mutex_unlock(&job->state);
    return answer;
}

/* Takes a piece. The thread gets its sketch with the first one that is not empty. */
static int32_t take_piece(Job *job, ds_sketch *part, const Piece *piece, ds_fields_read *read)
{
    int32_t answer = DS_OK;
    if (piece->length == 0) return DS_OK;
    if (part->sketch == NULL) answer = part_new(job, part);
    if (answer >= 0) answer = take_bytes(part, job->kind, piece->bytes, piece->length, job->what, read);
    if (answer >= 0) atomic_fetch_add(&job->taken, piece->length);
    if (answer >= 0) atomic_fetch_add(&job->records, read->num_records);
    if (answer >= 0) atomic_fetch_add(&job->items, read->num_items);
    return answer;
}

static void *work(void *given)
{
    Job *job = given;
    Buffer buffer = {0};
    Piece piece;
    ds_sketch part = DS_NONE;
    int32_t answer;
    while (next_piece(job, &buffer, &piece, &answer)) {
        ds_fields_read read = {0, 0, 0};
        if (answer >= 0) answer = take_piece(job, &part, &piece, &read);
        if (answer < 0) stop(job, answer, &piece, &read);
    }
    PyMem_RawFree(buffer.bytes);
    pthread_mutex_lock(&job->state);
    if (part.sketch != NULL) job->parts[job->num_parts++] = part;
    job->running--;
    if (job->running == 0) pthread_cond_signal(&job->ended);
    pthread_mutex_unlock(&job->state);
    return NULL;
}

/* Waits until all threads have ended, but not longer than until the next check for Ctrl-C. Returns whether they have ended. */
static bool wait_a_little(Job *job)
{
    struct timespec until;
    clock_gettime(CLOCK_MONOTONIC, &until);
    until.tv_nsec += LISTENS;
    until.tv_sec += until.tv_nsec / 1000000000;
    until.tv_nsec %= 1000000000;
    pthread_mutex_lock(&job->state);
    while (job->running > 0 && pthread_cond_timedwait(&job->ended, &job->state, &until) != ETIMEDOUT) {}
    bool ended = job->running == 0;
    pthread_mutex_unlock(&job->state);
    return ended;
}

/* Calls `progress` with the number of bytes that were taken since the last call. */
static bool report(Job *job, PyObject *progress, uint64_t *reported)
{
    uint64_t taken = atomic_load(&job->taken);
    if (progress == NULL || taken == *reported) return true;
    PyObject *result = PyObject_CallFunction(progress, "K", (unsigned long long)(taken - *reported));
    *reported = taken;
    Py_XDECREF(result);
    return result != NULL;
}

/* Starts threads that get no signals, since Python handles these in its own. The signals of faults stay as they are. Returns the
 * number of threads that were started. */
static size_t start(Job *job, pthread_t *threads, size_t count)
{
    sigset_t blocked, before;
    size_t started = 0;
    sigfillset(&blocked);
    for (const int *fault = (const int[]){SIGSEGV, SIGBUS, SIGFPE, SIGILL, SIGABRT, 0}; *fault != 0; fault++)
        sigdelset(&blocked, *fault);
    pthread_sigmask(SIG_SETMASK, &blocked, &before);
    pthread_mutex_lock(&job->state);
    while (started < count && pthread_create(&threads[started], NULL, work, job) == 0) started++;
    job->running = started;
    pthread_mutex_unlock(&job->state);
    pthread_sigmask(SIG_SETMASK, &before, NULL);
    return started;
}

/* Runs the threads to their end. Returns false, with an error set, if Ctrl-C or `progress` ended the call or no thread started. */
static bool run(Job *job, size_t count, PyObject *progress)
{
    uint64_t reported = 0;
    bool goes_on = true, ended = false;
    pthread_t *threads = PyMem_RawCalloc(count, sizeof *threads);
    size_t started = threads != NULL ? start(job, threads, count) : 0;
    if (threads == NULL) PyErr_NoMemory();
    else if (started == 0) PyErr_SetString(PyExc_RuntimeError, "can't start new thread");
    while (started > 0 && !ended) {
        Py_BEGIN_ALLOW_THREADS
        ended = wait_a_little(job);
        Py_END_ALLOW_THREADS
        if (goes_on) goes_on = PyErr_CheckSignals() == 0 && report(job, progress, &reported);
        if (!goes_on) atomic_store(&job->stopped, true);
    }
    for (size_t i = 0; i < started; i++) pthread_join(threads[i], NULL);
    PyMem_RawFree(threads);
    return started > 0 && goes_on;
}

/* Reads the sketch's sizes, and prepares what the threads start from. */
static bool prepare(Job *job, Sketch *self, size_t threads)
{
    Use use = {.sketch = self};
    int32_t answer;
    const Input *input = job->input;
    job->parts = PyMem_RawCalloc(threads, sizeof *job->parts);
    if (job->parts == NULL) return PyErr_NoMemory() != NULL;
    if (input->origin == FROM_STREAM) job->next = input->start;
    if (append(&job->rest, input->front, input->front_length) < 0) return PyErr_NoMemory() != NULL;
    if (!sketch_status(self, &job->sizes)) return false;
    if (self->kind != DS_FREQUENT_ITEMS_STRING) return true;
    if (!use_begin(&use)) return false;
    Py_BEGIN_ALLOW_THREADS
    answer = ds_clone(&job->model, &use.share);
    if (answer >= 0) answer = ds_reset(&job->model);
    Py_END_ALLOW_THREADS
    use_end(&use);
    return answer >= 0 || refuse(answer) != NULL;
}

static bool merge(Job *job, Sketch *self)
{
    Use use = {.sketch = self, .changes = true};
    int32_t answer;
    if (job->num_parts == 0) return true;
    if (!use_begin(&use)) return false;
    Py_BEGIN_ALLOW_THREADS
    answer = ds_merge_all(&self->handle, job->parts, job->num_parts);
    Py_END_ALLOW_THREADS
    use_end(&use);
    return answer >= 0 || refuse(answer) != NULL;
}

/* Sets the error that the threads found, and returns false. Returns true if there is none. */
static bool all_taken(const Job *job)
{
    if (job->answer >= 0) return true;
    errno = job->reason;
    if (job->answer == NOT_READ) PyErr_SetFromErrno(PyExc_OSError);
    else if (has_place(job->answer)) refuse_at(job->answer, (size_t)job->byte);
    else refuse(job->answer);
    return false;
}

static void release(Job *job, size_t threads)
{
    Py_BEGIN_ALLOW_THREADS
    for (size_t i = 0; job->parts != NULL && i < threads; i++) ds_free(&job->parts[i]);
    ds_free(&job->model);
    Py_END_ALLOW_THREADS
    PyMem_RawFree(job->parts);
    PyMem_RawFree(job->rest.bytes);
    pthread_mutex_destroy(&job->turn);
    pthread_mutex_destroy(&job->state);
    pthread_cond_destroy(&job->ended);
}

/* Prepares the condition for times of the monotonic clock. */
static void init_ended(pthread_cond_t *ended)
{
    pthread_condattr_t attributes;
    pthread_condattr_init(&attributes);
    pthread_condattr_setclock(&attributes, CLOCK_MONOTONIC);
    pthread_cond_init(ended, &attributes);
    pthread_condattr_destroy(&attributes);
}

/* Sets the numbers of fields before all are merged, so that no error comes after that. */
static bool set_numbers(Job *job, PyObject **numbers)
{
    if (numbers != NULL) *numbers = field_numbers(atomic_load(&job->records), atomic_load(&job->items));
    return numbers == NULL || *numbers != NULL;
}

bool take_by_threads(Sketch *self, const Input *input, const Taken *taken, size_t threads, PyObject *progress, PyObject **numbers)
{
    Job job = {
        .input = input, .what = taken, .kind = self->kind, .turn = PTHREAD_MUTEX_INITIALIZER, .state = PTHREAD_MUTEX_INITIALIZER};
    if (input->origin != FROM_STREAM) threads = at_most(input->length / PIECE + 1, threads);
    init_ended(&job.ended);
    bool done = prepare(&job, self, threads) && run(&job, threads, progress) && all_taken(&job) && set_numbers(&job, numbers) &&
                merge(&job, self);
    if (!done && numbers != NULL) Py_CLEAR(*numbers);
    release(&job, threads);
    return done;
}

/* --- The number of threads --- */

/* Returns how many processors the process may use, or 0 with an error set. */
static size_t processors(void)
{
    PyObject *module = PyImport_ImportModule("os");
    PyObject *usable = module != NULL ? PyObject_CallMethod(module, "sched_getaffinity", "i", 0) : NULL;
    Py_ssize_t count = usable != NULL ? PyObject_Size(usable) : -1;
    Py_XDECREF(module);
    Py_XDECREF(usable);
    return count < 0 ? 0 : (size_t)count;
}

/* Returns how many bytes a sketch of these sizes can take, but for strings. */
static uint64_t most_bytes(const ds_status *sizes)
{
    if (sizes->kind == DS_BLOOM) return sizes->num_bits / 8;
    if (sizes->kind == DS_FREQUENT_ITEMS_STRING) return 44 * sizes->max_map_size;
    return 8 * (uint64_t)sizes->num_hashes * sizes->num_buckets;
}

bool threads_of(Sketch *self, PyObject *object, size_t *threads)
{
    ds_status sizes;
    uint64_t number;
    if (object != Py_None) {
        if (!natural_of(object, "threads", &number)) return false;
        *threads = (size_t)number;
        if (number >= 1 && number <= MOST_THREADS) return true;
        PyErr_Format(PyExc_ValueError, "threads is from 1 to %d", MOST_THREADS);
        return false;
    }
    size_t most = processors();
    if (most == 0 || !sketch_status(self, &sizes)) return false;
    uint64_t fitting = MOST_BYTES / (most_bytes(&sizes) + 1);
    *threads = fitting < 1 ? 1 : at_most(fitting, most < MOST_THREADS ? most : MOST_THREADS);
    return true;
}
