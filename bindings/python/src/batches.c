/* Calls for many items: their use of the sketch, Ctrl-C, and their errors. */
#include "items.h"

#include <signal.h>
#include <time.h>

/* In nanoseconds. LISTENS is the time between two checks for Ctrl-C. If a chunk of an iterator takes less than QUICK, the next
 * chunk keeps the interpreter's lock, since a thread that releases it waits for its turn. */
#define LISTENS 100000000
#define QUICK 1000000

/* A call of at most FEW items, with strings of at most SHORT bytes in all, keeps the interpreter's lock, as a call of one item does:
 * it would take longer to give the lock to another thread. */
#define FEW 16
#define SHORT 1024

/* The longest time for which the chunks of an iterator keep the interpreter's lock: Python's own switch interval. */
#define TURN 5000000

static uint64_t now(void)
{
    struct timespec time;
    clock_gettime(CLOCK_MONOTONIC, &time);
    return (uint64_t)time.tv_sec * 1000000000 + (uint64_t)time.tv_nsec;
}

/* Begins to use the sketch, if any, while other Python threads run. */
static bool batch_enter(Batch *batch)
{
    batch->use.sketch = batch->self;
    batch->in_use = batch->self != NULL && use_begin(&batch->use);
    batch->handle = use_handle(&batch->use);
    return batch->in_use || batch->self == NULL;
}

static void batch_leave(Batch *batch)
{
    if (batch->in_use) use_end(&batch->use);
    batch->in_use = false;
}

/* Does the same for work that keeps the interpreter's lock. */
static bool batch_ready(Batch *batch)
{
    if (batch->self == NULL) return true;
    batch->handle = &batch->self->handle;
    return batch->use.changes ? sketch_ready_to_change(batch->self) : sketch_ready(batch->self);
}

static bool are_few(const Items *items)
{
    size_t bytes = 0;
    if (items->count > FEW || (items->with_texts && items->items == NULL)) return false;
    for (size_t i = 0; items->with_texts && i < items->count; i++)
        bytes += items->items[i].text != NULL && bytes <= SHORT ? items->items[i].value : 0;
    return bytes <= SHORT;
}

/* Begins work on all items, or on the next chunk of an iterator. */
static bool batch_begin(Batch *batch)
{
    const Items *items = batch->items;
    uint64_t time = items->held != NULL ? now() : 0;
    if (batch->turn == 0) batch->turn = time;
    bool is_quick = items->held != NULL && batch->took < QUICK && time - batch->turn < TURN;
    bool keeps_lock = is_quick || are_few(items);
    if (keeps_lock ? !batch_ready(batch) : !batch_enter(batch)) return false;
    batch->began = items->held != NULL ? now() : 0;
    batch->due = 0;
    batch->thread = keeps_lock ? NULL : PyEval_SaveThread();
    return true;
}

static void batch_end(Batch *batch)
{
    if (batch->began > 0) batch->took = now() - batch->began;
    if (batch->thread != NULL) {
        PyEval_RestoreThread(batch->thread);
        batch->turn = 0;
    }
    batch->thread = NULL;
    batch_leave(batch);
}

/* Calls the handler of Ctrl-C. Returns false if it raises. */
static bool handle_interrupt(void)
{
    PyObject *module = PyImport_ImportModule("signal");
    PyObject *function = module != NULL ? attribute(module, "getsignal") : NULL;
    PyObject *handler = function != NULL ? PyObject_CallFunction(function, "i", SIGINT) : NULL;
    PyObject *frame = (PyObject *)PyEval_GetFrame();
    if (handler != NULL && PyCallable_Check(handler))
        Py_XDECREF(PyObject_CallFunction(handler, "iO", SIGINT, frame != NULL ? frame : Py_None));
    Py_XDECREF(module);
    Py_XDECREF(function);
    Py_XDECREF(handler);
    return !PyErr_Occurred();
}

/* Checks for Ctrl-C between two chunks, from time to time. Returns false, with an error set, if the batch ends. Ends the use of
 * the sketch for the handler, which may use it. Handlers of other signals run after the batch. */
static bool batch_goes_on(Batch *batch)
{
    bool goes_on = true;
    if (batch->thread == NULL) return true;
    uint64_t time = now();
    if (batch->due == 0) batch->due = time + LISTENS;
    if (time < batch->due) return true;
    PyEval_RestoreThread(batch->thread);
    if (PyOS_InterruptOccurred()) {
        batch_leave(batch);
        goes_on = handle_interrupt() && batch_enter(batch);
    }
    batch->due = 0;
    batch->thread = PyEval_SaveThread();
    return goes_on;
}

void note_taken(size_t done)
{
    PyObject *type, *error, *trace;
    PyErr_Fetch(&type, &error, &trace);
    PyErr_NormalizeException(&type, &error, &trace);
    PyObject *text = PyUnicode_FromFormat("items taken before this error: %zu", done);
    PyObject *notes = attribute(error, "__notes__");
    if (notes == NULL) {
        PyErr_Clear();
        notes = PyList_New(0);
    }
    if (text == NULL || notes == NULL || !PyList_Check(notes) || PyList_Append(notes, text) < 0 ||
        PyObject_SetAttrString(error, "__notes__", notes) < 0)
        PyErr_Clear();
    Py_XDECREF(text);
    Py_XDECREF(notes);
    PyErr_Restore(type, error, trace);
}

/* Sets the error of an answer below 0, unless one is set. All strings and offsets were checked before. */
static void set_error(int32_t answer)
{
    if (answer == CHANGED || answer == DS_INVALID_UTF8 || answer == DS_BAD_OFFSETS)
        PyErr_SetString(PyExc_RuntimeError, "another thread changed a buffer during the call");
    else if (answer < 0 && answer != STOPPED) refuse(answer);
}

/* Returns the number of bytes of a query's result. */
static size_t result_size(const Call *call)
{
    return call->type[0] == '?' ? sizeof(bool) : (size_t)call->width * sizeof(uint64_t);
}

/* Writes the results of the missing items of a chunk. */
static void fill_missing(const Batch *batch, const Chunk *chunk, char *results)
{
    const Call *call = batch->call;
    size_t numbers = call->type[0] == '?' ? 0 : (size_t)call->width;
    for (size_t i = 0; i < chunk->rows; i++) {
        char *result = results + i * result_size(call);
        if (is_present(chunk->present, i)) continue;
        if (numbers == 0) *(bool *)result = batch->missing != 0;
        for (size_t j = 0; j < numbers; j++) ((uint64_t *)result)[j] = batch->missing;
    }
}

/* Takes all items that were read. Runs without the interpreter's lock, but for quick chunks. */
static int32_t take_items(Batch *batch, const Weights *weights, char *results)
{
    Chunk chunk;
    const Call *call = batch->call;
    const Items *items = batch->items;
    int32_t answer = DS_OK;
    bool by_one = weights == NULL || (!weights->each && weights->same == 1);
    if (weights != NULL)
        answer = weights_fit(items, weights, (weights->with_sign ? INT64_MAX : UINT64_MAX) - sketch_total(batch->self));
    chunk_open(&chunk, batch, by_one ? NULL : weights);
    for (size_t i = 0; i < items->count && answer >= 0; i += chunk.rows) {
        answer = i > 0 && !batch_goes_on(batch) ? STOPPED : chunk_read(&chunk, i);
        char *place = results != NULL ? results + i * result_size(call) : NULL;
        bool has_missing = place != NULL && answer >= 0 && chunk.count < chunk.rows;
        if (has_missing && !batch->takes_missing) answer = CHANGED;
        if (answer >= 0 && chunk.count > 0) answer = call->take(batch, &chunk, place);
        if (answer >= 0 && has_missing) fill_missing(batch, &chunk, place);
        batch->done += answer >= 0 && call->changes ? chunk.count : 0;
    }
    chunk_close(&chunk);
    return answer;
}

/* Checks and takes the items that were read. */
static int32_t batch_take(Batch *batch, Items *items, const Weights *weights, void *results)
{
    batch->items = items;
    if ((batch->call->check != NULL && !batch->call->check(batch->self, items)) || !batch_begin(batch)) return STOPPED;
    int32_t answer = take_items(batch, weights, results);
    batch_end(batch);
    return answer;
}

PyObject *update_all(Sketch *self, Items *items, Weights *weights, const Call *call)
{
    Batch batch = {.self = self, .call = call, .use = {.changes = true}, .took = QUICK};
    int32_t answer;
    do {
        answer = update_next(items, weights) ? batch_take(&batch, items, weights, NULL) : STOPPED;
    } while (answer >= 0 && items->iterator != NULL);
    if (answer == DS_NO_MEMORY && items->held == NULL)
        PyErr_Format(PyExc_MemoryError, "memory ended when %zu of %zu items were counted", batch.done, items->count);
    else if (answer == DS_NO_MEMORY) PyErr_Format(PyExc_MemoryError, "memory ended when %zu items were counted", batch.done);
    else set_error(answer);
    if (answer < 0 && answer != DS_NO_MEMORY && batch.done > 0) note_taken(batch.done);
    items_release(&weights->items);
    items_release(items);
    if (answer < 0) return NULL;
    Py_RETURN_NONE;
}

/* Room for the results of many items. */
typedef struct {
    void *values;
    PyObject *array;
    Py_buffer view;
} Room;

static bool room_in_array(const Call *call, size_t count, Room *room)
{
    PyObject *numpy = PyImport_ImportModule("numpy");
    PyObject *empty = numpy != NULL ? attribute(numpy, "empty") : NULL;
    Py_ssize_t rows = (Py_ssize_t)count;
    if (empty != NULL)
        room->array = call->width == 1 ? PyObject_CallFunction(empty, "ns", rows, call->type)
                                       : PyObject_CallFunction(empty, "(ni)s", rows, call->width, call->type);
    Py_XDECREF(empty);
    Py_XDECREF(numpy);
    if (room->array == NULL || PyObject_GetBuffer(room->array, &room->view, PyBUF_CONTIG) < 0) return false;
    room->values = room->view.buf;
    if (room->view.len == (Py_ssize_t)(count * result_size(call))) return true;
    PyErr_Format(PyExc_ValueError, "numpy.empty returned an array of %zd bytes for %zu answers", room->view.len, count);
    return false;
}

/* Allocates room for `count` results: a numpy array if `in_array`. Returns false, with an error set, if that fails. */
static bool room_for(const Call *call, bool in_array, size_t count, Room *room)
{
    if (in_array) return room_in_array(call, count, room);
    room->values = count <= PY_SSIZE_T_MAX / result_size(call) ? PyMem_Malloc(count * result_size(call)) : NULL;
    if (room->values == NULL) PyErr_NoMemory();
    return room->values != NULL;
}

static void room_release(Room *room)
{
    if (room->view.obj != NULL) PyBuffer_Release(&room->view);
    else if (room->array == NULL) PyMem_Free(room->values);
    Py_CLEAR(room->array);
}

/* Appends `count` times None to a list. A batch that changes a sketch does so before it begins, and so fails before it. */
static bool make_places(PyObject *list, size_t count)
{
    Py_ssize_t length = PyList_GET_SIZE(list);
    PyObject *more = PyList_New((Py_ssize_t)count);
    for (size_t i = 0; more != NULL && i < count; i++) PyList_SET_ITEM(more, (Py_ssize_t)i, Py_NewRef(Py_None));
    bool made = more != NULL && PyList_SetSlice(list, length, length, more) == 0;
    Py_XDECREF(more);
    return made;
}

PyObject *bounds_tuple(const ds_item_bounds *bounds)
{
    return Py_BuildValue("KKK", (unsigned long long)bounds->lower_bound, (unsigned long long)bounds->estimate,
                         (unsigned long long)bounds->upper_bound);
}

/* Returns a result as an object. */
static PyObject *object_at(const Call *call, const void *results, size_t at)
{
    const uint64_t *numbers = results;
    if (call->type[0] == '?') return PyBool_FromLong(((const bool *)results)[at]);
    if (call->width > 1) return bounds_tuple((const ds_item_bounds *)results + at);
    return call->type[0] == 'i' ? PyLong_FromLongLong((int64_t)numbers[at]) : PyLong_FromUnsignedLongLong(numbers[at]);
}

/* Writes results to the last places of a list. */
static bool fill_places(PyObject *list, const Call *call, const void *results, size_t count)
{
    size_t first = (size_t)PyList_GET_SIZE(list) - count;
    for (size_t i = 0; i < count; i++) {
        PyObject *result = object_at(call, results, i);
        if (result == NULL || PyList_SetItem(list, (Py_ssize_t)(first + i), result) < 0) return false;
    }
    return true;
}

/* Asks for the items that were read, and appends the results to a list, if any. */
static bool ask(Batch *batch, Items *items, void *results, PyObject *list)
{
    if (list != NULL && !make_places(list, items->count)) return false;
    int32_t answer = batch_take(batch, items, NULL, results);
    set_error(answer);
    return answer >= 0 && (list == NULL || fill_places(list, batch->call, results, items->count));
}

/* Returns whether no item is missing, or missing ones have a result. Sets an error if not. */
static bool gaps_fit(const Batch *batch, const Items *items)
{
    const char *name = batch->call->name;
    size_t gaps = batch->takes_missing ? 0 : items_gaps(items);
    if (gaps > 0)
        PyErr_Format(PyExc_ValueError, "%s takes no missing items, and %zu of %zu are missing: drop them first%s", name, gaps,
                     items->count, batch->call->has_missing ? ", or pass their result as missing=" : "");
    return gaps == 0;
}

/* Asks for the items of an iterator, which it reads in chunks. */
static bool ask_stream(Batch *batch, Items *items, PyObject *list)
{
    bool asked;
    void *results = PyMem_Malloc(STREAM_CHUNK * result_size(batch->call));
    if (results == NULL) PyErr_NoMemory();
    do {
        asked = results != NULL && items_next(items, STREAM_CHUNK) && gaps_fit(batch, items) && ask(batch, items, results, list);
    } while (asked && items->iterator != NULL);
    PyMem_Free(results);
    return asked;
}

static PyObject *ask_source(Batch *batch, const Source *source)
{
    Items items = {0};
    Room room = {0};
    if (!items_open(source, &items)) return NULL;
    bool asked = false, is_stream = items.iterator != NULL, in_array = source->in_array && !is_stream;
    PyObject *list = in_array ? NULL : PyList_New(0);
    if ((in_array || list != NULL) && gaps_fit(batch, &items)) {
        if (is_stream) asked = ask_stream(batch, &items, list);
        else if (room_for(batch->call, in_array, items.count, &room)) asked = ask(batch, &items, room.values, list);
    }
    PyObject *result = !asked ? NULL : Py_NewRef(in_array ? room.array : list);
    Py_XDECREF(list);
    room_release(&room);
    items_release(&items);
    if (!asked && batch->done > 0) note_taken(batch->done);
    return result;
}

/* Reads the result of missing items, unless it is NULL or None. */
static bool missing_of(PyObject *missing, Batch *batch)
{
    const Call *call = batch->call;
    batch->takes_missing = missing != NULL && missing != Py_None;
    if (!batch->takes_missing) return true;
    if (call->type[0] != '?') return number_of_kind(missing, "missing", call->type[0] == 'i', &batch->missing);
    batch->missing = missing == Py_True;
    if (!PyBool_Check(missing))
        PyErr_Format(PyExc_TypeError, "missing is True, False or None, not %.200s", Py_TYPE(missing)->tp_name);
    return PyBool_Check(missing);
}

PyObject *ask_all(Sketch *self, PyObject *given, const Call *call, PyObject *missing)
{
    Batch batch = {.self = self, .call = call, .use = {.changes = call->changes}, .took = QUICK};
    Source source;
    PyObject *result = NULL;
    if (!missing_of(missing, &batch)) return NULL;
    int masked = batch.takes_missing ? 0 : is_masked(given);
    if (masked < 0) return NULL;
    if (masked > 0)
        return PyErr_Format(PyExc_TypeError, "%s takes no masked array: write %s(array.compressed())", call->name, call->name);
    if (source_of(given, call->name, false, &source)) result = ask_source(&batch, &source);
    source_release(&source);
    return result != NULL && PyObject_CheckBuffer(result) ? series_results(given, result) : result;
}

bool query_arguments(const char *name, PyObject *const *args, Py_ssize_t count, PyObject *names, PyObject **missing)
{
    *missing = NULL;
    if (count != 1) {
        PyErr_Format(PyExc_TypeError, "%s takes items, and missing by its name, not %zd arguments", name, count);
        return false;
    }
    for (Py_ssize_t i = 0; names != NULL && i < PyTuple_GET_SIZE(names); i++) {
        if (PyUnicode_CompareWithASCIIString(PyTuple_GET_ITEM(names, i), "missing") != 0) {
            PyErr_Format(PyExc_TypeError, "%s() got an unexpected keyword argument '%U'", name, PyTuple_GET_ITEM(names, i));
            return false;
        }
        *missing = args[count + i];
    }
    return true;
}
