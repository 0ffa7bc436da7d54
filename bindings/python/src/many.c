/* Many items: those of a buffer, of a list, of an iterator, or of categories. */
#include "items.h"

#include <string.h>

/* The number of objects that are read between two checks for signals. */
#define SIGNALS ((size_t)1 << 16)

/* Skips the mark of a format's byte order. Sets `swapped` if the bytes are in the other order. */
static const char *skip_order(const char *format, bool *swapped)
{
    *swapped = *format == (PY_LITTLE_ENDIAN ? '>' : '<') || (*format == '!' && PY_LITTLE_ENDIAN);
    return *format != '\0' && strchr("@=<>!", *format) != NULL ? format + 1 : format;
}

/* Returns whether a buffer of this format has integers of 8 to 64 bits. Sets `with_sign` if they are signed. */
static bool reads_format(const char *format, Py_ssize_t size, bool *with_sign, bool *swapped)
{
    if (size != 1 && size != 2 && size != 4 && size != 8) return false;
    format = skip_order(format, swapped);
    if (format[0] == '\0' || format[1] != '\0') return false;
    *with_sign = strchr("bhilqn", format[0]) != NULL;
    return *with_sign || strchr("BHILQN", format[0]) != NULL;
}

/* Returns the layout of numpy's strings of a fixed size in a buffer of this format, or NUMBERS if it has others. */
static Layout fixed_layout(const char *format, bool *swapped)
{
    format = skip_order(format, swapped);
    format += strspn(format, "0123456789");
    return strcmp(format, "s") == 0 ? FIXED_BYTES : strcmp(format, "w") == 0 ? FIXED_WIDE : NUMBERS;
}

static void set_wrong_type(PyObject *object, const Items *items)
{
    PyErr_Format(PyExc_TypeError,
                 items->of_weights ? "weights are an int or many of these, not %.200s"
                                   : "items are a str, an int or many of these, not %.200s",
                 Py_TYPE(object)->tp_name);
}

static const char *name_of(const Items *items)
{
    return items->of_weights ? "weights" : "items";
}

/* Copies an array that is true for missing values, since other threads may change it. Keeps no copy if it is all false. */
static bool copy_missing(PyObject *array, Items *items)
{
    Py_buffer view;
    bool any = false;
    if (PyObject_GetBuffer(array, &view, PyBUF_STRIDES) < 0) return false;
    size_t count = view.ndim == 1 && view.itemsize == 1 ? (size_t)view.shape[0] : 0;
    items->count = count;
    items->missing = count > 0 ? PyMem_New(bool, count) : NULL;
    if (view.ndim != 1) PyErr_Format(PyExc_ValueError, "an array of %s has one dimension", name_of(items));
    else if (items->missing == NULL && count > 0) PyErr_NoMemory();
    for (size_t i = 0; items->missing != NULL && i < count; i++) {
        items->missing[i] = ((const char *)view.buf)[(Py_ssize_t)i * view.strides[0]] != 0;
        any |= items->missing[i];
    }
    PyBuffer_Release(&view);
    items->has_gaps = any;
    if (!any) {
        PyMem_Free(items->missing);
        items->missing = NULL;
    }
    return !PyErr_Occurred();
}

/* Sets the number of items. Returns false, with an error set, if the array of missing values has another. */
static bool set_count(Items *items, size_t count)
{
    if (items->missing != NULL && count != items->count) {
        PyErr_Format(PyExc_ValueError, "there are %zu %s and a mask for %zu", count, name_of(items), items->count);
        return false;
    }
    items->count = count;
    return true;
}

bool items_add(Items *items, const Run *run)
{
    size_t count = items->num_runs;
    if ((count & (count - 1)) == 0) { /* the room is a power of two, and full */
        Run *runs = PyMem_Realloc(items->runs, (count > 0 ? 2 * count : 1) * sizeof *runs);
        if (runs == NULL) {
            PyErr_NoMemory();
            return false;
        }
        items->runs = runs;
    }
    items->runs[items->num_runs++] = *run;
    return true;
}

/* Appends the rows of the buffer as one run, and checks them. */
static bool add_view(Items *items, const Run *like, PyObject *array)
{
    const Py_buffer *view = &items->view;
    Run run = *like;
    if (!set_count(items, (size_t)view->shape[0])) return false;
    run.start = view->buf;
    run.count = items->count;
    run.size = view->itemsize;
    run.stride = view->strides != NULL ? view->strides[0] : view->itemsize;
    items->with_sign = run.with_sign;
    items->with_texts = run.layout != NUMBERS;
    return run.count == 0 || (items_add(items, &run) && run_check(&items->runs[0], items->missing, array));
}

/* Opens the numbers of a buffer, or a numpy array of strings of a fixed size. Unsigned numbers of 8 bits are bytes, which are
 * rejected unless they are in an array. */
static bool items_of_buffer(PyObject *object, Items *items)
{
    Py_buffer *view = &items->view;
    if (PyObject_GetBuffer(object, view, PyBUF_STRIDES | PyBUF_FORMAT) < 0) return false;
    Run run = {0};
    const char *format = view->format != NULL ? view->format : "B";
    bool of_numbers = reads_format(format, view->itemsize, &run.with_sign, &run.swapped);
    bool may_be_bytes = of_numbers && view->itemsize == 1 && !run.with_sign;
    int in_array = may_be_bytes                                           ? is_array_of_bytes(object)
                   : !of_numbers && view->ndim == 1 && !items->of_weights ? is_numpy_array(object)
                                                                          : 0;
    if (!of_numbers && in_array > 0) run.layout = fixed_layout(format, &run.swapped);
    if (in_array < 0)
        ;
    else if (!of_numbers && view->ndim == 0) set_wrong_type(object, items);
    else if (may_be_bytes && in_array == 0)
        PyErr_Format(PyExc_TypeError,
                     "%s are a str, an int or many of these, and the bytes of a %.200s may be either: write "
                     "str(.., 'utf-8') for one string, or array('B', ..) for many integers",
                     name_of(items), Py_TYPE(object)->tp_name);
    else if (run.layout == NUMBERS && !of_numbers)
        PyErr_Format(PyExc_TypeError, "a buffer of %s has integers, not the format '%.50s' (%.200s)", name_of(items), format,
                     Py_TYPE(object)->tp_name);
    else if (view->ndim != 1) PyErr_Format(PyExc_ValueError, "a buffer of %s has one dimension", name_of(items));
    else return add_view(items, &run, object);
    PyBuffer_Release(view);
    return false;
}

static bool read_one(PyObject *object, Items *items, Item *item)
{
    *item = (Item){0};
    if (items->of_weights) return number_of_kind(object, "a weight", items->weights_with_sign, &item->value);
    bool read = item_of(object, item);
    items->with_texts |= item->text != NULL;
    items->with_numbers |= item->text == NULL;
    return read;
}

/* Marks an item as missing. `count` is the number of items. */
static bool mark_missing(Items *items, size_t at, size_t count)
{
    if (items->missing == NULL) items->missing = PyMem_Calloc(count, sizeof(bool));
    if (items->missing == NULL) {
        PyErr_NoMemory();
        return false;
    }
    items->missing[at] = items->has_gaps = true;
    return true;
}

/* Reads the objects of the tuple, but for the missing ones, among which is None if `skips_none`. Returns NULL, with an error set, if an
 * object is no item. */
static Item *read_tuple(Items *items, bool skips_none)
{
    size_t count = (size_t)PyTuple_GET_SIZE(items->tuple), i = 0;
    Item *read = PyMem_New(Item, count);
    if (read == NULL) PyErr_NoMemory();
    for (; read != NULL && i < count; i++) {
        PyObject *object = PyTuple_GET_ITEM(items->tuple, (Py_ssize_t)i);
        read[i] = (Item){.missing = true};
        if (items->missing != NULL && items->missing[i]) continue;
        bool is_none = skips_none && object == Py_None;
        if ((is_none ? !mark_missing(items, i, count) : !read_one(object, items, &read[i])) ||
            (i % SIGNALS == SIGNALS - 1 && PyErr_CheckSignals() < 0))
            break;
    }
    if (i == count) return read;
    PyMem_Free(read);
    return NULL;
}

static bool items_of_tuple(PyObject *object, Items *items, bool skips_none)
{
    items->tuple = PySequence_Tuple(object);
    if (items->tuple == NULL || !set_count(items, (size_t)PyTuple_GET_SIZE(items->tuple))) return false;
    items->items = read_tuple(items, skips_none);
    return items->items != NULL;
}

/* Opens the codes of categories, which are read once for all codes. */
static bool items_of_categories(const Source *source, Items *items)
{
    items->tuple = PySequence_Tuple(source->categories);
    Item *entries = items->tuple != NULL ? read_tuple(items, false) : NULL;
    bool with_texts = items->with_texts, opened = entries != NULL && items_of_buffer(source->values, items);
    items->with_texts = with_texts;
    if (!opened || items->num_runs == 0) {
        PyMem_Free(entries);
        return opened;
    }
    Run *run = &items->runs[0];
    run->entries = run->own_entries = entries;
    run->num_entries = (size_t)PyTuple_GET_SIZE(items->tuple);
    run->gaps_by_code = items->of_entries = true;
    bool good = run_check(run, NULL, NULL);
    items->has_gaps |= run->has_gaps;
    return good;
}

static bool items_of_iterable(PyObject *object, Items *items)
{
    if (Py_TYPE(object)->tp_iter == NULL && !PySequence_Check(object)) set_wrong_type(object, items);
    else items->iterator = PyObject_GetIter(object);
    return items->iterator != NULL;
}

/* Returns whether the error that is set says that a buffer has another format, or is of a kind that cannot be exported. */
static bool is_format_error(void)
{
    return PyErr_ExceptionMatches(PyExc_TypeError) || PyErr_ExceptionMatches(PyExc_ValueError) ||
           PyErr_ExceptionMatches(PyExc_BufferError);
}

/* Opens the entries of a numpy array whose buffer has another format, and clears the error that says so. Keeps the error of a
 * buffer that was read, that of another object, and any other error. */
static bool items_of_entries(PyObject *array, Items *items)
{
    if (items->view.obj != NULL || !is_format_error()) return false;
    PyObject *type, *error, *trace;
    PyErr_Fetch(&type, &error, &trace);
    int in_array = is_numpy_array(array);
    if (in_array == 0) {
        PyErr_Restore(type, error, trace);
        return false;
    }
    Py_XDECREF(type);
    Py_XDECREF(error);
    Py_XDECREF(trace);
    if (in_array < 0) return false;
    PyObject *entries = array_entries(array, name_of(items));
    bool opened = entries != NULL && items_of_tuple(entries, items, true);
    Py_XDECREF(entries);
    return opened;
}

bool items_open(const Source *source, Items *items)
{
    PyObject *values = source->values;
    bool opened = source->missing == NULL || copy_missing(source->missing, items);
    if (!opened)
        ;
    else if (source->of_arrow) opened = arrow_open(source, items);
    else if (source->categories != NULL) opened = items_of_categories(source, items);
    else if (PyObject_CheckBuffer(values)) opened = items_of_buffer(values, items) || items_of_entries(values, items);
    else if (PyList_Check(values) || PyTuple_Check(values) || PyAnySet_Check(values))
        opened = items_of_tuple(values, items, !items->of_weights);
    else opened = items_of_iterable(values, items);
    if (!opened) items_release(items);
    return opened;
}

static void let_go(Items *items)
{
    while (items->num_held > 0) Py_DECREF(items->held[--items->num_held]);
}

/* Makes room for one more object of an iterator. */
static bool has_place(Items *items)
{
    if (items->num_held < items->room) return true;
    size_t room = items->room == 0 ? STREAM_CHUNK : 2 * items->room;
    PyObject **held = room <= PY_SSIZE_T_MAX / sizeof(Item) ? PyMem_Realloc(items->held, room * sizeof *held) : NULL;
    if (held != NULL) items->held = held;
    Item *read = held != NULL ? PyMem_Realloc(items->items, room * sizeof(Item)) : NULL;
    if (read != NULL) items->items = read;
    bool *missing = read != NULL && items->missing != NULL ? PyMem_Realloc(items->missing, room * sizeof(bool)) : NULL;
    if (missing != NULL) {
        memset(missing + items->room, 0, (room - items->room) * sizeof(bool));
        items->missing = missing;
    }
    if (read == NULL || (items->missing != NULL && missing == NULL)) {
        PyErr_NoMemory();
        return false;
    }
    items->room = room;
    return true;
}

/* Reads the last object that an iterator returned. None is a missing item, and no weight. */
static bool read_held(Items *items)
{
    size_t at = items->num_held - 1;
    PyObject *object = items->held[at];
    items->items[at] = (Item){.missing = true};
    return object == Py_None && !items->of_weights ? mark_missing(items, at, items->room)
                                                   : read_one(object, items, &items->items[at]);
}

bool items_next(Items *items, size_t most)
{
    let_go(items);
    items->count = 0;
    items->with_texts = items->with_numbers = items->has_gaps = false;
    if (items->missing != NULL) memset(items->missing, 0, items->room * sizeof(bool));
    if (!has_place(items) || PyErr_CheckSignals() < 0) return false;
    while (items->iterator != NULL && items->num_held < most) {
        if (!has_place(items) || (items->num_held % SIGNALS == SIGNALS - 1 && PyErr_CheckSignals() < 0)) return false;
        PyObject *object = PyIter_Next(items->iterator);
        if (object == NULL && PyErr_Occurred()) return false;
        if (object == NULL) {
            Py_CLEAR(items->iterator);
            break;
        }
        items->held[items->num_held++] = object;
        if (!read_held(items)) return false;
    }
    items->count = items->num_held;
    return true;
}

void items_release(Items *items)
{
    let_go(items);
    PyMem_Free(items->held);
    items->held = NULL;
    for (size_t i = 0; i < items->num_runs; i++) {
        PyMem_Free(items->runs[i].own_entries);
        RELEASE(&items->runs[i].array);
    }
    items->num_runs = 0;
    PyMem_Free(items->runs);
    items->runs = NULL;
    if (items->view.obj != NULL) PyBuffer_Release(&items->view);
    PyMem_Free(items->items);
    items->items = NULL;
    PyMem_Free(items->missing);
    items->missing = NULL;
    Py_CLEAR(items->tuple);
    Py_CLEAR(items->iterator);
}
