/* Rows of a FrequentItemsSketch: its heavy hitters with their bounds. */
#include "items.h"

#include <stdlib.h>
#include <string.h>

/* Other Python threads may run after each such number of rows of a list. */
#define ROWS_AT_ONCE 4096

/* The rows that a call returns: at most `most`, as a dict of four lists if `columns`. */
typedef struct {
    bool no_false_negatives;
    bool columns;
    uint64_t threshold;
    size_t most;
} Wanted;

/* The rows for Python: a list of objects of the package's class `Row`, or four lists. */
typedef struct {
    PyObject *rows;
    PyTypeObject *row_type;
    PyObject *columns[4];
} RowList;

/* Returns the class of rows: named tuples of four. */
static PyTypeObject *row_type_of(void)
{
    PyObject *module = PyImport_ImportModule("datasketches_rattle._rows");
    PyObject *type = module != NULL ? attribute(module, "Row") : NULL;
    Py_XDECREF(module);
    if (type != NULL && PyType_Check(type) && PyType_IsSubtype((PyTypeObject *)type, &PyTuple_Type)) return (PyTypeObject *)type;
    if (type != NULL) PyErr_SetString(PyExc_TypeError, "datasketches_rattle._rows.Row is no class of tuples");
    Py_XDECREF(type);
    return NULL;
}

/* Returns false, with an error set, if allocation fails. `row_list_close` is called in any case. */
static bool row_list_open(RowList *list, bool columns)
{
    bool good = true;
    *list = (RowList){.rows = columns ? NULL : PyList_New(0)};
    if (list->rows != NULL) list->row_type = row_type_of();
    for (int i = 0; columns && i < 4; i++) {
        list->columns[i] = PyList_New(0);
        good &= list->columns[i] != NULL;
    }
    return columns ? good : list->row_type != NULL;
}

/* Takes an object, which may be NULL, and appends it. */
static bool append(PyObject *list, PyObject *object)
{
    bool done = object != NULL && PyList_Append(list, object) == 0;
    Py_XDECREF(object);
    return done;
}

/* Takes an item, and returns a row. */
static PyObject *row_of(PyTypeObject *type, PyObject *item, const unsigned long long *numbers)
{
    PyObject *row = type->tp_alloc(type, 4);
    if (row == NULL) Py_DECREF(item);
    else PyTuple_SET_ITEM(row, 0, item);
    for (int i = 0; row != NULL && i < 3; i++) {
        PyObject *number = PyLong_FromUnsignedLongLong(numbers[i]);
        if (number == NULL) Py_CLEAR(row);
        else PyTuple_SET_ITEM(row, i + 1, number);
    }
    return row;
}

/* Takes an item, which may be NULL, and appends a row. Returns false, with an error set, if it is NULL or allocation fails. */
static bool row_list_append(RowList *list, PyObject *item, const ds_item_bounds *bounds)
{
    const unsigned long long numbers[] = {bounds->lower_bound, bounds->estimate, bounds->upper_bound};
    PyObject *filled = list->rows != NULL ? list->rows : list->columns[0];
    if (item == NULL) return false;
    bool done = list->rows != NULL ? append(list->rows, row_of(list->row_type, item, numbers)) : append(list->columns[0], item);
    for (int i = 0; done && list->rows == NULL && i < 3; i++)
        done = append(list->columns[i + 1], PyLong_FromUnsignedLongLong(numbers[i]));
    if (done && PyList_GET_SIZE(filled) % ROWS_AT_ONCE == 0) {
        Py_BEGIN_ALLOW_THREADS
        Py_END_ALLOW_THREADS
    }
    return done;
}

/* Returns the list, or the dict of four lists. Returns NULL, with an error set, if not `good`. */
static PyObject *row_list_close(RowList *list, bool good)
{
    PyObject **columns = list->columns, *result = list->rows;
    if (good && result == NULL)
        result = Py_BuildValue("{sOsOsOsO}", "item", columns[0], "lower_bound", columns[1], "estimate", columns[2], "upper_bound",
                               columns[3]);
    for (int i = 0; i < 4; i++) Py_XDECREF(columns[i]);
    Py_XDECREF(list->row_type);
    if (!good) Py_CLEAR(result);
    return result;
}

/* A row of a sketch of strings. */
typedef struct {
    const char *text;
    size_t length;
    ds_item_bounds bounds;
} TextRow;

/* Room for rows, and how many there are. The library writes strings one after the other, with offsets. */
typedef struct {
    size_t rows, num_bytes; /* the room, and then the numbers that the library wrote */
    uint64_t *numbers;      /* the items, or the offsets of strings: one more than rows */
    uint8_t *bytes;         /* of strings */
    ds_item_bounds *bounds;
    TextRow *texts; /* the rows of strings, in order */
} Rows;

static bool rows_alloc(Rows *rows, bool with_texts)
{
    rows->numbers = PyMem_New(uint64_t, rows->rows + 1);
    rows->bounds = PyMem_New(ds_item_bounds, rows->rows);
    rows->bytes = PyMem_New(uint8_t, rows->num_bytes);
    rows->texts = PyMem_New(TextRow, with_texts ? rows->rows : 0);
    if (rows->numbers != NULL && rows->bounds != NULL && rows->bytes != NULL && rows->texts != NULL) return true;
    PyErr_NoMemory();
    return false;
}

static void rows_free(Rows *rows)
{
    PyMem_Free(rows->numbers);
    PyMem_Free(rows->bounds);
    PyMem_Free(rows->bytes);
    PyMem_Free(rows->texts);
}

static int32_t read_rows(Use *use, const Wanted *wanted, Rows *rows)
{
    bool no_false_negatives = wanted->no_false_negatives;
    size_t room = rows->rows;
    switch (use->sketch->kind) {
    case DS_FREQUENT_ITEMS_U64:
        return ds_frequent_items_u64_rows(&use->share, no_false_negatives, wanted->threshold, SIZE_MAX, rows->numbers, room,
                                          rows->bounds, room, &rows->rows);
    case DS_FREQUENT_ITEMS_I64:
        return ds_frequent_items_i64_rows(&use->share, no_false_negatives, wanted->threshold, SIZE_MAX, (int64_t *)rows->numbers,
                                          room, rows->bounds, room, &rows->rows);
    default:
        return ds_frequent_items_string_rows(&use->share, no_false_negatives, wanted->threshold, SIZE_MAX, rows->bytes,
                                             rows->num_bytes, rows->numbers, room + 1, rows->bounds, room, &rows->rows,
                                             &rows->num_bytes);
    }
}

/* Compares rows: the heavier one comes first, and rows of equal estimates are in the order of their bytes. */
static int heavier(const void *first, const void *second)
{
    const TextRow *a = first, *b = second;
    if (a->bounds.estimate != b->bounds.estimate) return a->bounds.estimate > b->bounds.estimate ? -1 : 1;
    int order = memcmp(a->text, b->text, a->length < b->length ? a->length : b->length);
    return order != 0 ? order : (a->length > b->length) - (a->length < b->length);
}

/* Sorts rows of strings. The library's rows already descend by estimate, but rows of equal estimates are in any order. */
static void sort_texts(Rows *rows)
{
    for (size_t i = 0; i < rows->rows; i++) {
        const uint64_t *offsets = rows->numbers + i;
        rows->texts[i] = (TextRow){(const char *)rows->bytes + offsets[0], (size_t)(offsets[1] - offsets[0]), rows->bounds[i]};
    }
    qsort(rows->texts, rows->rows, sizeof *rows->texts, heavier);
}

static PyObject *list_of(const Sketch *self, Rows *rows, const Wanted *wanted)
{
    RowList list;
    bool with_texts = has_texts(self), good;
    if (with_texts && rows->rows > 0) {
        Py_BEGIN_ALLOW_THREADS
        sort_texts(rows);
        Py_END_ALLOW_THREADS
    }
    good = row_list_open(&list, wanted->columns);
    for (size_t i = 0; good && i < rows->rows && i < wanted->most; i++) {
        const TextRow *row = &rows->texts[i];
        uint64_t number = rows->numbers[i];
        PyObject *item = with_texts       ? PyUnicode_DecodeUTF8(row->text, (Py_ssize_t)row->length, NULL)
                         : has_sign(self) ? PyLong_FromLongLong((int64_t)number)
                                          : PyLong_FromUnsignedLongLong(number);
        good = row_list_append(&list, item, with_texts ? &row->bounds : &rows->bounds[i]);
    }
    return row_list_close(&list, good);
}

static PyObject *wanted_rows(PyObject *object, Wanted *wanted, const char *no_false)
{
    Sketch *self = (Sketch *)object;
    Use use = {.sketch = self};
    uint64_t number;
    PyObject *list = NULL;
    int32_t answer;
    wanted->no_false_negatives = strcmp(no_false, "negatives") == 0;
    if (!wanted->no_false_negatives && strcmp(no_false, "positives") != 0) {
        PyErr_SetString(PyExc_ValueError, "no_false is 'negatives' or 'positives'");
        return NULL;
    }
    Rows rows = {.rows = 64, .num_bytes = 1024};
    if (!has_texts(self)) {
        if (!sketch_read(self, DS_NUMBER_NUM_ACTIVE_ITEMS, &number)) return NULL;
        rows = (Rows){.rows = (size_t)number};
    }
    do {
        answer = DS_NO_SKETCH;
        if (rows_alloc(&rows, has_texts(self)) && use_begin(&use)) {
            Py_BEGIN_ALLOW_THREADS
            answer = read_rows(&use, wanted, &rows);
            Py_END_ALLOW_THREADS
            use_end(&use);
            list = answer >= 0 ? list_of(self, &rows, wanted) : answer == DS_NO_ROOM ? NULL : refuse(answer);
        }
        rows_free(&rows);
    } while (answer == DS_NO_ROOM);
    return list;
}

const char frequent_rows_doc[] = PyDoc_STR(
"rows($self, /, threshold=0, no_false='negatives', columns=False)\n--\n\n"
"Return the heavy hitters, heaviest first: a list of rows (item, lower bound, estimate, upper bound), as `ds.Row` names them.\n\n"
"No item is missing that weighs more than `threshold` and more than `maximum_error`. With `no_false='positives'` each\n"
"returned item weighs more than both, and some of these items may be missing. With `columns=True` the result is a dict of\n"
"four lists, which `pandas.DataFrame` takes.\n\n"
">>> import datasketches_rattle as ds\n"
">>> heavy = ds.FrequentItemsSketch(64)\n"
">>> heavy.update([7, 7, 7, 8, 8, -9])\n"
">>> heavy.rows(threshold=1)\n"
"[(7, 3, 3, 3), (8, 2, 2, 2)]\n"
">>> [row.item for row in heavy.rows() if row.lower > 1]\n"
"[7, 8]\n"
">>> heavy.rows(threshold=1, columns=True)\n"
"{'item': [7, 8], 'lower_bound': [3, 2], 'estimate': [3, 2], 'upper_bound': [3, 2]}\n");

PyObject *frequent_rows(PyObject *object, PyObject *args, PyObject *keywords)
{
    static char *names[] = {"threshold", "no_false", "columns", NULL};
    Wanted wanted = {.most = SIZE_MAX};
    PyObject *threshold = NULL;
    const char *no_false = "negatives";
    int columns = 0;
    if (!PyArg_ParseTupleAndKeywords(args, keywords, "|Osp:rows", names, &threshold, &no_false, &columns) ||
        (threshold != NULL && !natural_of(threshold, "threshold", &wanted.threshold)))
        return NULL;
    wanted.columns = columns != 0;
    return wanted_rows(object, &wanted, no_false);
}

const char frequent_top_doc[] = PyDoc_STR(
"top($self, /, k, no_false='negatives')\n--\n\n"
"Return the first `k` rows of `rows(no_false=no_false)`, or all if there are fewer.\n\n"
">>> import datasketches_rattle as ds\n"
">>> heavy = ds.FrequentItemsSketch(64, item=str)\n"
">>> heavy.update('to be or not to be to'.split())\n"
">>> heavy.top(2)\n"
"[('to', 3, 3, 3), ('be', 2, 2, 2)]\n");

PyObject *frequent_top(PyObject *object, PyObject *args, PyObject *keywords)
{
    static char *names[] = {"k", "no_false", NULL};
    Wanted wanted = {0};
    PyObject *most;
    const char *no_false = "negatives";
    if (!PyArg_ParseTupleAndKeywords(args, keywords, "O|s:top", names, &most, &no_false) || !natural_of(most, "k", &wanted.most))
        return NULL;
    return wanted_rows(object, &wanted, no_false);
}
