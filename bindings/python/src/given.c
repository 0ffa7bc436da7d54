/* Arguments with many items: mappings, tables, numpy arrays, pandas Series, and other iterables. */
#include "items.h"

#include <string.h>

/* Interns the name, since the caches of types keep the names that are looked up in them. */
PyObject *attribute(PyObject *object, const char *name)
{
    PyObject *text = PyUnicode_InternFromString(name);
    PyObject *value = text != NULL ? PyObject_GetAttr(object, text) : NULL;
    Py_XDECREF(text);
    return value;
}

/* Returns 0 and clears the error that is set if it says that there is no such attribute. Otherwise returns -1 and keeps it. */
static int no_attribute(void)
{
    if (!PyErr_ExceptionMatches(PyExc_AttributeError)) return -1;
    PyErr_Clear();
    return 0;
}

int type_has(PyObject *object, const char *name)
{
    PyObject *value = attribute((PyObject *)Py_TYPE(object), name);
    if (value == NULL) return no_attribute();
    Py_DECREF(value);
    return 1;
}

int type_has_both(PyObject *object, const char *first, const char *second)
{
    int has = type_has(object, first);
    return has > 0 ? type_has(object, second) : has;
}

PyObject *called(PyObject *object, const char *name)
{
    PyObject *method = attribute(object, name);
    PyObject *result = method != NULL ? PyObject_CallNoArgs(method) : NULL;
    Py_XDECREF(method);
    return result;
}

/* Calls a function of a module with one argument. */
static PyObject *called_with(PyObject *module, const char *name, PyObject *argument)
{
    PyObject *function = attribute(module, name);
    PyObject *result = function != NULL ? PyObject_CallOneArg(function, argument) : NULL;
    Py_XDECREF(function);
    return result;
}

int is_of(PyObject *object, const char *module, const char *name)
{
    PyObject *module_name = PyUnicode_InternFromString(module);
    PyObject *imported = module_name != NULL ? PyDict_GetItemWithError(PyImport_GetModuleDict(), module_name) : NULL;
    Py_XDECREF(module_name);
    if (imported == NULL) return PyErr_Occurred() ? -1 : 0;
    PyObject *type = attribute(imported, name);
    if (type == NULL) return no_attribute();
    int answer = PyObject_IsInstance(object, type);
    Py_DECREF(type);
    return answer;
}

int is_numpy_array(PyObject *object)
{
    return PyObject_CheckBuffer(object) ? is_of(object, "numpy", "ndarray") : 0;
}

int is_array_of_bytes(PyObject *object)
{
    int answer = is_of(object, "array", "array");
    return answer == 0 ? is_numpy_array(object) : answer;
}

/* Looks at the base class first: a class of masked arrays is derived from numpy's array class, and not only from `object`. */
int is_masked(PyObject *source)
{
    bool may_be = PyObject_CheckBuffer(source) && Py_TYPE(source)->tp_base != &PyBaseObject_Type;
    return may_be ? is_of(source, "numpy.ma", "MaskedArray") : 0;
}

/* Returns whether the object is a list, a tuple or a set, which is read as a whole. */
static bool is_whole(PyObject *object)
{
    return PyList_Check(object) || PyTuple_Check(object) || PyAnySet_Check(object);
}

/* Returns whether the object is a table with named columns, such as a DataFrame of pandas, dask or polars. */
static int is_table(PyObject *object)
{
    int answer = type_has(object, "__dataframe__");
    return answer == 0 ? type_has_both(object, "columns", "dtypes") : answer;
}

int is_mapping(PyObject *object)
{
    if (is_whole(object) || PyObject_CheckBuffer(object) || PyIter_Check(object)) return 0;
    if (PyDict_Check(object) || !PyMapping_Check(object)) return PyDict_Check(object);
    int answer = type_has_both(object, "keys", "items");
    if (answer <= 0) return answer;
    answer = type_has(object, "dtype");
    if (answer == 0) answer = is_table(object);
    return answer < 0 ? answer : !answer;
}

static bool mapping_split_pairs(PyObject *mapping, PyObject *keys, PyObject *values)
{
    PyObject *pairs = PyMapping_Items(mapping);
    Py_ssize_t count = pairs != NULL ? PyList_GET_SIZE(pairs) : 0;
    bool split = pairs != NULL;
    for (Py_ssize_t i = 0; split && i < count; i++) {
        PyObject *pair = PyList_GET_ITEM(pairs, i);
        split = PyTuple_Check(pair) && PyTuple_GET_SIZE(pair) == 2;
        if (!split) PyErr_SetString(PyExc_TypeError, "the items() of a mapping are pairs");
        else split = PyList_Append(keys, PyTuple_GET_ITEM(pair, 0)) == 0 && PyList_Append(values, PyTuple_GET_ITEM(pair, 1)) == 0;
    }
    Py_XDECREF(pairs);
    return split;
}

/* Returns whether the object is a dict whose class does not override the dict's keys and values. */
static int is_plain_dict(PyObject *object)
{
    int plain = PyDict_Check(object);
    const char *const names[] = {"keys", "values", "items", "__iter__", "__getitem__"};
    for (size_t i = 0; plain > 0 && !PyDict_CheckExact(object) && i < sizeof names / sizeof *names; i++) {
        PyObject *own = attribute((PyObject *)Py_TYPE(object), names[i]);
        PyObject *first = own != NULL ? attribute((PyObject *)&PyDict_Type, names[i]) : NULL;
        plain = first != NULL ? own == first : -1;
        Py_XDECREF(own);
        Py_XDECREF(first);
    }
    return plain;
}

bool mapping_split(PyObject *mapping, PyObject **keys, PyObject **values)
{
    int plain = is_plain_dict(mapping);
    if (plain < 0) return false;
    int collects = PyGC_Disable(); /* a finalizer could change the dict between its keys and its values */
    *keys = plain ? PyDict_Keys(mapping) : PyList_New(0);
    *values = plain ? PyDict_Values(mapping) : PyList_New(0);
    if (collects) PyGC_Enable();
    if (*keys != NULL && *values != NULL && (plain || mapping_split_pairs(mapping, *keys, *values))) return true;
    Py_CLEAR(*keys);
    Py_CLEAR(*values);
    return false;
}

bool no_table(const Source *source)
{
    PyErr_Format(PyExc_TypeError, "%s takes no table (%.200s): pass one of its columns, as in %s(table['name'])", source->call,
                 source->type, source->call);
    return false;
}

/* Finds out what the items of a masked array are read from. */
static bool masked_source(PyObject *array, Source *source)
{
    PyObject *masked = PyImport_ImportModule("numpy.ma");
    source->values = masked != NULL ? called_with(masked, "getdata", array) : NULL;
    source->missing = source->values != NULL ? called_with(masked, "getmaskarray", array) : NULL;
    Py_XDECREF(masked);
    return source->missing != NULL;
}

/* Returns whether the object is neither a table nor a mapping, of which no call knows what its items are. */
static bool has_items(PyObject *object, const Source *source)
{
    const char *call = source->call;
    int table = is_table(object), levels = is_of(object, "pandas", "MultiIndex");
    if (table > 0) return no_table(source);
    if (levels > 0)
        PyErr_Format(PyExc_TypeError, "%s takes no %.200s: pass one of its levels, as in %s(index.get_level_values(0))", call,
                     Py_TYPE(object)->tp_name, call);
    if (levels != 0) return false;
    int mapping = table == 0 ? is_mapping(object) : 0;
    if (mapping > 0)
        PyErr_Format(PyExc_TypeError, "%s takes no mapping (%.200s): write %s(mapping.keys())", call, Py_TYPE(object)->tp_name,
                     call);
    else if (table == 0 && mapping == 0 && Py_TYPE(object)->tp_iter == NULL && type_has(object, "keys") > 0)
        PyErr_Format(PyExc_TypeError, "%s takes no %.200s: it has keys, and no iterator", call, Py_TYPE(object)->tp_name);
    return !PyErr_Occurred();
}

static bool find_source(PyObject *object, bool of_weights, Source *source)
{
    int masked = is_masked(object);
    if (masked != 0) return masked > 0 && masked_source(object, source);
    if (!PyObject_CheckBuffer(object) && !is_whole(object) && !PyIter_Check(object)) {
        int series = has_items(object, source) ? is_series(object) : -1;
        if (series != 0) return series > 0 && series_source(object, of_weights, source);
        int arrow = is_arrow(object);
        if (arrow < 0) return false;
        source->of_arrow = arrow > 0;
    }
    source->values = source->of_arrow ? arrow_export(object) : Py_NewRef(object);
    return source->values != NULL;
}

bool source_of(PyObject *object, const char *call, bool of_weights, Source *source)
{
    *source = (Source){.call = call, .type = Py_TYPE(object)->tp_name};
    int in_array = find_source(object, of_weights, source) ? is_numpy_array(source->values) : -1;
    if (in_array < 0) {
        source_release(source);
        return false;
    }
    source->in_array |= in_array > 0;
    return true;
}

/* Keeps the error that is set: the destructor of a capsule may call Python. */
void source_release(Source *source)
{
    PyObject *type, *error, *trace;
    PyErr_Fetch(&type, &error, &trace);
    Py_CLEAR(source->values);
    Py_CLEAR(source->missing);
    Py_CLEAR(source->categories);
    PyErr_Restore(type, error, trace);
}

/* Returns whether a numpy array has one dimension. Sets an error if not. */
static bool has_one_dimension(PyObject *array)
{
    PyObject *dimensions = attribute(array, "ndim");
    long number = dimensions != NULL ? PyLong_AsLong(dimensions) : -1;
    Py_XDECREF(dimensions);
    if (!PyErr_Occurred() && number != 1) PyErr_SetString(PyExc_ValueError, "an array of items has one dimension");
    return !PyErr_Occurred();
}

int kind_of_array(PyObject *dtype)
{
    PyObject *letter = attribute(dtype, "kind");
    if (letter == NULL) return no_attribute();
    bool is_letter = PyUnicode_Check(letter) && PyUnicode_GET_LENGTH(letter) == 1;
    int kind = is_letter ? (int)PyUnicode_READ_CHAR(letter, 0) : 0;
    Py_DECREF(letter);
    return kind;
}

PyObject *array_entries(PyObject *array, const char *what)
{
    PyObject *dtype = has_one_dimension(array) ? attribute(array, "dtype") : NULL;
    Py_ssize_t count = dtype != NULL ? PyObject_Size(array) : -1;
    int kind = count > 0 ? kind_of_array(dtype) : 0;
    PyObject *list = NULL;
    if (count == 0) list = PyList_New(0);
    else if (kind == 'U' || kind == 'S' || kind == 'O' || kind == 'T') list = called(array, "tolist");
    else if (count > 0 && (kind == 'M' || kind == 'm'))
        PyErr_Format(PyExc_TypeError, "an array of %s has no times (%S): write array.astype('int64')", what, dtype);
    else if (count > 0 && kind >= 0)
        PyErr_Format(PyExc_TypeError, "an array of %s has integers%s, not %S%s", what,
                     strcmp(what, "weights") == 0 ? "" : " or strings", dtype,
                     kind == 'f' ? ": write array.astype('int64') for whole numbers, or series.astype('Int64') if some are missing"
                                 : "");
    Py_XDECREF(dtype);
    if (list == NULL || PyList_Check(list)) return list;
    if (!PyErr_Occurred()) PyErr_SetString(PyExc_TypeError, "tolist() of the array returned no list");
    Py_DECREF(list);
    return NULL;
}
