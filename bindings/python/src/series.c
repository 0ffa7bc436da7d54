/* Columns with a type and an array of their values, such as a Series or an Index of pandas. */
#include "items.h"

int is_series(PyObject *object)
{
    return type_has_both(object, "to_numpy", "dtype");
}

/* Returns numpy's type of the integers of a column that may miss some. Returns NULL if it has others, or with an error set. */
static PyObject *integer_type(PyObject *dtype)
{
    PyObject *own = type_has(dtype, "numpy_dtype") > 0 ? attribute(dtype, "numpy_dtype") : NULL;
    int kind = own != NULL ? kind_of_array(own) : 0;
    if (kind != 'i' && kind != 'u') Py_CLEAR(own);
    return own;
}

/* Sets `missing` to the array of `isna`. Without such a method no value is missing. */
static bool find_missing(PyObject *series, Source *source)
{
    int has = type_has(series, "isna");
    if (has <= 0) return has == 0;
    source->missing = called(series, "isna");
    if (source->missing != NULL && !PyObject_CheckBuffer(source->missing))
        Py_SETREF(source->missing, called(source->missing, "to_numpy"));
    return source->missing != NULL;
}

/* Reads integers some of which may be missing: these are 0 in the array. */
static bool integer_source(PyObject *series, PyObject *type, Source *source)
{
    PyObject *method = attribute(series, "to_numpy");
    PyObject *none = method != NULL ? PyTuple_New(0) : NULL;
    PyObject *keywords = none != NULL ? Py_BuildValue("{sOsi}", "dtype", type, "na_value", 0) : NULL;
    source->values = keywords != NULL ? PyObject_Call(method, none, keywords) : NULL;
    Py_XDECREF(method);
    Py_XDECREF(none);
    Py_XDECREF(keywords);
    return source->values != NULL && find_missing(series, source);
}

/* Reads the codes and the categories. */
static bool category_source(PyObject *series, Source *source)
{
    PyObject *array = attribute(series, "array");
    PyObject *categories = array != NULL ? attribute(array, "categories") : NULL;
    source->values = categories != NULL ? attribute(array, "codes") : NULL;
    source->categories = source->values != NULL ? called(categories, "tolist") : NULL;
    Py_XDECREF(array);
    Py_XDECREF(categories);
    return source->categories != NULL;
}

/* Reads the array of all values. */
static bool array_source(PyObject *series, bool may_miss, Source *source)
{
    source->values = called(series, "to_numpy");
    if (source->values == NULL || PyObject_CheckBuffer(source->values) || PyList_Check(source->values) ||
        PyTuple_Check(source->values))
        return source->values != NULL && (!may_miss || find_missing(series, source));
    PyErr_Format(PyExc_TypeError, "to_numpy() of %.200s returned no array", Py_TYPE(series)->tp_name);
    return false;
}

/* Clears the error that is set if it says that a package is not there. */
static void clear_import_error(void)
{
    if (PyErr_ExceptionMatches(PyExc_ImportError)) PyErr_Clear();
}

/* Reads the column by Arrow's interface. Returns 0 if that needs a package that is not there. */
static int arrow_source(PyObject *series, Source *source)
{
    source->values = arrow_export(series);
    source->of_arrow = source->values != NULL;
    if (source->values == NULL) {
        clear_import_error();
        return PyErr_Occurred() ? -1 : 0;
    }
    PyObject *numpy = PyImport_ImportModule("numpy");
    source->in_array = numpy != NULL;
    Py_XDECREF(numpy);
    if (numpy == NULL) clear_import_error();
    return PyErr_Occurred() ? -1 : 1;
}

/* Reads a column whose type is none of numpy's, has no categories and is not known to be of integers. */
static bool other_source(PyObject *series, Source *source)
{
    int arrow = is_arrow(series);
    if (arrow > 0) arrow = arrow_source(series, source);
    return arrow == 0 ? array_source(series, true, source) : arrow > 0;
}

static bool source_by_type(PyObject *series, PyObject *dtype, bool of_weights, Source *source)
{
    int of_numpy = is_of(dtype, "numpy", "dtype");
    int kind = of_numpy > 0 ? kind_of_array(dtype) : of_numpy;
    if (of_numpy > 0 && kind >= 0) return array_source(series, kind == 'O', source);
    PyObject *integers = of_numpy == 0 ? integer_type(dtype) : NULL;
    if (integers != NULL) {
        bool found = integer_source(series, integers, source);
        Py_DECREF(integers);
        return found;
    }
    int has_categories = PyErr_Occurred() ? -1 : type_has(dtype, "categories");
    if (has_categories > 0) has_categories = type_has(series, "array");
    if (has_categories > 0) return of_weights ? array_source(series, true, source) : category_source(series, source);
    return has_categories == 0 && other_source(series, source);
}

bool series_source(PyObject *series, bool of_weights, Source *source)
{
    PyObject *dtype = attribute(series, "dtype");
    bool found = dtype != NULL && source_by_type(series, dtype, of_weights, source);
    Py_XDECREF(dtype);
    return found;
}

/* Calls a function of the package's module `_series`, which is for pandas. */
static PyObject *of_pandas(const char *name, PyObject *first, PyObject *second)
{
    PyObject *module = PyImport_ImportModule("datasketches_rattle._series");
    PyObject *function = module != NULL ? attribute(module, name) : NULL;
    PyObject *result = function != NULL ? PyObject_CallFunctionObjArgs(function, first, second, NULL) : NULL;
    Py_XDECREF(module);
    Py_XDECREF(function);
    return result;
}

PyObject *series_results(PyObject *given, PyObject *results)
{
    int series = is_of(given, "pandas", "Series");
    if (series == 0) return results;
    PyObject *made = series > 0 ? of_pandas("results", given, results) : NULL;
    Py_DECREF(results);
    return made;
}

bool no_counts(PyObject *given, const char *call)
{
    bool is_other = PyList_Check(given) || PyTuple_Check(given) || PyAnySet_Check(given) || PyObject_CheckBuffer(given);
    int series = is_other ? 0 : is_of(given, "pandas", "Series");
    if (series <= 0) return series == 0;
    PyObject *name = PyUnicode_FromString(call);
    PyObject *checked = name != NULL ? of_pandas("reject_counts", given, name) : NULL;
    Py_XDECREF(name);
    Py_XDECREF(checked);
    return checked != NULL;
}
