/* Single items, which are str or int, and other numbers that a call takes. */
#include "items.h"

#include <string.h>

/* Returns whether the object is a number and no bool. A bool of numpy has __index__ in some versions. */
static bool is_number(PyObject *object)
{
    return PyLong_Check(object) ? !PyBool_Check(object)
                                : PyIndex_Check(object) && strncmp(Py_TYPE(object)->tp_name, "numpy.bool", 10) != 0;
}

/* Returns whether the object is one item. A buffer is many, although a numpy array has __index__. */
bool is_single(PyObject *object)
{
    return PyUnicode_Check(object) || PyLong_Check(object) || (PyIndex_Check(object) && Py_TYPE(object)->tp_iter == NULL);
}

static bool number_of(PyObject *object, Item *item)
{
    PyObject *number = PyLong_CheckExact(object) ? Py_NewRef(object) : PyNumber_Index(object);
    if (number == NULL) return false;
    int overflow = 0;
    long long value = PyLong_AsLongLongAndOverflow(number, &overflow);
    if (overflow > 0) {
        item->value = PyLong_AsUnsignedLongLong(number);
        if (PyErr_Occurred() && PyErr_ExceptionMatches(PyExc_OverflowError))
            PyErr_SetString(PyExc_OverflowError, "the item is above 2**64 - 1");
    } else if (overflow < 0) PyErr_SetString(PyExc_OverflowError, "the item is below -2**63");
    else item->value = (uint64_t)value;
    item->negative = overflow == 0 && value < 0;
    Py_DECREF(number);
    return !PyErr_Occurred();
}

bool item_of(PyObject *object, Item *item)
{
    *item = (Item){0};
    if (PyUnicode_Check(object)) {
        Py_ssize_t length = 0;
        item->text = PyUnicode_AsUTF8AndSize(object, &length);
        item->value = (uint64_t)length;
        return item->text != NULL;
    }
    if (is_number(object) && number_of(object, item)) return true;
    if (!PyErr_Occurred() || PyErr_ExceptionMatches(PyExc_TypeError))
        PyErr_Format(PyExc_TypeError, "an item is a str or an int, not %.200s", Py_TYPE(object)->tp_name);
    return false;
}

bool number_fits(const char *what, bool with_sign, uint64_t value, bool negative)
{
    if (with_sign ? !negative && value > INT64_MAX : negative)
        PyErr_Format(PyExc_ValueError, with_sign ? "%s is above 2**63 - 1" : "%s is below 0", what);
    else return true;
    return false;
}

bool number_of_kind(PyObject *object, const char *what, bool with_sign, uint64_t *number)
{
    Item item = {0};
    if (!is_number(object)) {
        PyErr_Format(PyExc_TypeError, "%s is an int, not %.200s", what, Py_TYPE(object)->tp_name);
        return false;
    }
    if (!number_of(object, &item)) {
        if (PyErr_ExceptionMatches(PyExc_OverflowError))
            PyErr_Format(PyExc_ValueError, with_sign ? "%s is from -2**63 to 2**63 - 1" : "%s is from 0 to 2**64 - 1", what);
        return false;
    }
    *number = item.value;
    return number_fits(what, with_sign, item.value, item.negative);
}

bool natural_of(PyObject *object, const char *what, uint64_t *number)
{
    return number_of_kind(object, what, false, number);
}

bool limit_of(PyObject *object, size_t *limit)
{
    if (object == NULL) return true;
    uint64_t number;
    if (object == Py_None) *limit = SIZE_MAX;
    else if (natural_of(object, "max_bytes", &number)) *limit = number;
    else return false;
    return true;
}

/* To filters and Count-Min sketches, a number below 0 is the same item as its unsigned number of the same bytes. */
ds_item item_in_c(const Sketch *self, const Item *item)
{
    if (item->text != NULL) return ds_item_string((const uint8_t *)item->text, item->value);
    return self->kind == DS_FREQUENT_ITEMS_I64 ? ds_item_i64((int64_t)item->value) : ds_item_u64(item->value);
}
