/* Copies by `copy` and `pickle`, with the attributes that an object of a subclass has besides its sketch. */
#include "sketches.h"

static PyObject *copy_of(Sketch *self)
{
    Use use = {.sketch = self};
    ds_sketch made = DS_NONE;
    int32_t answer;
    if (!use_begin(&use)) return NULL;
    Py_BEGIN_ALLOW_THREADS
    answer = ds_clone(&made, &use.share);
    Py_END_ALLOW_THREADS
    use_end(&use);
    return answer < 0 ? refuse(answer) : sketch_of(Py_TYPE(self), self->kind, &made);
}

/* Returns an attribute, or NULL. No error is set if there is no attribute of this name. */
static PyObject *attribute_if_any(PyObject *object, const char *name)
{
    PyObject *value = PyObject_GetAttrString(object, name);
    if (value == NULL && PyErr_ExceptionMatches(PyExc_AttributeError)) PyErr_Clear();
    return value;
}

/* Returns a dict of the slots that an object has, or NULL with an error set. */
static PyObject *slots_of(PyObject *self)
{
    PyObject *module = PyImport_ImportModule("copyreg");
    PyObject *names = module != NULL ? PyObject_CallMethod(module, "_slotnames", "O", (PyObject *)Py_TYPE(self)) : NULL;
    PyObject *list = names != NULL ? PySequence_List(names) : NULL;
    PyObject *slots = list != NULL ? PyDict_New() : NULL;
    for (Py_ssize_t i = 0; slots != NULL && i < PyList_GET_SIZE(list); i++) {
        PyObject *name = PyList_GET_ITEM(list, i), *value = PyObject_GetAttr(self, name);
        if (value == NULL && PyErr_ExceptionMatches(PyExc_AttributeError)) PyErr_Clear();
        else if (value == NULL || PyDict_SetItem(slots, name, value) < 0) Py_CLEAR(slots);
        Py_XDECREF(value);
    }
    Py_XDECREF(list);
    Py_XDECREF(names);
    Py_XDECREF(module);
    return slots;
}

/* Returns the state as `object.__getstate__` of Python 3.11 does: the dict, or a pair of it and the slots if the object has some. */
static PyObject *default_state(PyObject *self)
{
    PyObject *values = attribute_if_any(self, "__dict__");
    if (values == NULL && !PyErr_Occurred()) values = Py_NewRef(Py_None);
    PyObject *slots = values != NULL ? slots_of(self) : NULL;
    PyObject *state = NULL;
    if (slots != NULL) state = PyDict_GET_SIZE(slots) > 0 ? PyTuple_Pack(2, values, slots) : Py_NewRef(values);
    Py_XDECREF(slots);
    Py_XDECREF(values);
    return state;
}

/* Returns the state of an object of a subclass as pickle stores it, or None. Before Python 3.11 only some objects have
 * `__getstate__`. */
static PyObject *state_of(PyObject *self)
{
    if (!PyType_HasFeature(Py_TYPE(self), Py_TPFLAGS_HEAPTYPE)) return Py_NewRef(Py_None);
    PyObject *get = attribute_if_any(self, "__getstate__");
    PyObject *state = get != NULL ? PyObject_CallNoArgs(get) : PyErr_Occurred() ? NULL : default_state(self);
    Py_XDECREF(get);
    return state;
}

static bool set_attributes(PyObject *object, PyObject *values)
{
    PyObject *pairs = PyMapping_Items(values);
    bool done = pairs != NULL;
    for (Py_ssize_t i = 0; done && i < PyList_GET_SIZE(pairs); i++) {
        PyObject *pair = PyList_GET_ITEM(pairs, i);
        done = PyObject_SetAttr(object, PyTuple_GET_ITEM(pair, 0), PyTuple_GET_ITEM(pair, 1)) == 0;
    }
    Py_XDECREF(pairs);
    return done;
}

/* Puts a state into an object as `copy` and `pickle` do: by `__setstate__`, or into `__dict__` and then into slots. */
static bool put_state(PyObject *object, PyObject *state)
{
    PyObject *set = attribute_if_any(object, "__setstate__");
    if (set != NULL || PyErr_Occurred()) {
        PyObject *result = set != NULL ? PyObject_CallOneArg(set, state) : NULL;
        Py_XDECREF(set);
        Py_XDECREF(result);
        return result != NULL;
    }
    PyObject *slots = Py_None;
    if (PyTuple_Check(state) && PyTuple_GET_SIZE(state) == 2) {
        slots = PyTuple_GET_ITEM(state, 1);
        state = PyTuple_GET_ITEM(state, 0);
    }
    if (state != Py_None) {
        PyObject *values = PyObject_GetAttrString(object, "__dict__");
        PyObject *result = values != NULL ? PyObject_CallMethod(values, "update", "(O)", state) : NULL;
        Py_XDECREF(values);
        Py_XDECREF(result);
        if (result == NULL) return false;
    }
    return slots == Py_None || set_attributes(object, slots);
}

/* Takes a copy and its state, which may be NULL. Returns the copy with the state, or NULL. */
static PyObject *with_state(PyObject *copy, PyObject *state)
{
    bool done = copy != NULL && state != NULL && (state == Py_None || put_state(copy, state));
    Py_XDECREF(state);
    if (!done) Py_CLEAR(copy);
    return copy;
}

PyObject *sketch_copy(PyObject *self, PyObject *Py_UNUSED(unused))
{
    PyObject *copy = copy_of((Sketch *)self);
    return copy != NULL ? with_state(copy, state_of(self)) : NULL;
}

/* Stores the copy in the memo. This precedes the copy of the state, which may refer to the sketch. */
static bool remember(PyObject *memo, PyObject *self, PyObject *copy)
{
    if (!PyDict_Check(memo)) return true;
    PyObject *key = PyLong_FromVoidPtr(self);
    bool done = key != NULL && PyDict_SetItem(memo, key, copy) == 0;
    Py_XDECREF(key);
    return done;
}

PyObject *sketch_deepcopy(PyObject *self, PyObject *memo)
{
    PyObject *copy = copy_of((Sketch *)self);
    PyObject *state = copy != NULL ? state_of(self) : NULL;
    if (state == NULL || state == Py_None) return with_state(copy, state);
    PyObject *module = remember(memo, self, copy) ? PyImport_ImportModule("copy") : NULL;
    PyObject *deep = module != NULL ? PyObject_CallMethod(module, "deepcopy", "OO", state, memo) : NULL;
    Py_XDECREF(module);
    Py_DECREF(state);
    return with_state(copy, deep);
}

/* Returns the arguments of `_unpickle`: the image, whose reference this takes, and what it does not say. */
static PyObject *pickled(const ds_status *status, PyObject *image)
{
    unsigned long long seed = status->seed, sample = status->sample_size;
    switch (status->kind) {
    case DS_BLOOM: return Py_BuildValue("(N)", image);
    case DS_COUNT_MIN_U64: return Py_BuildValue("(NKO)", image, seed, Py_False);
    case DS_COUNT_MIN_I64: return Py_BuildValue("(NKO)", image, seed, Py_True);
    case DS_FREQUENT_ITEMS_STRING: return Py_BuildValue("(NOK)", image, (PyObject *)&PyUnicode_Type, sample);
    default: return Py_BuildValue("(NsK)", image, item_name(status->kind), sample);
    }
}

PyObject *sketch_reduce(PyObject *self, PyObject *Py_UNUSED(unused))
{
    ds_status status;
    PyObject *image = sketch_status((Sketch *)self, &status) ? sketch_serialize(self, NULL) : NULL;
    PyObject *arguments = image != NULL ? pickled(&status, image) : NULL;
    PyObject *reader = arguments != NULL ? PyObject_GetAttrString((PyObject *)Py_TYPE(self), "_unpickle") : NULL;
    PyObject *state = reader != NULL ? state_of(self) : NULL;
    PyObject *result = NULL;
    if (state != NULL) result = state == Py_None ? PyTuple_Pack(2, reader, arguments) : PyTuple_Pack(3, reader, arguments, state);
    Py_XDECREF(state);
    Py_XDECREF(reader);
    Py_XDECREF(arguments);
    return result;
}

PyObject *sketch_unpickle(PyObject *type, PyObject *args)
{
    const char *const *names = class_of((PyTypeObject *)type)->pickled;
    PyObject *limit = PyObject_GetAttrString(type, "unpickle_max_bytes");
    PyObject *keywords = limit != NULL ? Py_BuildValue("{sO}", "max_bytes", limit) : NULL;
    PyObject *none = keywords != NULL ? PyTuple_New(0) : NULL;
    PyObject *result = NULL;
    bool named = none != NULL;
    for (Py_ssize_t i = 0; named && i < PyTuple_GET_SIZE(args); i++) {
        named = names[i] != NULL && PyDict_SetItemString(keywords, names[i], PyTuple_GET_ITEM(args, i)) == 0;
        if (names[i] == NULL) {
            PyErr_SetString(PyExc_TypeError, "too many arguments");
            break;
        }
    }
    if (named) result = sketch_deserialize(type, none, keywords);
    Py_XDECREF(none);
    Py_XDECREF(keywords);
    Py_XDECREF(limit);
    return result;
}
