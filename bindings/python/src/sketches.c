/* The module `datasketches_rattle._sketches`: errors, uses of sketches by threads, and functions for all kinds of sketches. */
#include "sketches.h"

#include <pthread.h>

PyObject *sketch_error;

static const Class classes[] = {
    {.type = &filter_type,
     .name = "BloomFilter",
     .merge_all = "union_all",
     .pickled = {"image", NULL},
     .arguments = filter_arguments},
    {.type = &count_type,
     .name = "CountMinSketch",
     .merge_all = "merge_all",
     .differ = "one sketch has signed weights, and the other has not",
     .pickled = {"image", "seed", "signed", NULL},
     .arguments = count_arguments},
    {.type = &frequent_type,
     .name = "FrequentItemsSketch",
     .merge_all = "merge_all",
     .differ = "the sketches count items of different types",
     .pickled = {"image", "item", "sample_size", NULL},
     .arguments = frequent_arguments},
};

#define NUM_CLASSES (sizeof classes / sizeof *classes)

const Class *class_of(PyTypeObject *type)
{
    for (size_t i = 0; i < NUM_CLASSES; i++)
        if (PyType_IsSubtype(type, classes[i].type)) return &classes[i];
    return NULL;
}

PyObject *sketch_of(PyTypeObject *type, int32_t kind, ds_sketch *made)
{
    Sketch *self = (Sketch *)type->tp_alloc(type, 0);
    if (self == NULL) {
        ds_free(made);
        return NULL;
    }
    self->kind = kind;
    self->handle = *made;
    *made = (ds_sketch)DS_NONE;
    return (PyObject *)self;
}

void sketch_dealloc(PyObject *self)
{
    Sketch *sketch = (Sketch *)self;
    ds_free(&sketch->handle);
    Py_TYPE(self)->tp_free(self);
}

/* A thread that waits for a sketch, on its own stack. */
struct Waiter {
    Waiter *next;
    bool changes;
    bool is_in; /* whether it may use the sketch; guarded by `mutex` */
    pthread_mutex_t mutex;
    pthread_cond_t let_in;
};

static bool can_enter(const Sketch *self, bool changes)
{
    return !self->changing && (!changes || self->readers == 0);
}

static void let_in(Sketch *self, bool changes)
{
    if (changes) self->changing = true;
    else self->readers++;
}

static void wait_for_turn(Waiter *waiter)
{
    pthread_mutex_lock(&waiter->mutex);
    while (!waiter->is_in) pthread_cond_wait(&waiter->let_in, &waiter->mutex);
    pthread_mutex_unlock(&waiter->mutex);
}

/* The waiter's stack stays until this thread releases the interpreter's lock. */
static void wake(Waiter *waiter)
{
    pthread_mutex_lock(&waiter->mutex);
    waiter->is_in = true;
    pthread_cond_signal(&waiter->let_in);
    pthread_mutex_unlock(&waiter->mutex);
}

/* Waits until a long call may use the sketch: one that changes it alone, and those that read it together.
 *
 * Threads wait in a queue, and nobody overtakes: a call enters at once only if the queue is empty. A call that leaves lets in the
 * first waiting call that changes, or all waiting calls that read up to the next that changes. So a waiting thread waits for the
 * calls that came before it and for no others, and each of those ends: no thread starves.
 *
 * All this is done with the interpreter's lock, and a thread waits without it. So what the calls that are inside need to end, that
 * lock and those of other sketches, is never held by a thread that waits here. Calls of several sketches enter them in the order of
 * addresses: a call that is inside one waits only for sketches of higher addresses. So no threads wait for each other. */
static void enter(Sketch *self, bool changes)
{
    if (self->first == NULL && can_enter(self, changes)) {
        let_in(self, changes);
        return;
    }
    Waiter waiter = {.changes = changes, .mutex = PTHREAD_MUTEX_INITIALIZER, .let_in = PTHREAD_COND_INITIALIZER};
    if (self->first == NULL) self->first = &waiter;
    else self->last->next = &waiter;
    self->last = &waiter;
    Py_BEGIN_ALLOW_THREADS
    wait_for_turn(&waiter);
    Py_END_ALLOW_THREADS
}

static void leave(Sketch *self, bool changes)
{
    if (changes) self->changing = false;
    else self->readers--;
    while (self->first != NULL && can_enter(self, self->first->changes)) {
        Waiter *waiter = self->first;
        self->first = waiter->next;
        let_in(self, waiter->changes);
        wake(waiter);
    }
}

static bool set_closed(void)
{
    PyErr_SetString(PyExc_ValueError, "the sketch is closed");
    return false;
}

/* A thread that `leave` lets in uses the sketch when it has the interpreter's lock again, which this thread keeps. */
bool sketch_ready(Sketch *self)
{
    if (self->changing) {
        enter(self, false);
        leave(self, false);
    }
    return self->handle.sketch != NULL || set_closed();
}

/* Lets the library change the sketch again. No call that reads it is inside, so no other handle shares it. */
static void thaw(Sketch *self)
{
    ds_thaw(&self->handle);
    self->frozen = false;
}

static bool wait_to_change(Sketch *self)
{
    if (self->changing || self->readers > 0) {
        enter(self, true);
        leave(self, true);
    }
    if (self->handle.sketch == NULL) return set_closed();
    if (self->frozen) thaw(self);
    return true;
}

bool sketch_ready_to_change(Sketch *self)
{
    return (!self->changing && !self->frozen && self->handle.sketch != NULL) || wait_to_change(self);
}

/* Puts a share of the sketch into the call's own handle. */
static int32_t take_share(Use *use)
{
    Sketch *self = use->sketch;
    int32_t answer = self->frozen ? DS_OK : ds_freeze(&self->handle);
    self->frozen |= answer >= 0;
    return answer >= 0 ? ds_share(&use->share, &self->handle) : answer;
}

/* Does the work of `use_begin`, and returns an error as a number: creating one during a long call could run Python code. */
static int32_t begin(Use *use)
{
    Sketch *self = use->sketch;
    int32_t answer = DS_OK;
    enter(self, use->changes);
    if (self->handle.sketch == NULL) answer = DS_NO_SKETCH;
    else if (!use->changes) answer = take_share(use);
    else if (self->frozen) thaw(self);
    if (answer < 0) leave(self, use->changes);
    return answer;
}

static bool began(int32_t answer)
{
    return answer == DS_NO_SKETCH ? set_closed() : answer >= 0 || refuse(answer) != NULL;
}

bool use_begin(Use *use)
{
    return began(begin(use));
}

/* The object's handle keeps the sketch, so this frees a share and no sketch. */
void use_end(Use *use)
{
    ds_free(&use->share);
    leave(use->sketch, use->changes);
}

bool uses_begin(Use *uses, size_t count)
{
    int32_t answer = DS_OK;
    size_t i = 0;
    for (; i < count && answer >= 0; i++) answer = begin(&uses[i]);
    if (answer < 0) uses_end(uses, i - 1);
    return began(answer);
}

void uses_end(Use *uses, size_t count)
{
    for (size_t i = 0; i < count; i++) use_end(&uses[i]);
}

static PyObject *refuse_as(int32_t answer, const char *kind)
{
    if (answer == DS_NO_MEMORY) return PyErr_NoMemory();
    if (answer == DS_NO_RANDOM) return PyErr_Format(PyExc_OSError, "%s", ds_result_message(answer));
    PyObject *error = PyObject_CallFunction(sketch_error, "s", ds_result_message(answer));
    PyObject *kind_text = PyUnicode_FromString(kind);
    PyObject *fault = PyUnicode_FromString(ds_result_name(answer));
    if (error != NULL && kind_text != NULL && fault != NULL && PyObject_SetAttrString(error, "kind", kind_text) == 0 &&
        PyObject_SetAttrString(error, "fault", fault) == 0)
        PyErr_SetObject(sketch_error, error);
    Py_XDECREF(error);
    Py_XDECREF(kind_text);
    Py_XDECREF(fault);
    return NULL;
}

PyObject *refuse_at(int32_t answer, size_t byte)
{
    PyObject *type, *error, *trace;
    PyObject *at = PyLong_FromSize_t(byte);
    PyObject *text = PyUnicode_FromFormat("%s at byte %zu", ds_result_message(answer), byte);
    PyObject *arguments = text != NULL ? PyTuple_Pack(1, text) : NULL;
    refuse(answer);
    PyErr_Fetch(&type, &error, &trace);
    if (error == NULL || at == NULL || arguments == NULL || PyObject_SetAttrString(error, "args", arguments) < 0 ||
        PyObject_SetAttrString(error, "byte", at) < 0)
        PyErr_Clear();
    Py_XDECREF(at);
    Py_XDECREF(text);
    Py_XDECREF(arguments);
    PyErr_Restore(type, error, trace);
    return NULL;
}

PyObject *refuse(int32_t answer)
{
    return refuse_as(answer, "InvalidArgument");
}

PyObject *refuse_image(int32_t answer)
{
    return refuse_as(answer, "InvalidData");
}

static PyObject *none_or_refuse(int32_t answer)
{
    if (answer < 0) return refuse(answer);
    Py_RETURN_NONE;
}

PyObject *sketch_change(Sketch *self, int32_t (*change)(ds_sketch *))
{
    Use use = {.sketch = self, .changes = true};
    int32_t answer;
    if (!use_begin(&use)) return NULL;
    Py_BEGIN_ALLOW_THREADS
    answer = change(&self->handle);
    Py_END_ALLOW_THREADS
    use_end(&use);
    return none_or_refuse(answer);
}

PyObject *sketch_reset(PyObject *self, PyObject *Py_UNUSED(unused))
{
    return sketch_change((Sketch *)self, ds_reset);
}

bool sketch_status(Sketch *self, ds_status *status)
{
    if (!sketch_ready(self)) return false;
    int32_t answer = ds_get_status(&self->handle, status);
    return answer >= 0 || refuse(answer) != NULL;
}

bool sketch_read(Sketch *self, int32_t which, uint64_t *number)
{
    if (!sketch_ready(self)) return false;
    int32_t answer = ds_number(&self->handle, which, number);
    return answer >= 0 || refuse(answer) != NULL;
}

uint64_t sketch_total(Sketch *self)
{
    uint64_t total = 0;
    ds_number(&self->handle, DS_NUMBER_TOTAL_WEIGHT, &total);
    return total;
}

PyObject *sketch_number(PyObject *self, void *which)
{
    uint64_t number;
    return sketch_read((Sketch *)self, (int32_t)(uintptr_t)which, &number) ? PyLong_FromUnsignedLongLong(number) : NULL;
}

PyObject *sketch_repr(PyObject *self)
{
    const char *name = class_of(Py_TYPE(self))->name;
    ds_status status;
    if (!sketch_status((Sketch *)self, &status)) {
        PyErr_Clear();
        return PyUnicode_FromFormat("<%s, closed>", name);
    }
    unsigned hashes = status.num_hashes, buckets = status.num_buckets;
    unsigned long long seed = status.seed, total = status.total_weight, size = status.max_map_size;
    unsigned long long bits = status.num_bits, used = status.bits_used;
    switch (status.kind) {
    case DS_BLOOM:
        return PyUnicode_FromFormat("<%s num_bits=%llu num_hashes=%u seed=%llu bits_used=%llu>", name, bits, hashes, seed, used);
    case DS_COUNT_MIN_U64:
    case DS_COUNT_MIN_I64:
        return PyUnicode_FromFormat("<%s num_hashes=%u num_buckets=%u seed=%llu%s>", name, hashes, buckets, seed,
                                    status.kind == DS_COUNT_MIN_I64 ? " signed=True" : "");
    default:
        return PyUnicode_FromFormat("<%s max_map_size=%llu item=%s total_weight=%llu>", name, size, item_name(status.kind), total);
    }
}

const char sketch_sizeof_doc[] = PyDoc_STR(
"__sizeof__($self, /)\n--\n\n"
"Return how many bytes the object takes, with its sketch and all strings in that. Of a closed sketch: the object's alone.");

PyObject *sketch_sizeof(PyObject *object, PyObject *Py_UNUSED(unused))
{
    Sketch *self = (Sketch *)object;
    Use use = {.sketch = self};
    size_t bytes = 0;
    int32_t answer = begin(&use);
    if (answer >= 0) {
        Py_BEGIN_ALLOW_THREADS
        answer = ds_memory_bytes(&use.share, &bytes);
        Py_END_ALLOW_THREADS
        use_end(&use);
    }
    if (answer < 0 && answer != DS_NO_SKETCH) return refuse(answer);
    PyObject *own = PyObject_CallMethod((PyObject *)&PyBaseObject_Type, "__sizeof__", "O", object);
    PyObject *more = PyLong_FromSize_t(bytes);
    PyObject *all = own != NULL && more != NULL ? PyNumber_Add(own, more) : NULL;
    Py_XDECREF(own);
    Py_XDECREF(more);
    return all;
}

const char sketch_close_doc[] =
    PyDoc_STR(
"close($self, /)\n--\n\n"
"Free the memory. Calls that use the sketch then raise ValueError; a second `close` does nothing.");

PyObject *sketch_close(PyObject *self, PyObject *Py_UNUSED(unused))
{
    Sketch *sketch = (Sketch *)self;
    enter(sketch, true);
    Py_BEGIN_ALLOW_THREADS
    ds_free(&sketch->handle);
    Py_END_ALLOW_THREADS
    sketch->frozen = false;
    leave(sketch, true);
    Py_RETURN_NONE;
}

PyObject *sketch_enter(PyObject *self, PyObject *Py_UNUSED(unused))
{
    return sketch_ready((Sketch *)self) ? Py_NewRef(self) : NULL;
}

PyObject *sketch_exit(PyObject *self, PyObject *Py_UNUSED(arguments))
{
    return sketch_close(self, NULL);
}

PyDoc_STRVAR(error_doc,
"A sketch rejected a call, and is unchanged.\n\n"
"`kind` is 'InvalidArgument' or 'InvalidData', and `fault` names the error. `byte` is the offset of the first bytes of words\n"
"or lines that are not UTF-8, else None.\n\n"
">>> import datasketches_rattle as ds\n"
">>> try:\n"
"...     ds.BloomFilter(num_bits=0, num_hashes=7)\n"
"... except ds.SketchError as error:\n"
"...     print(error.kind, error.fault, error)\n"
"InvalidArgument BadNumBits num_bits out of range\n");

/* Makes the type ready, with the class attribute for the maximum bytes of an unpickled sketch, which a subclass may change. The type's dict
 * is made by `PyType_Ready`, which skips types that have one. Interpreters that share a lock share the type. */
static bool ready_class(PyTypeObject *type)
{
    if (PyType_HasFeature(type, Py_TPFLAGS_READY)) return true;
    PyObject *limit = PyLong_FromSize_t(DEFAULT_LIMIT);
    bool done = limit != NULL && PyType_Ready(type) == 0 && PyDict_SetItemString(type->tp_dict, "unpickle_max_bytes", limit) == 0;
    Py_XDECREF(limit);
    PyType_Modified(type);
    return done;
}

static bool add_classes(PyObject *m)
{
    bool done = true;
    for (size_t i = 0; done && i < NUM_CLASSES; i++)
        done = ready_class(classes[i].type) && PyModule_AddType(m, classes[i].type) == 0;
    return done;
}

/* Adds the class of errors, which interpreters that share a lock share, too. */
static bool add_error(PyObject *m)
{
    PyObject *fields = Py_BuildValue("{sOsOsO}", "kind", Py_None, "fault", Py_None, "byte", Py_None);
    if (sketch_error == NULL && fields != NULL)
        sketch_error = PyErr_NewExceptionWithDoc("datasketches_rattle.SketchError", error_doc, NULL, fields);
    Py_XDECREF(fields);
    return sketch_error != NULL && PyModule_AddObjectRef(m, "SketchError", sketch_error) == 0;
}

static int fill_module(PyObject *m)
{
    bool done = add_error(m) && add_classes(m) && add_keyed_hash(m) && add_file_calls(m) &&
                PyModule_AddStringConstant(m, "__version__", ds_version()) == 0;
    return done ? 0 : -1;
}

/* From Python 3.12 on an interpreter may have a lock of its own. Such a one raises ImportError before the module is filled. */
static PyModuleDef_Slot slots[] = {
    {Py_mod_exec, fill_module},
#if PY_VERSION_HEX >= 0x030C0000
    {Py_mod_multiple_interpreters, Py_MOD_MULTIPLE_INTERPRETERS_NOT_SUPPORTED},
#endif
    {0, NULL},
};

static struct PyModuleDef module = {
    PyModuleDef_HEAD_INIT, .m_name = "datasketches_rattle._sketches", .m_size = 0, .m_doc = "Sketches over a proved library for C.",
    .m_slots = slots,
};

PyMODINIT_FUNC PyInit__sketches(void)
{
    return PyModuleDef_Init(&module);
}
