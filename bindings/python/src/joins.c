/* Sketches that are combined or compared. */
#include "sketches.h"

static bool are_of_one_class(PyObject *first, PyObject *second)
{
    const Class *class = class_of(Py_TYPE(first));
    return class != NULL && class == class_of(Py_TYPE(second));
}

/* Returns whether two sketches of one class can be combined. Sets an error if not. */
static bool can_join(Sketch *self, Sketch *other)
{
    if (!sketch_ready(self) || !sketch_ready(other)) return false;
    if (self->kind == other->kind) return true;
    PyErr_SetString(PyExc_ValueError, class_of(Py_TYPE(self))->differ);
    return false;
}

/* The uses of two sketches, which may be one, in the order of addresses. */
typedef struct {
    Use uses[2];
    size_t count;
    Use *first, *second;
} Pair;

/* Begins to use two sketches. Only the first may be changed. */
static bool pair_begin(Pair *pair, Sketch *self, Sketch *other, bool changes)
{
    size_t at = (uintptr_t)self > (uintptr_t)other;
    *pair = (Pair){.count = self == other ? 1 : 2};
    pair->first = &pair->uses[at];
    pair->second = self == other ? pair->first : &pair->uses[1 - at];
    pair->second->sketch = other;
    *pair->first = (Use){.sketch = self, .changes = changes};
    return uses_begin(pair->uses, pair->count);
}

static void pair_end(Pair *pair)
{
    uses_end(pair->uses, pair->count);
}

/* Combines the second sketch of the pair into the handle's. If the handle is the sketch's own, it combines a copy: no call of the
 * library takes the same handle twice. */
static int32_t pair_join(ds_sketch *handle, Pair *pair, of_two join)
{
    ds_sketch twin = DS_NONE, *other = use_handle(pair->second);
    int32_t answer = DS_OK;
    if (handle == other) {
        answer = ds_clone(&twin, handle);
        other = &twin;
    }
    if (answer >= 0) answer = join(handle, other);
    ds_free(&twin);
    return answer;
}

PyObject *sketch_join(PyObject *first, PyObject *second, of_two join)
{
    Sketch *self = (Sketch *)first, *other = (Sketch *)second;
    Pair pair;
    int32_t answer;
    if (!are_of_one_class(first, second)) Py_RETURN_NOTIMPLEMENTED;
    if (!can_join(self, other) || !pair_begin(&pair, self, other, true)) return NULL;
    Py_BEGIN_ALLOW_THREADS
    answer = pair_join(&self->handle, &pair, join);
    Py_END_ALLOW_THREADS
    pair_end(&pair);
    return answer < 0 ? refuse(answer) : Py_NewRef(first);
}

PyObject *sketch_joined(PyObject *first, PyObject *second, of_two join)
{
    Sketch *self = (Sketch *)first, *other = (Sketch *)second;
    ds_sketch made = DS_NONE;
    Pair pair;
    int32_t answer;
    if (!are_of_one_class(first, second)) Py_RETURN_NOTIMPLEMENTED;
    if (!can_join(self, other) || !pair_begin(&pair, self, other, false)) return NULL;
    Py_BEGIN_ALLOW_THREADS
    answer = ds_clone(&made, use_handle(pair.first));
    if (answer >= 0) answer = pair_join(&made, &pair, join);
    if (answer < 0) ds_free(&made);
    Py_END_ALLOW_THREADS
    pair_end(&pair);
    return answer < 0 ? refuse(answer) : sketch_of(Py_TYPE(self), self->kind, &made);
}

PyObject *sketch_merge(PyObject *first, PyObject *second)
{
    return sketch_join(first, second, ds_merge);
}

PyObject *sketch_merged(PyObject *first, PyObject *second)
{
    return sketch_joined(first, second, ds_merge);
}

PyObject *sketch_compare(PyObject *first, PyObject *second, int operation)
{
    Sketch *self = (Sketch *)first, *other = (Sketch *)second;
    Pair pair;
    int32_t answer = self == other ? DS_YES : DS_NO;
    if ((operation != Py_EQ && operation != Py_NE) || !are_of_one_class(first, second)) Py_RETURN_NOTIMPLEMENTED;
    if (!sketch_ready(self) || !sketch_ready(other)) return NULL;
    if (self != other && self->kind == other->kind && !PyObject_TypeCheck(first, &frequent_type)) {
        if (!pair_begin(&pair, self, other, false)) return NULL;
        Py_BEGIN_ALLOW_THREADS
        answer = ds_equal(use_handle(pair.first), use_handle(pair.second));
        Py_END_ALLOW_THREADS
        pair_end(&pair);
    }
    return answer < 0 ? refuse(answer) : PyBool_FromLong((answer == DS_YES) == (operation == Py_EQ));
}

/* Returns the sketches of an iterable as a tuple. Returns NULL, with an error set, if the sketch is closed, or if another one cannot
 * be merged into it. */
static PyObject *others_of(PyObject *self, PyObject *given)
{
    const Class *class = class_of(Py_TYPE(self));
    if (!sketch_ready((Sketch *)self)) return NULL;
    PyObject *others = PySequence_Tuple(given);
    for (Py_ssize_t i = 0; others != NULL && i < PyTuple_GET_SIZE(others); i++) {
        PyObject *other = PyTuple_GET_ITEM(others, i);
        if (!are_of_one_class(self, other))
            PyErr_Format(PyExc_TypeError, "%s takes an iterable of %s, and found %.200s", class->merge_all, class->type->tp_name,
                         Py_TYPE(other)->tp_name);
        else if (can_join((Sketch *)self, (Sketch *)other)) continue;
        Py_CLEAR(others);
    }
    return others;
}

/* A sketch of a call, and the index of its handle among those of the call: 0 for the sketch that is changed. */
typedef struct {
    Sketch *sketch;
    size_t index;
} Place;

static int by_address(const void *first, const void *second)
{
    const Place *a = first, *b = second;
    if (a->sketch != b->sketch) return (uintptr_t)a->sketch < (uintptr_t)b->sketch ? -1 : 1;
    return a->index < b->index ? -1 : a->index > b->index;
}

/* The sketches of a call. `places` are in the order of addresses, and those of one sketch in the order of indices. `uses` has each
 * sketch once, in the same order. `handles` has a handle for each place: the first one is that of the sketch that is changed, moved
 * here for the call. If this sketch is also among the others, each such place has a copy, since the library takes no handle twice.
 * Each place of another sketch has a share. */
typedef struct {
    size_t count, num_sketches;
    Place *places;
    Use *uses;
    ds_sketch *handles;
} Group;

static void group_release(Group *group)
{
    PyMem_Free(group->places);
    PyMem_Free(group->uses);
    PyMem_Free(group->handles);
}

/* Returns false, with an error set, if there is no memory. `group_release` is called in any case. */
static bool group_open(Group *group, Sketch *self, PyObject *others)
{
    group->count = (size_t)PyTuple_GET_SIZE(others) + 1;
    group->places = PyMem_Calloc(group->count, sizeof *group->places);
    group->uses = PyMem_Calloc(group->count, sizeof *group->uses);
    group->handles = PyMem_Calloc(group->count, sizeof *group->handles);
    if (group->places == NULL || group->uses == NULL || group->handles == NULL) {
        PyErr_NoMemory();
        return false;
    }
    group->places[0] = (Place){self, 0};
    for (size_t i = 1; i < group->count; i++) group->places[i] = (Place){(Sketch *)PyTuple_GET_ITEM(others, i - 1), i};
    qsort(group->places, group->count, sizeof *group->places, by_address);
    for (size_t i = 0; i < group->count; i++) {
        Sketch *sketch = group->places[i].sketch;
        if (i == 0 || sketch != group->places[i - 1].sketch)
            group->uses[group->num_sketches++] = (Use){.sketch = sketch, .changes = sketch == self};
    }
    return true;
}

/* Fills the handles of the other places, merges all into the first, and frees the others. */
static int32_t group_merge(Group *group)
{
    int32_t answer = DS_OK;
    Use *use = group->uses;
    for (size_t i = 0; i < group->count && answer >= 0; i++) {
        size_t index = group->places[i].index;
        use += use->sketch != group->places[i].sketch;
        if (index > 0)
            answer =
                use->changes ? ds_clone(&group->handles[index], &group->handles[0]) : ds_share(&group->handles[index], &use->share);
    }
    if (answer >= 0) answer = ds_merge_all(&group->handles[0], &group->handles[1], group->count - 1);
    for (size_t i = 1; i < group->count; i++) ds_free(&group->handles[i]);
    return answer;
}

static void move(ds_sketch *to, ds_sketch *from)
{
    *to = *from;
    *from = (ds_sketch)DS_NONE;
}

PyObject *sketch_merge_all(PyObject *self, PyObject *given)
{
    Group group = {0};
    ds_sketch *own = &((Sketch *)self)->handle;
    int32_t answer = DS_OK;
    PyObject *others = others_of(self, given);
    if (others == NULL) return NULL;
    bool done = group_open(&group, (Sketch *)self, others) && uses_begin(group.uses, group.num_sketches);
    if (done) {
        move(&group.handles[0], own);
        Py_BEGIN_ALLOW_THREADS
        answer = group_merge(&group);
        Py_END_ALLOW_THREADS
        move(own, &group.handles[0]);
        uses_end(group.uses, group.num_sketches);
    }
    group_release(&group);
    Py_DECREF(others);
    if (!done) return NULL;
    if (answer < 0) return refuse(answer);
    Py_RETURN_NONE;
}
