/* The weights of many items. */
#include "items.h"

/* Returns whether the object is many weights, or -1 with an error set. */
static int is_many(PyObject *object)
{
    if (is_single(object)) return 0;
    if (PyObject_CheckBuffer(object) || Py_TYPE(object)->tp_iter != NULL || PySequence_Check(object)) return 1;
    return is_arrow(object);
}

/* Finds out what weights are read from. Sets an error for a set, and for a mapping, whose keys would be read. */
static bool weight_source_of(PyObject *object, Source *source)
{
    if (PyAnySet_Check(object))
        PyErr_Format(PyExc_TypeError, "weights come in the order of the items, and a %.200s has none", Py_TYPE(object)->tp_name);
    else if (is_mapping(object) > 0)
        PyErr_Format(PyExc_TypeError, "weights are no mapping (%.200s): a mapping of items to weights is the first argument",
                     Py_TYPE(object)->tp_name);
    return !PyErr_Occurred() && source_of(object, "update", true, source);
}

static bool weights_open(const Source *source, Weights *weights)
{
    weights->items.of_weights = true;
    weights->items.weights_with_sign = weights->with_sign;
    return items_open(source, &weights->items);
}

static bool differ(const Items *items, const Items *weights)
{
    if (items->iterator != NULL) PyErr_Format(PyExc_ValueError, "there are %zu weights and more items", weights->count);
    else if (weights->iterator != NULL) PyErr_Format(PyExc_ValueError, "there are %zu items and more weights", items->count);
    else PyErr_Format(PyExc_ValueError, "there are %zu items and %zu weights", items->count, weights->count);
    return false;
}

/* Reads an iterator if the other argument is known as a whole. Reads at most one item more than the other has. */
static bool read_beside(Items *items, Items *weights)
{
    if (items->iterator != NULL && weights->iterator != NULL) return true;
    if (items->iterator != NULL && !items_next(items, weights->count + 1)) return false;
    if (weights->iterator != NULL && !items_next(weights, items->count + 1)) return false;
    return items->count == weights->count || differ(items, weights);
}

/* Checks the weights of runs that belong to an item, if they have the other signedness than the sketch's. */
static bool each_fits(const Items *items, Weights *weights)
{
    Items *each = &weights->items;
    uint64_t number;
    each->below_top = each->num_runs > 0 && each->with_sign != weights->with_sign;
    return !each->below_top || !find_above_top(each, items, &number) ||
           number_fits("a weight", weights->with_sign, number, each->with_sign);
}

static bool open_sources(const Source *source, const Source *weight_source, Items *items, Weights *weights)
{
    if (weights->each && PyAnySet_Check(source->values)) {
        PyErr_Format(PyExc_TypeError, "a %.200s has no order, and takes one weight for all items",
                     Py_TYPE(source->values)->tp_name);
        return false;
    }
    if (!items_open(source, items)) return false;
    if (!weights->each) return true;
    return weights_open(weight_source, weights) && read_beside(items, &weights->items) && each_fits(items, weights);
}

/* Finds out what the arguments are read from. */
static bool find_sources(PyObject *given, PyObject *given_weights, Source *source, Source *weight_source, Weights *weights)
{
    int mapping = is_mapping(given);
    if (mapping < 0) return false;
    if (mapping > 0) {
        if (given_weights != NULL) PyErr_SetString(PyExc_TypeError, "a mapping of items to weights takes no second argument");
        weights->each = given_weights == NULL && mapping_split(given, &source->values, &weight_source->values);
        return weights->each;
    }
    int many = given_weights != NULL ? is_many(given_weights) : 0;
    if (many < 0) return false;
    weights->each = many > 0;
    if (weights->each) return source_of(given, "update", false, source) && weight_source_of(given_weights, weight_source);
    return (given_weights == NULL || number_of_kind(given_weights, "weight", weights->with_sign, &weights->same)) &&
           no_counts(given, "update") && source_of(given, "update", false, source);
}

bool update_open(PyObject *given, PyObject *given_weights, bool with_sign, Items *items, Weights *weights)
{
    Source source = {0}, weight_source = {0};
    *items = (Items){0};
    *weights = (Weights){.same = 1, .with_sign = with_sign};
    bool opened = find_sources(given, given_weights, &source, &weight_source, weights) &&
                  open_sources(&source, &weight_source, items, weights);
    source_release(&source);
    source_release(&weight_source);
    if (!opened) {
        items_release(items);
        items_release(&weights->items);
    }
    return opened;
}

bool items_of(PyObject *given, const char *call, Items *items, Weights *weights)
{
    Source source;
    *items = (Items){0};
    *weights = (Weights){.same = 1};
    if (!no_counts(given, call)) return false;
    bool opened = source_of(given, call, false, &source) && open_sources(&source, NULL, items, weights);
    source_release(&source);
    if (!opened) items_release(items);
    return opened;
}

bool update_next(Items *items, Weights *weights)
{
    Items *others = &weights->items;
    if (items->iterator == NULL) return true;
    if (!items_next(items, STREAM_CHUNK)) return false;
    if (!weights->each) return true;
    if (!items_next(others, items->count < STREAM_CHUNK ? items->count + 1 : STREAM_CHUNK)) return false;
    if (items->count != others->count)
        PyErr_SetString(PyExc_ValueError,
                        items->count > others->count ? "there are more items than weights" : "there are more weights than items");
    return items->count == others->count;
}

static uint64_t distance(uint64_t weight, bool with_sign)
{
    return with_sign && weight > INT64_MAX ? 0 - weight : weight;
}

int32_t weights_fit(const Items *items, const Weights *weights, uint64_t room)
{
    uint64_t chunk[CHUNK], same = distance(weights->same, weights->with_sign);
    uint8_t present[CHUNK / 8];
    if (!weights->each && (same == 0 || items->count <= room / same)) return DS_OK;
    for (size_t i = 0, count; i < items->count; i += count) {
        count = items->count - i < CHUNK ? items->count - i : CHUNK;
        weights_chunk(weights, i, count, chunk);
        rows_present(items, &weights->items, i, count, present);
        for (size_t j = 0; j < count; j++) {
            uint64_t weight = is_present(present, j) ? distance(chunk[j], weights->with_sign) : 0;
            if (weights->items.below_top && chunk[j] > INT64_MAX && is_present(present, j)) return CHANGED;
            if (weight > room) return DS_WEIGHT_OVERFLOW;
            room -= weight;
        }
    }
    return DS_OK;
}
