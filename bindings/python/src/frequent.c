/* FrequentItemsSketch: heavy hitters. Items are signed or unsigned 64-bit int, or str. */
#include "items.h"

const char *item_name(int32_t kind)
{
    return kind == DS_FREQUENT_ITEMS_U64 ? "u64" : kind == DS_FREQUENT_ITEMS_I64 ? "i64" : "str";
}

/* Returns the kind that `item` names: int or 'i64' for signed numbers, 'u64' for unsigned numbers, and str or 'str' for strings.
 * Returns 0, with an error set, if it is none of these. */
static int32_t kind_named(PyObject *item)
{
    if (item == NULL || item == (PyObject *)&PyLong_Type) return DS_FREQUENT_ITEMS_I64;
    if (item == (PyObject *)&PyUnicode_Type) return DS_FREQUENT_ITEMS_STRING;
    for (int32_t kind = DS_FREQUENT_ITEMS_U64; PyUnicode_Check(item) && kind <= DS_FREQUENT_ITEMS_STRING; kind++)
        if (PyUnicode_CompareWithASCIIString(item, item_name(kind)) == 0) return kind;
    PyErr_SetString(PyExc_ValueError, "item is int, 'i64', 'u64', str or 'str'");
    return 0;
}

/* Reads the key of a new sketch. `given` points to it, or is NULL if the library draws one. */
static bool key_or_none(PyObject *object, ds_key *key, const ds_key **given)
{
    *given = object != Py_None ? key : NULL;
    return object == Py_None || key_of(object, key);
}

static PyObject *frequent_new(PyTypeObject *type, PyObject *args, PyObject *keywords)
{
    static char *names[] = {"max_map_size", "item", "sample_size", "key", NULL};
    PyObject *size_object, *item = NULL, *sample_object = Py_None, *key_object = Py_None;
    uint64_t size, sample;
    ds_key key;
    const ds_key *given;
    if (!PyArg_ParseTupleAndKeywords(args, keywords, "O|OOO:FrequentItemsSketch", names, &size_object, &item, &sample_object,
                                     &key_object))
        return NULL;
    int32_t kind = natural_of(size_object, "max_map_size", &size) ? kind_named(item) : 0;
    if (kind == 0) return NULL;
    if (sample_object == Py_None) sample = ds_frequent_items_max_sample_size(size);
    else if (!natural_of(sample_object, "sample_size", &sample)) return NULL;
    if (!key_or_none(key_object, &key, &given)) return NULL;
    ds_sketch made = DS_NONE;
    int32_t answer = ds_frequent_items_new(&made, kind, size, sample, given);
    return answer < 0 ? refuse(answer) : sketch_of(type, kind, &made);
}

/* Returns whether the sketch is one of frequent items. */
static bool of_frequent(const Sketch *self)
{
    return self->kind >= DS_FREQUENT_ITEMS_U64;
}

bool counts(const Sketch *self, const Item *item)
{
    bool text = item->text != NULL;
    if (!of_frequent(self) || item->missing) return true;
    if (text != has_texts(self))
        PyErr_SetString(PyExc_TypeError, text ? "this sketch counts int, not str" : "this sketch counts str, not int");
    else if (text) return true;
    else if (has_sign(self) && !item->negative && item->value > INT64_MAX)
        PyErr_SetString(PyExc_OverflowError, "the item is above 2**63 - 1");
    else if (!has_sign(self) && item->negative) PyErr_SetString(PyExc_OverflowError, "the item is below 0");
    else return true;
    return false;
}

/* Checks the rows of a run with a dictionary, unless all values of the dictionary are counted. */
static bool counts_rows(const Sketch *self, const Run *run)
{
    bool good = true;
    for (size_t i = 0; good && i < run->num_entries; i++) good = counts(self, &run->entries[i]);
    if (good) return true;
    PyErr_Clear();
    good = true;
    for (size_t at = 0; good && at < run->count; at++) {
        const Item *item = run_entry(run, at);
        good = item == NULL || counts(self, item);
    }
    return good;
}

bool counts_all(const Sketch *self, Items *items)
{
    bool good = true, all_texts = has_texts(self) && !items->with_numbers;
    uint64_t number;
    if (!of_frequent(self)) return true;
    for (size_t i = 0; items->items != NULL && !all_texts && good && i < items->count; i++) good = counts(self, &items->items[i]);
    for (size_t i = 0; items->of_entries && good && i < items->num_runs; i++) good = counts_rows(self, &items->runs[i]);
    if (items->items != NULL || items->of_entries) return good;
    if (items->with_texts != has_texts(self))
        return items_gaps(items) == items->count || counts(self, &(Item){.text = items->with_texts ? "" : NULL});
    items->below_top = !has_texts(self) && items->with_sign != has_sign(self);
    return !items->below_top || !find_above_top(items, NULL, &number) ||
           counts(self, &(Item){.value = number, .negative = items->with_sign});
}

PyDoc_STRVAR(update_doc,
"update($self, items, /, weight=1)\n--\n\n"
"Add a weight, 0 to 2**64 - 1, to an item's, or to those of many: an iterable, a buffer of integers, an array of strings,\n"
"or a column of Arrow or pandas.\n\n"
"Many items have one weight each, or a weight for each item in an iterable, a buffer or a column. Missing items,\n"
"such as None, and items with a missing weight of a column are skipped. A mapping adds its values to the weights of its\n"
"keys. Raise 'WeightOverflow' if the total weight would exceed 2**64 - 1. Then nothing is counted.\n\n"
"All items of a list, an array, a column or a mapping are checked before the first is counted. Any other iterable is\n"
"checked and counted 4,096 items at a time. A later error has a note with the number of counted items.\n\n"
">>> import datasketches_rattle as ds\n"
">>> heavy = ds.FrequentItemsSketch(64)\n"
">>> heavy.update(7, 30)\n"
">>> heavy.update([7, 8, -9])\n"
">>> heavy[7], heavy[8], heavy[10]\n"
"(31, 1, 0)\n"
">>> words = ds.FrequentItemsSketch(64, item=str)\n"
">>> words.update('to be or not to be'.split())\n"
">>> words.update('apple', 3)\n"
">>> words.update(['apple', 'pear'], [10, 20])\n"
">>> words.update({'pear': 5})\n"
">>> words['be'], words['apple'], words['pear']\n"
"(2, 13, 25)\n");

static bool bounds_of(PyObject *object, PyObject *given, ds_item_bounds *bounds)
{
    Sketch *self = (Sketch *)object;
    Item item;
    if (!item_of(given, &item) || !counts(self, &item) || !sketch_ready(self)) return false;
    const ds_item asked = item_in_c(self, &item);
    int32_t answer = ds_frequent_items_bounds(&self->handle, &asked, bounds);
    return answer >= 0 || refuse(answer) != NULL;
}

static int32_t bounds_all(Batch *batch, const Chunk *chunk, void *results)
{
    return (ds_frequent_items_bounds_all)(batch->handle, &chunk->items, results, chunk->rows);
}

static int32_t estimate_all(Batch *batch, const Chunk *chunk, void *results)
{
    ds_item_bounds bounds[CHUNK];
    int32_t answer = bounds_all(batch, chunk, bounds);
    for (size_t i = 0; answer >= 0 && i < chunk->rows; i++) ((uint64_t *)results)[i] = bounds[i].estimate;
    return answer;
}

PyDoc_STRVAR(bounds_doc,
"bounds($self, items, /, *, missing=None)\n--\n\n"
"Return the lower bound, the estimate and the upper bound of an item's weight. It lies between the first and the last.\n\n"
"Return a list of these for many items, an array with three columns for an array of numpy, and a DataFrame with the same index\n"
"for a Series of pandas. `missing`, a number, is each bound of missing items. Without it they raise ValueError.\n\n"
">>> import datasketches_rattle as ds\n"
">>> heavy = ds.FrequentItemsSketch(8)\n"
">>> heavy.update(range(7))\n"
">>> heavy.bounds(3), heavy.bounds([3, 4])\n"
"((0, 0, 1), [(0, 0, 1), (0, 0, 1)])\n");

static PyObject *frequent_bounds(PyObject *object, PyObject *const *args, Py_ssize_t count, PyObject *names)
{
    static const Call many = {
        .name = "bounds", .check = counts_all, .take = bounds_all, .type = "u8", .width = 3, .has_missing = true};
    ds_item_bounds bounds;
    PyObject *missing;
    if (!query_arguments(many.name, args, count, names, &missing)) return NULL;
    if (!is_single(args[0])) return ask_all((Sketch *)object, args[0], &many, missing);
    return bounds_of(object, args[0], &bounds) ? bounds_tuple(&bounds) : NULL;
}

/* Returns whether an item has a counter: then its lower bound is above 0. */
static int frequent_has(PyObject *object, PyObject *item)
{
    ds_item_bounds bounds;
    return bounds_of(object, item, &bounds) ? bounds.lower_bound > 0 : -1;
}

static Py_ssize_t frequent_length(PyObject *object)
{
    uint64_t number;
    return sketch_read((Sketch *)object, DS_NUMBER_NUM_ACTIVE_ITEMS, &number) ? (Py_ssize_t)number : -1;
}

static PyObject *frequent_at(PyObject *object, PyObject *item)
{
    ds_item_bounds bounds;
    return bounds_of(object, item, &bounds) ? PyLong_FromUnsignedLongLong(bounds.estimate) : NULL;
}

PyDoc_STRVAR(estimate_doc,
"estimate($self, items, /, *, missing=None)\n--\n\n"
"Return the estimate of an item's weight, as `heavy[item]` does.\n\n"
"Return a list of estimates for many items, an array for an array of numpy, and a Series with the same index for a Series of\n"
"pandas. `missing`, a number, is the result of missing items. Without it they raise ValueError.\n\n"
">>> import datasketches_rattle as ds\n"
">>> heavy = ds.FrequentItemsSketch(8)\n"
">>> heavy.update(7, 30)\n"
">>> heavy.estimate(7), heavy.estimate([7, 8])\n"
"(30, [30, 0])\n");

static PyObject *frequent_estimate(PyObject *object, PyObject *const *args, Py_ssize_t count, PyObject *names)
{
    static const Call many = {
        .name = "estimate", .check = counts_all, .take = estimate_all, .type = "u8", .width = 1, .has_missing = true};
    PyObject *missing;
    if (!query_arguments(many.name, args, count, names, &missing)) return NULL;
    return is_single(args[0]) ? frequent_at(object, args[0]) : ask_all((Sketch *)object, args[0], &many, missing);
}

PyDoc_STRVAR(merge_all_doc,
"merge_all($self, others, /)\n--\n\n"
"Merge all sketches of an iterable into this one, in order. All are merged, or none. `+=` for each copies this sketch each\n"
"time; this call copies it once. The sketch itself may be among them: it then counts as it was before the call.\n\n"
">>> import datasketches_rattle as ds\n"
">>> week = ds.FrequentItemsSketch(64, item=str)\n"
">>> days = [ds.FrequentItemsSketch(64, item=str) for _ in range(2)]\n"
">>> days[0].update('apple', 30)\n"
">>> days[1].update('apple', 12)\n"
">>> week.merge_all(days)\n"
">>> week['apple']\n"
"42\n");

static Py_hash_t frequent_hash(PyObject *object)
{
    return PyBaseObject_Type.tp_hash(object);
}

PyDoc_STRVAR(reset_doc,
"reset($self, /)\n--\n\n"
"Remove all items. `max_map_size` and `sample_size` stay as they were.\n\n"
">>> import datasketches_rattle as ds\n"
">>> heavy = ds.FrequentItemsSketch(8)\n"
">>> heavy.update(7, 30)\n"
">>> heavy.reset()\n"
">>> heavy[7], heavy.total_weight\n"
"(0, 0)\n");

PyDoc_STRVAR(serialize_doc,
"serialize($self, /)\n--\n\n"
"Return the sketch's image, as `bytes(heavy)` does. It has neither the type of the items nor the sample size.\n\n"
">>> import datasketches_rattle as ds\n"
">>> len(ds.FrequentItemsSketch(64).serialize())\n"
"8\n");

PyDoc_STRVAR(deserialize_doc,
"deserialize($type, image, item, max_bytes=1073741824, sample_size=None, key=None)\n--\n\n"
"Return the sketch of an image, which may be untrusted, with items of this type: int, 'i64', 'u64' or str. The image does not\n"
"say which, and an image of other items may be read as garbage. An image has no sample size: without\n"
"`sample_size` it is the largest. It has no key either: without `key` the sketch gets a drawn one.\n\n"
"Raise 'TableTooLarge' if the table, with the bytes of all strings, would take more than `max_bytes`; None is no limit.\n"
"Bytes are read in place, and any other buffer is copied first, up to the limit and the end of the string there.\n\n"
">>> import datasketches_rattle as ds\n"
">>> heavy = ds.FrequentItemsSketch(64)\n"
">>> heavy.update(7, 30)\n"
">>> ds.FrequentItemsSketch.deserialize(bytes(heavy), item=int)[7]\n"
"30\n");

bool frequent_arguments(PyObject *args, PyObject *keywords, bool prefix, Image *image)
{
    static char *names[] = {"image", "item", "max_bytes", "sample_size", "key", NULL};
    const char *format = prefix ? "y*O|OOO:deserialize_prefix" : "y*O|OOO:deserialize";
    PyObject *item = NULL, *limit = NULL, *sample = Py_None, *key = Py_None;
    if (!PyArg_ParseTupleAndKeywords(args, keywords, format, names, &image->view, &item, &limit, &sample, &key)) return false;
    image->kind = kind_named(item);
    image->has_sample_size = sample != Py_None;
    return image->kind != 0 && limit_of(limit, &image->options.max_bytes) &&
           (sample == Py_None || natural_of(sample, "sample_size", &image->sample_size)) &&
           key_or_none(key, &image->key, &image->options.key);
}

PyDoc_STRVAR(deserialize_prefix_doc,
"deserialize_prefix($type, image, item, max_bytes=1073741824, sample_size=None, key=None)\n--\n\n"
"Return the sketch of the image at the front of `image`, and the number of bytes that it takes. Bytes after it are ignored, so\n"
"images can stand one after another. Otherwise as `deserialize`.\n\n"
">>> import datasketches_rattle as ds\n"
">>> heavy = ds.FrequentItemsSketch(64, item=str)\n"
">>> heavy.update('apple', 30)\n"
">>> first, used = ds.FrequentItemsSketch.deserialize_prefix(bytes(heavy) + b'more', item=str)\n"
">>> first['apple'], used\n"
"(30, 49)\n");

static PyGetSetDef frequent_fields[] = {
    {"total_weight", sketch_number, NULL, "The total weight of all items.", (void *)DS_NUMBER_TOTAL_WEIGHT},
    {"maximum_error", sketch_number, NULL, "The difference of an upper bound and its lower bound.",
     (void *)DS_NUMBER_MAXIMUM_ERROR},
    {"num_active_items", sketch_number, NULL, "The number of items that have a counter.", (void *)DS_NUMBER_NUM_ACTIVE_ITEMS},
    {"max_map_size", sketch_number, NULL, "The maximum size of the table, in slots.", (void *)DS_NUMBER_MAX_MAP_SIZE},
    {"sample_size", sketch_number, NULL, "The number of counters that a purge samples.", (void *)DS_NUMBER_SAMPLE_SIZE},
    {NULL, NULL, NULL, NULL, NULL},
};

static PyMethodDef frequent_methods[] = {
    FAST_KEYWORDS_ROW("update", sketch_update, update_doc),
    KEYWORDS_ROW("update_words", sketch_words, 0, frequent_words_doc),
    KEYWORDS_ROW("update_lines", sketch_lines, 0, frequent_lines_doc),
    KEYWORDS_ROW("update_fields", sketch_fields, 0, frequent_fields_doc),
    CLASS_METHOD("from_file", frequent_from_file),
    FAST_KEYWORDS_ROW("bounds", frequent_bounds, bounds_doc),
    FAST_KEYWORDS_ROW("estimate", frequent_estimate, estimate_doc),
    WITH_KEYWORDS("rows", frequent_rows),
    WITH_KEYWORDS("top", frequent_top),
    {"merge_all", sketch_merge_all, METH_O, merge_all_doc},
    {"reset", sketch_reset, METH_NOARGS, reset_doc},
    CLASS_METHOD("suggest_max_map_size", frequent_suggest_max_map_size),
    METHODS_OF_ALL,
    {NULL, NULL, 0, NULL},
};

static PyNumberMethods frequent_as_number = {.nb_add = sketch_merged, .nb_inplace_add = sketch_merge};
static PySequenceMethods frequent_as_sequence = {.sq_contains = frequent_has};
static PyMappingMethods frequent_as_mapping = {.mp_length = frequent_length, .mp_subscript = frequent_at};

PyDoc_STRVAR(frequent_doc,
"FrequentItemsSketch(max_map_size, item='i64', sample_size=None, key=None)\n--\n\n"
"The most frequent items, in at most three quarters of `max_map_size` counters. `max_map_size` is a power of two from 8\n"
"to 2**30.\n\n"
"`item` is 'i64' or int for numbers from -2**63 to 2**63 - 1, 'u64' for those from 0 to 2**64 - 1, and str for\n"
"strings. `sample_size` is the number of counters that a purge samples: an even number, by default the largest. `+` merges\n"
"two sketches, and `+=` merges another one into this. `heavy += heavy` doubles all weights. `item in heavy` is whether an item\n"
"has a counter, and `len(heavy)` the number of counters. So an empty sketch is false.\n\n"
"The table hashes items under a secret key. No way is known to choose items that slow it down. This holds for callers who see\n"
"no images, rows, walks or times of calls of sketches under the key. By default each sketch gets a drawn key. `key`, 16 bytes,\n"
"fixes it: runs with the same key are reproducible. Other runs may purge other counters, within the same bounds. A copy keeps\n"
"the key, and `+` and `+=` that of the first sketch. An image and a pickle have no key.\n\n"
">>> import datasketches_rattle as ds\n"
">>> heavy = ds.FrequentItemsSketch(1024, item=int)\n"
">>> heavy.update(-7, 30)\n"
">>> more = ds.FrequentItemsSketch(1024)\n"
">>> more.update([-7, 8])\n"
">>> heavy += more\n"
">>> heavy[-7], heavy.bounds(8)\n"
"(31, (1, 1, 1))\n"
">>> 8 in heavy, 9 in heavy, len(heavy)\n"
"(True, False, 2)\n"
">>> heavy\n"
"<FrequentItemsSketch max_map_size=1024 item=i64 total_weight=32>\n"
">>> words = ds.FrequentItemsSketch(1024, item=str)\n"
">>> words.update(['apple', 'pear', 'apple'])\n"
">>> words.rows()\n"
"[('apple', 2, 2, 2), ('pear', 1, 1, 1)]\n");

PyTypeObject frequent_type = {
    /* clang-format off */
    PyVarObject_HEAD_INIT(NULL, 0)
    /* clang-format on */
    FIELDS_OF_ALL(frequent, "FrequentItemsSketch"),
    .tp_hash = frequent_hash,
    .tp_as_sequence = &frequent_as_sequence,
    .tp_as_mapping = &frequent_as_mapping,
};
