/* CountMinSketch: estimates of weights, which are unsigned or signed 64-bit numbers. */
#include "items.h"

static PyObject *count_new(PyTypeObject *type, PyObject *args, PyObject *keywords)
{
    static char *names[] = {"num_hashes", "num_buckets", "seed", "signed", NULL};
    PyObject *hashes_object, *buckets_object, *seed_object = NULL;
    uint64_t hashes, buckets, seed = DS_DEFAULT_SEED;
    int with_sign = false;
    if (!PyArg_ParseTupleAndKeywords(args, keywords, "OO|Op:CountMinSketch", names, &hashes_object, &buckets_object, &seed_object,
                                     &with_sign))
        return NULL;
    if (!natural_of(hashes_object, "num_hashes", &hashes) || !natural_of(buckets_object, "num_buckets", &buckets) ||
        (seed_object != NULL && !natural_of(seed_object, "seed", &seed)))
        return NULL;
    /* A number past its C type is passed as one that the library rejects for the same reason. */
    uint8_t few_hashes = hashes > UINT8_MAX ? 0 : (uint8_t)hashes;
    uint32_t few_buckets = buckets > UINT32_MAX ? UINT32_MAX : (uint32_t)buckets;
    int32_t kind = with_sign ? DS_COUNT_MIN_I64 : DS_COUNT_MIN_U64, answer;
    ds_sketch made = DS_NONE;
    Py_BEGIN_ALLOW_THREADS
    answer = ds_count_min_new(&made, kind, few_hashes, few_buckets, seed);
    Py_END_ALLOW_THREADS
    return answer < 0 ? refuse(answer) : sketch_of(type, kind, &made);
}

static int32_t estimate_one(Sketch *self, const Item *item, uint64_t *number)
{
    const ds_item asked = item_in_c(self, item);
    return has_sign(self) ? ds_count_min_i64_estimate(&self->handle, &asked, (int64_t *)number)
                          : ds_count_min_u64_estimate(&self->handle, &asked, number);
}

static int32_t upper_bound_one(Sketch *self, const Item *item, uint64_t *number)
{
    const ds_item asked = item_in_c(self, item);
    return has_sign(self) ? ds_count_min_i64_upper_bound(&self->handle, &asked, (int64_t *)number)
                          : ds_count_min_u64_upper_bound(&self->handle, &asked, number);
}

static int32_t estimate_all(Batch *batch, const Chunk *chunk, void *results)
{
    return has_sign(batch->self) ? (ds_count_min_i64_estimate_all)(batch->handle, &chunk->items, results, chunk->rows)
                                 : (ds_count_min_u64_estimate_all)(batch->handle, &chunk->items, results, chunk->rows);
}

PyDoc_STRVAR(update_doc,
"update($self, items, /, weight=1)\n--\n\n"
"Add a weight to an item's, or to those of many: an iterable, a buffer of integers, an array of strings, or a column of\n"
"Arrow or pandas.\n\n"
"The weight is from 0 to 2**64 - 1, in a signed sketch from -2**63 to 2**63 - 1. Many items have one weight each, or a\n"
"weight for each item in an iterable, a buffer or a column. Missing items, such as None, and items with a missing weight of a\n"
"column are skipped. A mapping adds its values to the weights of its keys. Raise 'WeightOverflow' if the total weight would\n"
"exceed the maximum. Then nothing is counted.\n\n"
"All items of a list, an array, a column or a mapping are checked before the first is counted. Any other iterable is\n"
"checked and counted 4,096 items at a time. A later error has a note with the number of counted items.\n\n"
">>> import datasketches_rattle as ds\n"
">>> load = ds.CountMinSketch(num_hashes=4, num_buckets=1 << 10)\n"
">>> load.update(7, 30)\n"
">>> load.update([7, 8, -9, 'nine'])\n"
">>> load.update([7, 'nine'], [100, 200])\n"
">>> load[7], load[8], load[-9], load['nine'], load[10]\n"
"(131, 1, 1, 201, 0)\n"
">>> load.update({'apple': 5, 'pear': 2})\n"
">>> load['apple'], load['pear']\n"
"(5, 2)\n");

static PyObject *asked(PyObject *object, PyObject *given, int32_t (*ask)(Sketch *, const Item *, uint64_t *))
{
    Sketch *self = (Sketch *)object;
    Item item;
    uint64_t number = 0;
    if (!item_of(given, &item) || !sketch_ready(self)) return NULL;
    int32_t answer = ask(self, &item, &number);
    if (answer < 0) return refuse(answer);
    return has_sign(self) ? PyLong_FromLongLong((int64_t)number) : PyLong_FromUnsignedLongLong(number);
}

/* Returns the estimate of one item. */
static PyObject *count_at(PyObject *object, PyObject *item)
{
    return asked(object, item, estimate_one);
}

PyDoc_STRVAR(estimate_doc,
"estimate($self, items, /, *, missing=None)\n--\n\n"
"Return the estimate of an item's weight, as `load[item]` does. It is never below what was added since the last halving\n"
"or decay, if no weight is below 0.\n\n"
"Return a list of estimates for many items, an array for an array of numpy, and a Series with the same index for a Series of\n"
"pandas. `missing`, a number, is the result of missing items. Without it they raise ValueError.\n\n"
">>> import datasketches_rattle as ds\n"
">>> load = ds.CountMinSketch(num_hashes=4, num_buckets=1 << 10)\n"
">>> load.update(7, 30)\n"
">>> load.estimate(7), load.estimate([7, 'seven', None], missing=0)\n"
"(30, [30, 0, 0])\n");

static PyObject *count_estimate(PyObject *object, PyObject *const *args, Py_ssize_t count, PyObject *names)
{
    Sketch *self = (Sketch *)object;
    const Call many = {
        .name = "estimate", .take = estimate_all, .type = has_sign(self) ? "i8" : "u8", .width = 1, .has_missing = true};
    PyObject *missing;
    if (!query_arguments(many.name, args, count, names, &missing)) return NULL;
    return is_single(args[0]) ? count_at(object, args[0]) : ask_all(self, args[0], &many, missing);
}

PyDoc_STRVAR(upper_bound_doc,
"upper_bound($self, item, /)\n--\n\n"
"Return the estimate plus a margin: e times the total weight over the number of buckets.\n\n"
">>> import datasketches_rattle as ds\n"
">>> load = ds.CountMinSketch(num_hashes=4, num_buckets=128)\n"
">>> load.update(7, 99)\n"
">>> load[7], load.upper_bound(7)\n"
"(99, 101)\n");

static PyObject *count_upper_bound(PyObject *object, PyObject *item)
{
    return asked(object, item, upper_bound_one);
}

PyDoc_STRVAR(halve_doc,
"halve($self, /)\n--\n\n"
"Halve all weights, rounded down. A signed sketch raises TypeError.\n\n"
">>> import datasketches_rattle as ds\n"
">>> load = ds.CountMinSketch(num_hashes=4, num_buckets=128)\n"
">>> load.update(7, 99)\n"
">>> load.halve()\n"
">>> load[7]\n"
"49\n");

/* Returns whether the sketch can be halved and decayed. Sets an error for signed weights: the library has no call for them. */
static bool ages(Sketch *self)
{
    if (!sketch_ready(self)) return false;
    if (has_sign(self)) PyErr_SetString(PyExc_TypeError, "a sketch of signed weights is not halved or decayed");
    return !has_sign(self);
}

static PyObject *count_halve(PyObject *object, PyObject *Py_UNUSED(unused))
{
    return ages((Sketch *)object) ? sketch_change((Sketch *)object, ds_count_min_u64_halve) : NULL;
}

PyDoc_STRVAR(decay_doc,
"decay($self, numerator, denominator, /)\n--\n\n"
"Multiply all weights by a fraction above 0 and at most 1, rounded down. Raise 'BadFraction' for another fraction.\n"
"A signed sketch raises TypeError.\n\n"
">>> import datasketches_rattle as ds\n"
">>> load = ds.CountMinSketch(num_hashes=4, num_buckets=128)\n"
">>> load.update(7, 100)\n"
">>> load.decay(99, 100)\n"
">>> load[7]\n"
"99\n");

static PyObject *count_decay(PyObject *object, PyObject *const *args, Py_ssize_t count)
{
    Sketch *self = (Sketch *)object;
    Use use = {.sketch = self, .changes = true};
    uint64_t numerator, denominator;
    if (count != 2) return PyErr_Format(PyExc_TypeError, "decay takes a numerator and a denominator, not %zd arguments", count);
    if (!ages(self) || !natural_of(args[0], "numerator", &numerator) || !natural_of(args[1], "denominator", &denominator) ||
        !use_begin(&use))
        return NULL;
    int32_t answer;
    Py_BEGIN_ALLOW_THREADS
    answer = ds_count_min_u64_decay(&self->handle, numerator, denominator);
    Py_END_ALLOW_THREADS
    use_end(&use);
    if (answer < 0) return refuse(answer);
    Py_RETURN_NONE;
}

PyDoc_STRVAR(merge_all_doc,
"merge_all($self, others, /)\n--\n\n"
"Merge all sketches of an iterable into this one, as `+=` does for each. All are merged, or none. The sketch itself may be\n"
"among them: it then counts as it was before the call.\n\n"
">>> import datasketches_rattle as ds\n"
">>> week = ds.CountMinSketch(num_hashes=4, num_buckets=128)\n"
">>> days = [ds.CountMinSketch(num_hashes=4, num_buckets=128) for _ in range(2)]\n"
">>> days[0].update(7, 30)\n"
">>> days[1].update(7, 12)\n"
">>> week.merge_all(days)\n"
">>> week[7]\n"
"42\n");

static PyObject *count_signed(PyObject *object, void *Py_UNUSED(unused))
{
    return sketch_ready((Sketch *)object) ? PyBool_FromLong(has_sign((Sketch *)object)) : NULL;
}

PyDoc_STRVAR(serialize_doc,
"serialize($self, /)\n--\n\n"
"Return the sketch's image, as `bytes(load)` does.\n\n"
">>> import datasketches_rattle as ds\n"
">>> len(ds.CountMinSketch(num_hashes=4, num_buckets=128).serialize())\n"
"16\n");

PyDoc_STRVAR(deserialize_doc,
"deserialize($type, image, seed=9001, max_bytes=1073741824, signed=False)\n--\n\n"
"Return the sketch of an image, which may be untrusted. An image does not have the seed, nor whether weights are signed:\n"
"give those of the sketch that was written.\n\n"
"Raise 'TableTooLarge' if the sketch would take more than `max_bytes`; None is no limit. Bytes are read in place, and any\n"
"other buffer is copied first, up to the limit.\n\n"
">>> import datasketches_rattle as ds\n"
">>> load = ds.CountMinSketch(num_hashes=4, num_buckets=128)\n"
">>> load.update(7, 30)\n"
">>> ds.CountMinSketch.deserialize(bytes(load))[7]\n"
"30\n");

bool count_arguments(PyObject *args, PyObject *keywords, bool prefix, Image *image)
{
    static char *names[] = {"image", "seed", "max_bytes", "signed", NULL};
    const char *format = prefix ? "y*|OOp:deserialize_prefix" : "y*|OOp:deserialize";
    PyObject *limit = NULL, *seed = NULL;
    int with_sign = false;
    if (!PyArg_ParseTupleAndKeywords(args, keywords, format, names, &image->view, &seed, &limit, &with_sign)) return false;
    image->kind = with_sign ? DS_COUNT_MIN_I64 : DS_COUNT_MIN_U64;
    return (seed == NULL || natural_of(seed, "seed", &image->options.seed)) && limit_of(limit, &image->options.max_bytes);
}

PyDoc_STRVAR(deserialize_prefix_doc,
"deserialize_prefix($type, image, seed=9001, max_bytes=1073741824, signed=False)\n--\n\n"
"Return the sketch of the image at the front of `image`, and the number of bytes that it takes. Bytes after it are ignored, so\n"
"images can stand one after another. Otherwise as `deserialize`.\n\n"
">>> import datasketches_rattle as ds\n"
">>> load = ds.CountMinSketch(num_hashes=4, num_buckets=128)\n"
">>> load.update(7, 30)\n"
">>> first, used = ds.CountMinSketch.deserialize_prefix(bytes(load) + b'more')\n"
">>> first[7], used\n"
"(30, 4120)\n");

static PyGetSetDef count_fields[] = {
    {"num_hashes", sketch_number, NULL, "The number of hashes, a row of cells each.", (void *)DS_NUMBER_NUM_HASHES},
    {"num_buckets", sketch_number, NULL, "The number of cells in a row.", (void *)DS_NUMBER_NUM_BUCKETS},
    {"seed", sketch_number, NULL, "The seed of the hashes.", (void *)DS_NUMBER_SEED},
    {"signed", count_signed, NULL, "Whether weights may be below 0.", NULL},
    {"total_weight", sketch_number, NULL, "The total weight: the sum of all added weights without their signs.",
     (void *)DS_NUMBER_TOTAL_WEIGHT},
    {NULL, NULL, NULL, NULL, NULL},
};

static PyMethodDef count_methods[] = {
    FAST_KEYWORDS_ROW("update", sketch_update, update_doc),
    KEYWORDS_ROW("update_words", sketch_words, 0, count_words_doc),
    KEYWORDS_ROW("update_lines", sketch_lines, 0, count_lines_doc),
    KEYWORDS_ROW("update_fields", sketch_fields, 0, count_fields_doc),
    CLASS_METHOD("from_file", count_from_file),
    FAST_KEYWORDS_ROW("estimate", count_estimate, estimate_doc),
    {"upper_bound", count_upper_bound, METH_O, upper_bound_doc},
    {"merge_all", sketch_merge_all, METH_O, merge_all_doc},
    {"halve", count_halve, METH_NOARGS, halve_doc},
    {"decay", (PyCFunction)(void (*)(void))count_decay, METH_FASTCALL, decay_doc},
    CLASS_METHOD("suggest_num_buckets", count_suggest_buckets),
    CLASS_METHOD("suggest_num_hashes", count_suggest_hashes),
    METHODS_OF_ALL,
    {NULL, NULL, 0, NULL},
};

static PyNumberMethods count_as_number = {.nb_add = sketch_merged, .nb_inplace_add = sketch_merge};
static PyMappingMethods count_as_mapping = {.mp_subscript = count_at};

PyDoc_STRVAR(count_doc,
"CountMinSketch(num_hashes, num_buckets, seed=9001, signed=False)\n--\n\n"
"A Count-Min sketch: weights of items in a table of fixed size. `load[item]` is never too low, and rarely much too high.\n\n"
"`num_hashes` is from 1 to 255, and `num_buckets` 3 or more, with fewer than 2**30 cells in all. `+` merges two of one\n"
"shape. In a signed sketch weights and estimates are from -2**63 to 2**63 - 1, and an estimate may also be too low.\n\n"
">>> import datasketches_rattle as ds\n"
">>> load = ds.CountMinSketch(num_hashes=4, num_buckets=1 << 16)\n"
">>> load.update(7, 30)\n"
">>> (load + load)[7]\n"
"60\n"
">>> load\n"
"<CountMinSketch num_hashes=4 num_buckets=65536 seed=9001>\n"
">>> stock = ds.CountMinSketch(num_hashes=4, num_buckets=1 << 16, signed=True)\n"
">>> stock.update(['apple', 'pear'], [10, 5])\n"
">>> stock.update('apple', -3)\n"
">>> stock['apple'], stock.total_weight\n"
"(7, 18)\n");

PyTypeObject count_type = {
    /* clang-format off */
    PyVarObject_HEAD_INIT(NULL, 0)
    /* clang-format on */
    FIELDS_OF_ALL(count, "CountMinSketch"),
    .tp_hash = PyObject_HashNotImplemented,
    .tp_as_mapping = &count_as_mapping,
};
