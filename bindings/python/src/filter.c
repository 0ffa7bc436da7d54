/* BloomFilter. */
#include "items.h"

static PyObject *filter_new(PyTypeObject *type, PyObject *args, PyObject *keywords)
{
    static char *names[] = {"num_bits", "num_hashes", "seed", NULL};
    PyObject *bits_object, *hashes_object, *seed_object = NULL;
    uint64_t bits, hashes, seed = DS_DEFAULT_SEED;
    if (!PyArg_ParseTupleAndKeywords(args, keywords, "OO|O:BloomFilter", names, &bits_object, &hashes_object, &seed_object))
        return NULL;
    if (!natural_of(bits_object, "num_bits", &bits) || !natural_of(hashes_object, "num_hashes", &hashes) ||
        (seed_object != NULL && !natural_of(seed_object, "seed", &seed)))
        return NULL;
    /* A number of hashes past its C type is also past the library's range. */
    uint16_t few = hashes > UINT16_MAX ? UINT16_MAX : (uint16_t)hashes;
    ds_sketch made = DS_NONE;
    int32_t answer;
    Py_BEGIN_ALLOW_THREADS
    answer = ds_bloom_new(&made, bits, few, seed);
    Py_END_ALLOW_THREADS
    return answer < 0 ? refuse(answer) : sketch_of(type, DS_BLOOM, &made);
}

static int32_t insert_all(Batch *batch, const Chunk *chunk, void *Py_UNUSED(results))
{
    return (ds_bloom_insert_all)(batch->handle, &chunk->items);
}

static int32_t contains_all(Batch *batch, const Chunk *chunk, void *results)
{
    return (ds_bloom_contains_all)(batch->handle, &chunk->items, results, chunk->rows);
}

static int32_t contains_and_insert_all(Batch *batch, const Chunk *chunk, void *results)
{
    return (ds_bloom_contains_and_insert_all)(batch->handle, &chunk->items, results, chunk->rows);
}

PyDoc_STRVAR(insert_doc,
"insert($self, items, /)\n--\n\n"
"Insert a str, an int, or each of many: a list or other iterable of these, a buffer of integers, an array of strings, or a\n"
"column of Arrow or pandas. Missing items, such as None in a list, are skipped.\n\n"
"All items of a list, an array or a column are checked before the first is inserted. Any other iterable is checked and inserted\n"
"4,096 items at a time. A later error has a note with the number of inserted items. A mapping is rejected: "
"write 'insert(mapping.keys())'.\n\n"
">>> import datasketches_rattle as ds\n"
">>> seen = ds.BloomFilter(num_bits=1024, num_hashes=5)\n"
">>> seen.insert('apple')\n"
">>> seen.insert([1, 2, -3])\n"
">>> 'apple' in seen, -3 in seen\n"
"(True, True)\n");

static PyObject *filter_insert(PyObject *object, PyObject *given)
{
    static const Call many = {.name = "insert", .changes = true, .take = insert_all};
    Sketch *self = (Sketch *)object;
    Item item;
    Items items;
    Weights weights;
    if (!is_single(given)) return items_of(given, many.name, &items, &weights) ? update_all(self, &items, &weights, &many) : NULL;
    if (!item_of(given, &item) || !sketch_ready_to_change(self)) return NULL;
    const ds_item inserted = item_in_c(self, &item);
    int32_t answer = ds_bloom_insert(&self->handle, &inserted);
    if (answer < 0) return refuse(answer);
    Py_RETURN_NONE;
}

static int filter_has(PyObject *object, PyObject *given)
{
    Sketch *self = (Sketch *)object;
    Item item;
    if (!item_of(given, &item) || !sketch_ready(self)) return -1;
    const ds_item asked = item_in_c(self, &item);
    int32_t answer = ds_bloom_contains(&self->handle, &asked);
    if (answer < 0) refuse(answer);
    return answer < 0 ? -1 : answer;
}

PyDoc_STRVAR(contains_doc,
"contains($self, items, /, *, missing=None)\n--\n\n"
"Return whether the filter contains an item. Return a list of bools for many items, an array for an array of numpy, and a\n"
"Series with the same index for a Series of pandas.\n\n"
"False is certain for items that were only inserted and never taken away. True may be a false positive. `missing`, True or\n"
"False, is the result of missing items. Without it they raise ValueError.\n\n"
">>> import datasketches_rattle as ds\n"
">>> seen = ds.BloomFilter(num_bits=1024, num_hashes=5)\n"
">>> seen.insert('apple')\n"
">>> seen.contains('apple')\n"
"True\n"
">>> seen.contains(['apple', 'pear', 7])\n"
"[True, False, False]\n"
">>> seen.contains(['apple', None], missing=False)\n"
"[True, False]\n");

static PyObject *filter_contains(PyObject *object, PyObject *const *args, Py_ssize_t count, PyObject *names)
{
    static const Call many = {.name = "contains", .take = contains_all, .type = "?", .width = 1, .has_missing = true};
    PyObject *missing;
    if (!query_arguments(many.name, args, count, names, &missing)) return NULL;
    if (!is_single(args[0])) return ask_all((Sketch *)object, args[0], &many, missing);
    int answer = filter_has(object, args[0]);
    return answer < 0 ? NULL : PyBool_FromLong(answer);
}

PyDoc_STRVAR(contains_and_insert_doc,
"contains_and_insert($self, items, /, *, missing=None)\n--\n\n"
"Insert an item, and return whether the filter contained it before. Return the results of many items as `contains` does. Many\n"
"items are inserted one after another, so a repeated item is contained the second time.\n\n"
"False is certain for items that were never inserted before the call took them. True may be a false positive. Missing items are\n"
"not inserted, and have the result `missing`, or raise ValueError without it, as in `contains`. Errors are those of `insert`.\n\n"
">>> import datasketches_rattle as ds\n"
">>> seen = ds.BloomFilter(num_bits=1024, num_hashes=5)\n"
">>> seen.contains_and_insert('apple'), seen.contains_and_insert('apple')\n"
"(False, True)\n"
">>> seen.contains_and_insert(['apple', 'pear', None, 'pear'], missing=False)\n"
"[True, False, False, True]\n");

static PyObject *filter_contains_and_insert(PyObject *object, PyObject *const *args, Py_ssize_t count, PyObject *names)
{
    static const Call many = {.name = "contains_and_insert",
                              .changes = true,
                              .take = contains_and_insert_all,
                              .type = "?",
                              .width = 1,
                              .has_missing = true};
    Sketch *self = (Sketch *)object;
    PyObject *missing;
    Item item;
    if (!query_arguments(many.name, args, count, names, &missing)) return NULL;
    if (!is_single(args[0])) return ask_all(self, args[0], &many, missing);
    if (!item_of(args[0], &item) || !sketch_ready_to_change(self)) return NULL;
    const ds_item inserted = item_in_c(self, &item);
    int32_t answer = ds_bloom_contains_and_insert(&self->handle, &inserted);
    return answer < 0 ? refuse(answer) : PyBool_FromLong(answer);
}

PyDoc_STRVAR(reset_doc,
"reset($self, /)\n--\n\n"
"Remove all items. The filter keeps its size.\n\n"
">>> import datasketches_rattle as ds\n"
">>> seen = ds.BloomFilter(num_bits=1024, num_hashes=5)\n"
">>> seen.insert('apple')\n"
">>> seen.reset()\n"
">>> 'apple' in seen\n"
"False\n");

static PyObject *filter_and(PyObject *first, PyObject *second)
{
    return sketch_joined(first, second, ds_bloom_intersect);
}

static PyObject *filter_and_into(PyObject *first, PyObject *second)
{
    return sketch_join(first, second, ds_bloom_intersect);
}

static PyObject *filter_subtract(PyObject *first, PyObject *second)
{
    return sketch_joined(first, second, ds_bloom_difference);
}

static PyObject *filter_subtract_into(PyObject *first, PyObject *second)
{
    return sketch_join(first, second, ds_bloom_difference);
}

PyDoc_STRVAR(union_all_doc,
"union_all($self, others, /)\n--\n\n"
"Add the bits of all filters of an iterable, as `|=` does for each. All are added, or none.\n\n"
">>> import datasketches_rattle as ds\n"
">>> week = ds.BloomFilter(num_bits=1024, num_hashes=5)\n"
">>> days = [ds.BloomFilter(num_bits=1024, num_hashes=5) for _ in range(2)]\n"
">>> days[0].insert('apple')\n"
">>> week.union_all(days)\n"
">>> 'apple' in week\n"
"True\n");

PyDoc_STRVAR(serialize_doc,
"serialize($self, /)\n--\n\n"
"Return the filter's image, as `bytes(filter)` does.\n\n"
">>> import datasketches_rattle as ds\n"
">>> len(ds.BloomFilter(num_bits=1024, num_hashes=5).serialize())\n"
"24\n");

PyDoc_STRVAR(deserialize_doc,
"deserialize($type, image, max_bytes=1073741824)\n--\n\n"
"Return the filter of an image, which may be untrusted.\n\n"
"Raise 'TableTooLarge' if its bits would take more than `max_bytes`; None is no limit. Bytes are read in place, and any\n"
"other buffer is copied first, up to the limit.\n\n"
">>> import datasketches_rattle as ds\n"
">>> seen = ds.BloomFilter(num_bits=1024, num_hashes=5)\n"
">>> seen.insert('apple')\n"
">>> 'apple' in ds.BloomFilter.deserialize(bytes(seen), max_bytes=128)\n"
"True\n");

bool filter_arguments(PyObject *args, PyObject *keywords, bool prefix, Image *image)
{
    static char *names[] = {"image", "max_bytes", NULL};
    const char *format = prefix ? "y*|O:deserialize_prefix" : "y*|O:deserialize";
    PyObject *limit = NULL;
    image->kind = DS_BLOOM;
    return PyArg_ParseTupleAndKeywords(args, keywords, format, names, &image->view, &limit) &&
           limit_of(limit, &image->options.max_bytes);
}

PyDoc_STRVAR(deserialize_prefix_doc,
"deserialize_prefix($type, image, max_bytes=1073741824)\n--\n\n"
"Return the filter of the image at the front of `image`, and the number of bytes that it takes. Bytes after it are ignored, so\n"
"images can stand one after another. Otherwise as `deserialize`.\n\n"
">>> import datasketches_rattle as ds\n"
">>> images = bytes(ds.BloomFilter(num_bits=64, num_hashes=1)) + bytes(ds.BloomFilter(num_bits=128, num_hashes=1))\n"
">>> rest = memoryview(images)\n"
">>> while rest:\n"
"...     seen, used = ds.BloomFilter.deserialize_prefix(rest)\n"
"...     print(seen.num_bits, used)\n"
"...     rest = rest[used:]\n"
"64 24\n"
"128 24\n");

static PyGetSetDef filter_fields[] = {
    {"num_bits", sketch_number, NULL, "The number of bits: that of the constructor, rounded up to a multiple of 64.",
     (void *)DS_NUMBER_NUM_BITS},
    {"capacity", sketch_number, NULL, "The same as `num_bits`.", (void *)DS_NUMBER_NUM_BITS},
    {"num_hashes", sketch_number, NULL, "The number of bits that an item sets.", (void *)DS_NUMBER_NUM_HASHES},
    {"seed", sketch_number, NULL, "The seed of the hashes.", (void *)DS_NUMBER_SEED},
    {"bits_used", sketch_number, NULL, "The number of bits that are set.", (void *)DS_NUMBER_BITS_USED},
    {NULL, NULL, NULL, NULL, NULL},
};

static PyMethodDef filter_methods[] = {
    {"insert", filter_insert, METH_O, insert_doc},
    KEYWORDS_ROW("insert_words", sketch_words, 0, filter_words_doc),
    KEYWORDS_ROW("insert_lines", sketch_lines, 0, filter_lines_doc),
    KEYWORDS_ROW("insert_fields", sketch_fields, 0, filter_fields_doc),
    CLASS_METHOD("from_file", filter_from_file),
    FAST_KEYWORDS_ROW("contains", filter_contains, contains_doc),
    FAST_KEYWORDS_ROW("contains_and_insert", filter_contains_and_insert, contains_and_insert_doc),
    {"union_all", sketch_merge_all, METH_O, union_all_doc},
    {"reset", sketch_reset, METH_NOARGS, reset_doc},
    CLASS_METHOD("suggest_num_bits", filter_suggest_bits),
    CLASS_METHOD("min_num_bits", filter_min_bits),
    CLASS_METHOD("suggest_num_hashes", filter_suggest_hashes),
    METHODS_OF_ALL,
    {NULL, NULL, 0, NULL},
};

static PyNumberMethods filter_as_number = {
    .nb_or = sketch_merged,
    .nb_and = filter_and,
    .nb_subtract = filter_subtract,
    .nb_inplace_or = sketch_merge,
    .nb_inplace_and = filter_and_into,
    .nb_inplace_subtract = filter_subtract_into,
};

static PySequenceMethods filter_as_sequence = {.sq_contains = filter_has};

PyDoc_STRVAR(filter_doc,
"BloomFilter(num_bits, num_hashes, seed=9001)\n--\n\n"
"A Bloom filter: a set of items without false negatives. `|`, `&` and `-` act on the sets of bits.\n\n"
"`num_bits` is from 1 to 137438953152, and `num_hashes` from 1 to 32767. An item is a str, or an int of 64 bits.\n\n"
">>> import datasketches_rattle as ds\n"
">>> seen = ds.BloomFilter(num_bits=1 << 20, num_hashes=7)\n"
">>> seen.insert(['apple', 'pear'])\n"
">>> 'apple' in seen, 'plum' in seen\n"
"(True, False)\n"
">>> seen\n"
"<BloomFilter num_bits=1048576 num_hashes=7 seed=9001 bits_used=14>\n");

PyTypeObject filter_type = {
    /* clang-format off */
    PyVarObject_HEAD_INIT(NULL, 0)
    /* clang-format on */
    FIELDS_OF_ALL(filter, "BloomFilter"),
    .tp_hash = PyObject_HashNotImplemented,
    .tp_as_sequence = &filter_as_sequence,
};
