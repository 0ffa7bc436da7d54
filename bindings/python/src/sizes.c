/* Suggested sizes from error targets. These functions use no sketch, so they take no lock. */
#include "items.h"

static bool one_natural(PyObject *args, PyObject *keywords, const char *format, char *name, uint64_t *number)
{
    char *names[] = {name, NULL};
    PyObject *object;
    return PyArg_ParseTupleAndKeywords(args, keywords, format, names, &object) && natural_of(object, name, number);
}

static bool two_naturals(PyObject *args, PyObject *keywords, const char *format, char *first_name, char *second_name,
                         uint64_t *first, uint64_t *second)
{
    char *names[] = {first_name, second_name, NULL};
    PyObject *first_object, *second_object;
    return PyArg_ParseTupleAndKeywords(args, keywords, format, names, &first_object, &second_object) &&
           natural_of(first_object, first_name, first) && natural_of(second_object, second_name, second);
}

static PyObject *suggested(int32_t answer, uint64_t size)
{
    return answer < 0 ? refuse(answer) : PyLong_FromUnsignedLongLong(size);
}

const char filter_suggest_bits_doc[] = PyDoc_STR(
"suggest_num_bits($type, num_items, questions)\n--\n\n"
"Return the number of bits of a filter for `num_items` items and a false-positive rate of 1 / `questions`.\n\n"
"It is that of the published formula, and never less. The rate holds under ideal hashes. With few items or a low rate it\n"
"is higher: take at least `min_num_bits`.\n\n"
">>> import datasketches_rattle as ds\n"
">>> ds.BloomFilter.suggest_num_bits(num_items=1000, questions=100)\n"
"9603\n");

PyObject *filter_suggest_bits(PyObject *Py_UNUSED(type), PyObject *args, PyObject *keywords)
{
    uint64_t items, questions, bits = 0;
    if (!two_naturals(args, keywords, "OO:suggest_num_bits", "num_items", "questions", &items, &questions)) return NULL;
    int32_t answer = ds_bloom_suggest_num_bits(items, questions, &bits);
    return suggested(answer, bits);
}

const char filter_min_bits_doc[] = PyDoc_STR(
"min_num_bits($type, num_items, questions)\n--\n\n"
"Return the least number of bits of a filter with which two hashes repeat less often than the rate of 1 / `questions`.\n\n"
"It is 4 times the square root of `num_items` times `questions`, rounded up. Make a filter of the larger one of\n"
"this number and `suggest_num_bits`. Its rate is not proved. As measured, it is at most 1.3 / `questions`.\n\n"
">>> import datasketches_rattle as ds\n"
">>> ds.BloomFilter.min_num_bits(num_items=100, questions=10000)\n"
"4000\n");

PyObject *filter_min_bits(PyObject *Py_UNUSED(type), PyObject *args, PyObject *keywords)
{
    uint64_t items, questions, bits = 0;
    if (!two_naturals(args, keywords, "OO:min_num_bits", "num_items", "questions", &items, &questions)) return NULL;
    int32_t answer = ds_bloom_min_num_bits(items, questions, &bits);
    return suggested(answer, bits);
}

const char filter_suggest_hashes_doc[] =
    PyDoc_STR(
"suggest_num_hashes($type, num_bits, num_items)\n--\n\n"
"Return the number of hashes for `num_bits` bits and `num_items` items, by the published formula.\n\n"
">>> import datasketches_rattle as ds\n"
">>> ds.BloomFilter.suggest_num_hashes(num_bits=9603, num_items=1000)\n"
"7\n");

PyObject *filter_suggest_hashes(PyObject *Py_UNUSED(type), PyObject *args, PyObject *keywords)
{
    uint64_t bits, items;
    uint16_t hashes = 0;
    if (!two_naturals(args, keywords, "OO:suggest_num_hashes", "num_bits", "num_items", &bits, &items)) return NULL;
    int32_t answer = ds_bloom_suggest_num_hashes(bits, items, &hashes);
    return suggested(answer, hashes);
}

const char count_suggest_buckets_doc[] = PyDoc_STR(
"suggest_num_buckets($type, parts)\n--\n\n"
"Return the number of buckets that keeps an estimate within the total over `parts` of the true weight, by the published\n"
"formula.\n\n"
"With the hashes of `suggest_num_hashes(questions)` an estimate exceeds that with probability at most 1 / `questions`,\n"
"under ideal hashes.\n\n"
">>> import datasketches_rattle as ds\n"
">>> ds.CountMinSketch.suggest_num_buckets(parts=1000)\n"
"2719\n");

PyObject *count_suggest_buckets(PyObject *Py_UNUSED(type), PyObject *args, PyObject *keywords)
{
    uint64_t parts;
    uint32_t buckets = 0;
    if (!one_natural(args, keywords, "O:suggest_num_buckets", "parts", &parts)) return NULL;
    int32_t answer = ds_count_min_suggest_num_buckets(parts, &buckets);
    return suggested(answer, buckets);
}

const char count_suggest_hashes_doc[] =
    PyDoc_STR(
"suggest_num_hashes($type, questions)\n--\n\n"
"Return the number of hashes for which an estimate is further off with probability at most 1 / `questions`, by the\n"
"published formula.\n\n"
">>> import datasketches_rattle as ds\n"
">>> ds.CountMinSketch.suggest_num_hashes(questions=50)\n"
"4\n");

PyObject *count_suggest_hashes(PyObject *Py_UNUSED(type), PyObject *args, PyObject *keywords)
{
    uint64_t questions;
    uint8_t hashes = 0;
    if (!one_natural(args, keywords, "O:suggest_num_hashes", "questions", &questions)) return NULL;
    int32_t answer = ds_count_min_suggest_num_hashes(questions, &hashes);
    return suggested(answer, hashes);
}

const char frequent_suggest_max_map_size_doc[] =
    PyDoc_STR(
"suggest_max_map_size($type, parts)\n--\n\n"
"Return the smallest `max_map_size` whose error is at most the total over `parts`, for every stream: a theorem.\n\n"
"It assumes the default sample size. Raise 'MapSizeTooLarge' above 512 parts.\n\n"
">>> import datasketches_rattle as ds\n"
">>> ds.FrequentItemsSketch.suggest_max_map_size(parts=100)\n"
"512\n");

PyObject *frequent_suggest_max_map_size(PyObject *Py_UNUSED(type), PyObject *args, PyObject *keywords)
{
    uint64_t parts;
    size_t size = 0;
    if (!one_natural(args, keywords, "O:suggest_max_map_size", "parts", &parts)) return NULL;
    int32_t answer = ds_frequent_items_suggest_max_map_size(parts, &size);
    return suggested(answer, size);
}
