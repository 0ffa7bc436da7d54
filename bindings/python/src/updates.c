/* Updates of a CountMinSketch and of a FrequentItemsSketch. */
#include "items.h"

/* Finds the weight among the arguments, or NULL. Returns false, with an error set, if the arguments are others. */
static bool update_arguments(PyObject *const *args, Py_ssize_t count, PyObject *names, PyObject **weight)
{
    Py_ssize_t named = names != NULL ? PyTuple_GET_SIZE(names) : 0;
    for (Py_ssize_t i = 0; i < named; i++)
        if (PyUnicode_CompareWithASCIIString(PyTuple_GET_ITEM(names, i), "weight") != 0) {
            PyErr_Format(PyExc_TypeError, "update() got an unexpected keyword argument '%U'", PyTuple_GET_ITEM(names, i));
            return false;
        }
    if (count < 1 || count + named > 2) {
        PyErr_Format(PyExc_TypeError, "update takes items and a weight, not %zd arguments", count + named);
        return false;
    }
    *weight = count + named == 2 ? args[1] : NULL;
    return true;
}

static int32_t update_one(Sketch *self, const Item *item, uint64_t weight)
{
    const ds_item updated = item_in_c(self, item);
    return self->kind == DS_COUNT_MIN_I64 ? ds_count_min_i64_update(&self->handle, &updated, (int64_t)weight)
                                          : ds_update(&self->handle, &updated, weight);
}

/* If the library returns an error, finds the number of items that it counted before by the weight that it added. The next item
 * weighs more than 0, since an update by 0 returns no error. */
static int32_t update_chunk(Batch *batch, const Chunk *chunk, void *Py_UNUSED(results))
{
    const uint64_t *weights = chunk->weights;
    uint64_t before = sketch_total(batch->self);
    int32_t answer;
    if (weights == NULL) answer = (ds_update_all)(batch->handle, &chunk->items);
    else if (batch->self->kind != DS_COUNT_MIN_I64)
        answer = (ds_update_all_weighted)(batch->handle, &chunk->items, weights, chunk->rows);
    else answer = (ds_count_min_i64_update_all_weighted)(batch->handle, &chunk->items, (const int64_t *)weights, chunk->rows);
    uint64_t added = answer < 0 ? sketch_total(batch->self) - before : 0;
    for (size_t i = 0; answer < 0 && i < chunk->rows; i++) {
        uint64_t weight = !is_present(chunk->present, i) ? 0 : weights == NULL ? 1 : weights[i];
        if (weight > added) break;
        added -= weight;
        batch->done += is_present(chunk->present, i);
    }
    return answer;
}

PyObject *sketch_update(PyObject *object, PyObject *const *args, Py_ssize_t count, PyObject *names)
{
    static const Call many = {.name = "update", .changes = true, .check = counts_all, .take = update_chunk};
    Sketch *self = (Sketch *)object;
    PyObject *given = NULL;
    bool with_sign = self->kind == DS_COUNT_MIN_I64;
    Item item;
    Items items;
    Weights weights;
    uint64_t weight = 1;
    if (!update_arguments(args, count, names, &given)) return NULL;
    if (!is_single(args[0]))
        return update_open(args[0], given, with_sign, &items, &weights) ? update_all(self, &items, &weights, &many) : NULL;
    if ((given != NULL && !number_of_kind(given, "weight", with_sign, &weight)) || !item_of(args[0], &item) ||
        !counts(self, &item) || !sketch_ready_to_change(self))
        return NULL;
    int32_t answer = update_one(self, &item, weight);
    if (answer < 0) return refuse(answer);
    Py_RETURN_NONE;
}
