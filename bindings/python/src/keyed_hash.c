/* The keyed hash of items that others choose. */
#include "items.h"

#define KEY_BYTES 16

/* Other Python threads run while this many bytes or more are hashed. */
#define LONG_ITEM ((size_t)1 << 16)

/* Opens an object as bytes. Sets an error, which says by `what` and `kinds` what it should be, if it is not. */
static bool open_bytes(PyObject *object, const char *what, const char *kinds, Image *image)
{
    if (!PyObject_CheckBuffer(object)) {
        PyErr_Format(PyExc_TypeError, "%s is %s, not %.200s", what, kinds, Py_TYPE(object)->tp_name);
        return false;
    }
    if (PyObject_GetBuffer(object, &image->view, PyBUF_ND | PyBUF_FORMAT) < 0) return false;
    image->options.max_bytes = SIZE_MAX;
    if (image->view.itemsize != 1)
        PyErr_Format(PyExc_TypeError, "%s is %s, not a buffer of entries of %zd bytes", what, kinds, image->view.itemsize);
    else if (image_take(image)) return true;
    PyBuffer_Release(&image->view);
    return false;
}

bool key_of(PyObject *object, ds_key *key)
{
    Image image = {0};
    uint64_t words[2] = {0, 0};
    if (!open_bytes(object, "the key", "bytes", &image)) return false;
    bool fits = image.length == KEY_BYTES;
    for (size_t i = 0; fits && i < KEY_BYTES; i++) words[i / 8] |= (uint64_t)image.bytes[i] << 8 * (i % 8);
    if (!fits) PyErr_Format(PyExc_ValueError, "the key has %d bytes, not %zu", KEY_BYTES, image.length);
    image_release(&image);
    *key = (ds_key){words[0], words[1]};
    return fits;
}

static PyObject *hash_of(const uint8_t *bytes, size_t length, const ds_key *key)
{
    uint64_t hash;
    PyThreadState *thread = length >= LONG_ITEM ? PyEval_SaveThread() : NULL;
    hash = ds_keyed_hash(bytes, length, key->k0, key->k1);
    if (thread != NULL) PyEval_RestoreThread(thread);
    return PyLong_FromUnsignedLongLong(hash);
}

/* Returns whether the object is many strings: an iterable that is no buffer, a column, or a numpy array of strings. Returns -1 with
 * an error set. */
static int is_many(PyObject *object)
{
    if (!PyObject_CheckBuffer(object)) return Py_TYPE(object)->tp_iter != NULL ? 1 : is_arrow(object);
    int in_array = is_numpy_array(object);
    if (in_array <= 0) return in_array;
    PyObject *dtype = attribute(object, "dtype");
    int kind = dtype != NULL ? kind_of_array(dtype) : -1;
    Py_XDECREF(dtype);
    return kind < 0 ? -1 : kind == 'U' || kind == 'S' || kind == 'O' || kind == 'T';
}

static bool has_numbers(const Items *items)
{
    bool found = items->with_numbers || (items->count > 0 && !items->with_texts);
    for (size_t i = 0; i < items->num_runs; i++)
        for (size_t j = 0; j < items->runs[i].num_entries; j++)
            found |= items->runs[i].entries[j].text == NULL && !items->runs[i].entries[j].missing;
    return found;
}

static bool are_strings(const Sketch *Py_UNUSED(self), Items *items)
{
    bool numbers = has_numbers(items);
    if (numbers) PyErr_SetString(PyExc_TypeError, "many items of keyed_hash are strings, not numbers");
    return !numbers;
}

static int32_t hash_all(Batch *batch, const Chunk *chunk, void *results)
{
    const ds_key *key = batch->call->context;
    for (size_t i = 0; i < chunk->rows; i++)
        ((uint64_t *)results)[i] = ds_keyed_hash(chunk->strings[i].bytes, chunk->strings[i].length, key->k0, key->k1);
    return DS_OK;
}

PyDoc_STRVAR(keyed_hash_doc,
"keyed_hash(key, items, /)\n--\n\n"
"Return SipHash-1-3 of an item under `key`, a number from 0 to 2**64 - 1. Return a list of hashes for many strings, an array\n"
"for an array of numpy, and a Series with the same index for a Series of pandas.\n\n"
"`key` is 16 bytes, and an item a str, hashed as UTF-8, or bytes. A caller who chooses the items of a sketch can choose ones\n"
"whose hashes collide. Insert this hash in place of such an item: without the key, no way is known to choose items that\n"
"collide. Take the key from `secrets.token_bytes(16)`. Sketches that are merged need the same key. A `FrequentItemsSketch`\n"
"of hashes has `item='u64'`.\n\n"
">>> import datasketches_rattle as ds\n"
">>> key = bytes(range(16))\n"
">>> ds.keyed_hash(key, 'alice')\n"
"14698423186941343306\n"
">>> seen = ds.BloomFilter(num_bits=1 << 20, num_hashes=7)\n"
">>> seen.insert(ds.keyed_hash(key, ['alice', 'bob']))\n"
">>> seen.contains(ds.keyed_hash(key, ['alice', 'eve']))\n"
"[True, False]\n");

static PyObject *keyed_hash(PyObject *Py_UNUSED(module), PyObject *const *args, Py_ssize_t count)
{
    ds_key key;
    const Call many = {.name = "keyed_hash", .check = are_strings, .context = &key, .take = hash_all, .type = "u8", .width = 1};
    Image image = {0};
    if (count != 2) return PyErr_Format(PyExc_TypeError, "keyed_hash takes a key and items, not %zd arguments", count);
    if (!key_of(args[0], &key)) return NULL;
    if (PyUnicode_Check(args[1])) {
        Py_ssize_t length;
        const char *text = PyUnicode_AsUTF8AndSize(args[1], &length);
        return text != NULL ? hash_of((const uint8_t *)text, (size_t)length, &key) : NULL;
    }
    int of_many = is_many(args[1]);
    if (of_many != 0) return of_many > 0 ? ask_all(NULL, args[1], &many, NULL) : NULL;
    if (!open_bytes(args[1], "an item", "a str or bytes", &image)) return NULL;
    PyObject *hash = hash_of(image.bytes, image.length, &key);
    image_release(&image);
    return hash;
}

/* Adds the function under the name of the package, in which it is found. */
bool add_keyed_hash(PyObject *m)
{
    static PyMethodDef method = {"keyed_hash", (PyCFunction)(void (*)(void))keyed_hash, METH_FASTCALL, keyed_hash_doc};
    PyObject *package = PyUnicode_FromString("datasketches_rattle");
    PyObject *function = package != NULL ? PyCFunction_NewEx(&method, NULL, package) : NULL;
    bool added = function != NULL && PyModule_AddObjectRef(m, "keyed_hash", function) == 0;
    Py_XDECREF(package);
    Py_XDECREF(function);
    return added;
}
