/* Images: reads them from memory that others may change, and writes them. */
#include "sketches.h"

#include <string.h>

/* An image that is accepted under a limit has at most this many bytes more than the limit: the longest preamble, which the limit
 * does not count. */
#define LONGEST_PREAMBLE 32

bool is_constant(const Py_buffer *view)
{
    PyObject *owner = view->obj;
    if (owner != NULL && PyMemoryView_Check(owner)) owner = PyMemoryView_GET_BASE(owner);
    return owner != NULL && PyBytes_CheckExact(owner);
}

/* Returns the end of the string of an image that begins before `cut` and ends after it. Returns `cut` if there is none, or if it is not
 * all there. */
static size_t end_of_string(const uint8_t *bytes, size_t length, size_t cut)
{
    uint32_t count, string;
    memcpy(&count, bytes + 8, sizeof count);
    if ((bytes[0] & 63) != 4 || 8 * (uint64_t)count > length - LONGEST_PREAMBLE) return cut;
    size_t at = LONGEST_PREAMBLE + 8 * (size_t)count;
    for (uint32_t i = 0; i < count && at < cut; i++) {
        if (length - at < sizeof string) return cut;
        memcpy(&string, bytes + at, sizeof string);
        if (string > length - at - sizeof string) return cut;
        at += sizeof string + string;
    }
    return at > cut ? at : cut;
}

bool image_take(Image *image)
{
    size_t limit = image->options.max_bytes;
    image->bytes = image->view.buf;
    image->length = (size_t)image->view.len;
    if (is_constant(&image->view)) return true;
    image->is_cut = image->length > LONGEST_PREAMBLE && image->length - LONGEST_PREAMBLE > limit;
    if (image->is_cut) {
        size_t cut = limit + LONGEST_PREAMBLE;
        image->length = image->kind == DS_FREQUENT_ITEMS_STRING ? end_of_string(image->bytes, image->length, cut) : cut;
    }
    image->copy = PyMem_RawMalloc(image->length);
    if (image->copy == NULL) {
        PyErr_NoMemory();
        return false;
    }
    Py_BEGIN_ALLOW_THREADS
    memcpy(image->copy, image->bytes, image->length);
    Py_END_ALLOW_THREADS
    image->bytes = image->copy;
    return true;
}

/* Returns the number of bytes before the limit of an image whose header was accepted, as docs/FORMATS.md has it: of a filter's words,
 * of Count-Min's cells, or of frequent items' weights. */
static uint64_t checked_bytes(const uint8_t *header)
{
    uint32_t at_8, at_16;
    memcpy(&at_8, header + 8, sizeof at_8);
    memcpy(&at_16, header + 16, sizeof at_16);
    switch (header[2]) {
    case 21: return 32 + 8 * (uint64_t)at_16;
    case 18: return 24 + 8 * (uint64_t)at_8 * header[12];
    default: return 32 + 8 * (uint64_t)at_8;
    }
}

/* Returns the result for the whole image, from the library's result for the bytes of `image_take`. A part that ends too early is of
 * an image that does so too, or that exceeds the limit. Strings that end too early do so in the whole image, since the string at the
 * end of the part is there. */
static int32_t image_answer(const Image *image, int32_t answer)
{
    uint64_t checked;
    if (!image->is_cut || answer != DS_INSUFFICIENT_DATA) return answer;
    checked = checked_bytes(image->bytes);
    if (checked > (uint64_t)image->view.len) return answer;
    return image->kind == DS_FREQUENT_ITEMS_STRING && checked <= image->length ? answer : DS_TABLE_TOO_LARGE;
}

void image_release(Image *image)
{
    PyMem_RawFree(image->copy);
    PyBuffer_Release(&image->view);
}

/* Reads the image at the front of the argument's bytes. `used` is the number of bytes that it takes. */
static PyObject *read_image(PyObject *type, PyObject *args, PyObject *keywords, bool prefix, size_t *used)
{
    Image image = {.options = {.max_bytes = DEFAULT_LIMIT, .seed = DS_DEFAULT_SEED}};
    ds_sketch made = DS_NONE;
    int32_t answer = DS_OK, sampled = DS_OK;
    bool ready = class_of((PyTypeObject *)type)->arguments(args, keywords, prefix, &image) && image_take(&image);
    if (ready) {
        Py_BEGIN_ALLOW_THREADS
        answer = ds_deserialize_prefix(&made, image.kind, image.bytes, image.length, &image.options, used);
        if (answer >= 0 && image.has_sample_size) sampled = ds_frequent_items_set_sample_size(&made, image.sample_size);
        if (sampled < 0) ds_free(&made);
        Py_END_ALLOW_THREADS
        answer = image_answer(&image, answer);
    }
    image_release(&image);
    if (answer < 0) return refuse_image(answer);
    if (sampled < 0) return refuse(sampled);
    return ready ? sketch_of((PyTypeObject *)type, image.kind, &made) : NULL;
}

PyObject *sketch_deserialize(PyObject *type, PyObject *args, PyObject *keywords)
{
    size_t used = 0;
    return read_image(type, args, keywords, false, &used);
}

PyObject *sketch_deserialize_prefix(PyObject *type, PyObject *args, PyObject *keywords)
{
    size_t used = 0;
    PyObject *sketch = read_image(type, args, keywords, true, &used);
    return sketch != NULL ? Py_BuildValue("(Nn)", sketch, (Py_ssize_t)used) : NULL;
}

/* Writes an image of `length` bytes into a new object. */
static int32_t write_image(Use *use, size_t length, PyObject **image)
{
    size_t written;
    int32_t answer;
    *image = length <= PY_SSIZE_T_MAX ? PyBytes_FromStringAndSize(NULL, (Py_ssize_t)length) : NULL;
    if (*image == NULL) {
        PyErr_Clear();
        return DS_NO_MEMORY;
    }
    Py_BEGIN_ALLOW_THREADS
    answer = ds_serialize(use_handle(use), (uint8_t *)PyBytes_AS_STRING(*image), length, &written);
    Py_END_ALLOW_THREADS
    if (answer < 0) Py_CLEAR(*image);
    return answer;
}

PyObject *sketch_serialize(PyObject *self, PyObject *Py_UNUSED(unused))
{
    Use use = {.sketch = (Sketch *)self};
    PyObject *image = NULL;
    size_t length = 0;
    int32_t answer;
    if (!use_begin(&use)) return NULL;
    Py_BEGIN_ALLOW_THREADS
    answer = ds_serialized_bytes(use_handle(&use), &length);
    Py_END_ALLOW_THREADS
    if (answer >= 0) answer = write_image(&use, length, &image);
    use_end(&use);
    return answer < 0 ? refuse(answer) : image;
}
