/* Columns of Arrow's C data interface: an array, or a stream of arrays of one type. Strings stay where they are. */
#include "items.h"

#include <string.h>

typedef struct ArrowStream {
    int (*get_schema)(struct ArrowStream *, ArrowSchema *);
    int (*get_next)(struct ArrowStream *, ArrowArray *);
    const char *(*get_last_error)(struct ArrowStream *);
    void (*release)(struct ArrowStream *);
    void *private_data;
} ArrowStream;

/* The type of a column: how its rows are stored, or the indices of its rows and its dictionary's values. */
typedef struct {
    Run rows;
    Run values;
    bool of_entries;
} Type;

/* A dictionary that was read. Arrays of a stream often share one. */
typedef struct {
    const ArrowArray *array;
    const Item *entries;
    size_t count;
    bool with_texts;
} Dictionary;

int is_arrow(PyObject *object)
{
    int answer = type_has(object, "__arrow_c_array__");
    return answer == 0 ? type_has(object, "__arrow_c_stream__") : answer;
}

PyObject *arrow_export(PyObject *object)
{
    int is_array = type_has(object, "__arrow_c_array__");
    if (is_array < 0) return NULL;
    PyObject *made = called(object, is_array ? "__arrow_c_array__" : "__arrow_c_stream__");
    bool good = made != NULL && (is_array ? PyTuple_Check(made) && PyTuple_GET_SIZE(made) == 2 &&
                                                PyCapsule_IsValid(PyTuple_GET_ITEM(made, 0), "arrow_schema") &&
                                                PyCapsule_IsValid(PyTuple_GET_ITEM(made, 1), "arrow_array")
                                          : PyCapsule_IsValid(made, "arrow_array_stream"));
    if (made != NULL && !good) {
        PyErr_Format(PyExc_TypeError, "%.200s exports no Arrow column: its method returned other objects",
                     Py_TYPE(object)->tp_name);
        Py_CLEAR(made);
    }
    return made;
}

static bool malformed(const char *what)
{
    PyErr_Format(PyExc_ValueError, "malformed Arrow column: %s", what);
    return false;
}

/* Sets the layout for a format, if it is of integers or strings. */
static bool layout_of(const char *format, Run *run)
{
    static const char integers[] = "cCsSiIlL";
    const char *place = format[0] != '\0' && format[1] == '\0' ? strchr(integers, format[0]) : NULL;
    *run = (Run){0};
    if (place != NULL) {
        run->size = 1 << (place - integers) / 2;
        run->with_sign = (place - integers) % 2 == 0;
    } else if (strcmp(format, "u") == 0 || strcmp(format, "U") == 0) {
        run->layout = format[0] == 'u' ? STRINGS_32 : STRINGS_64;
        run->size = format[0] == 'u' ? 4 : 8;
    } else if (strcmp(format, "vu") == 0) {
        run->layout = VIEWS;
        run->size = 16;
    } else if (strcmp(format, "n") == 0) run->layout = NOTHING;
    else return false;
    run->stride = run->size;
    return true;
}

static bool wrong_format(const Source *source, const Items *items, const char *format)
{
    if (strcmp(format, "+s") == 0) no_table(source);
    else
        PyErr_Format(PyExc_TypeError, "a column of %s has integers%s, not Arrow's format '%.50s'",
                     items->of_weights ? "weights" : "items", items->of_weights ? "" : " or strings", format);
    return false;
}

/* Reads the type of a schema. Sets an error if it is none of items, or of weights. */
static bool type_of(const Source *source, const Items *items, const ArrowSchema *schema, Type *type)
{
    *type = (Type){.of_entries = schema->dictionary != NULL};
    if (schema->release == NULL) return malformed("its schema was released");
    if (schema->format == NULL || (type->of_entries && schema->dictionary->format == NULL))
        return malformed("a schema without a format");
    const char *format = type->of_entries ? schema->dictionary->format : schema->format;
    if (!layout_of(schema->format, &type->rows) || (type->of_entries && !layout_of(format, &type->values)))
        return wrong_format(source, items, format);
    if (items->of_weights && (type->of_entries || (type->rows.layout != NUMBERS && type->rows.layout != NOTHING)))
        return wrong_format(source, items, type->of_entries ? "dictionary" : format);
    if (type->of_entries && (type->rows.layout != NUMBERS || schema->dictionary->dictionary != NULL))
        return malformed("a dictionary whose indices are no integers");
    return true;
}

/* Sets the buffers behind the views. The last buffer has the sizes of those between the views and it. */
static bool find_view_buffers(const ArrowArray *array, Run *run)
{
    run->num_buffers = (size_t)array->n_buffers - 3;
    run->buffers = array->buffers + 2;
    run->sizes = array->buffers[array->n_buffers - 1];
    return run->num_buffers == 0 || run->sizes != NULL || malformed("views without the sizes of their buffers");
}

/* Checks the numbers of an array before its buffers are read. */
static bool is_sound(const ArrowArray *array, const Run *run)
{
    int64_t least = run->layout == NOTHING ? 0 : run->layout == NUMBERS ? 2 : 3;
    if (array->release == NULL) return malformed("its array was released");
    if (array->length < 0 || array->offset < 0 || array->length > (int64_t)(PY_SSIZE_T_MAX / 32) - array->offset)
        return malformed("a length or an offset out of range");
    if (array->null_count < -1 || array->null_count > array->length) return malformed("a number of nulls out of range");
    if (array->n_buffers < least || (run->layout != VIEWS && run->layout != NOTHING && array->n_buffers > least))
        return malformed("a wrong number of buffers");
    if (least > 0 && array->buffers == NULL) return malformed("no buffers");
    if (array->n_children != 0) return malformed("an array with children");
    if (least > 0 && array->length > 0 && array->buffers[1] == NULL) return malformed("rows without a buffer");
    return least == 0 || array->null_count <= 0 || array->buffers[0] != NULL || malformed("nulls without a bitmap");
}

/* Sets the places of the array's rows. */
static bool find_rows(const ArrowArray *array, Run *run)
{
    if (!is_sound(array, run)) return false;
    run->count = (size_t)array->length;
    if (run->layout == NOTHING || run->count == 0) return true;
    run->start = (const char *)array->buffers[1] + array->offset * run->stride;
    run->validity = array->null_count != 0 ? array->buffers[0] : NULL;
    run->bit = (size_t)array->offset;
    if (has_offsets(run)) run->bytes = array->buffers[2];
    return run->layout != VIEWS || find_view_buffers(array, run);
}

/* Reads a value of a dictionary. */
static bool read_entry(const Run *run, size_t at, Item *entry)
{
    uint8_t present = 1;
    ds_string string;
    *entry = (Item){0};
    run_present(run, at, 1, &present, 0);
    entry->missing = present == 0;
    if (entry->missing) return true;
    if (run->layout == NUMBERS) {
        run_numbers(run, at, 1, &entry->value);
        entry->negative = run->with_sign && entry->value > INT64_MAX;
    } else if (run_string(run, at, NULL, &string)) {
        entry->text = (const char *)string.bytes;
        entry->value = string.length;
    } else return malformed("its dictionary changed");
    return true;
}

/* Returns the values of a dictionary, or NULL with an error set. */
static Item *read_dictionary(const ArrowArray *array, const Type *type, size_t *count)
{
    Run run = type->values;
    if (array == NULL || array->dictionary != NULL) {
        malformed("an array without a dictionary, or with two");
        return NULL;
    }
    if (!find_rows(array, &run) || !run_check(&run, NULL, NULL)) return NULL;
    Item *entries = PyMem_New(Item, run.count);
    if (entries == NULL) PyErr_NoMemory();
    for (size_t i = 0; entries != NULL && i < run.count; i++)
        if (!read_entry(&run, i, &entries[i])) {
            PyMem_Free(entries);
            return NULL;
        }
    *count = run.count;
    return entries;
}

/* Returns whether two arrays have the same rows in the same buffers. */
static bool are_same(const ArrowArray *first, const ArrowArray *second)
{
    bool same = first != NULL && second != NULL && first->length == second->length && first->offset == second->offset &&
                first->null_count == second->null_count && first->n_buffers == second->n_buffers && second->dictionary == NULL &&
                second->release != NULL;
    for (int64_t i = 0; same && i < first->n_buffers; i++)
        same = second->buffers != NULL && first->buffers[i] == second->buffers[i];
    return same;
}

/* Sets the dictionary of a run, which is that of the array before if both have the same buffers. */
static bool find_entries(const ArrowArray *array, const Type *type, Run *run, Dictionary *last)
{
    if (!are_same(last->array, array->dictionary)) {
        size_t count = 0;
        run->own_entries = read_dictionary(array->dictionary, type, &count);
        if (run->own_entries == NULL) return false;
        *last = (Dictionary){.array = array->dictionary, .entries = run->own_entries, .count = count};
    }
    run->entries = last->entries;
    run->num_entries = last->count;
    return true;
}

/* Appends the rows of an array, which this takes over. `last` is the dictionary of the array before. */
static bool add_array(Items *items, const Type *type, ArrowArray *array, Dictionary *last)
{
    Run run = type->rows;
    bool good = find_rows(array, &run) && (!type->of_entries || run.count == 0 || find_entries(array, type, &run, last));
    run.array = *array;
    run.first = items->count;
    if (!good || run.count == 0 || !items_add(items, &run)) {
        if (last->entries == run.own_entries) *last = (Dictionary){0};
        PyMem_Free(run.own_entries);
        RELEASE(array);
        return good && run.count == 0;
    }
    items->count += run.count;
    if (items->count > PY_SSIZE_T_MAX / 32) return malformed("too many rows");
    Run *added = &items->runs[items->num_runs - 1];
    good = run_check(added, NULL, NULL);
    items->has_gaps |= added->has_gaps;
    return good;
}

static void set_type(Items *items, const Type *type)
{
    Layout layout = type->of_entries ? type->values.layout : type->rows.layout;
    items->with_sign = type->of_entries ? type->values.with_sign : type->rows.with_sign;
    items->with_texts = layout != NUMBERS && layout != NOTHING;
    items->of_entries = type->of_entries;
}

/* Takes over what a capsule owns. Its destructor then releases nothing. */
#define TAKE(taken, capsule, name) \
    do { \
        void *owned_ = PyCapsule_GetPointer(capsule, name); \
        memcpy(&(taken), owned_, sizeof(taken)); \
        memset((char *)owned_ + offsetof(__typeof__(taken), release), 0, sizeof(taken).release); \
    } while (0)

static bool open_array(const Source *source, Items *items)
{
    ArrowSchema schema;
    ArrowArray array;
    Dictionary last = {0};
    Type type;
    TAKE(schema, PyTuple_GET_ITEM(source->values, 0), "arrow_schema");
    TAKE(array, PyTuple_GET_ITEM(source->values, 1), "arrow_array");
    bool known = type_of(source, items, &schema, &type);
    RELEASE(&schema);
    if (!known) {
        RELEASE(&array);
        return false;
    }
    set_type(items, &type);
    return add_array(items, &type, &array, &last);
}

/* Sets the error for a number that a stream returned. */
static bool stream_failed(ArrowStream *stream, int number)
{
    const char *message = stream->get_last_error != NULL ? stream->get_last_error(stream) : NULL;
    if (!PyErr_Occurred())
        PyErr_Format(PyExc_RuntimeError, "the Arrow stream failed: %.500s", message != NULL ? message : strerror(number));
    return false;
}

static bool read_type(const Source *source, Items *items, ArrowStream *stream, Type *type)
{
    ArrowSchema schema = {0};
    int number = stream->get_schema(stream, &schema);
    if (number != 0) return stream_failed(stream, number);
    bool good = type_of(source, items, &schema, type);
    RELEASE(&schema);
    return good;
}

/* Appends all arrays of a stream. */
static bool read_arrays(Items *items, ArrowStream *stream, const Type *type)
{
    Dictionary last = {0};
    for (;;) {
        ArrowArray array = {0};
        int number = stream->get_next(stream, &array);
        if (number != 0) return stream_failed(stream, number);
        if (array.release == NULL) return true;
        if (!add_array(items, type, &array, &last) || PyErr_CheckSignals() < 0) return false;
    }
}

static bool open_stream(const Source *source, Items *items)
{
    ArrowStream stream;
    Type type;
    TAKE(stream, source->values, "arrow_array_stream");
    if (stream.release == NULL || stream.get_schema == NULL || stream.get_next == NULL) {
        RELEASE(&stream);
        return malformed("its stream was released");
    }
    bool opened = read_type(source, items, &stream, &type);
    if (opened) {
        set_type(items, &type);
        opened = read_arrays(items, &stream, &type);
    }
    RELEASE(&stream);
    return opened;
}

bool arrow_open(const Source *source, Items *items)
{
    return PyTuple_Check(source->values) ? open_array(source, items) : open_stream(source, items);
}
