/* Declarations that the files of the extension module share, but for those of items. */
#ifndef SKETCHES_H
#define SKETCHES_H

#define PY_SSIZE_T_CLEAN
#include <Python.h>

#include "datasketches.h"

#define DEFAULT_LIMIT ((size_t)1 << 30)

typedef struct Waiter Waiter;

/* A sketch of any kind. A call of one or a few items keeps the interpreter's lock and uses the object's handle. A long call, of
 * many items or of whole sketches, lets other Python threads run. While it changes the sketch, no other call uses the sketch.
 * While it reads, it has a handle of its own that shares the sketch, so many such calls run at once. `enter` in `sketches.c` has
 * the order.
 *
 * Only a thread with the interpreter's lock reads or changes the fields after `kind`, which never changes, and only such a thread or
 * a long call that changes the sketch uses `handle`. No Python code runs during a long call. A new sketch is created in its own
 * handle. Its object is created last, so no other thread sees it before. */
typedef struct {
    PyObject_HEAD
    ds_sketch handle;
    int32_t kind;         /* DS_BLOOM .. */
    bool changing;        /* whether a long call changes the sketch */
    bool frozen;          /* whether the library does not change the sketch, since handles may share it */
    size_t readers;       /* the number of long calls that read the sketch */
    Waiter *first, *last; /* the threads that wait for the sketch, in the order of their calls */
} Sketch;

/* Returns whether the weights of a CountMinSketch, or the items of a FrequentItemsSketch, are signed. */
static inline bool has_sign(const Sketch *self)
{
    return self->kind == DS_COUNT_MIN_I64 || self->kind == DS_FREQUENT_ITEMS_I64;
}

/* Returns whether the items of a FrequentItemsSketch are strings. */
static inline bool has_texts(const Sketch *self)
{
    return self->kind == DS_FREQUENT_ITEMS_STRING;
}

extern PyObject *sketch_error;

typedef struct Image Image;

/* What differs between the classes in the functions that serve all of them. */
typedef struct {
    PyTypeObject *type;
    const char *name;
    const char *merge_all;  /* the name of the method that merges many sketches */
    const char *differ;     /* the message if two sketches are of different kinds; NULL if the class has one kind */
    const char *pickled[4]; /* the names of the arguments of `deserialize` that pickle stores, and NULL */

    /* Reads the arguments of `deserialize`, or of `deserialize_prefix` if `prefix`, into `image`. Returns false, with an error set,
     * if one is malformed. */
    bool (*arguments)(PyObject *args, PyObject *keywords, bool prefix, Image *image);
} Class;

/* --- sketches.c --- */

/* Returns the class that the type is or is derived from, or NULL. */
const Class *class_of(PyTypeObject *type);

/* Returns a new object of this type that owns the handle's sketch. If that fails, frees the sketch and returns NULL. */
PyObject *sketch_of(PyTypeObject *type, int32_t kind, ds_sketch *made);
void sketch_dealloc(PyObject *self);

/* Waits until the sketch can be read by its handle, in a call that keeps the interpreter's lock. Returns false, with an error set,
 * if the sketch is closed. The result holds until the interpreter's lock is released. */
bool sketch_ready(Sketch *self);

/* Does the same until the sketch can be changed. */
bool sketch_ready_to_change(Sketch *self);

/* A long call's use of a sketch. */
typedef struct {
    Sketch *sketch;
    bool changes;
    ds_sketch share; /* if it reads: the call's own handle of the sketch */
} Use;

/* Waits for the sketch. Returns false, with an error set, if the sketch is closed, or if it is read and memory runs out. */
bool use_begin(Use *use);
void use_end(Use *use);

/* Do the same for different sketches, which are in the order of their addresses. */
bool uses_begin(Use *uses, size_t count);
void uses_end(Use *uses, size_t count);

/* Returns the handle that the call uses. */
static inline ds_sketch *use_handle(Use *use)
{
    return use->changes ? &use->sketch->handle : &use->share;
}

/* Sets the Python error of a rejected call, and returns NULL. */
PyObject *refuse(int32_t answer);
PyObject *refuse_image(int32_t answer);

/* Does the same for the bytes at an offset, which the error has as `byte`. */
PyObject *refuse_at(int32_t answer, size_t byte);

/* Changes the whole sketch: a reset or a halving. */
PyObject *sketch_change(Sketch *self, int32_t (*change)(ds_sketch *));
PyObject *sketch_reset(PyObject *self, PyObject *unused);

/* Reads the sketch's numbers, or one of them. Returns false, with an error set, if it is closed. */
bool sketch_status(Sketch *self, ds_status *status);
bool sketch_read(Sketch *self, int32_t which, uint64_t *number);

/* Returns the total weight, or 0 for a filter, in a call that may use the object's handle. */
uint64_t sketch_total(Sketch *self);

/* Returns the attribute that is the number DS_NUMBER_SEED .. */
PyObject *sketch_number(PyObject *self, void *which);
PyObject *sketch_repr(PyObject *self);

/* Returns the number of bytes that the object and its sketch take. */
extern const char sketch_sizeof_doc[];
PyObject *sketch_sizeof(PyObject *self, PyObject *unused);

extern const char sketch_close_doc[];
PyObject *sketch_close(PyObject *self, PyObject *unused);
PyObject *sketch_enter(PyObject *self, PyObject *unused);
PyObject *sketch_exit(PyObject *self, PyObject *unused);

/* --- joins.c --- */

/* A call that reads a second sketch: a merge or a set operation. */
typedef int32_t (*of_two)(ds_sketch *, ds_sketch *);

/* Combines the second sketch, which may be the same, into the first, and returns the first. Returns NotImplemented unless both are
 * of one class. */
PyObject *sketch_join(PyObject *first, PyObject *second, of_two join);

/* Returns a new sketch, a copy of the first, combined with the second. Otherwise as `sketch_join`. */
PyObject *sketch_joined(PyObject *first, PyObject *second, of_two join);

/* Do the same for a merge. */
PyObject *sketch_merge(PyObject *first, PyObject *second);
PyObject *sketch_merged(PyObject *first, PyObject *second);

/* Merges the sketches of an iterable into the sketch, which may be among them. */
PyObject *sketch_merge_all(PyObject *self, PyObject *given);

/* Compares two sketches. Those of different kinds are unequal. One of frequent items is equal only to itself: the order of its
 * items is open, and no call compares two. */
PyObject *sketch_compare(PyObject *first, PyObject *second, int operation);

/* --- images.c --- */

/* Returns whether the bytes cannot change: those of a `bytes` object, or of a memoryview of one. */
bool is_constant(const Py_buffer *view);

/* An image that a call reads: the bytes of an object, or a copy of them if another thread may change them. */
struct Image {
    int32_t kind; /* of the sketch, or 0 if the bytes are no image */
    ds_image_options options;
    ds_key key;           /* that of the options, unless they have none */
    bool has_sample_size; /* whether the sketch gets this sample size */
    uint64_t sample_size;
    const uint8_t *bytes;
    size_t length;
    uint8_t *copy;
    bool is_cut; /* whether the copy is of a part: as far as a limit may accept, and to the end of the string there */
    Py_buffer view;
};

/* Takes the image of the view, for a reader with the limit of the options. Returns false, with an error set, if there is no memory
 * for a copy. */
bool image_take(Image *image);
void image_release(Image *image);

/* Returns the sketch's image as bytes. */
PyObject *sketch_serialize(PyObject *self, PyObject *unused);

/* Return the sketch of an image, and the number of bytes that it takes if `prefix`. */
PyObject *sketch_deserialize(PyObject *type, PyObject *args, PyObject *keywords);
PyObject *sketch_deserialize_prefix(PyObject *type, PyObject *args, PyObject *keywords);

/* --- copies.c --- */

/* Return copies, with the attributes of an object of a subclass. */
PyObject *sketch_copy(PyObject *self, PyObject *unused);
PyObject *sketch_deepcopy(PyObject *self, PyObject *memo);

/* Returns what pickle stores: the class's `_unpickle`, its arguments, and the state of an object of a subclass. */
PyObject *sketch_reduce(PyObject *self, PyObject *unused);

/* Returns the sketch of these arguments, under the limit of the class. */
PyObject *sketch_unpickle(PyObject *type, PyObject *args);

/* --- words.c --- */

extern const char filter_words_doc[];
extern const char filter_lines_doc[];
extern const char count_words_doc[];
extern const char count_lines_doc[];
extern const char frequent_words_doc[];
extern const char frequent_lines_doc[];
extern const char filter_fields_doc[];
extern const char count_fields_doc[];
extern const char frequent_fields_doc[];

/* Take the words, the lines or the fields of a string or of a buffer, in all classes. */
PyObject *sketch_words(PyObject *self, PyObject *args, PyObject *keywords);
PyObject *sketch_lines(PyObject *self, PyObject *args, PyObject *keywords);
PyObject *sketch_fields(PyObject *self, PyObject *args, PyObject *keywords);

/* --- files.c --- */

extern const char filter_from_file_doc[];
extern const char count_from_file_doc[];
extern const char frequent_from_file_doc[];

/* Return the sketch of the words or the lines of a file. */
PyObject *filter_from_file(PyObject *type, PyObject *args, PyObject *keywords);
PyObject *count_from_file(PyObject *type, PyObject *args, PyObject *keywords);
PyObject *frequent_from_file(PyObject *type, PyObject *args, PyObject *keywords);

/* Adds the functions that the Python module `_files` calls. */
bool add_file_calls(PyObject *m);

/* --- filter.c, count.c, frequent.c --- */

bool filter_arguments(PyObject *args, PyObject *keywords, bool prefix, Image *image);
bool count_arguments(PyObject *args, PyObject *keywords, bool prefix, Image *image);
bool frequent_arguments(PyObject *args, PyObject *keywords, bool prefix, Image *image);

/* Returns the name of a kind's items: 'i64', 'u64' or 'str'. */
const char *item_name(int32_t kind);

/* --- rows.c --- */

extern const char frequent_rows_doc[];
extern const char frequent_top_doc[];
PyObject *frequent_rows(PyObject *object, PyObject *args, PyObject *keywords);
PyObject *frequent_top(PyObject *object, PyObject *args, PyObject *keywords);

/* --- sizes.c --- */

extern const char filter_suggest_bits_doc[];
extern const char filter_min_bits_doc[];
extern const char filter_suggest_hashes_doc[];
extern const char count_suggest_buckets_doc[];
extern const char count_suggest_hashes_doc[];
extern const char frequent_suggest_max_map_size_doc[];
PyObject *filter_suggest_bits(PyObject *type, PyObject *args, PyObject *keywords);
PyObject *filter_min_bits(PyObject *type, PyObject *args, PyObject *keywords);
PyObject *filter_suggest_hashes(PyObject *type, PyObject *args, PyObject *keywords);
PyObject *count_suggest_buckets(PyObject *type, PyObject *args, PyObject *keywords);
PyObject *count_suggest_hashes(PyObject *type, PyObject *args, PyObject *keywords);
PyObject *frequent_suggest_max_map_size(PyObject *type, PyObject *args, PyObject *keywords);

/* --- keyed_hash.c --- */

/* Reads a key of 16 bytes. Returns false, with an error set, if the object is none. */
bool key_of(PyObject *object, ds_key *key);

/* Adds the function `keyed_hash` to the module. */
bool add_keyed_hash(PyObject *m);

extern PyTypeObject filter_type;
extern PyTypeObject count_type;
extern PyTypeObject frequent_type;

/* The fields of a type, whose functions and tables have names that begin with `class`. */
#define FIELDS_OF_ALL(class, name) \
    .tp_name = "datasketches_rattle." name, .tp_basicsize = sizeof(Sketch), .tp_doc = class##_doc, \
    .tp_flags = Py_TPFLAGS_DEFAULT | Py_TPFLAGS_BASETYPE, .tp_new = class##_new, .tp_dealloc = sketch_dealloc, \
    .tp_repr = sketch_repr, .tp_richcompare = sketch_compare, .tp_methods = class##_methods, .tp_getset = class##_fields, \
    .tp_as_number = &class##_as_number

/* --- Rows of the tables of methods. --- */

#define KEYWORDS_ROW(name, function, flags, doc) \
    { \
        name, (PyCFunction)(void (*)(void))function, (flags) | METH_VARARGS | METH_KEYWORDS, doc \
    }

/* A method of one item or many, which takes keywords without a tuple and a dict. */
#define FAST_KEYWORDS_ROW(name, function, doc) \
    { \
        name, (PyCFunction)(void (*)(void))function, METH_FASTCALL | METH_KEYWORDS, doc \
    }

/* A method that takes keywords. */
#define WITH_KEYWORDS(name, function) KEYWORDS_ROW(name, function, 0, function##_doc)

/* A class method that takes keywords. */
#define CLASS_METHOD(name, function) KEYWORDS_ROW(name, function, METH_CLASS, function##_doc)

/* The methods that all classes have. The docs of these names are those of the class. */
/* clang-format off */
#define METHODS_OF_ALL \
    {"serialize", sketch_serialize, METH_NOARGS, serialize_doc}, \
    KEYWORDS_ROW("deserialize", sketch_deserialize, METH_CLASS, deserialize_doc), \
    KEYWORDS_ROW("deserialize_prefix", sketch_deserialize_prefix, METH_CLASS, deserialize_prefix_doc), \
    {"close", sketch_close, METH_NOARGS, sketch_close_doc}, \
    {"__bytes__", sketch_serialize, METH_NOARGS, NULL}, \
    {"__copy__", sketch_copy, METH_NOARGS, NULL}, \
    {"__deepcopy__", sketch_deepcopy, METH_O, NULL}, \
    {"__reduce__", sketch_reduce, METH_NOARGS, NULL}, \
    {"_unpickle", sketch_unpickle, METH_CLASS | METH_VARARGS, NULL}, \
    {"__sizeof__", sketch_sizeof, METH_NOARGS, sketch_sizeof_doc}, \
    {"__enter__", sketch_enter, METH_NOARGS, NULL}, \
    {"__exit__", sketch_exit, METH_VARARGS, NULL}
/* clang-format on */

#endif
