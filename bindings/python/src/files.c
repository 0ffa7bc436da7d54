/* The words, the lines and the fields of files: what the Python module `_files` calls, and what calls it. */
#include "items.h"
#include "texts.h"

#include <sys/stat.h>
#include <unistd.h>

/* Returns whether the object is a sketch of strings. Sets an error if not. */
static bool is_of_texts(PyObject *object)
{
    if (class_of(Py_TYPE(object)) != NULL && takes_texts((Sketch *)object)) return true;
    PyErr_SetString(PyExc_TypeError, "words and lines need a sketch of strings");
    return false;
}

/* Returns the number of threads that an argument means for a sketch: `_threads(sketch, threads)`. */
static PyObject *threads_call(PyObject *Py_UNUSED(module), PyObject *args)
{
    PyObject *sketch, *given;
    size_t threads;
    if (!PyArg_ParseTuple(args, "OO", &sketch, &given) || !is_of_texts(sketch)) return NULL;
    return threads_of((Sketch *)sketch, given, &threads) ? PyLong_FromSize_t(threads) : NULL;
}

/* Finds out how an open file is read: at once by all threads if it is regular and has a size, else in turns. */
static bool input_open(int file, Input *input)
{
    struct stat status;
    *input = (Input){.origin = FROM_STREAM, .file = file};
    if (fstat(file, &status) < 0) return PyErr_SetFromErrno(PyExc_OSError) != NULL;
    off_t start = S_ISREG(status.st_mode) ? lseek(file, 0, SEEK_CUR) : -1;
    if (start < 0 || start >= status.st_size) return true;
    *input = (Input){.origin = FROM_FILE, .file = file, .start = (uint64_t)start, .length = (uint64_t)(status.st_size - start)};
    return true;
}

/* Counts or inserts the words, or lines, of an open file from its position on: `_take_file(sketch, file, of_lines, threads,
 * progress)`. */
static PyObject *take_file(PyObject *Py_UNUSED(module), PyObject *args)
{
    PyObject *sketch, *given, *progress;
    int file, of_lines;
    size_t threads;
    Input input;
    if (!PyArg_ParseTuple(args, "OipOO", &sketch, &file, &of_lines, &given, &progress) || !is_of_texts(sketch) ||
        !threads_of((Sketch *)sketch, given, &threads))
        return NULL;
    const Taken taken = {.of_lines = of_lines != 0};
    if (!input_open(file, &input) || !take_by_threads((Sketch *)sketch, &input, &taken, threads, progress, NULL)) return NULL;
    if (input.origin == FROM_FILE) lseek(file, (off_t)(input.start + input.length), SEEK_SET);
    Py_RETURN_NONE;
}

/* Counts or inserts the fields of `front`, which begins at byte `start`, and of an open file from its position on, and returns their
 * numbers: `_take_fields(sketch, file, front, start, item, weight, delimiter, csv, threads, progress)`. */
static PyObject *take_fields(PyObject *Py_UNUSED(module), PyObject *args)
{
    PyObject *sketch, *item, *weight, *delimiter, *given, *progress, *numbers = NULL;
    int file, csv;
    unsigned long long start;
    Py_buffer front;
    size_t threads;
    ds_fields fields;
    if (!PyArg_ParseTuple(args, "Oiy*KOOOpOO", &sketch, &file, &front, &start, &item, &weight, &delimiter, &csv, &given, &progress))
        return NULL;
    if (is_of_texts(sketch) && fields_of(item, weight, delimiter, csv != 0, &fields) &&
        threads_of((Sketch *)sketch, given, &threads)) {
        const Taken taken = {.of_lines = true, .fields = &fields};
        const Input input = {
            .origin = FROM_STREAM, .file = file, .start = start, .front = front.buf, .front_length = (size_t)front.len};
        take_by_threads((Sketch *)sketch, &input, &taken, threads, progress, &numbers);
    }
    PyBuffer_Release(&front);
    return numbers;
}

static PyMethodDef calls[] = {
    {"_threads", threads_call, METH_VARARGS, NULL},
    {"_take_file", take_file, METH_VARARGS, NULL},
    {"_take_fields", take_fields, METH_VARARGS, NULL},
    {NULL, NULL, 0, NULL},
};

bool add_file_calls(PyObject *m)
{
    return PyModule_AddFunctions(m, calls) == 0;
}

/* Calls a function of the package's module `_files` with the class. */
static PyObject *from_file(const char *name, PyObject *type, PyObject *args, PyObject *keywords)
{
    PyObject *module = PyImport_ImportModule("datasketches_rattle._files");
    PyObject *function = module != NULL ? attribute(module, name) : NULL;
    PyObject *first = PyTuple_Pack(1, type);
    PyObject *all = first != NULL ? PySequence_Concat(first, args) : NULL;
    PyObject *sketch = function != NULL && all != NULL ? PyObject_Call(function, all, keywords) : NULL;
    Py_XDECREF(module);
    Py_XDECREF(function);
    Py_XDECREF(first);
    Py_XDECREF(all);
    return sketch;
}

PyObject *filter_from_file(PyObject *type, PyObject *args, PyObject *keywords)
{
    return from_file("filter_from_file", type, args, keywords);
}

PyObject *count_from_file(PyObject *type, PyObject *args, PyObject *keywords)
{
    return from_file("count_from_file", type, args, keywords);
}

PyObject *frequent_from_file(PyObject *type, PyObject *args, PyObject *keywords)
{
    return from_file("frequent_from_file", type, args, keywords);
}

/* The docs of `from_file`: its arguments after `split`, its result, the class's calls for words, lines and fields, the fields, and an
 * example. */
#define FROM_FILE_DOC(arguments, result, words, lines, fields, chosen, example) \
    "from_file($type, path, split='words', " arguments ")\n--\n\n" \
    "Return " result " of the words of a file in UTF-8, or of its lines with `split='lines'`. They are those of `" words "`\n" \
    "and `" lines "`; a byte order mark at the front is skipped. Raise 'InvalidUtf8' if some bytes are not UTF-8.\n\n" chosen \
    " of each line instead, counted from 0, as `" fields "` does with `delimiter`. With\n" \
    "`csv=True` records are those of CSV. The first one is a header, whose names are taken too, unless `header=False`.\n" \
    "Records without the field are left out, with a warning.\n\n" \
    "`threads` above 1 is the number of threads that read the file, each into a sketch of the same sizes. None is one for\n" \
    "each processor that the process may use, as far as their sketches take at most 1 GiB.\n\n" \
    "The file may be a pipe, also one that does not block: the call waits for its end. With tqdm installed a bar shows the\n" \
    "progress: by default on a terminal, after two seconds; with True always, and with False never.\n\n" \
    ">>> import datasketches_rattle as ds, os, tempfile\n" \
    ">>> with tempfile.TemporaryDirectory() as folder:\n" \
    "...     path = os.path.join(folder, 'book.txt')\n" \
    "...     with open(path, 'w', encoding='utf-8') as book:\n" \
    "...         print('to be or not to be', file=book)\n" example

/* The same for a class that counts. The example goes on with a table. */
#define COUNTS_FROM_FILE_DOC(arguments, name, shape, example) \
    FROM_FILE_DOC(arguments ", item=None, weight=None, delimiter=None, csv=False, header=True", "a sketch", "update_words", \
                  "update_lines", "update_fields", "`item` is the field to take, and `weight` the field with its weight,", \
                  "...     words = ds." name ".from_file(path" shape ")\n" \
                  "...     with open(path, 'w', encoding='utf-8') as table:\n" \
                  "...         print('page,bytes\\n/tea,500\\n/milk,80\\n/tea,120', file=table)\n" \
                  "...     pages = ds." name ".from_file(path, csv=True, item='page', weight='bytes'" shape ")\n" example)

const char filter_from_file_doc[] = PyDoc_STR(FROM_FILE_DOC(
"*, num_bits, num_hashes, seed=9001, progress=None, threads=1, item=None, delimiter=None, csv=False, header=True", "a filter",
"insert_words", "insert_lines", "insert_fields", "`item` is the field to take",
"...     seen = ds.BloomFilter.from_file(path, num_bits=1024, num_hashes=5)\n"
">>> 'not' in seen, 'apple' in seen\n"
"(True, False)\n"));

const char count_from_file_doc[] =
    PyDoc_STR(COUNTS_FROM_FILE_DOC(
"*, num_hashes, num_buckets, seed=9001, signed=False, progress=None, threads=1", "CountMinSketch", ", num_hashes=4, num_buckets=1024",
">>> words['be'], words.total_weight, pages['/tea'], pages.total_weight\n"
"(2, 6, 620, 700)\n"));

const char frequent_from_file_doc[] = PyDoc_STR(COUNTS_FROM_FILE_DOC(
"max_map_size=4096, sample_size=None, progress=None, key=None, threads=1, *", "FrequentItemsSketch", "",
">>> words.top(2), pages.top(1)\n"
"([('be', 2, 2, 2), ('to', 2, 2, 2)], [('/tea', 620, 620, 620)])\n"));
