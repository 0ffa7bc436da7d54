/* The words, the lines and the fields of records of a string or of a buffer. */
#include "items.h"
#include "texts.h"

/* A method that takes words, lines or fields. */
typedef struct {
    const char *name;
    Taken taken;
} Method;

/* The bytes whose words, lines or fields are taken: those of a string or of a buffer. */
typedef struct {
    const uint8_t *bytes;
    size_t length;
    bool may_change; /* then each piece is copied before the library reads it */
    uint8_t *copy;
    Py_buffer view;
    size_t done; /* the number of words or lines that were counted */
} Text;

static bool text_open(PyObject *given, const Method *method, Text *text)
{
    if (PyUnicode_Check(given)) {
        Py_ssize_t length;
        text->bytes = (const uint8_t *)PyUnicode_AsUTF8AndSize(given, &length);
        text->length = text->bytes != NULL ? (size_t)length : 0;
        return text->bytes != NULL;
    }
    if (!PyObject_CheckBuffer(given)) {
        int is_path = type_has(given, "__fspath__");
        if (is_path >= 0)
            PyErr_Format(PyExc_TypeError, "%s takes a str or a buffer of bytes, not %.200s%s", method->name,
                         Py_TYPE(given)->tp_name, is_path > 0 ? ": from_file takes a path" : "");
        return false;
    }
    if (PyObject_GetBuffer(given, &text->view, PyBUF_ND | PyBUF_FORMAT) < 0) return false;
    text->bytes = text->view.buf;
    text->length = (size_t)text->view.len;
    text->may_change = !is_constant(&text->view);
    if (text->view.itemsize == 1) return true;
    PyErr_Format(PyExc_TypeError, "%s takes a str or a buffer of bytes", method->name);
    return false;
}

static void text_release(Text *text)
{
    PyMem_RawFree(text->copy);
    if (text->view.obj != NULL) PyBuffer_Release(&text->view);
}

/* Returns whether the last bytes of a text are a suffix, in small or large letters. */
static bool ends_with(const Text *text, const char *suffix)
{
    size_t count = strlen(suffix);
    bool same = text->length > count;
    for (size_t i = 0; same && i < count; i++) same = (text->bytes[text->length - count + i] | 32) == suffix[i];
    return same;
}

/* Returns whether a text is one word that ends as the names of tables do. It is counted as a record, which may be a mistake. The text may
 * come from others, so no file is looked up, and there is no error. */
static bool is_like_a_name(const Text *text)
{
    return (ends_with(text, ".csv") || ends_with(text, ".tsv")) && memchr(text->bytes, '\n', text->length) == NULL &&
           strcspn((const char *)text->bytes, " \t\r,;|") == text->length;
}

/* Takes the words, lines or fields of a piece. Runs without the interpreter's lock. */
static int32_t take_piece(Sketch *self, Text *text, const Taken *taken, size_t from, size_t end, ds_fields_read *read)
{
    const uint8_t *piece = text->bytes + from;
    uint64_t before = sketch_total(self);
    if (text->may_change) {
        uint8_t *copy = PyMem_RawRealloc(text->copy, end - from);
        if (copy == NULL) return DS_NO_MEMORY;
        text->copy = copy;
        memcpy(copy, piece, end - from);
        piece = copy;
    }
    int32_t answer = take_bytes(&self->handle, self->kind, piece, end - from, taken, read);
    text->done += sketch_total(self) - before;
    return answer;
}

/* Sets the error of a piece that is not UTF-8. `byte` is the offset of its first malformed character. */
static void refuse_utf8(const Text *text, size_t from, size_t end)
{
    const uint8_t *piece = text->may_change ? text->copy : text->bytes + from;
    refuse_at(DS_INVALID_UTF8, from + ds_valid_utf8(piece, end - from));
}

/* Sets the error of a piece that was rejected, with the number of words or lines that were counted before. */
static void refuse_piece(Sketch *self, Text *text, const Method *method, int32_t answer, size_t from, size_t end)
{
    if (answer == DS_NO_MEMORY) {
        PyErr_Format(PyExc_MemoryError, "memory ended when %zu %s were counted", text->done,
                     method->taken.of_lines ? "lines" : "words");
        return;
    }
    if (answer == DS_INVALID_UTF8) refuse_utf8(text, from, end);
    else if (answer < 0) refuse(answer);
    ds_items front = items_in(text->bytes, answer < 0 ? from : end, method->taken.of_lines);
    if (self->kind == DS_BLOOM) ds_num_items(&front, &text->done); /* a filter has no total weight */
    if (text->done > 0) note_taken(text->done);
}

/* Takes all words or lines. Other Python threads may use the sketch between two pieces, and Ctrl-C is checked there. Returns false,
 * with an error set, if a piece is rejected or Ctrl-C ends the call. */
static bool take_text(Sketch *self, Text *text, const Method *method)
{
    Use use = {.sketch = self, .changes = true};
    ds_fields_read read;
    for (size_t from = 0, end; from < text->length; from = end) {
        int32_t answer;
        end = piece_end(text->bytes, text->length, &method->taken, from);
        if (!use_begin(&use)) return false;
        Py_BEGIN_ALLOW_THREADS
        answer = take_piece(self, text, &method->taken, from, end, &read);
        Py_END_ALLOW_THREADS
        use_end(&use);
        if (answer < 0 || (end < text->length && PyErr_CheckSignals() < 0)) {
            refuse_piece(self, text, method, answer, from, end);
            return false;
        }
    }
    return true;
}

/* Returns the number of bytes, or of the characters of a str, before those at the end that are not taken. It is made before any
 * word or line is taken, so that no error comes after all of them. */
static PyObject *used_of(PyObject *given, const Text *text, size_t whole)
{
    size_t used = text->length;
    if (PyUnicode_Check(given)) {
        used = (size_t)PyUnicode_GET_LENGTH(given);
        for (size_t i = text->length; i < whole; i++) used -= text->bytes[i] >> 6 != 2;
    }
    return PyLong_FromSize_t(used);
}

/* Does the same by several threads. Then an error leaves the sketch as it was. */
static bool take_at_once(Sketch *self, const Text *text, const Method *method, size_t threads, PyObject **numbers)
{
    const Input input = {.bytes = text->bytes, .may_change = text->may_change, .length = text->length};
    return take_by_threads(self, &input, &method->taken, threads, NULL, numbers);
}

static PyObject *take(PyObject *object, PyObject *args, PyObject *keywords, const Method *method)
{
    static char *names[] = {"", "final", "threads", NULL};
    Sketch *self = (Sketch *)object;
    PyObject *given, *given_threads = NULL, *used = NULL;
    int final = 1;
    size_t threads = 1;
    Text text = {0};
    if (!PyArg_ParseTupleAndKeywords(args, keywords, "O|$pO", names, &given, &final, &given_threads) || !sketch_ready(self))
        return NULL;
    if (!takes_texts(self))
        return PyErr_Format(PyExc_TypeError, "%s takes a sketch of strings: FrequentItemsSketch(.., item=str)", method->name);
    if (given_threads != NULL && !threads_of(self, given_threads, &threads)) return NULL;
    if (text_open(given, method, &text)) {
        size_t whole = text.length;
        if (!final)
            text.length = method->taken.of_lines ? ds_finished_lines(text.bytes, whole) : ds_finished_words(text.bytes, whole);
        used = used_of(given, &text, whole);
        bool at_once = threads > 1 || given_threads == Py_None; /* so that None means the same on a machine with one processor */
        if (used != NULL && !(at_once ? take_at_once(self, &text, method, threads, NULL) : take_text(self, &text, method)))
            Py_CLEAR(used);
    }
    text_release(&text);
    return used;
}

/* The docs of a method: what it does with each word or line, and an example. */
#define TEXT_DOC(method, does, one, many, what_one_is, example) \
    method \
        "($self, text, /, *, final=True, threads=1)\n--\n\n" does " each " one \
        " of a str, or of a buffer of UTF-8 bytes, such as bytes or an mmap.\n\n" what_one_is \
        "Return how much of `text` was used: `text[used:]` is\n" \
        "the rest. With `final=False` this is an unfinished last " one \
        ", which goes before the next chunk of a stream. Otherwise\n" \
        "there is none.\n\n" \
        "Raise 'InvalidUtf8' if some bytes are not UTF-8, with the offset of the first as `byte`. A buffer is read in pieces of" \
        " about\n1 MiB. " many " before an error may be counted: a note of the error has their number.\n\n" \
        "`threads` above 1 is the number of threads that take the pieces, each into a sketch of the same sizes, seed and key.\n" \
        "None is one for each processor that the process may use, as far as their sketches take at most 1 GiB. All are merged\n" \
        "into this sketch at the end, or none. So an error, also Ctrl-C or an overflow of the total weight, leaves it unchanged\n" \
        "and has no note.\n\n" \
        ">>> import datasketches_rattle as ds\n" example
#define WORDS_DOC(method, does, example) \
    TEXT_DOC(method, does, "word", "Words", "A word is a longest run of bytes that are not space, tab, LF, FF or CR. ", example)
#define LINES_DOC(method, does, example) \
    TEXT_DOC(method, does, "line", "Lines", \
             "A line ends with LF or CR LF, which do not belong to it. A last line without LF counts if it is not empty.\n\n", \
             example)

/* The docs of updates, with an example of a sketch of this name. */
#define UPDATE_WORDS_DOC(name, sketch) \
    WORDS_DOC("update_words", "Add 1 to the weight of", \
              ">>> " name " = " sketch "\n>>> " name ".update_words(b'to be or not to be')\n18\n" \
              ">>> " name "['be'], " name ".total_weight\n(2, 6)\n")
#define UPDATE_LINES_DOC(name, sketch) \
    LINES_DOC("update_lines", "Add 1 to the weight of", \
              ">>> " name " = " sketch "\n>>> " name ".update_lines('first line\\nsecond line\\n')\n23\n" \
              ">>> " name "['second line'], " name ".total_weight\n(1, 2)\n")

const char filter_words_doc[] = PyDoc_STR(WORDS_DOC("insert_words", "Insert",
">>> seen = ds.BloomFilter(num_bits=1024, num_hashes=5)\n"
">>> seen.insert_words(b'to be or not to be')\n"
"18\n"
">>> 'not' in seen, 'apple' in seen\n"
"(True, False)\n"));

const char filter_lines_doc[] = PyDoc_STR(LINES_DOC("insert_lines", "Insert",
">>> seen = ds.BloomFilter(num_bits=1024, num_hashes=5)\n"
">>> seen.insert_lines('first line\\nsecond line\\n')\n"
"23\n"
">>> 'second line' in seen, 'second' in seen\n"
"(True, False)\n"));

const char count_words_doc[] = PyDoc_STR(UPDATE_WORDS_DOC("load", "ds.CountMinSketch(num_hashes=4, num_buckets=1 << 10)"));
const char count_lines_doc[] = PyDoc_STR(UPDATE_LINES_DOC("load", "ds.CountMinSketch(num_hashes=4, num_buckets=1 << 10)"));
const char frequent_lines_doc[] = PyDoc_STR(UPDATE_LINES_DOC("lines", "ds.FrequentItemsSketch(64, item=str)"));
const char frequent_words_doc[] = PyDoc_STR(UPDATE_WORDS_DOC("words", "ds.FrequentItemsSketch(64, item=str)")
">>> chunk = 'it is not easy to'\n"
">>> used = words.update_words(chunk, final=False)\n"
">>> chunk[used:]\n"
"'to'\n");

PyObject *sketch_words(PyObject *self, PyObject *args, PyObject *keywords)
{
    const Method method = {((Sketch *)self)->kind == DS_BLOOM ? "insert_words" : "update_words", {.of_lines = false}};
    return take(self, args, keywords, &method);
}

PyObject *sketch_lines(PyObject *self, PyObject *args, PyObject *keywords)
{
    const Method method = {((Sketch *)self)->kind == DS_BLOOM ? "insert_lines" : "update_lines", {.of_lines = true}};
    return take(self, args, keywords, &method);
}

/* --- Fields --- */

PyObject *field_numbers(size_t num_records, size_t num_items)
{
    return Py_BuildValue("nn", (Py_ssize_t)num_records, (Py_ssize_t)(num_records - num_items));
}

/* Sets the error of records that were rejected. Only MemoryError comes when some items are counted: those of this total weight. */
static void refuse_records(int32_t answer, const Text *text, const Method *method, size_t offset)
{
    bool weighed = method->taken.fields->weight != DS_NO_FIELD;
    if (answer == DS_INVALID_UTF8 || answer == DS_BAD_WEIGHT) refuse_at(answer, offset);
    else if (answer == DS_NO_MEMORY)
        PyErr_Format(PyExc_MemoryError,
                     weighed ? "memory ended when a total weight of %zu was counted" : "memory ended when %zu items were counted",
                     text->done);
    else refuse(answer);
}

/* Takes the fields of one piece. Returns the numbers, or NULL, with an error set, if a record is rejected. Has room for the numbers
 * before, and frees it for them, so that no error comes after all items. */
static PyObject *take_records(Sketch *self, Text *text, const Method *method)
{
    Use use = {.sketch = self, .changes = true};
    ds_fields_read read = {0, 0, 0};
    int32_t answer;
    PyObject *room = field_numbers(PY_SSIZE_T_MAX, 1);
    if (room == NULL || !use_begin(&use)) {
        Py_XDECREF(room);
        return NULL;
    }
    Py_BEGIN_ALLOW_THREADS
    answer = take_piece(self, text, &method->taken, 0, text->length, &read);
    Py_END_ALLOW_THREADS
    use_end(&use);
    Py_DECREF(room);
    PyObject *numbers = answer >= 0 ? field_numbers(read.num_records, read.num_items) : NULL;
    if (answer >= 0 && self->kind == DS_BLOOM) text->done = read.num_items; /* a filter has no total weight */
    if (numbers == NULL) refuse_records(answer < 0 ? answer : DS_NO_MEMORY, text, method, read.offset);
    return numbers;
}

/* Reads the index of a field, or None. */
static bool index_of(PyObject *object, const char *name, uint32_t *index)
{
    uint64_t number;
    *index = DS_NO_FIELD;
    if (object == NULL || object == Py_None) return true;
    if (!natural_of(object, name, &number)) return false;
    if (number >= DS_NO_FIELD) return PyErr_Format(PyExc_ValueError, "%s is an index below 2**32 - 1", name) != NULL;
    *index = (uint32_t)number;
    return true;
}

/* Reads a delimiter: one character of ASCII, or None for white space, or for the comma of CSV. */
static bool delimiter_of(PyObject *object, bool csv, ds_fields *fields)
{
    fields->format = csv ? DS_FIELDS_CSV : DS_FIELDS_WORDS;
    fields->delimiter = csv ? ',' : 0;
    if (object == NULL || object == Py_None) return true;
    if (!PyUnicode_Check(object)) {
        PyErr_Format(PyExc_TypeError, "delimiter is a str or None, not %.200s", Py_TYPE(object)->tp_name);
        return false;
    }
    Py_UCS4 character = PyUnicode_GET_LENGTH(object) == 1 ? PyUnicode_READ_CHAR(object, 0) : 128;
    bool ends = csv && (character == '\n' || character == '\r' || character == '"');
    if (character >= 128 || ends)
        return PyErr_Format(PyExc_ValueError, "delimiter is one character of ASCII%s", csv ? ", and no quote or line end" : "") !=
               NULL;
    if (!csv) fields->format = DS_FIELDS_DELIMITED;
    fields->delimiter = (uint8_t)character;
    return true;
}

bool fields_of(PyObject *item, PyObject *weight, PyObject *delimiter, bool csv, ds_fields *fields)
{
    if (!delimiter_of(delimiter, csv, fields) || !index_of(item, "item", &fields->item) ||
        !index_of(weight, "weight", &fields->weight))
        return false;
    if (!csv || fields->item != DS_NO_FIELD) return true;
    PyErr_SetString(PyExc_ValueError, "item is the index of a field if csv is true");
    return false;
}

#define FIELDS_DOC(method, does, weight, adds, example) \
    method \
        "($self, text, item, /, *, " weight "delimiter=None, csv=False, threads=1)\n--\n\n" does \
        " field `item`, counted from 0, of each line of a str or of a buffer of bytes. `None` is the whole line.\n" \
        "Fields stand between `delimiter`, or between runs of white space without one, as in `sketches -f` and `-d`. With\n" \
        "`csv=True` records are those of RFC 4180, read leniently, with `delimiter` or ',' between fields: fields in quotes may\n" \
        "have delimiters and line ends.\n\n" adds \
        "Return the number of records, and of those without the field, which are left out. Raise 'InvalidUtf8' if a field that is\n" \
        "taken is not UTF-8, with the offset of its record as `byte`. Warn of a str that looks like the name of a file, as 'x.csv':\n" \
        "`from_file` takes one.\n\n" \
        "The text is taken in pieces of about 1 MiB. Of a longer text each of `threads` threads takes pieces into a sketch of the\n" \
        "same sizes, seed and key; None is one thread for each processor. They are merged into this sketch at the end, or none. So\n" \
        "an error, also Ctrl-C, leaves this sketch as it was, whatever the number of threads. Only MemoryError for a text of up to\n" \
        "1 MiB may come when some items were counted. It has their number, or with `weight` their total weight.\n\n" \
        ">>> import datasketches_rattle as ds\n" example

#define UPDATE_FIELDS_DOC(name, sketch) \
    FIELDS_DOC( \
        "update_fields", "Add 1 to the weight of", "weight=None, ", \
        "`weight` is the field with the weight to add instead, in decimal digits. Raise 'BadWeight' if a record with the field\n" \
        "`item` has no such number, with its offset as `byte`.\n\n", \
        ">>> " name " = " sketch "\n>>> table = b'5,apple\\n7,\"pear, green\"\\n2,apple\\n'\n" \
        ">>> " name ".update_fields(table, 1, weight=0, csv=True)\n(3, 0)\n" \
        ">>> " name "['apple'], " name "['pear, green'], " name ".total_weight\n(7, 7, 14)\n" \
        ">>> " name ".update_fields('GET /a\\nGET /b\\nbad\\n', 1)\n(3, 1)\n")

const char filter_fields_doc[] = PyDoc_STR(FIELDS_DOC("insert_fields", "Insert", "", "",
">>> seen = ds.BloomFilter(num_bits=1024, num_hashes=5)\n"
">>> seen.insert_fields('GET /a\\nGET /b\\nbad\\n', 1)\n"
"(3, 1)\n"
">>> '/a' in seen, 'GET' in seen\n"
"(True, False)\n"));
const char count_fields_doc[] = PyDoc_STR(UPDATE_FIELDS_DOC("load", "ds.CountMinSketch(num_hashes=4, num_buckets=1 << 10)"));
const char frequent_fields_doc[] = PyDoc_STR(UPDATE_FIELDS_DOC("heavy", "ds.FrequentItemsSketch(64, item=str)"));

PyObject *sketch_fields(PyObject *object, PyObject *args, PyObject *keywords)
{
    Sketch *self = (Sketch *)object;
    bool inserts = self->kind == DS_BLOOM;
    static char *names_of_filter[] = {"", "", "delimiter", "csv", "threads", NULL};
    static char *names[] = {"", "", "delimiter", "csv", "threads", "weight", NULL};
    PyObject *given, *item, *weight = NULL, *delimiter = NULL, *given_threads = NULL;
    int csv = false;
    size_t threads = 1;
    ds_fields fields;
    Method method = {inserts ? "insert_fields" : "update_fields", {.of_lines = true, .fields = &fields}};
    Text text = {0};
    if (!(inserts ? PyArg_ParseTupleAndKeywords(args, keywords, "OO|$OpO:insert_fields", names_of_filter, &given, &item, &delimiter,
                                                &csv, &given_threads)
                  : PyArg_ParseTupleAndKeywords(args, keywords, "OO|$OpOO:update_fields", names, &given, &item, &delimiter, &csv,
                                                &given_threads, &weight)) ||
        !sketch_ready(self))
        return NULL;
    if (!takes_texts(self))
        return PyErr_Format(PyExc_TypeError, "%s takes a sketch of strings: FrequentItemsSketch(.., item=str)", method.name);
    if (!fields_of(item, weight, delimiter, csv, &fields) || (given_threads != NULL && !threads_of(self, given_threads, &threads)))
        return NULL;
    PyObject *numbers = NULL;
    if (text_open(given, &method, &text)) {
        bool goes_on = !PyUnicode_Check(given) || !is_like_a_name(&text) ||
                       PyErr_WarnFormat(PyExc_UserWarning, 1,
                                        "%s takes a text, and this one looks like the name of a file, which %s.from_file reads",
                                        method.name, class_of(Py_TYPE(self))->name) == 0;
        if (!goes_on) numbers = NULL;
        else if (text.length <= PIECE) numbers = take_records(self, &text, &method);
        else take_at_once(self, &text, &method, threads, &numbers);
    }
    text_release(&text);
    return numbers;
}
