/* Stored sketches: the image, the header with its checksum, and the text, binary and bytea forms. */
#include "extension.h"

#include <ctype.h>

#include "common/base64.h"
#include "common/hashfn.h"
#include "libpq/pqformat.h"
#include "miscadmin.h"
#include "port/pg_crc32c.h"
#include "utils/builtins.h"
#include "utils/lsyscache.h"
#include "utils/memutils.h"

/* --- Images. --- */

void read_image(Kind kind, ds_sketch *handle, const void *image, size_t length, uint64 seed, Limits limits)
{
    size_t uncounted = kind == DS_FREQUENT_ITEMS_STRING ? check_zero_bytes(image, length) : 0;
    size_t all = limit_of_all(limits), of_kind = limit_of(kind, limits);
    ds_image_options options = {.max_bytes = of_kind < all ? Min(all, of_kind + uncounted) : all, .seed = seed};
    int32_t result = ds_deserialize(handle, kind, image, length, &options);
    if (result == DS_TABLE_TOO_LARGE && limits != NO_LIMITS) raise_limit(options.max_bytes == all ? all : of_kind, 0);
    check_result(result);
    CHECK_FOR_INTERRUPTS();
}

struct varlena *write_image(ds_sketch *handle, size_t header)
{
    struct varlena *whole;
    size_t bytes = 0;
    check_result(ds_serialized_bytes(handle, &bytes));
    if (bytes > MAX_STORED_BYTES - header) raise_stored(bytes);
    whole = counted_alloc(header + bytes);
    check_result(ds_serialize(handle, (uint8_t *)whole + header, bytes, &bytes));
    SET_VARSIZE(whole, header + bytes);
    CHECK_FOR_INTERRUPTS();
    return whole;
}

/* --- The header. --- */

static const uint8 format[4] = {'S', 'K', 'R', 1};

/* The kinds by their numbers in stored sketches. */
static const uint8 kinds[] = {0, DS_FREQUENT_ITEMS_STRING, DS_FREQUENT_ITEMS_I64, DS_COUNT_MIN_U64, DS_COUNT_MIN_I64, DS_BLOOM};

Kind kind_of(const Sketch *sketch)
{
    return sketch->kind < lengthof(kinds) ? kinds[sketch->kind] : 0;
}

/* Returns the number of a kind in stored sketches. */
static uint8 number_of(Kind kind)
{
    uint8 number = 1;
    while (number < lengthof(kinds) && kinds[number] != kind) number++;
    return number;
}

/* The checksum of a large sketch is computed in blocks, and interrupts are checked between them. */
#define BLOCK (16 * 1024 * 1024)

/* Returns the checksum of a sketch: the CRC-32C, for which processors have an instruction. */
static pg_crc32c checksum_of(const Sketch *sketch)
{
    size_t length = IMAGE_BYTES(sketch);
    pg_crc32c crc;
    INIT_CRC32C(crc);
    COMP_CRC32C(crc, sketch->format, offsetof(Sketch, checksum) - offsetof(Sketch, format));
    for (size_t start = 0; start < length; start += BLOCK) {
        COMP_CRC32C(crc, sketch->image + start, Min(length - start, BLOCK));
        CHECK_FOR_INTERRUPTS();
    }
    FIN_CRC32C(crc);
    return crc;
}

/* Writes the checksum of a sketch. */
static void write_checksum(Sketch *sketch)
{
    pg_crc32c crc = checksum_of(sketch);
    for (int i = 0; i < 4; i++) sketch->checksum[i] = crc >> 8 * i & 0xff;
}

/* Returns whether sketches of a kind are stored with their seed. */
static bool has_seed(Kind kind)
{
    return kind == DS_COUNT_MIN_U64 || kind == DS_COUNT_MIN_I64;
}

/* Returns whether a header is one that this version writes for the kind, or for one of the kinds if it is ANY_KIND. */
static bool has_header(const Sketch *sketch, Kind kind)
{
    Kind own;
    if (VARSIZE(sketch) < offsetof(Sketch, image)) return false;
    own = kind_of(sketch);
    if (memcmp(sketch->format, format, sizeof format) != 0 || own == 0 || (kind != ANY_KIND && kind != own)) return false;
    if (sketch->zero[0] != 0 || sketch->zero[1] != 0) return false;
    if (!has_seed(own) && seed_of(sketch) != 0) return false;
    if (sketch->items != items_of(own, sketch->items & (STRINGS | BIGINTS))) return false;
    return sketch->items != NO_ITEMS || IMAGE_BYTES(sketch) == (own == DS_BLOOM ? EMPTY_FILTER : EMPTY_COUNTS);
}

/* Returns whether a header begins as one of another version of the format. */
static bool has_other_version(const Sketch *sketch)
{
    if (VARSIZE(sketch) < offsetof(Sketch, image)) return false;
    return memcmp(sketch->format, format, sizeof format - 1) == 0 && sketch->format[3] != format[3];
}

/* Returns whether the stored checksum is that of the sketch. */
static bool has_checksum(const Sketch *sketch)
{
    pg_crc32c crc = checksum_of(sketch);
    for (int i = 0; i < 4; i++)
        if (sketch->checksum[i] != (crc >> 8 * i & 0xff)) return false;
    return true;
}

bool is_sound(const Sketch *sketch, Kind kind)
{
    return has_header(sketch, kind) && has_checksum(sketch);
}

Sketch *detoast_sketch(Datum datum, Kind kind)
{
    Sketch *sketch = (Sketch *)counted_detoast(datum);
    if (has_other_version(sketch))
        ereport(ERROR, (errcode(ERRCODE_DATA_CORRUPTED),
                        errmsg("a stored sketch is damaged, or has version %d of the stored form", sketch->format[3]),
                        errdetail("This version of the extension reads version %d.", format[3])));
    if (!is_sound(sketch, kind)) ereport(ERROR, (errcode(ERRCODE_DATA_CORRUPTED), errmsg("a stored sketch is damaged")));
    return sketch;
}

void load(const Sketch *sketch, ds_sketch *handle)
{
    read_image(kind_of(sketch), handle, sketch->image, IMAGE_BYTES(sketch), seed_of(sketch), USERS_LIMITS);
}

size_t bytes_of(ds_sketch *handle)
{
    size_t bytes = 0;
    check_result(ds_memory_bytes(handle, &bytes));
    return bytes;
}

ds_status status_of(ds_sketch *handle)
{
    ds_status status = {0};
    check_result(ds_get_status(handle, &status));
    return status;
}

/* The bytes are those that `ds_deserialize` counts, which adds 4 for the length of each string. */
void check_limit(ds_sketch *handle, Limits limits)
{
    ds_status status = status_of(handle);
    size_t bytes = bytes_of(handle);
    if (status.kind == DS_FREQUENT_ITEMS_STRING) {
        size_t table = status.current_map_capacity / 3 * 4 * BYTES_OF_SLOT;
        bytes += 4 * status.num_active_items;
        check_bytes(limit_of_all(limits), bytes);
        bytes = Min(bytes, table + COUNTED_BYTES * status.num_active_items);
    }
    check_bytes(limit_of(status.kind, limits), bytes);
}

/* Writes the header of a stored sketch, whose image is complete. */
static void write_header(Sketch *sketch, Kind kind, uint8 items, uint64 seed)
{
    memcpy(sketch->format, format, sizeof format);
    sketch->kind = number_of(kind);
    sketch->items = items;
    memset(sketch->zero, 0, sizeof sketch->zero);
    for (int i = 0; i < 8; i++) sketch->seed[i] = seed >> 8 * i & 0xff;
    write_checksum(sketch);
}

Sketch *store(uint8 items, ds_sketch *handle)
{
    ds_status status = status_of(handle);
    Sketch *sketch;
    check_limit(handle, USERS_LIMITS);
    sketch = (Sketch *)write_image(handle, offsetof(Sketch, image));
    write_header(sketch, status.kind, items, has_seed(status.kind) ? status.seed : 0);
    return sketch;
}

/* --- Forms. --- */

/* Returns a new stored sketch without a header, with room for an image. */
static Sketch *empty_stored(size_t length)
{
    Sketch *sketch;
    if (length > MAX_STORED_BYTES - offsetof(Sketch, image)) raise_stored(length);
    sketch = counted_alloc(offsetof(Sketch, image) + length);
    SET_VARSIZE(sketch, offsetof(Sketch, image) + length);
    return sketch;
}

/* Returns a stored sketch from an image that may be untrusted. Frequent items keep the bytes of the image, since the order of
 * items changes when an image is written again. Filters and counts get the bytes that the library writes, so equal ones have
 * equal images. `stored` is what the image is stored in, if it is: then the result is there too, so that a sketch that a session made
 * is read with no more memory. */
static Sketch *import_image(Kind kind, uint8 items, const void *image, size_t length, uint64 seed, Sketch *stored, Limits limits)
{
    ds_sketch handle = DS_NONE;
    size_t bytes = 0;
    if (kind == DS_FREQUENT_ITEMS_I64) check_bigints(image, length);
    read_image(kind, &handle, image, length, seed, limits);
    check_limit(&handle, limits);
    check_result(ds_serialized_bytes(&handle, &bytes));
    if (stored == NULL) stored = empty_stored(bytes);
    else if (bytes > length) elog(ERROR, "an image became longer");
    if (is_frequent(kind) && bytes == length) {
        if (image != stored->image) memcpy(stored->image, image, length);
    } else {
        check_result(ds_serialize(&handle, stored->image, bytes, &bytes));
    }
    ds_free(&handle);
    SET_VARSIZE(stored, offsetof(Sketch, image) + bytes);
    write_header(stored, kind, items, has_seed(kind) ? seed : 0);
    return stored;
}

/* Returns a sketch with these bytes after its length, which are not checked. */
static Sketch *unchecked(const void *bytes, size_t length)
{
    Sketch *sketch;
    if (length > MAX_STORED_BYTES - VARHDRSZ) raise_stored(length);
    sketch = counted_alloc(VARHDRSZ + length);
    SET_VARSIZE(sketch, VARHDRSZ + length);
    memcpy(VARDATA(sketch), bytes, length);
    return sketch;
}

/* Returns a stored sketch from one of more bytes than users may have, by the administrator's limit. It is checked in place, or in a table
 * that its items need, and keeps the sizes that it states. */
static Sketch *import_large(Kind kind, Sketch *sketch, uint64 stated)
{
    uint64 seed = seed_of(sketch);
    size_t length = IMAGE_BYTES(sketch), bytes;
    uint8 table = 0;
    check_bytes(limit_of_all(ADMINISTRATORS_LIMITS), stated);
    bytes = read_empty(kind, sketch->image, length, seed);
    if (bytes > 0) {
        SET_VARSIZE(sketch, offsetof(Sketch, image) + bytes);
    } else {
        if (is_frequent(kind)) table = shrink_table(sketch->image, length);
        import_image(kind, sketch->items, sketch->image, length, seed, sketch, ADMINISTRATORS_LIMITS);
        if (is_frequent(kind) && IMAGE_BYTES(sketch) > 8) sketch->image[4] = table;
    }
    write_header(sketch, kind, sketch->items, seed);
    return sketch;
}

/* Returns a stored sketch from one that may be untrusted, which it replaces. `damaged` is the SQLSTATE of an error. */
static Sketch *import(Kind kind, Sketch *sketch, int damaged, Limits limits)
{
    uint64 stated;
    if (has_other_version(sketch)) raise_version(sketch->format[3], format[3]);
    if (!has_header(sketch, kind)) raise_kind("the value is not a sketch of this type");
    if (!has_checksum(sketch)) ereport(ERROR, (errcode(damaged), errmsg("the sketch is damaged: its checksum is wrong")));
    stated = stated_bytes(kind, sketch->image, IMAGE_BYTES(sketch));
    if (limits == ADMINISTRATORS_LIMITS && stated > limit_of(kind, USERS_LIMITS)) return import_large(kind, sketch, stated);
    return import_image(kind, sketch->items, sketch->image, IMAGE_BYTES(sketch), seed_of(sketch), sketch, limits);
}

/* The text form is base64. It is converted in blocks, and interrupts are checked between them. */
#define BYTES_IN_BLOCK (3 * 1024 * 1024)
#define LETTERS_IN_BLOCK (4 * 1024 * 1024)

/* Returns a sketch from its text form. */
static Datum type_in(FunctionCallInfo fcinfo, Kind kind)
{
    const char *text = PG_GETARG_CSTRING(0);
    size_t length = strcspn(text, " \t\n\r"), written = 0;
    Sketch *sketch;
    char *bytes;
    if (length / 4 * 3 > MAX_STORED_BYTES) raise_stored(length / 4 * 3);
    sketch = counted_alloc(VARHDRSZ + length / 4 * 3 + 3);
    bytes = VARDATA(sketch);
    if (text[length] != '\0') ereport(ERROR, (errcode(ERRCODE_INVALID_TEXT_REPRESENTATION), errmsg("the sketch is not base64")));
    for (size_t start = 0; start < length; start += LETTERS_IN_BLOCK) {
        int part = pg_b64_decode(text + start, (int)Min(length - start, LETTERS_IN_BLOCK), (void *)(bytes + written),
                                 (int)(length / 4 * 3 + 3 - written));
        if (part < 0) ereport(ERROR, (errcode(ERRCODE_INVALID_TEXT_REPRESENTATION), errmsg("the sketch is not base64")));
        written += part;
        CHECK_FOR_INTERRUPTS();
    }
    SET_VARSIZE(sketch, VARHDRSZ + written);
    PG_RETURN_POINTER(import(kind, sketch, ERRCODE_INVALID_TEXT_REPRESENTATION, ADMINISTRATORS_LIMITS));
}

/* Returns the sketch of any kind that is the first argument, verified. */
static Sketch *any_sketch(FunctionCallInfo fcinfo)
{
    return detoast_sketch(PG_GETARG_DATUM(0), ANY_KIND);
}

PG_FUNCTION_INFO_V1(sketch_out);

/* Returns the text form of a sketch: base64 of the bytes after its length. */
Datum sketch_out(PG_FUNCTION_ARGS)
{
    Sketch *sketch = any_sketch(fcinfo);
    const char *bytes = VARDATA(sketch);
    size_t length = VARSIZE(sketch) - VARHDRSZ, capacity = (length + 2) / 3 * 4, written = 0;
    char *text;
    if (capacity >= MaxAllocSize) raise_stored(length);
    text = counted_alloc(capacity + 1);
    for (size_t start = 0; start < length; start += BYTES_IN_BLOCK) {
        int part = pg_b64_encode((const void *)(bytes + start), (int)Min(length - start, BYTES_IN_BLOCK), text + written,
                                 (int)(capacity - written));
        if (part < 0) elog(ERROR, "base64 has no room");
        written += part;
        CHECK_FOR_INTERRUPTS();
    }
    text[written] = '\0';
    free_copy(sketch, PG_GETARG_DATUM(0));
    PG_RETURN_CSTRING(text);
}

/* Returns a sketch from its binary form, which is the bytes after its length. */
static Datum type_recv(FunctionCallInfo fcinfo, Kind kind)
{
    StringInfo message = (StringInfo)PG_GETARG_POINTER(0);
    int length = message->len - message->cursor;
    Sketch *sketch = unchecked(pq_getmsgbytes(message, length), length);
    PG_RETURN_POINTER(import(kind, sketch, ERRCODE_INVALID_BINARY_REPRESENTATION, ADMINISTRATORS_LIMITS));
}

/* Returns a copy of bytes as a bytea. */
static bytea *bytea_of(const void *bytes, size_t length)
{
    bytea *copy = counted_alloc(VARHDRSZ + length);
    SET_VARSIZE(copy, VARHDRSZ + length);
    memcpy(VARDATA(copy), bytes, length);
    return copy;
}

PG_FUNCTION_INFO_V1(sketch_send);

/* Returns the binary form of a sketch, which is also its bytea form: the bytes after its length. */
Datum sketch_send(PG_FUNCTION_ARGS)
{
    Sketch *sketch = any_sketch(fcinfo);
    bytea *bytes = bytea_of(VARDATA(sketch), VARSIZE(sketch) - VARHDRSZ);
    free_copy(sketch, PG_GETARG_DATUM(0));
    PG_RETURN_BYTEA_P(bytes);
}

/* Returns an argument detoasted, unless it only has a short length, which is read in place. */
static bytea *packed_argument(FunctionCallInfo fcinfo, int number)
{
    struct varlena *value = (struct varlena *)PG_GETARG_POINTER(number);
    return VARATT_IS_SHORT(value) ? value : counted_detoast(PointerGetDatum(value));
}

/* Returns a sketch from its bytea form. */
static Datum type_from_bytea(FunctionCallInfo fcinfo, Kind kind)
{
    bytea *bytes = packed_argument(fcinfo, 0);
    Sketch *sketch = unchecked(VARDATA_ANY(bytes), VARSIZE_ANY_EXHDR(bytes));
    free_copy(bytes, PG_GETARG_DATUM(0));
    PG_RETURN_POINTER(import(kind, sketch, ERRCODE_INVALID_BINARY_REPRESENTATION, USERS_LIMITS));
}

PG_FUNCTION_INFO_V1(sketch_image);

/* Returns the image of a sketch, which all interfaces of the library read. */
Datum sketch_image(PG_FUNCTION_ARGS)
{
    Sketch *sketch = any_sketch(fcinfo);
    bytea *image = bytea_of(sketch->image, IMAGE_BYTES(sketch));
    free_copy(sketch, PG_GETARG_DATUM(0));
    PG_RETURN_BYTEA_P(image);
}

/* Returns the seed in an argument of type numeric. */
static uint64 seed_argument(FunctionCallInfo fcinfo, int number)
{
    Datum given = PG_GETARG_DATUM(number), whole = DirectFunctionCall2(numeric_trunc, given, Int32GetDatum(0));
    char *digits = DatumGetCString(DirectFunctionCall1(numeric_out, whole)), *end;
    uint64 seed;
    errno = 0;
    seed = strtou64(digits, &end, 10);
    if (!isdigit((unsigned char)digits[0]) || *end != '\0' || errno != 0 ||
        !DatumGetBool(DirectFunctionCall2(numeric_eq, given, whole)))
        raise_argument("the seed must be a whole number from 0 to 18446744073709551615");
    pfree(digits);
    return seed;
}

Datum seed_value(uint64 seed)
{
    char digits[32];
    snprintf(digits, sizeof digits, UINT64_FORMAT, seed);
    return DirectFunctionCall3(numeric_in, CStringGetDatum(digits), ObjectIdGetDatum(InvalidOid), Int32GetDatum(-1));
}

/* Returns a sketch from an image, which may be untrusted. An image of a filter or of counts does not say the type of its items,
 * so the sketch may have both. An image of Count-Min does not say its seed, which is the second argument. */
static Datum type_from_image(FunctionCallInfo fcinfo, Kind kind)
{
    bytea *image = packed_argument(fcinfo, 0);
    uint8 items = items_of(kind, STRINGS | BIGINTS);
    uint64 seed = PG_NARGS() > 1 ? seed_argument(fcinfo, 1) : 0;
    Sketch *sketch = import_image(kind, items, VARDATA_ANY(image), VARSIZE_ANY_EXHDR(image), seed, NULL, USERS_LIMITS);
    free_copy(image, PG_GETARG_DATUM(0));
    PG_RETURN_POINTER(sketch);
}

#define FORMS(type, kind) \
    FUNCTION(type##_in, type_in, kind) \
    FUNCTION(type##_recv, type_recv, kind) \
    FUNCTION(type##_from_bytea, type_from_bytea, kind) \
    FUNCTION(type##_from_image, type_from_image, kind)

FORMS(frequent_strings, DS_FREQUENT_ITEMS_STRING)
FORMS(frequent_bigints, DS_FREQUENT_ITEMS_I64)
FORMS(count_min, DS_COUNT_MIN_U64)
FORMS(signed_count_min, DS_COUNT_MIN_I64)
FORMS(bloom_filter, DS_BLOOM)

/* --- Items. --- */

void check_items(const Sketch *sketch, uint8 items)
{
    if (may_have(sketch, items)) return;
    if (items == BIGINTS) raise_items("the sketch has no bigints as items", "Cast the item to text.");
    raise_items("the sketch has no strings as items",
                "Integers are bigints, and items of all other types are strings. Cast the item to bigint.");
}

Datum items_name(const Sketch *sketch)
{
    static const char *const names[] = {"none", "strings", "bigints", "strings or bigints"};
    return CStringGetTextDatum(names[sketch->items & (STRINGS | BIGINTS)]);
}

/* --- Equality and hashes. --- */

/* Compares the images of two sketches, and then the seeds of Count-Min: below 0, 0 or above 0. Filters and counts have images as
 * the library writes them, so equal images and seeds mean equal states. Equal frequent items may have unequal images. */
static int compared(FunctionCallInfo fcinfo)
{
    Sketch *left = any_sketch(fcinfo), *right = detoast_sketch(PG_GETARG_DATUM(1), kind_of(left));
    size_t first = IMAGE_BYTES(left), second = IMAGE_BYTES(right);
    int order = memcmp(left->image, right->image, Min(first, second));
    if (order == 0) order = (first > second) - (first < second);
    if (order == 0) order = memcmp(left->seed, right->seed, sizeof left->seed);
    free_copy(left, PG_GETARG_DATUM(0));
    free_copy(right, PG_GETARG_DATUM(1));
    return order;
}

#define COMPARISON(name, test) \
    PG_FUNCTION_INFO_V1(name); \
    Datum name(PG_FUNCTION_ARGS) \
    { \
        PG_RETURN_BOOL(compared(fcinfo) test 0); \
    }

COMPARISON(sketch_eq, ==)
COMPARISON(sketch_ne, !=)
COMPARISON(sketch_lt, <)
COMPARISON(sketch_le, <=)
COMPARISON(sketch_gt, >)
COMPARISON(sketch_ge, >=)

PG_FUNCTION_INFO_V1(sketch_cmp);

/* Returns the order of two sketches, for B-trees. */
Datum sketch_cmp(PG_FUNCTION_ARGS)
{
    int order = compared(fcinfo);
    PG_RETURN_INT32((order > 0) - (order < 0));
}

PG_FUNCTION_INFO_V1(sketch_hash);

/* Returns a hash of a sketch: of the image, since equality compares images. */
Datum sketch_hash(PG_FUNCTION_ARGS)
{
    Sketch *sketch = any_sketch(fcinfo);
    Datum hash = hash_any(sketch->image, (int)IMAGE_BYTES(sketch));
    free_copy(sketch, PG_GETARG_DATUM(0));
    return hash;
}

PG_FUNCTION_INFO_V1(sketch_hash_extended);

/* Returns a hash of 64 bits under a seed. */
Datum sketch_hash_extended(PG_FUNCTION_ARGS)
{
    Sketch *sketch = any_sketch(fcinfo);
    Datum hash = hash_any_extended(sketch->image, (int)IMAGE_BYTES(sketch), (uint64)PG_GETARG_INT64(1));
    free_copy(sketch, PG_GETARG_DATUM(0));
    return hash;
}
