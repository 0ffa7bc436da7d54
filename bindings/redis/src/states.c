/* A value as bytes, for files and replicas: a state.
 *
 * A state is a header, the sketch's image, and a checksum of both. All numbers are written lowest byte first. Files of the server
 * and its replicas get the key of a table with it, so that the table of a replica hashes as the master's. DUMP and BF.SCANDUMP go
 * to clients, and have no key: a sketch of frequent items that is read without one draws another. */
#include "module.h"

#include <stdio.h>
#include <string.h>

/* The version of the values in files, and of the states in them. */
#define VERSION 1

/* The most bytes of a state in one command of a file: less than the least value of `proto-max-bulk-len`. */
#define PART_BYTES ((size_t)512 << 10)

/* What is set in the byte of flags. Other flags are ignored: version 0.3.0 wrote 2, too. */
enum { HAS_KEY = 1 };

/* The header: "RSK" and the version, the kind, the flags, two bytes 0, and these numbers. */
enum { LENGTH, SEED, KEY_0, KEY_1, CAPACITY, INSERTED, RATE, WIDTH, DEPTH, NUMBERS };
#define HEADER_BYTES (8 + 8 * (size_t)NUMBERS)
#define CHECKSUM_BYTES 8

static const uint8_t magic[4] = {'R', 'S', 'K', VERSION};

/* Whether a file is being written, or a replica's copy of all keys. Only then are keys of tables written. */
static bool is_saving;

/* Returns the checksum of bytes: a hash under a fixed key. It finds damage, and is no signature. */
static uint64_t checksum(const uint8_t *bytes, size_t length)
{
    return ds_keyed_hash(bytes, length, 0x7365686374656b73, 0x656c747461722d31);
}

/* Writes the state of a sketch into a block of one of two allocators. */
static uint8_t *state_in(Sketch *sketch, bool with_key, size_t *length, void *(*allocate)(size_t))
{
    uint64_t numbers[NUMBERS] = {0, sketch->seed, 0, 0, sketch->capacity, sketch->inserted, 0, sketch->width, sketch->depth};
    size_t image = 0;
    uint8_t *state;
    if (ds_serialized_bytes(&sketch->handle, &image) < 0) return NULL;
    *length = HEADER_BYTES + image + CHECKSUM_BYTES;
    state = allocate(*length);
    if (state == NULL) return NULL;
    memset(state, 0, HEADER_BYTES);
    memcpy(state, magic, sizeof magic);
    state[4] = (uint8_t)sketch->kind;
    if (with_key && sketch->kind == DS_FREQUENT_ITEMS_STRING) {
        state[5] = HAS_KEY;
        numbers[KEY_0] = sketch->table_key.k0;
        numbers[KEY_1] = sketch->table_key.k1;
    }
    numbers[LENGTH] = *length;
    memcpy(&numbers[RATE], &sketch->rate, sizeof sketch->rate);
    for (int i = 0; i < NUMBERS; i++) write_number(state + 8 + 8 * i, numbers[i]);
    ds_serialize(&sketch->handle, state + HEADER_BYTES, image, &image);
    write_number(state + HEADER_BYTES + image, checksum(state, HEADER_BYTES + image));
    return state;
}

uint8_t *write_state(Sketch *sketch, bool with_key, size_t *length)
{
    return state_in(sketch, with_key, length, try_block);
}

/* Writes the state of a sketch that is to be saved or replicated. As with the server's own buffers for that, the process ends if
 * there is no memory. */
static uint8_t *saved_state(Sketch *sketch, bool with_key, size_t *length)
{
    uint8_t *state = write_state(sketch, with_key, length);
    return state != NULL ? state : state_in(sketch, with_key, length, RedisModule_Alloc);
}

/* Returns whether the numbers that the image does not have fit the sketch. */
static bool is_sound(Sketch *sketch)
{
    ds_status status = status_of(sketch);
    if (sketch->kind == DS_BLOOM)
        return status.seed == sketch->seed && sketch->capacity > 0 && sketch->capacity <= INT64_MAX &&
               sketch->inserted <= INT64_MAX && sketch->rate > 0 && sketch->rate < 1;
    if (status.total_weight > INT64_MAX) return false;
    if (sketch->kind == DS_COUNT_MIN_U64) return true;
    return sketch->capacity > 0 && sketch->capacity <= UINT32_MAX && sketch->width <= UINT32_MAX && sketch->depth <= UINT32_MAX &&
           sketch->rate > 0 && sketch->rate <= 1;
}

Sketch *read_state(const uint8_t *bytes, size_t length, size_t limit, int32_t *result)
{
    size_t image, used = 0;
    uint64_t numbers[NUMBERS];
    Sketch *sketch;
    *result = DS_INSUFFICIENT_DATA;
    if (length < HEADER_BYTES + CHECKSUM_BYTES) return NULL;
    *result = DS_BAD_VERSION;
    if (memcmp(bytes, magic, sizeof magic) != 0) return NULL;
    *result = BAD_CHECKSUM;
    image = length - HEADER_BYTES - CHECKSUM_BYTES;
    if (checksum(bytes, HEADER_BYTES + image) != read_number(bytes + HEADER_BYTES + image, 8)) return NULL;
    for (int i = 0; i < NUMBERS; i++) numbers[i] = read_number(bytes + 8 + 8 * i, 8);
    *result = DS_WRONG_KIND;
    if (bytes[4] != DS_BLOOM && bytes[4] != DS_COUNT_MIN_U64 && bytes[4] != DS_FREQUENT_ITEMS_STRING) return NULL;
    *result = TOO_MANY_HASHES;
    if (limit != SIZE_MAX && hashes_in_image(bytes[4], bytes + HEADER_BYTES, image) > max_hashes) return NULL;
    *result = DS_NO_MEMORY;
    sketch = new_value(bytes[4]);
    if (sketch == NULL) return NULL;
    sketch->seed = numbers[SEED];
    sketch->table_key = (ds_key){numbers[KEY_0], numbers[KEY_1]};
    if ((bytes[5] & HAS_KEY) == 0) sketch->table_key = (ds_key){random_word(), random_word()};
    sketch->capacity = numbers[CAPACITY];
    sketch->inserted = numbers[INSERTED];
    memcpy(&sketch->rate, &numbers[RATE], sizeof sketch->rate);
    sketch->width = numbers[WIDTH];
    sketch->depth = numbers[DEPTH];
    ds_image_options options = {limit_of_image(sketch->kind, bytes + HEADER_BYTES, image, limit), sketch->seed, &sketch->table_key};
    *result = ds_deserialize_prefix(&sketch->handle, sketch->kind, bytes + HEADER_BYTES, image, &options, &used);
    if (*result == DS_OK && (used != image || numbers[LENGTH] != length || !is_sound(sketch))) *result = DS_VALUE_OUT_OF_RANGE;
    if (*result == DS_OK && limit != SIZE_MAX && number_of(sketch, DS_NUMBER_NUM_HASHES) > max_hashes) *result = TOO_MANY_HASHES;
    if (*result != DS_OK) {
        free_value(sketch);
        return NULL;
    }
    if (sketch->kind == DS_FREQUENT_ITEMS_STRING) count_strings(sketch);
    return sketch;
}

/* --- States in parts, of BF.LOADCHUNK and SKETCH.STATE. A key without a value gets parts as its value. A sketch keeps them aside
 * until the last one is there. --- */

/* Returns the length of the state that begins with these bytes, or 0 if none of at most `limit` bytes does. */
static size_t length_of_state(const uint8_t *bytes, size_t length, size_t limit)
{
    uint64_t total = length >= HEADER_BYTES && memcmp(bytes, magic, sizeof magic) == 0 ? read_number(bytes + 8, 8) : 0;
    return total >= length && total <= limit ? (size_t)total : 0;
}

/* Puts a whole state's sketch into the key. Returns false after an error. */
static bool put_state(Call *call, Kind kind, const uint8_t *bytes, size_t length)
{
    int32_t result;
    Sketch *sketch = read_state(bytes, length, limit_of(call), &result);
    if (sketch != NULL && kind != 0 && sketch->kind != kind) {
        free_value(sketch);
        sketch = NULL;
        result = DS_WRONG_KIND;
    }
    if (sketch == NULL) {
        if (result == DS_NO_MEMORY || result == DS_TABLE_TOO_LARGE || result == TOO_MANY_HASHES) reply_result(call, result);
        else reply_error(call, bad_data);
        return false;
    }
    put_value(call, sketch);
    return true;
}

/* Adds bytes to parts. The room doubles, so that many small parts cost no more than their bytes. Returns false if there is no memory:
 * then nothing changed. */
static bool add_bytes(Sketch *parts, const uint8_t *more, size_t length)
{
    size_t needed = parts->length + length, room = parts->room * 2 > needed ? parts->room * 2 : needed;
    if (needed > parts->room) {
        uint8_t *bytes = try_block(room < parts->total ? room : parts->total);
        if (bytes == NULL) return false;
        if (parts->length > 0) memcpy(bytes, parts->bytes, parts->length);
        free_block(parts->bytes);
        parts->bytes = bytes;
        parts->room = room < parts->total ? room : parts->total;
    }
    memcpy(parts->bytes + parts->length, more, length);
    parts->length = needed;
    return true;
}

/* Takes the first part of a state of `total` bytes. Returns false after an error. */
static bool begin_parts(Call *call, size_t total, const uint8_t *bytes, size_t length)
{
    Sketch first = {.handle = DS_NONE, .kind = PARTS, .total = total}, *parts = call->sketch;
    bool is_new = parts == NULL || parts->kind == PARTS;
    if (is_new) parts = new_value(PARTS);
    if (parts == NULL || !add_bytes(&first, bytes, length)) {
        if (is_new) free_value(parts);
        reply_error(call, no_memory);
        return false;
    }
    free_block(parts->bytes);
    parts->bytes = first.bytes;
    parts->length = length;
    parts->room = first.room;
    parts->total = total;
    if (is_new) put_value(call, parts);
    return true;
}

/* Takes the next part of a state. Returns false after an error. */
static bool continue_parts(Call *call, Kind kind, const uint8_t *bytes, size_t length)
{
    Sketch *parts = call->sketch;
    size_t before = parts->length;
    if (!add_bytes(parts, bytes, length)) {
        reply_error(call, no_memory);
        return false;
    }
    if (parts->length < parts->total || put_state(call, kind, parts->bytes, parts->total)) return true;
    parts->length = before;
    return false;
}

bool take_part(Call *call, Kind kind, uint64_t position, const uint8_t *bytes, size_t length)
{
    const Sketch *before = call->sketch;
    size_t limit = limit_of(call), most = limit < SIZE_MAX / 4 ? 2 * limit + (1 << 20) : SIZE_MAX;
    size_t total = position == 0 ? length_of_state(bytes, length, most) : before != NULL ? before->total : 0;
    bool is_aside = before != NULL && before->kind != PARTS, is_done;
    if (total == 0 || (position > 0 && (before->length != position || length > total - position))) {
        reply_error(call, bad_data);
        return false;
    }
    if (position > 0) is_done = continue_parts(call, kind, bytes, length);
    else if (total == length) is_done = put_state(call, kind, bytes, length);
    else is_done = begin_parts(call, total, bytes, length);
    if (!is_done) return false;

    /* Parts aside change nothing that a client sees. A replica may have read its copy of all keys between two of them, and has none
     * then: so it gets the whole sketch with the last one. */
    if (is_aside && position + length < total) {
        if (limit == SIZE_MAX) RedisModule_ReplicateVerbatim(call->ctx);
    } else if (is_aside && position > 0 && limit != SIZE_MAX) {
        replicate_state(call, call->sketch);
    } else {
        replicate_call(call);
    }
    return true;
}

int sketch_state(Call *call)
{
    long long position;
    size_t length;
    const uint8_t *bytes = (const uint8_t *)RedisModule_StringPtrLen(call->argv[3], &length);
    if (!number_argument(call, 2, 0, INT64_MAX, bad_number, &position)) return REDISMODULE_OK;
    if (!take_part(call, 0, (uint64_t)position, bytes, length)) return REDISMODULE_OK;
    return RedisModule_ReplyWithSimpleString(call->ctx, "OK");
}

/* The command that takes parts of a state: to name it with what it gets. */
static const char state_command[] = "SKETCH.STATE", state_arguments[] = "slb";

void replicate_state(Call *call, Sketch *sketch)
{
    size_t length;
    uint8_t *state = saved_state(sketch, true, &length);
    note_change(call);
    for (size_t at = 0; at < length; at += PART_BYTES) {
        size_t part = length - at < PART_BYTES ? length - at : PART_BYTES;
        RedisModule_Replicate(call->ctx, state_command, state_arguments, call->argv[1], (long long)at, (char *)state + at, part);
    }
    free_block(state);
}

/* --- What the server asks of a type. A fork of the server saves: it makes only calls that read a sketch and do not allocate. So it
 * may have been made while another thread freed a sketch. --- */

static void save(RedisModuleIO *io, void *value)
{
    Sketch *sketch = value;
    size_t length = sketch->length;
    uint8_t *state;
    if (sketch->kind == PARTS) {
        RedisModule_SaveUnsigned(io, sketch->total);
        RedisModule_SaveStringBuffer(io, (char *)sketch->bytes, sketch->length);
        return;
    }
    state = saved_state(sketch, is_saving, &length);
    RedisModule_SaveStringBuffer(io, (char *)state, length);
    free_block(state);
}

/* Returns the limit of what the server reads: none for its own files and its master's keys. */
static size_t limit_of_file(void)
{
    int flags = RedisModule_GetContextFlags(NULL);
    return (flags & (REDISMODULE_CTX_FLAGS_LOADING | REDISMODULE_CTX_FLAGS_ASYNC_LOADING)) != 0 ? SIZE_MAX : max_bytes;
}

/* Logs that the value of a key cannot be read, and why. Bytes of the key that are not printable are shown as numbers. */
static void log_unread(RedisModuleIO *io, int32_t result)
{
    char key[256];
    size_t length = 0, at = 0;
    const RedisModuleString *name = RedisModule_GetKeyNameFromIO(io);
    const char *bytes = name != NULL ? RedisModule_StringPtrLen(name, &length) : "";
    for (size_t i = 0; i < length && at + 8 < sizeof key; i++) {
        unsigned char byte = (unsigned char)bytes[i];
        bool is_shown = byte >= ' ' && byte <= '~' && byte != '\'' && byte != '\\';
        at += (size_t)snprintf(key + at, sizeof key - at, is_shown ? "%c" : "\\x%02x", byte);
        if (i + 1 < length && at + 8 >= sizeof key) at += (size_t)snprintf(key + at, sizeof key - at, "...");
    }
    key[at] = '\0';
    RedisModule_LogIOError(io, "warning", "the sketch of the key '%s' in database %d cannot be read: %s", key,
                           RedisModule_GetDbIdFromIO(io), message_of(result));
}

/* Loads a value of a kind. Returns null if its bytes are damaged. */
static void *load(RedisModuleIO *io, int version, Kind kind)
{
    size_t length = 0, limit = limit_of_file();
    char *bytes = version == VERSION ? RedisModule_LoadStringBuffer(io, &length) : NULL;
    int32_t result = version == VERSION ? DS_INSUFFICIENT_DATA : DS_BAD_VERSION;
    Sketch *sketch = NULL;
    if (bytes != NULL && !RedisModule_IsIOError(io)) sketch = read_state((uint8_t *)bytes, length, limit, &result);
    free_block(bytes);
    if (sketch != NULL && sketch->kind != kind) {
        free_value(sketch);
        sketch = NULL;
        result = DS_WRONG_KIND;
    }
    if (sketch == NULL) log_unread(io, result);
    return sketch;
}

static void *load_filter(RedisModuleIO *io, int version)
{
    return load(io, version, DS_BLOOM);
}

static void *load_count(RedisModuleIO *io, int version)
{
    return load(io, version, DS_COUNT_MIN_U64);
}

static void *load_frequent(RedisModuleIO *io, int version)
{
    return load(io, version, DS_FREQUENT_ITEMS_STRING);
}

static void *load_parts(RedisModuleIO *io, int version)
{
    uint64_t total = version == VERSION ? RedisModule_LoadUnsigned(io) : 0;
    size_t length = 0;
    char *bytes = version == VERSION && !RedisModule_IsIOError(io) ? RedisModule_LoadStringBuffer(io, &length) : NULL;
    Sketch *parts = bytes != NULL && !RedisModule_IsIOError(io) && length_of_state((uint8_t *)bytes, length, SIZE_MAX) == total &&
                            total > length
                        ? new_value(PARTS)
                        : NULL;
    if (parts != NULL) {
        parts->bytes = (uint8_t *)bytes;
        parts->length = parts->room = length;
        parts->total = total;
    } else {
        log_unread(io, bytes == NULL ? DS_NO_MEMORY : DS_INSUFFICIENT_DATA);
        free_block(bytes);
    }
    return parts;
}

static void rewrite(RedisModuleIO *aof, RedisModuleString *key, void *value)
{
    Sketch *sketch = value;
    size_t length = sketch->length;
    uint8_t *state = sketch->kind == PARTS ? sketch->bytes : saved_state(sketch, true, &length);
    for (size_t at = 0; at < length; at += PART_BYTES) {
        size_t part = length - at < PART_BYTES ? length - at : PART_BYTES;
        RedisModule_EmitAOF(aof, state_command, state_arguments, key, (long long)at, (char *)state + at, part);
    }
    if (sketch->kind != PARTS) free_block(state);
}

static size_t memory(const void *value)
{
    Sketch *sketch = (Sketch *)value;
    size_t bytes = 0;
    if (sketch->kind != PARTS) ds_memory_bytes(&sketch->handle, &bytes);
    return sizeof *sketch + sketch->room + (sketch->top != NULL ? sketch->capacity * sizeof *sketch->top : 0) + bytes;
}

/* Adds what two equal sketches have in common to a digest: all but keys, and not the order of items. */
static void digest(RedisModuleDigest *to, void *value)
{
    Sketch *sketch = value;
    size_t length = sketch->length;
    uint8_t *image = sketch->kind == PARTS ? sketch->bytes : write_image(sketch, &length);
    RedisModule_DigestAddLongLong(to, sketch->kind);
    RedisModule_DigestAddLongLong(to, (long long)sketch->seed);
    RedisModule_DigestAddLongLong(to, (long long)sketch->capacity);
    RedisModule_DigestAddLongLong(to, (long long)sketch->inserted);
    if (image != NULL) RedisModule_DigestAddStringBuffer(to, (char *)image, length);
    RedisModule_DigestEndSequence(to);
    if (sketch->kind != PARTS) free_block(image);
}

/* Returns how long it takes to free a value: UNLINK frees one above 64 on another thread of the server. */
static size_t free_effort(RedisModuleString *key, const void *value)
{
    Sketch *sketch = (Sketch *)value;
    (void)key;
    if (sketch->kind == DS_FREQUENT_ITEMS_STRING) return (size_t)number_of(sketch, DS_NUMBER_NUM_ACTIVE_ITEMS) + 1;
    return memory(value) >> 14;
}

static void *copy(RedisModuleString *from, RedisModuleString *to, const void *value)
{
    Sketch *sketch = (Sketch *)value, *copied;
    (void)from;
    (void)to;
    if (sketch->kind != PARTS) return clone_value(sketch);
    copied = new_value(PARTS);
    if (copied == NULL) return NULL;
    copied->total = sketch->total;
    if (add_bytes(copied, sketch->bytes, sketch->length)) return copied;
    free_value(copied);
    return NULL;
}

/* Notes when a file is written, or a replica's copy of all keys. */
static void note_saving(RedisModuleCtx *ctx, RedisModuleEvent event, uint64_t what, void *data)
{
    (void)ctx;
    (void)event;
    (void)data;
    is_saving = what != REDISMODULE_SUBEVENT_PERSISTENCE_ENDED && what != REDISMODULE_SUBEVENT_PERSISTENCE_FAILED;
}

/* Creates a type of values. There is no call for the defragmentation: the library's blocks cannot be moved. */
static RedisModuleType *create_type(RedisModuleCtx *ctx, const char *name, RedisModuleTypeLoadFunc load_value)
{
    RedisModuleTypeMethods methods = {
        .version = REDISMODULE_TYPE_METHOD_VERSION,
        .rdb_load = load_value,
        .rdb_save = save,
        .aof_rewrite = rewrite,
        .mem_usage = memory,
        .digest = digest,
        .free = free_value,
        .free_effort = free_effort,
        .copy = copy,
    };
    return RedisModule_CreateDataType(ctx, name, VERSION, &methods);
}

bool create_types(RedisModuleCtx *ctx)
{
    types.filters = create_type(ctx, "rsk-bloom", load_filter);
    types.counts = create_type(ctx, "rsk-count", load_count);
    types.frequent = create_type(ctx, "rsk-items", load_frequent);
    types.parts = create_type(ctx, "rsk-parts", load_parts);
    RedisModule_SetModuleOptions(ctx, REDISMODULE_OPTIONS_HANDLE_IO_ERRORS | REDISMODULE_OPTION_NO_IMPLICIT_SIGNAL_MODIFIED);
    return types.filters != NULL && types.counts != NULL && types.frequent != NULL && types.parts != NULL &&
           RedisModule_SubscribeToServerEvent(ctx, RedisModuleEvent_Persistence, note_saving) == REDISMODULE_OK;
}
