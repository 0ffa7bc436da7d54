/* Calls of commands: their keys, their arguments, and what of them goes to replicas. */
#include "module.h"

#include <math.h>
#include <string.h>
#include <strings.h>

/* Returns whether a value of a type is one of a kind, or of any sketch if the kind is 0. */
static bool is_kind(const RedisModuleType *type, Kind kind)
{
    if (kind != 0) return type == type_of(kind);
    return type == types.filters || type == types.counts || type == types.frequent;
}

/* Returns the error of a value of another type to the client. */
static bool wrong_type(Call *call)
{
    RedisModule_ReplyWithError(call->ctx, REDISMODULE_ERRORMSG_WRONGTYPE);
    return false;
}

bool open_call(Call *call, Kind kind, Access access)
{
    int mode = access == READS || access == READS_ANY ? REDISMODULE_READ : REDISMODULE_READ | REDISMODULE_WRITE;
    const RedisModuleType *type;
    call->key = RedisModule_OpenKey(call->ctx, call->argv[1], mode);
    if (RedisModule_KeyType(call->key) == REDISMODULE_KEYTYPE_EMPTY) {
        if (access != READS && access != WRITES) return true;
        reply_missing(call);
        return false;
    }
    type = RedisModule_ModuleTypeGetType(call->key);
    if (type == NULL || !(is_kind(type, kind) || (access == REPLACES && type == types.parts))) return wrong_type(call);
    call->sketch = RedisModule_ModuleTypeGetValue(call->key);
    if (access == CREATES) reply_exists(call);
    return access != CREATES;
}

void close_call(Call *call)
{
    RedisModule_CloseKey(call->key);
}

RedisModuleKey *open_other(Call *call, RedisModuleString *name, Kind kind, Sketch **sketch)
{
    RedisModuleKey *key = RedisModule_OpenKey(call->ctx, name, REDISMODULE_READ);
    if (key == NULL) {
        reply_missing(call);
        return NULL;
    }
    if (!is_kind(RedisModule_ModuleTypeGetType(key), kind)) {
        RedisModule_CloseKey(key);
        wrong_type(call);
        return NULL;
    }
    *sketch = RedisModule_ModuleTypeGetValue(key);
    return key;
}

void put_value(Call *call, Sketch *sketch)
{
    mstime_t expires = RedisModule_GetAbsExpire(call->key);
    void *before;
    if (RedisModule_ModuleTypeReplaceValue(call->key, type_of(sketch->kind), sketch, &before) == REDISMODULE_OK) {
        free_value(before);
    } else {
        RedisModule_ModuleTypeSetValue(call->key, type_of(sketch->kind), sketch);
        if (expires != REDISMODULE_NO_EXPIRE) RedisModule_SetAbsExpire(call->key, expires);
    }
    call->sketch = sketch;
}

void create_value(Call *call, Sketch *sketch)
{
    put_value(call, sketch);
    replicate_state(call, sketch);
}

void note_change(Call *call)
{
    char event[32];
    size_t length = 0;
    if (call->is_noted) return;
    call->is_noted = true;
    for (; length < sizeof event - 1 && call->name[length] != '\0'; length++) {
        char letter = call->name[length];
        event[length] = letter >= 'A' && letter <= 'Z' ? (char)(letter - 'A' + 'a') : letter;
    }
    event[length] = '\0';
    RedisModule_SignalModifiedKey(call->ctx, call->argv[1]);
    RedisModule_NotifyKeyspaceEvent(call->ctx, REDISMODULE_NOTIFY_MODULE, event, call->argv[1]);
}

void replicate_call(Call *call)
{
    note_change(call);
    RedisModule_ReplicateVerbatim(call->ctx);
}

bool number_argument(Call *call, int at, long long least, long long most, const char *error, long long *number)
{
    if (RedisModule_StringToLongLong(call->argv[at], number) == REDISMODULE_OK && *number >= least && *number <= most) return true;
    reply_error(call, error);
    return false;
}

bool fraction_argument(Call *call, int at, const char *no_number, const char *out_of_range, double *number)
{
    if (RedisModule_StringToDouble(call->argv[at], number) != REDISMODULE_OK) {
        reply_error(call, no_number);
        return false;
    }
    if (*number > 0 && *number < 1) return true;
    reply_error(call, out_of_range);
    return false;
}

bool read_seed(RedisModuleString *from, uint64_t *seed)
{
    size_t length;
    const char *digits = RedisModule_StringPtrLen(from, &length);
    uint64_t number = 0;
    bool is_number = length > 0;
    for (size_t i = 0; i < length && is_number; i++) {
        uint64_t digit = (uint64_t)digits[i] - '0';
        is_number = digit <= 9 && number <= (UINT64_MAX - digit) / 10;
        number = number * 10 + digit;
    }
    if (is_number) *seed = number;
    return is_number;
}

bool seed_option(Call *call, int *at, uint64_t *seed)
{
    if (*at < call->argc && is_word(call, *at, "KEYED")) {
        *seed = random_seed();
        *at += 1;
    } else if (*at + 1 < call->argc && is_word(call, *at, "SEED")) {
        if (!read_seed(call->argv[*at + 1], seed)) {
            reply_error(call, bad_number);
            return false;
        }
        *at += 2;
    }
    return true;
}

bool is_word(Call *call, int at, const char *word)
{
    size_t length;
    const char *bytes = RedisModule_StringPtrLen(call->argv[at], &length);
    return length == strlen(word) && strncasecmp(bytes, word, length) == 0;
}

size_t limit_of(Call *call)
{
    int flags = RedisModule_GetContextFlags(call->ctx);
    bool is_told = (flags & (REDISMODULE_CTX_FLAGS_REPLICATED | REDISMODULE_CTX_FLAGS_LOADING)) != 0;
    return is_told ? SIZE_MAX : max_bytes;
}

bool check_limit(Call *call, uint64_t bytes)
{
    if (bytes <= max_bytes || bytes <= limit_of(call)) return true;
    reply_error(call, too_much);
    return false;
}

bool check_hashes(Call *call, uint64_t hashes)
{
    if (hashes <= max_hashes || limit_of(call) == SIZE_MAX) return true;
    reply_error(call, too_many_hashes);
    return false;
}

uint64_t inverse(double fraction)
{
    double number = 1 / fraction, nearest = rint(number);
    if (fabs(number - nearest) > nearest * 1e-9) nearest = ceil(number);
    return nearest < 9.2e18 ? (uint64_t)nearest : INT64_MAX;
}
