/* The module: its arguments and its start. */
#include "module.h"

#include <ctype.h>
#include <string.h>
#include <strings.h>

/* The version as one number, which MODULE LIST shows: 10203 is 1.2.3. */
#define MODULE_VERSION (10000 * DS_VERSION_MAJOR + 100 * DS_VERSION_MINOR + DS_VERSION_PATCH)

/* The limits of the module: arguments of it, and parameters of CONFIG under the module's name. */
static const struct Limit {
    const char *name;
    size_t *value;
    unsigned int flags;
    long long least, most;
} limits[] = {
    {"max-bytes", &max_bytes, REDISMODULE_CONFIG_MEMORY, 1024, (long long)1 << 40},
    {"max-merge-bytes", &max_merge_bytes, REDISMODULE_CONFIG_MEMORY, 1024, (long long)1 << 40},
    {"max-hashes", &max_hashes, REDISMODULE_CONFIG_DEFAULT, 1, INT16_MAX},
};

/* Reads a number, with a unit as in redis.conf if it is one of bytes. Returns false if it is none. */
static bool read_with_unit(RedisModuleString *from, bool is_bytes, long long *number)
{
    static const struct {
        const char *name;
        long long bytes;
    } units[] = {{"", 1},        {"b", 1},        {"k", 1000},       {"kb", 1 << 10},
                 {"m", 1000000}, {"mb", 1 << 20}, {"g", 1000000000}, {"gb", 1 << 30}};
    size_t length, at = 0, unit = 0, num_units = is_bytes ? sizeof units / sizeof *units : 1;
    const char *text = RedisModule_StringPtrLen(from, &length);
    for (*number = 0; at < length && at < 15 && isdigit((unsigned char)text[at]); at++) *number = *number * 10 + (text[at] - '0');
    while (unit < num_units &&
           (strlen(units[unit].name) != length - at || strncasecmp(text + at, units[unit].name, length - at) != 0))
        unit++;
    if (at == 0 || unit == num_units || *number > INT64_MAX / units[unit].bytes) return false;
    *number *= units[unit].bytes;
    return true;
}

/* Reads the value of a limit. Returns false if it is none. */
static bool read_limit(const struct Limit *limit, RedisModuleString *from)
{
    long long number;
    if (!read_with_unit(from, limit->flags == REDISMODULE_CONFIG_MEMORY, &number)) return false;
    if (number < limit->least || number > limit->most) return false;
    *limit->value = (size_t)number;
    return true;
}

static long long get_limit(const char *name, void *value)
{
    (void)name;
    return (long long)*(size_t *)value;
}

static int set_limit(const char *name, long long number, void *value, RedisModuleString **error)
{
    (void)name;
    (void)error;
    *(size_t *)value = (size_t)number;
    return REDISMODULE_OK;
}

/* Makes the limits parameters of CONFIG. Returns whether it did. */
static bool create_parameters(RedisModuleCtx *ctx)
{
    for (size_t i = 0; i < sizeof limits / sizeof *limits; i++)
        if (RedisModule_RegisterNumericConfig(ctx, limits[i].name, get_limit(NULL, limits[i].value), limits[i].flags,
                                              limits[i].least, limits[i].most, get_limit, set_limit, NULL,
                                              limits[i].value) != REDISMODULE_OK)
            return false;
    return RedisModule_LoadConfigs(ctx) == REDISMODULE_OK;
}

/* Reads the capacity of filters that an addition creates. Returns false if it is none. */
static bool read_capacity(RedisModuleString *from)
{
    long long number;
    if (RedisModule_StringToLongLong(from, &number) != REDISMODULE_OK || number <= 0) return false;
    default_capacity = (uint64_t)number;
    return true;
}

/* Reads their rate of false positives. Returns false if it is none. */
static bool read_rate(RedisModuleString *from)
{
    double number;
    if (RedisModule_StringToDouble(from, &number) != REDISMODULE_OK || !(number > 0 && number < 1)) return false;
    default_rate = number;
    return true;
}

/* Reads an argument of the module and its value. Returns false if it is none. */
static bool read_argument(Call *call, int at)
{
    RedisModuleString *value = call->argv[at + 1];
    for (size_t i = 0; i < sizeof limits / sizeof *limits; i++)
        if (is_word(call, at, limits[i].name)) return read_limit(&limits[i], value);
    if (is_word(call, at, "capacity")) return read_capacity(value);
    if (is_word(call, at, "error")) return read_rate(value);
    return is_word(call, at, "seed") && read_seed(value, &default_seed) && is_usable_seed(default_seed);
}

/* Reads the arguments of the module: pairs of a name and a value. Returns false after a message in the server's log. */
static bool read_arguments(Call *call)
{
    for (int i = 0; i < call->argc; i += 2) {
        if (i + 1 < call->argc && read_argument(call, i)) continue;
        RedisModule_Log(
            call->ctx, "warning",
            "the arguments of the module are: max-bytes N, max-merge-bytes N, max-hashes N, capacity N, error R, seed N");
        return false;
    }
    return true;
}

#ifdef RATTLE_FAILING_ALLOCATIONS
static int fail_command(RedisModuleCtx *ctx, RedisModuleString **argv, int argc)
{
    long long count = -1;
    if (argc < 2 || RedisModule_StringToLongLong(argv[1], &count) != REDISMODULE_OK) return RedisModule_WrongArity(ctx);
    return RedisModule_ReplyWithLongLong(ctx, fail_allocations(count, argc == 3));
}
#endif

__attribute__((visibility("default"))) int RedisModule_OnLoad(RedisModuleCtx *ctx, RedisModuleString **argv, int argc);
int RedisModule_OnLoad(RedisModuleCtx *ctx, RedisModuleString **argv, int argc)
{
    Call call = {.ctx = ctx, .argv = argv, .argc = argc};
    if (RedisModule_Init(ctx, "rattle_sketches", MODULE_VERSION, REDISMODULE_APIVER_1) != REDISMODULE_OK) return REDISMODULE_ERR;
    if (RedisModule_TryAlloc == NULL || RedisModule_SetCommandInfo == NULL) {
        RedisModule_Log(ctx, "warning", "the module needs Redis 7.0 or later");
        return REDISMODULE_ERR;
    }
#ifdef RATTLE_FAILING_ALLOCATIONS
    if (RedisModule_CreateCommand(ctx, "SKETCH.FAIL", fail_command, "fast", 0, 0, 0) != REDISMODULE_OK) return REDISMODULE_ERR;
#endif
    return set_allocator() && read_arguments(&call) && create_types(ctx) && create_commands(ctx) && create_parameters(ctx)
               ? REDISMODULE_OK
               : REDISMODULE_ERR;
}
