/* Errors of commands, and other replies. The words of BF, CMS and TOPK are those that their clients know. */
#include "module.h"

#include <stdio.h>
#include <string.h>

const char no_memory[] = "OOM out of memory: nothing changed";
const char bad_data[] = "ERR received bad data";
const char bad_syntax[] = "ERR syntax error";
const char bad_number[] = "ERR value is not an integer or out of range";
const char too_much[] = "ERR a sketch of this command takes more bytes than the module's max-bytes";
const char too_many_hashes[] = "ERR a sketch of this command has more hashes than the module's max-hashes";

int reply_error(Call *call, const char *error)
{
    return RedisModule_ReplyWithError(call->ctx, error);
}

const char *message_of(int32_t result)
{
    if (result == BAD_CHECKSUM) return "wrong checksum";
    if (result == TOO_MANY_HASHES) return "more hashes than max-hashes";
    if (result == DS_TABLE_TOO_LARGE) return "more bytes than max-bytes";
    if (result == TOO_MUCH_TO_MERGE) return "the sketches of a merge take more bytes than the module's max-merge-bytes";
    return ds_result_message(result);
}

int reply_result(Call *call, int32_t result)
{
    char error[128];
    if (result == DS_NO_MEMORY) return reply_error(call, no_memory);
    if (result == DS_TABLE_TOO_LARGE) return reply_error(call, too_much);
    if (result == TOO_MANY_HASHES) return reply_error(call, too_many_hashes);
    snprintf(error, sizeof error, "ERR %s", message_of(result));
    return reply_error(call, error);
}

void reply_number(Call *call, const char *name, uint64_t number)
{
    RedisModule_ReplyWithCString(call->ctx, name); /* scripts take no simple strings as names */
    RedisModule_ReplyWithLongLong(call->ctx, (long long)number);
}

int reply_fields(Call *call, const Field *fields, size_t count)
{
    RedisModule_ReplyWithMap(call->ctx, (long)count);
    for (size_t i = 0; i < count; i++) reply_number(call, fields[i].name, number_of(call->sketch, fields[i].number));
    return REDISMODULE_OK;
}

/* The words of a family of commands for a key that is not there, and for one that is. */
static const struct Family {
    const char *prefix, *missing, *exists;
} families[] = {
    {"BF.", "ERR not found", "ERR item exists"},
    {"CMS.", "CMS: key does not exist", "CMS: key already exists"},
    {"TOPK.", "TopK: key does not exist", "TopK: key already exists"},
    {"", "ERR no such key", "BUSYKEY Target key name already exists."},
};

static const struct Family *family_of(Call *call)
{
    const struct Family *family = families;
    while (strncmp(call->name, family->prefix, strlen(family->prefix)) != 0) family++;
    return family;
}

int reply_missing(Call *call)
{
    return reply_error(call, family_of(call)->missing);
}

int reply_exists(Call *call)
{
    return reply_error(call, family_of(call)->exists);
}
