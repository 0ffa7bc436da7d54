/* The errors of the extension, each with its SQLSTATE: a standard one where one fits, and else one of the class SK. `errors.txt` lists
 * them. */
#include "extension.h"

/* Returns the SQLSTATE of the class SK with this number. */
#define SK(number) MAKE_SQLSTATE('S', 'K', '0', '0' + (number) / 10, '0' + (number) % 10)

/* Errors of the library with a standard SQLSTATE. The last four come from no call of the extension. */
static const struct {
    int32_t result;
    int state;
} states[] = {
    {DS_NO_MEMORY, ERRCODE_OUT_OF_MEMORY},
    {DS_NO_RANDOM, ERRCODE_SYSTEM_ERROR},
    {DS_TABLE_TOO_LARGE, ERRCODE_PROGRAM_LIMIT_EXCEEDED},
    {DS_ITEM_TOO_LONG, ERRCODE_PROGRAM_LIMIT_EXCEEDED},
    {DS_WEIGHT_OVERFLOW, ERRCODE_NUMERIC_VALUE_OUT_OF_RANGE},
    {DS_INVALID_UTF8, ERRCODE_CHARACTER_NOT_IN_REPERTOIRE},
    {DS_BAD_FRACTION, ERRCODE_INVALID_PARAMETER_VALUE},
    {DS_BAD_NUM_BITS, ERRCODE_INVALID_PARAMETER_VALUE},
    {DS_BAD_NUM_HASHES, ERRCODE_INVALID_PARAMETER_VALUE},
    {DS_BAD_NUM_BUCKETS, ERRCODE_INVALID_PARAMETER_VALUE},
    {DS_ZERO_SEED_HASH, ERRCODE_INVALID_PARAMETER_VALUE},
    {DS_MAP_SIZE_NOT_POWER_OF_TWO, ERRCODE_INVALID_PARAMETER_VALUE},
    {DS_MAP_SIZE_TOO_SMALL, ERRCODE_INVALID_PARAMETER_VALUE},
    {DS_MAP_SIZE_TOO_LARGE, ERRCODE_INVALID_PARAMETER_VALUE},
    {DS_BAD_SAMPLE_SIZE, ERRCODE_INTERNAL_ERROR},
    {DS_BAD_WINDOWS, ERRCODE_INTERNAL_ERROR},
    {DS_BAD_OFFSETS, ERRCODE_INTERNAL_ERROR},
    {DS_BAD_WEIGHT, ERRCODE_INTERNAL_ERROR},
};

/* Returns the SQLSTATE of a result below 0: a standard one, that of the class SK for other errors of sketches, such as a mismatch and
 * the checks of images, or that of an internal error. */
static int state_of(int32_t result)
{
    for (size_t i = 0; i < lengthof(states); i++)
        if (states[i].result == result) return states[i].state;
#define OF_SKETCHES(number, constant, name, message) \
    if (result == constant) return SK(-(number));
    DS_SKETCH_ERRORS(OF_SKETCHES)
#undef OF_SKETCHES
    return ERRCODE_INTERNAL_ERROR;
}

void raise_total(size_t bytes)
{
    ereport(
        ERROR,
        (errcode(ERRCODE_OUT_OF_MEMORY),
         errmsg(
             "the sketches of a statement would take %zu bytes, more than sketches_rattle.max_statement_memory, which is %zu bytes",
             bytes, (size_t)max_statement_kilobytes * 1024),
         errdetail("The stored forms that functions read, keep or return are counted."),
         errhint("A superuser raises it by ALTER DATABASE .. SET sketches_rattle.max_statement_memory = .. for all sessions.")));
    pg_unreachable();
}

void raise_result(int32_t result)
{
    size_t refused = take_refused();
    if (result == DS_NO_MEMORY && refused > 0) raise_total(refused);
    ereport(ERROR, (errcode(state_of(result)), errmsg("%s", ds_result_message(result)),
                    errdetail("The library returned %s.", ds_result_name(result))));
    pg_unreachable();
}

void raise_argument(const char *message)
{
    ereport(ERROR, (errcode(ERRCODE_INVALID_PARAMETER_VALUE), errmsg("%s", message)));
    pg_unreachable();
}

void raise_items(const char *message, const char *hint)
{
    ereport(ERROR, (errcode(SK(2)), errmsg("%s", message), hint != NULL ? errhint("%s", hint) : 0));
    pg_unreachable();
}

void raise_kind(const char *message)
{
    ereport(ERROR, (errcode(SK(1)), errmsg("%s", message)));
    pg_unreachable();
}

void raise_version(int version, int read)
{
    ereport(ERROR, (errcode(SK(1)), errmsg("the sketch has version %d of the stored form", version),
                    errdetail("This version of the extension reads version %d.", read)));
    pg_unreachable();
}

void raise_sizes(void)
{
    ereport(ERROR, (errcode(SK(3)), errmsg("the sizes of a sketch differ between rows of a group")));
    pg_unreachable();
}

void raise_limit(size_t limit, uint64 bytes)
{
    bool is_users = limit != (size_t)max_user_bytes;
    const char *setting = !is_users                          ? "sketches_rattle.max_user_bytes"
                          : limit == (size_t)max_image_bytes ? "sketches_rattle.max_image_bytes"
                                                             : "sketches_rattle.max_frequent_bytes";
    ereport(ERROR,
            (errcode(ERRCODE_PROGRAM_LIMIT_EXCEEDED),
             bytes == 0 ? errmsg("a sketch takes more than %s, which is %zu bytes", setting, limit)
                        : errmsg("a sketch takes " UINT64_FORMAT " bytes, more than %s, which is %zu", bytes, setting, limit),
             is_users ? errhint("Raise it by SET for this session, or by ALTER DATABASE .. SET %s = .. for all.", setting)
                      : errhint("A superuser raises it by ALTER DATABASE .. SET %s = .. for all sessions.", setting)));
    pg_unreachable();
}

void raise_stored(uint64 bytes)
{
    ereport(ERROR, (errcode(ERRCODE_PROGRAM_LIMIT_EXCEEDED),
                    errmsg("a sketch of " UINT64_FORMAT " bytes is not stored: the limit is %d bytes", bytes, MAX_STORED_BYTES),
                    errdetail("Its text form, which pg_dump writes, would have about 1 GB or more.")));
    pg_unreachable();
}

void raise_mismatch(ds_sketch *handle, ds_sketch *other)
{
    ds_status a = status_of(handle), b = status_of(other);
    bool is_filter = a.kind == DS_BLOOM;
    uint64 size = is_filter ? a.num_bits : a.num_buckets, other_size = is_filter ? b.num_bits : b.num_buckets;
    const char *name = is_filter ? "bits" : "buckets";
    ereport(ERROR, (errcode(SK(-DS_MISMATCH)), errmsg("the shapes or seeds of two sketches differ"),
                    errdetail("One has " UINT64_FORMAT " %s, %u hashes and the seed " UINT64_FORMAT ", the other " UINT64_FORMAT
                              " %s, %u hashes and the seed " UINT64_FORMAT ".",
                              size, name, a.num_hashes, a.seed, other_size, name, b.num_hashes, b.seed)));
    pg_unreachable();
}

int64 as_bigint(uint64 number)
{
    if (number > PG_INT64_MAX) ereport(ERROR, (errcode(ERRCODE_NUMERIC_VALUE_OUT_OF_RANGE), errmsg("bigint out of range")));
    return (int64)number;
}
