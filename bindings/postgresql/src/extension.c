/* What PostgreSQL calls when it loads the extension. */
#include "extension.h"

#include <limits.h>

#include "miscadmin.h"
#include "utils/guc.h"
#include "utils/memutils.h"

PG_MODULE_MAGIC;

int max_image_bytes = 32 * 1024 * 1024;
int max_frequent_bytes = 8 * 1024 * 1024;
int max_user_bytes = 1024 * 1024 * 1024;
int max_statement_kilobytes = 1024 * 1024;

PGDLLEXPORT void _PG_init(void);

#define MIN_BYTES 1024
#define MAX_BYTES (1024 * 1024 * 1024)

/* Defines a setting of a number of bytes. A value that was set before the library was loaded is an error here if it is no number of
 * this range: PostgreSQL would only warn, and take the default. It warns if the library is loaded before sessions, or before a session's
 * first statement: an error would end them. */
static void define_bytes(const char *name, const char *description, const char *more, int *variable, int initial,
                         GucContext context)
{
    const char *given = GetConfigOption(name, true, false), *hint = NULL;
    int bytes = initial;
    if (given != NULL && IsNormalProcessingMode() &&
        (!parse_int(given, &bytes, GUC_UNIT_BYTE, &hint) || bytes < MIN_BYTES || bytes > MAX_BYTES))
        ereport(ERROR, (errcode(ERRCODE_INVALID_PARAMETER_VALUE), errmsg("invalid value for parameter \"%s\": \"%s\"", name, given),
                        errdetail("It is a number of bytes from %d to %d.", MIN_BYTES, MAX_BYTES), hint ? errhint("%s", hint) : 0));
    DefineCustomIntVariable(name, description, more, variable, initial, MIN_BYTES, MAX_BYTES, context, GUC_UNIT_BYTE, NULL, NULL,
                            NULL);
}

/* Defines the settings, and sets the allocator of the library before all other calls. */
void _PG_init(void)
{
    define_bytes("sketches_rattle.max_image_bytes", "Sets the most bytes that a sketch may take.",
                 "Strings of a sketch are counted.", &max_image_bytes, 32 * 1024 * 1024, PGC_USERSET);
    define_bytes("sketches_rattle.max_frequent_bytes", "Sets the most bytes that a sketch of frequent items may take.",
                 "Strings count at most 64 bytes each. Larger sketches take longer to cancel.", &max_frequent_bytes,
                 8 * 1024 * 1024, PGC_USERSET);
    define_bytes("sketches_rattle.max_user_bytes", "Sets the most bytes that a sketch may take, whatever a user sets.",
                 "Sketches in text and binary form, as dumps have them, keep to this limit alone. Only superusers can change it.",
                 &max_user_bytes, MAX_BYTES, PGC_SUSET);
    DefineCustomIntVariable("sketches_rattle.max_statement_memory",
                            "Sets the most memory that all sketches of a statement and their stored forms may take.",
                            "A parallel worker has as much again. Only superusers can change it.", &max_statement_kilobytes,
                            1024 * 1024, 1024, MAX_KILOBYTES, PGC_SUSET, GUC_UNIT_KB, NULL, NULL, NULL);
#if PG_VERSION_NUM >= 150000
    MarkGUCPrefixReserved("sketches_rattle");
#else
    EmitWarningsOnPlaceholders("sketches_rattle");
#endif
    set_allocator();
}
