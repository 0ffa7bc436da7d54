/* The names and messages of results. */
#include "datasketches.h"

/* The results beside the errors of sketches: constant, name and message of each. */
#define OTHER_ERRORS(X) \
    X(DS_NO_SKETCH, "NoSketch", "the handle has no sketch") \
    X(DS_WRONG_KIND, "WrongKind", "the sketch is of another kind") \
    X(DS_NO_ROOM, "NoRoom", "the buffer has not the length that is needed") \
    X(DS_BAD_FRACTION, "BadFraction", "the fraction is not above 0 and at most 1") \
    X(DS_BAD_ARGUMENT, "BadArgument", \
      "items of no kind or with a wrong bitmap, the same handle twice, or null where there are values or options") \
    X(DS_NO_RANDOM, "NoRandom", "the system has no random bytes for a key") \
    X(DS_SHARED, "Shared", "the sketch is shared, and the call changes it") \
    X(DS_NOT_SHARED, "NotShared", "the sketch is not shared")

/* Returns the result's name or its message, or NULL if it has none. */
static const char *text_of(int32_t result, bool is_name)
{
#define OTHER(constant, name, message) \
    if (result == (constant)) return is_name ? (name) : (message);
#define SKETCH(number, constant, name, message) OTHER(constant, name, message)
    OTHER_ERRORS(OTHER)
    DS_SKETCH_ERRORS(SKETCH)
    return NULL;
}

const char *ds_result_name(int32_t result)
{
    const char *name = text_of(result, true);
    return name != NULL ? name : result < 0 ? "Unknown" : "Ok";
}

const char *ds_result_message(int32_t result)
{
    const char *message = text_of(result, false);
    return message != NULL ? message : result < 0 ? "unknown" : "ok";
}
