/* Calls on one item, of each kind of an item and of a sketch, beside the calls on many: what they do, and the order of their errors.
 * Prints the checks that failed. Exits with 1 if there is any. */
#include <datasketches.h>
#include <string.h>

#include "check.h"
#include "options.h"

enum { SKETCHES = 6, ITEM_KINDS = 4, ITEMS = 6, BUCKETS = 16 };

static const ds_key KEY = {0x0706050403020100, 0x0f0e0d0c0b0a0908};

/* --- Items. --- */

static const uint64_t NUMBERS[ITEMS] = {0, 1, 255, 1u << 20, 1ull << 63, UINT64_MAX};
static const char *const STRINGS[ITEMS] = {
    "", "a", "\xc3\xa4", "tea", "a longer string than one of 32 bytes, by some", "\xf0\x9f\x98\x80"};

/* What is hashed of the numbers, and of the strings. */
static uint8_t hashed[2][ITEMS][64];

/* The items of each kind. Those given by the bytes that are hashed are the numbers. */
static ds_item items[ITEM_KINDS][ITEMS];

/* The strings, given by the bytes that are hashed. */
static ds_item fed_strings[ITEMS];

static void make_items(void)
{
    for (size_t i = 0; i < ITEMS; i++) {
        const uint8_t *string = (const uint8_t *)STRINGS[i];
        size_t length = strlen(STRINGS[i]);
        for (size_t k = 0; k < 8; k++) hashed[0][i][k] = (uint8_t)(NUMBERS[i] >> 8 * k);
        memcpy(hashed[1][i], string, length);
        hashed[1][i][length] = 255;
        items[DS_ITEM_U64][i] = ds_item_u64(NUMBERS[i]);
        items[DS_ITEM_I64][i] = ds_item_i64((int64_t)NUMBERS[i]);
        items[DS_ITEM_STRING][i] = ds_item_string(string, length);
        items[DS_ITEM_FED][i] = ds_item_fed(hashed[0][i], 8);
        fed_strings[i] = ds_item_fed(hashed[1][i], length + 1);
    }
}

/* The members of an item of each kind: those of others are 0, or point to no values. */
static void members(void)
{
    const uint8_t *bytes = (const uint8_t *)"tea";
    ds_item made[ITEM_KINDS] = {ds_item_u64(7), ds_item_i64(-7), ds_item_string(bytes, 3), ds_item_fed(bytes, 3)};
    for (int32_t kind = 0; kind < ITEM_KINDS; kind++) {
        bool is_number = kind < DS_ITEM_STRING;
        CHECK(made[kind].kind == kind && made[kind].bytes != NULL);
        CHECK(is_number ? made[kind].length == 0 : made[kind].number == 0);
        CHECK(is_number || (made[kind].bytes == bytes && made[kind].length == 3));
    }
    CHECK(made[DS_ITEM_U64].number == 7 && made[DS_ITEM_I64].number == UINT64_MAX - 6);
    /* no bytes at null are none, and others stay at null */
    CHECK(ds_item_string(NULL, 0).bytes && ds_item_string(NULL, 0).length == 0 && !ds_item_string(NULL, 1).bytes);
    CHECK(ds_item_fed(NULL, 0).bytes && ds_item_fed(NULL, 0).length == 0 && !ds_item_fed(NULL, 1).bytes);
}

/* Returns an item as many, which are one. They point to it, or to the string. */
static ds_items as_many(const ds_item *item, ds_string *string)
{
    *string = (ds_string){item->bytes, item->length};
    switch (item->kind) {
    case DS_ITEM_U64: return ds_items_u64(&item->number, 1);
    case DS_ITEM_I64: return ds_items_i64((const int64_t *)&item->number, 1);
    case DS_ITEM_STRING: return ds_items_strings(string, 1);
    default: return ds_items_fed(string, 1);
    }
}

/* --- Sketches. --- */

/* Puts a sketch of a kind into the handle, with items of the total weight 10. */
static bool create(ds_sketch *handle, int32_t kind)
{
    const int32_t own[SKETCHES + 1] = {-1, DS_ITEM_U64, DS_ITEM_STRING, DS_ITEM_FED, DS_ITEM_U64, DS_ITEM_I64, DS_ITEM_STRING};
    bool is_new = kind == DS_BLOOM               ? ds_bloom_new(handle, 4096, 3, 9001) == DS_OK
                  : kind < DS_FREQUENT_ITEMS_U64 ? ds_count_min_new(handle, kind, 3, BUCKETS, 9001) == DS_OK
                                                 : ds_frequent_items_new(handle, kind, 64, 4, &KEY) == DS_OK;
    for (size_t i = 1; i < 3; i++) {
        const ds_item *item = &items[own[kind]][i];
        is_new = is_new && (kind == DS_BLOOM           ? ds_bloom_insert(handle, item)
                            : kind == DS_COUNT_MIN_I64 ? ds_count_min_i64_update(handle, item, -5)
                                                       : ds_update(handle, item, 5)) == DS_OK;
    }
    return is_new;
}

/* The image of a sketch and its numbers. */
struct snapshot {
    size_t length;
    uint8_t image[2048];
    ds_status status;
};

static struct snapshot snapshot_of(ds_sketch *handle)
{
    struct snapshot taken;
    memset(&taken, 0, sizeof taken);
    CHECK(ds_serialize(handle, taken.image, sizeof taken.image, &taken.length) == DS_OK && taken.length > 24);
    CHECK(ds_get_status(handle, &taken.status) == DS_OK);
    return taken;
}

static bool is_as(const struct snapshot *before, ds_sketch *handle)
{
    struct snapshot now = snapshot_of(handle);
    return memcmp(before, &now, sizeof now) == 0;
}

/* --- Calls. --- */

/* What calls write. */
struct written {
    uint64_t number;
    int64_t with_sign;
    ds_item_bounds bounds;
};

static const struct written UNTOUCHED = {77, -77, {7, 77, 777}};

static bool is_untouched(const struct written *it)
{
    return memcmp(it, &UNTOUCHED, sizeof *it) == 0;
}

enum { INSERT, CONTAINS, CONTAINS_AND_INSERT, UPDATE, UPDATE_I64, ESTIMATE, ESTIMATE_I64, BOUND, BOUND_I64, BOUNDS, CALLS };

/* The kinds of sketches that have each call, as bits, and whether it changes the sketch. */
static const struct {
    unsigned kinds;
    bool changes;
} HAVE[CALLS] = {
    [INSERT] = {1u << DS_BLOOM, true},
    [CONTAINS] = {1u << DS_BLOOM, false},
    [CONTAINS_AND_INSERT] = {1u << DS_BLOOM, true},
    [UPDATE] = {1u << DS_COUNT_MIN_U64 | 1u << DS_FREQUENT_ITEMS_U64 | 1u << DS_FREQUENT_ITEMS_I64 | 1u << DS_FREQUENT_ITEMS_STRING,
                true},
    [UPDATE_I64] = {1u << DS_COUNT_MIN_I64, true},
    [ESTIMATE] = {1u << DS_COUNT_MIN_U64, false},
    [ESTIMATE_I64] = {1u << DS_COUNT_MIN_I64, false},
    [BOUND] = {1u << DS_COUNT_MIN_U64, false},
    [BOUND_I64] = {1u << DS_COUNT_MIN_I64, false},
    [BOUNDS] = {1u << DS_FREQUENT_ITEMS_U64 | 1u << DS_FREQUENT_ITEMS_I64 | 1u << DS_FREQUENT_ITEMS_STRING, false},
};

static int32_t make(int call, ds_sketch *handle, const ds_item *item, struct written *out)
{
    switch (call) {
    case INSERT: return ds_bloom_insert(handle, item);
    case CONTAINS: return ds_bloom_contains(handle, item);
    case CONTAINS_AND_INSERT: return ds_bloom_contains_and_insert(handle, item);
    case UPDATE: return ds_update(handle, item, 9);
    case UPDATE_I64: return ds_count_min_i64_update(handle, item, -9);
    case ESTIMATE: return ds_count_min_u64_estimate(handle, item, &out->number);
    case ESTIMATE_I64: return ds_count_min_i64_estimate(handle, item, &out->with_sign);
    case BOUND: return ds_count_min_u64_upper_bound(handle, item, &out->number);
    case BOUND_I64: return ds_count_min_i64_upper_bound(handle, item, &out->with_sign);
    default: return ds_frequent_items_bounds(handle, item, &out->bounds);
    }
}

/* The margin of upper bounds: e * 10 / 16, rounded down. */
enum { MARGIN = 1 };

/* Makes the call on many items that does the same. An upper bound is an estimate and the margin. */
static int32_t make_all(int call, ds_sketch *handle, const ds_items *many, struct written *out)
{
    bool found = false;
    int32_t result;
    switch (call) {
    case INSERT: return ds_bloom_insert_all(handle, many);
    case CONTAINS: result = ds_bloom_contains_all(handle, many, &found, 1); break;
    case CONTAINS_AND_INSERT: result = ds_bloom_contains_and_insert_all(handle, many, &found, 1); break;
    case UPDATE: return ds_update_all_weighted(handle, many, &(uint64_t){9}, 1);
    case UPDATE_I64: return ds_count_min_i64_update_all_weighted(handle, many, &(int64_t){-9}, 1);
    case ESTIMATE:
    case BOUND: result = ds_count_min_u64_estimate_all(handle, many, &out->number, 1); break;
    case ESTIMATE_I64:
    case BOUND_I64: result = ds_count_min_i64_estimate_all(handle, many, &out->with_sign, 1); break;
    default: result = ds_frequent_items_bounds_all(handle, many, &out->bounds, 1);
    }
    if (call == BOUND) out->number += MARGIN;
    if (call == BOUND_I64) out->with_sign += MARGIN;
    return result < 0 ? result : found;
}

/* Returns whether a sketch takes an item. */
static bool takes(int32_t kind, int32_t item)
{
    const int32_t own[3] = {DS_ITEM_U64, DS_ITEM_I64, DS_ITEM_STRING};
    return kind < DS_FREQUENT_ITEMS_U64 || own[kind - DS_FREQUENT_ITEMS_U64] == item;
}

/* Each call does to each kind of sketch with each kind of item what the call on many does to its clone. */
static void each_kind(void)
{
    for (int32_t kind = 1; kind <= SKETCHES; kind++) {
        for (int call = 0; call < CALLS; call++) {
            bool has_call = HAVE[call].kinds >> kind & 1;
            for (int32_t form = 0; form < ITEM_KINDS; form++) {
                for (size_t i = 0; i < ITEMS; i++) {
                    ds_sketch one = DS_NONE, other = DS_NONE;
                    struct written out = UNTOUCHED, wanted = UNTOUCHED;
                    ds_string string;
                    const ds_items many = as_many(&items[form][i], &string);
                    CHECK(create(&one, kind) && ds_clone(&other, &one) == DS_OK);
                    struct snapshot before = snapshot_of(&one);
                    int32_t result = make(call, &one, &items[form][i], &out);
                    if (has_call && takes(kind, form)) {
                        CHECK(result >= 0 && result == make_all(call, &other, &many, &wanted));
                        struct snapshot after = snapshot_of(&other);
                        CHECK(is_as(&after, &one) && memcmp(&out, &wanted, sizeof out) == 0);
                        CHECK(HAVE[call].changes || is_as(&before, &one));
                        CHECK((call < ESTIMATE) == is_untouched(&out));
                    } else {
                        CHECK(result == DS_WRONG_KIND && is_as(&before, &one) && is_untouched(&out));
                    }
                    ds_free(&one);
                    ds_free(&other);
                }
            }
        }
    }
}

/* --- Errors. --- */

static const int32_t UNKNOWN[] = {-1, ITEM_KINDS, DS_ITEMS_FED, 256, 65536, INT32_MIN, INT32_MAX};

/* Returns an item of no kind. */
static ds_item of_no_kind(size_t i)
{
    ds_item item = ds_item_string((const uint8_t *)"\xff", 1);
    item.kind = UNKNOWN[i];
    return item;
}

/* Strings that are not UTF-8. */
static const char *const INVALID[] = {"\xff", "a\xc3", "\xc0\x80", "\xed\xa0\x80", "\xf4\x90\x80\x80"};

/* Checks that the call returns the error, and changes neither the sketch, if any, nor what it writes. */
static void rejected(int call, ds_sketch *handle, const struct snapshot *before, const ds_item *item, int32_t error)
{
    struct written out = UNTOUCHED;
    CHECK(make(call, handle, item, &out) == error && is_untouched(&out));
    CHECK(before ? is_as(before, handle) : !handle->sketch);
}

/* The first error: DS_BAD_ARGUMENT for an unknown kind, DS_INVALID_UTF8, and those of handles. */
static void errors(int call, ds_sketch *handle, const struct snapshot *before, int32_t of_handle)
{
    for (size_t i = 0; i < sizeof UNKNOWN / sizeof *UNKNOWN; i++) {
        const ds_item item = of_no_kind(i);
        rejected(call, handle, before, &item, DS_BAD_ARGUMENT);
    }
    for (size_t i = 0; i < sizeof INVALID / sizeof *INVALID; i++) {
        const ds_item item = ds_item_string((const uint8_t *)INVALID[i], strlen(INVALID[i]));
        rejected(call, handle, before, &item, DS_INVALID_UTF8);
    }
    for (int32_t form = 0; of_handle != DS_OK && form < ITEM_KINDS; form++)
        rejected(call, handle, before, &items[form][1], of_handle);
}

static void error_order(void)
{
    for (int call = 0; call < CALLS; call++) {
        ds_sketch none = DS_NONE;
        errors(call, &none, NULL, DS_NO_SKETCH);
        for (int32_t kind = 1; kind <= SKETCHES; kind++) {
            bool has_call = HAVE[call].kinds >> kind & 1;
            ds_sketch one = DS_NONE, other = DS_NONE;
            struct written out = UNTOUCHED;
            CHECK(create(&one, kind));
            struct snapshot before = snapshot_of(&one);
            errors(call, &one, &before, has_call ? DS_OK : DS_WRONG_KIND);
            /* a shared sketch, of whatever kind, is not changed, and read as any other */
            CHECK(ds_freeze(&one) == DS_OK && ds_share(&other, &one) == DS_OK);
            errors(call, &other, &before, HAVE[call].changes ? DS_SHARED : has_call ? DS_OK : DS_WRONG_KIND);
            if (!HAVE[call].changes && has_call) {
                for (int32_t form = 0; form < ITEM_KINDS; form++) {
                    int32_t result = make(call, &other, &items[form][1], &out);
                    CHECK(takes(kind, form) ? result >= 0 : result == DS_WRONG_KIND);
                }
            }
            ds_free(&one);
            ds_free(&other);
        }
    }
}

/* The calls' own errors come last. */
static void overflows(void)
{
    for (int32_t kind = DS_COUNT_MIN_U64; kind <= SKETCHES; kind++) {
        ds_sketch one = DS_NONE;
        CHECK(create(&one, kind));
        struct snapshot before = snapshot_of(&one);
        for (int32_t form = 0; form < ITEM_KINDS; form++) {
            const ds_item *item = &items[form][1];
            int32_t wanted = takes(kind, form) ? DS_WEIGHT_OVERFLOW : DS_WRONG_KIND;
            if (kind != DS_COUNT_MIN_I64) {
                CHECK(ds_update(&one, item, UINT64_MAX) == wanted && ds_update(&one, item, UINT64_MAX - 9) == wanted);
                CHECK(ds_count_min_i64_update(&one, item, 1) == DS_WRONG_KIND);
            } else {
                CHECK(ds_count_min_i64_update(&one, item, INT64_MIN) == DS_WEIGHT_OVERFLOW);
                CHECK(ds_count_min_i64_update(&one, item, INT64_MAX - 9) == DS_WEIGHT_OVERFLOW);
                CHECK(ds_update(&one, item, 1) == DS_WRONG_KIND);
            }
        }
        CHECK(is_as(&before, &one));
        /* the largest weight for which there is room, and then none */
        const ds_item own = kind == DS_FREQUENT_ITEMS_STRING ? items[DS_ITEM_STRING][1]
                            : kind == DS_FREQUENT_ITEMS_I64  ? items[DS_ITEM_I64][1]
                                                             : items[DS_ITEM_U64][1];
        if (kind == DS_COUNT_MIN_I64) CHECK(ds_count_min_i64_update(&one, &own, -(INT64_MAX - 10)) == DS_OK);
        else CHECK(ds_update(&one, &own, UINT64_MAX - 10) == DS_OK && ds_update(&one, &own, 0) == DS_OK);
        if (kind == DS_COUNT_MIN_I64) CHECK(ds_count_min_i64_update(&one, &own, 1) == DS_WEIGHT_OVERFLOW);
        else CHECK(ds_update(&one, &own, 1) == DS_WEIGHT_OVERFLOW);
        ds_free(&one);
    }
}

/* --- Images in place. --- */

static int32_t in_place(int32_t kind, const uint8_t *image, size_t length, const ds_item *item, struct written *out)
{
    if (kind == DS_BLOOM) return ds_bloom_image_contains(image, length, item);
    return kind == DS_COUNT_MIN_U64 ? ds_count_min_u64_image_estimate(image, length, 9001, item, &out->number)
                                    : ds_count_min_i64_image_estimate(image, length, 9001, item, &out->with_sign);
}

/* Calls on an image return what those on its sketch do, and the errors of the item before those of the image. */
static void images(void)
{
    const int of_sketch[] = {-1, CONTAINS, ESTIMATE, ESTIMATE_I64};
    for (int32_t kind = DS_BLOOM; kind <= DS_COUNT_MIN_I64; kind++) {
        ds_sketch one = DS_NONE;
        struct written out = UNTOUCHED;
        CHECK(create(&one, kind));
        struct snapshot it = snapshot_of(&one);
        for (int32_t form = 0; form < ITEM_KINDS; form++) {
            for (size_t i = 0; i < ITEMS; i++) {
                struct written wanted = UNTOUCHED;
                const ds_item *item = &items[form][i];
                out = UNTOUCHED;
                CHECK(in_place(kind, it.image, it.length, item, &out) == make(of_sketch[kind], &one, item, &wanted));
                CHECK(memcmp(&out, &wanted, sizeof out) == 0 && is_untouched(&out) == (kind == DS_BLOOM));
            }
        }
        out = UNTOUCHED;
        for (size_t length = 0; length <= it.length; length += it.length) {
            for (size_t i = 0; i < sizeof UNKNOWN / sizeof *UNKNOWN; i++) {
                const ds_item item = of_no_kind(i);
                CHECK(in_place(kind, it.image, length, &item, &out) == DS_BAD_ARGUMENT);
            }
            for (size_t i = 0; i < sizeof INVALID / sizeof *INVALID; i++) {
                const ds_item item = ds_item_string((const uint8_t *)INVALID[i], strlen(INVALID[i]));
                CHECK(in_place(kind, it.image, length, &item, &out) == DS_INVALID_UTF8);
            }
        }
        for (int32_t form = 0; form < ITEM_KINDS; form++) {
            const ds_item *item = &items[form][1];
            CHECK(in_place(kind, it.image, it.length - 1, item, &out) == DS_INSUFFICIENT_DATA);
            CHECK(in_place(kind == DS_BLOOM ? DS_COUNT_MIN_U64 : DS_BLOOM, it.image, it.length, item, &out) == DS_BAD_FAMILY);
            if (kind == DS_BLOOM) continue;
            CHECK(ds_count_min_u64_image_estimate(it.image, it.length, 1, item, &out.number) == DS_SEED_HASH_MISMATCH);
            CHECK(ds_count_min_i64_image_estimate(it.image, it.length, 1, item, &out.with_sign) == DS_SEED_HASH_MISMATCH);
        }
        CHECK(is_untouched(&out));
        ds_free(&one);
    }
}

/* --- The same item. --- */

/* To filters and Count-Min sketches, an item and the bytes that are hashed of it are the same, and so are a number in both types. Each
 * sketch gets one of the forms, and is asked for the others. */
static void same_items(void)
{
    for (int32_t kind = DS_BLOOM; kind <= DS_COUNT_MIN_I64; kind++) {
        for (size_t i = 0; i < ITEMS; i++) {
            const ds_item numbers[3] = {items[DS_ITEM_U64][i], items[DS_ITEM_I64][i], items[DS_ITEM_FED][i]};
            const ds_item strings[3] = {items[DS_ITEM_STRING][i], fed_strings[i], items[DS_ITEM_STRING][i]};
            for (int of_strings = 0; of_strings < 2; of_strings++) {
                const ds_item *forms = of_strings ? strings : numbers;
                ds_sketch added[3] = {DS_NONE, DS_NONE, DS_NONE};
                for (size_t form = 0; form < 3; form++) {
                    struct written out = UNTOUCHED;
                    CHECK(create(&added[form], kind));
                    CHECK(make(kind == DS_BLOOM           ? INSERT
                               : kind == DS_COUNT_MIN_U64 ? UPDATE
                                                          : UPDATE_I64,
                               &added[form], &forms[form], &out) == DS_OK);
                    CHECK(form == 0 || ds_equal(&added[0], &added[form]) == DS_YES);
                }
                for (size_t form = 0; form < 3; form++) {
                    struct written out = UNTOUCHED, first = UNTOUCHED;
                    int call = kind == DS_BLOOM ? CONTAINS : kind == DS_COUNT_MIN_U64 ? ESTIMATE : ESTIMATE_I64;
                    CHECK(make(call, &added[0], &forms[form], &out) == (kind == DS_BLOOM ? DS_YES : DS_OK));
                    CHECK(make(call, &added[0], &forms[0], &first) >= 0 && memcmp(&out, &first, sizeof out) == 0);
                    CHECK(kind != DS_COUNT_MIN_U64 || out.number >= 9);
                    CHECK(kind != DS_COUNT_MIN_I64 || out.with_sign <= -9);
                }
                for (size_t form = 0; form < 3; form++) ds_free(&added[form]);
            }
        }
    }
}

int main(void)
{
    make_items();
    members();
    each_kind();
    error_order();
    overflows();
    images();
    same_items();
    return report();
}
