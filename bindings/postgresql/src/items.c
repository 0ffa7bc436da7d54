/* Items: what a value is in a sketch, by the type of its expression.
 *
 * The functions take items of any type, and so PostgreSQL casts none. A cast would hide the type: values of `citext` are equal if
 * they differ in case, and as text they are not. A value becomes the same bytes whichever function it comes by. */
#include "extension.h"

#include "catalog/pg_type.h"
#include "miscadmin.h"
#include "utils/builtins.h"
#include "utils/date.h"
#include "utils/datetime.h"
#include "utils/lsyscache.h"
#include "utils/numeric.h"
#include "utils/uuid.h"

/* The types of items. Equal values have equal bytes. */
static const struct {
    Oid type;
    Form form;
} forms[] = {
    {TEXTOID, OF_TEXT},       {VARCHAROID, OF_TEXT},
    {BPCHAROID, OF_BPCHAR},   {NAMEOID, OF_NAME},
    {CHAROID, OF_CHAR},       {INT8OID, OF_BIGINT},
    {INT4OID, OF_INTEGER},    {INT2OID, OF_SMALLINT},
    {OIDOID, OF_OID},         {UUIDOID, OF_UUID},
    {BYTEAOID, OF_BYTEA},     {DATEOID, OF_DATE},
    {NUMERICOID, OF_NUMERIC}, {TIMESTAMPTZOID, OF_TIMESTAMPTZ},
};

Form form_of(Oid type)
{
    if (OidIsValid(type)) type = getBaseType(type);
    for (size_t i = 0; i < lengthof(forms); i++)
        if (forms[i].type == type) return forms[i].form;
    return NO_FORM;
}

/* Raises the error of a type whose values are no items of a kind. */
static void raise_type(Oid type, Kind kind)
{
    if (form_of(type) != NO_FORM)
        ereport(ERROR, (errcode(ERRCODE_DATATYPE_MISMATCH),
                        errmsg("items of %s must be %s, not of type %s",
                               kind == DS_FREQUENT_ITEMS_STRING ? "frequent_strings" : "frequent_bigints",
                               kind == DS_FREQUENT_ITEMS_STRING ? "strings" : "integers", format_type_be(type)),
                        errhint("Use the other type of frequent items, or write a cast.")));
    ereport(ERROR,
            (errcode(ERRCODE_FEATURE_NOT_SUPPORTED), errmsg("sketches do not support items of type %s", format_type_be(type)),
             errdetail("Sketches compare items by their bytes, and equal values of this type may have unequal ones."),
             errhint("Write an expression of type text with equal bytes for equal items, as lower(item::text).")));
}

Form form_argument(FunctionCallInfo fcinfo, int number, Kind kind)
{
    Oid type = get_fn_expr_argtype(fcinfo->flinfo, number), collation = PG_GET_COLLATION();
    Form form = form_of(type);
    if (!OidIsValid(type)) elog(ERROR, "the type of the item is not known");
    if (OidIsValid(collation) && !get_collation_isdeterministic(collation))
        ereport(ERROR, (errcode(ERRCODE_FEATURE_NOT_SUPPORTED), errmsg("sketches do not support nondeterministic collations"),
                        errhint("Sketches compare strings by their bytes. Write an expression with equal bytes for equal items, as "
                                "lower(item COLLATE \"C\").")));
    if (form == OF_TEXT && kind == DS_FREQUENT_ITEMS_I64) return OF_NUMERAL;
    if (form == NO_FORM || (items_of(kind, type_of(form)) & type_of(form)) == 0) raise_type(type, kind);
    return form;
}

int database_encoding = -1;

ds_string converted(ds_string string)
{
    char *utf8;
    database_encoding = GetDatabaseEncoding();
    utf8 = pg_server_to_any((const char *)string.bytes, (int)string.length, PG_UTF8);
    if (utf8 == (const char *)string.bytes) return string;
    return (ds_string){(const uint8_t *)utf8, strlen(utf8)};
}

/* Returns characters without an end mark as a string in UTF-8. */
static ds_string string_of(const char *characters, size_t length)
{
    ds_string string = {(const uint8_t *)characters, length};
    return database_encoding == PG_UTF8 ? string : converted(string);
}

/* Writes a byte as two hexadecimal digits. */
static void write_hex(char *digits, uint8 byte)
{
    static const char all[] = "0123456789abcdef";
    digits[0] = all[byte >> 4];
    digits[1] = all[byte & 15];
}

/* Returns a uuid as 32 digits in five groups. */
static ds_string uuid_item(const pg_uuid_t *uuid, char *room)
{
    char *at = room;
    for (int i = 0; i < UUID_LEN; i++, at += 2) {
        if (i == 4 || i == 6 || i == 8 || i == 10) *at++ = '-';
        write_hex(at, uuid->data[i]);
    }
    return (ds_string){(const uint8_t *)room, at - room};
}

/* Returns bytes as \x and two digits for each. */
static ds_string bytea_item(Datum datum)
{
    bytea *bytes = DatumGetByteaPP(datum);
    size_t length = VARSIZE_ANY_EXHDR(bytes);
    char *text = counted_alloc(2 * length + 2);
    memcpy(text, "\\x", 2);
    hex_encode(VARDATA_ANY(bytes), length, text + 2);
    return (ds_string){(const uint8_t *)text, 2 * length + 2};
}

/* Returns a date as YYYY-MM-DD. */
static ds_string date_item(DateADT date, char *room)
{
    struct pg_tm tm = {0};
    if (DATE_NOT_FINITE(date)) {
        EncodeSpecialDate(date, room);
    } else {
        j2date(date + POSTGRES_EPOCH_JDATE, &tm.tm_year, &tm.tm_mon, &tm.tm_mday);
        EncodeDateOnly(&tm, USE_ISO_DATES, room);
    }
    return (ds_string){(const uint8_t *)room, strlen(room)};
}

/* Returns a time as YYYY-MM-DDTHH:MM:SS.ffffff+00:00, in UTC. */
static ds_string timestamptz_item(TimestampTz time, char *room)
{
    struct pg_tm tm = {0};
    fsec_t fraction = 0;
    if (TIMESTAMP_NOT_FINITE(time)) {
        EncodeSpecialTimestamp(time, room);
    } else {
        if (timestamp2tm(time, NULL, &tm, &fraction, NULL, NULL) != 0)
            ereport(ERROR, (errcode(ERRCODE_DATETIME_VALUE_OUT_OF_RANGE), errmsg("timestamp out of range")));
        snprintf(room, ROOM_FOR_ITEM, "%04d-%02d-%02dT%02d:%02d:%02d.%06d+00:00%s", tm.tm_year > 0 ? tm.tm_year : 1 - tm.tm_year,
                 tm.tm_mon, tm.tm_mday, tm.tm_hour, tm.tm_min, tm.tm_sec, fraction, tm.tm_year > 0 ? "" : " BC");
    }
    return (ds_string){(const uint8_t *)room, strlen(room)};
}

void convert_item(Datum datum, Form form, SketchItem *item)
{
    struct varlena *value;
    const char *characters;
    size_t length;
    item->type = type_of(form);
    switch (form) {
    case OF_SMALLINT: item->bigint = DatumGetInt16(datum); return;
    case OF_INTEGER: item->bigint = DatumGetInt32(datum); return;
    case OF_BIGINT: item->bigint = DatumGetInt64(datum); return;
    case OF_OID: item->bigint = DatumGetObjectId(datum); return;
    case OF_NUMERAL: item->bigint = DatumGetInt64(DirectFunctionCall1(int8in, CStringGetDatum(TextDatumGetCString(datum)))); return;
    case OF_UUID: item->string = uuid_item(DatumGetUUIDP(datum), item->room); return;
    case OF_BYTEA: item->string = bytea_item(datum); return;
    case OF_DATE: item->string = date_item(DatumGetDateADT(datum), item->room); return;
    case OF_TIMESTAMPTZ: item->string = timestamptz_item(DatumGetTimestampTz(datum), item->room); return;
    case OF_NUMERIC:
        characters = numeric_normalize(DatumGetNumeric(datum));
        item->string = (ds_string){(const uint8_t *)characters, strlen(characters)};
        return;
    case OF_NAME:
        characters = NameStr(*DatumGetName(datum));
        item->string = string_of(characters, strlen(characters));
        return;
    case OF_CHAR: datum = DirectFunctionCall1(char_text, datum); break;
    default: break;
    }
    value = PG_DETOAST_DATUM_PACKED(datum);
    characters = VARDATA_ANY(value);
    length = VARSIZE_ANY_EXHDR(value);
    if (form == OF_BPCHAR) length = bpchartruelen((char *)characters, (int)length);
    item->string = string_of(characters, length);
}
