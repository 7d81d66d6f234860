#include "values.h"

#include <inttypes.h>
#include <math.h>
#include <stdio.h>
#include <string.h>

enum { ROOM = 40, TYPE_EPOCH = 31 };

bool source_refused(struct source *source, int32_t answer)
{
    if (answer == TLZ_RESERVED_OPERAND)
        source->reserved = true;
    else if (answer != 0 && source->refused == 0)
        source->refused = answer;
    return answer != 0;
}

/* One character of a string. */
static void print_character(const struct source *source, unsigned code)
{
    bool plain = code >= 0x20 && code < 0x7f;

    if (code == '"' || code == '\\')
        printf("\\%c", (int)code);
    else if (plain)
        putchar((int)code);
    else
        printf(source->json ? "\\u%04x" : "\\x%02x", code);
}

void values_string(const struct source *source, const uint8_t *bytes, size_t length)
{
    putchar('"');
    for (size_t i = 0; i < length; i++)
        print_character(source, bytes[i]);
    putchar('"');
}

/* A float so that it reads back exactly; what JSON has no number for is a string there, a NaN with its bits. */
static void print_float(const struct source *source, double number, int digits, uint64_t bits)
{
    const char *quote = source->json && !isfinite(number) ? "\"" : "";
    char text[ROOM];

    if (isnan(number))
        snprintf(text, sizeof text, "nan(%0*" PRIx64 ")", digits == 9 ? 8 : 16, bits);
    else
        snprintf(text, sizeof text, "%.*g", digits, number);
    printf("%s%s%s%s", quote, text, isfinite(number) && strpbrk(text, ".e") == NULL ? ".0" : "", quote);
}

/* A double that counts milliseconds from year 0: its date, in JSON with the number beside it; the number if it has none. */
static void print_epoch(const struct source *source, double epoch, uint64_t bits)
{
    int32_t year = 0, month = 0, day = 0, milliseconds = 0, seconds = 0;

    if (tlz_epoch_date(epoch, &year, &month, &day, &milliseconds) != 0) {
        print_float(source, epoch, 17, bits);
        return;
    }
    seconds = milliseconds / 1000;
    fputs(source->json ? "{\"date\": \"" : "", stdout);
    printf("%04" PRId32 "-%02" PRId32 "-%02" PRId32 "T", year, month, day);
    printf("%02" PRId32 ":%02" PRId32 ":%02" PRId32 ".%03" PRId32, seconds / 3600, seconds / 60 % 60, seconds % 60,
           milliseconds % 1000);
    if (source->json) {
        fputs("\", \"number\": ", stdout);
        print_float(source, epoch, 17, bits);
        putchar('}');
    }
}

/* A value of a data type that is no character. */
static void print_value(const struct source *source, int32_t type, const struct value *value)
{
    uint32_t low = (uint32_t)value->bits;
    float single = 0;
    double real = 0;

    memcpy(&single, &low, sizeof single);
    memcpy(&real, &value->bits, sizeof real);
    if (value->kind == TLZ_SIGNED)
        printf("%" PRId64, (int64_t)value->bits);
    else if (value->kind == TLZ_SINGLE)
        print_float(source, (double)single, 9, low);
    else if (value->kind == TLZ_DOUBLE && type == TYPE_EPOCH)
        print_epoch(source, real, value->bits);
    else if (value->kind == TLZ_DOUBLE)
        print_float(source, real, 17, value->bits);
    else
        printf("%" PRIu64, value->bits);
}

/* The characters of a value, the first of which is read. */
static int32_t print_characters(const struct source *source, const struct elements *elements, struct value *value)
{
    int32_t answer = 0;

    putchar('"');
    for (int64_t i = 0; i < elements->count && answer == 0; i++) {
        answer = i == 0 ? 0 : elements->read(source, elements->asked, i, value);
        if (answer == 0)
            print_character(source, (unsigned)value->bits);
    }
    putchar('"');
    return answer;
}

int32_t values_print(struct source *source, const struct elements *elements, const char *between)
{
    struct value value = { 0, 0, 0 };

    for (int64_t i = 0; i < elements->count; i++) {
        int32_t answer = elements->read(source, elements->asked, i, &value);
        source_refused(source, answer);
        if (answer != 0 && answer != TLZ_RESERVED_OPERAND)
            return answer;
        fputs(i > 0 ? between : "", stdout);
        if (answer != 0)
            fputs(source->json ? "\"reserved\"" : "reserved", stdout);
        else if (value.kind == TLZ_CHARACTER)
            return print_characters(source, elements, &value);
        else
            print_value(source, elements->type, &value);
    }
    return 0;
}
