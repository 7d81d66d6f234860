#include "text.h"

#include <errno.h>
#include <inttypes.h>
#include <math.h>
#include <stdlib.h>
#include <string.h>

void text_name(FILE *out, const char *name)
{
    for (const unsigned char *at = (const unsigned char *)name; *at != '\0'; at++) {
        if (*at < 0x20 || *at == 0x7f || *at == '\\')
            fprintf(out, "\\x%02x", *at);
        else
            putc(*at, out);
    }
}

/* Bytes behind the first of a UTF-8 character, by its first byte; -1 if no character begins with it. */
static int following(unsigned char first)
{
    if (first < 0x80)
        return 0;
    if (first >= 0xc2 && first <= 0xdf)
        return 1;
    if (first >= 0xe0 && first <= 0xef)
        return 2;
    return first >= 0xf0 && first <= 0xf4 ? 3 : -1;
}

/* Length of the UTF-8 character that begins here, 0 if there is none: too long a form, a surrogate, above U+10FFFF, cut. */
static int utf8_length(const unsigned char *at)
{
    int more = following(at[0]);

    for (int i = 1; i <= more; i++)
        if ((at[i] & 0xc0) != 0x80)
            return 0;
    if ((at[0] == 0xe0 && at[1] < 0xa0) || (at[0] == 0xed && at[1] > 0x9f))
        return 0;
    if ((at[0] == 0xf0 && at[1] < 0x90) || (at[0] == 0xf4 && at[1] > 0x8f))
        return 0;
    return more + 1;
}

bool text_json(FILE *out, const char *string)
{
    const unsigned char *at = (const unsigned char *)string;
    bool whole = true;

    putc('"', out);
    while (*at != '\0') {
        int length = utf8_length(at);
        if (length == 0)
            fputs("\\ufffd", out);
        else if (*at < 0x20 || *at == 0x7f)
            fprintf(out, "\\u%04x", *at);
        else
            fprintf(out, "%s%.*s", *at == '"' || *at == '\\' ? "\\" : "", length, (const char *)at);
        whole = whole && length > 0;
        at += length > 0 ? length : 1;
    }
    putc('"', out);
    return whole;
}

void text_hex(FILE *out, const char *string)
{
    for (const unsigned char *at = (const unsigned char *)string; *at != '\0'; at++)
        fprintf(out, "%02x", *at);
}

/* A whole number of these digits and no other characters. */
static bool number_of(const char *word, const char *digits, int base, uint64_t *number)
{
    char *end = NULL;

    if (word[0] == '\0' || word[strspn(word, digits)] != '\0')
        return false;
    errno = 0;
    *number = strtoumax(word, &end, base);
    return errno == 0 && *end == '\0';
}

bool text_number(const char *word, uint64_t *number)
{
    return number_of(word, "0123456789", 10, number);
}

bool text_offset(const char *word, uint64_t *number)
{
    if (word[0] == '0' && (word[1] == 'x' || word[1] == 'X'))
        return number_of(word + 2, "0123456789abcdefABCDEF", 16, number);
    return text_number(word, number);
}

bool text_seconds(const char *word, double *seconds)
{
    char *end = NULL;

    if (word[0] == '\0' || word[strspn(word, "0123456789.")] != '\0')
        return false;
    *seconds = strtod(word, &end);
    return end != word && *end == '\0' && isfinite(*seconds);
}

bool text_hour(const char *word, int *hour, int *minute)
{
    const char *digits = "0123456789";

    if (strlen(word) != 5 || strspn(word, digits) != 2 || word[2] != ':' || strspn(word + 3, digits) != 2)
        return false;
    *hour = 10 * (word[0] - '0') + word[1] - '0';
    *minute = 10 * (word[3] - '0') + word[4] - '0';
    return *hour < 24 && *minute < 60;
}
