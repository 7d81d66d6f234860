/* Values that the reader gives, as text and as JSON. */
#ifndef TOOLS_VALUES_H
#define TOOLS_VALUES_H

#include "tlepozaluh.h"

#include <stdbool.h>

/* A file that is read, how it is shown, and what was refused. */
struct source {
    const uint8_t *file;
    size_t length;
    bool json;
    int32_t refused; /* the first refusal other than of a reserved operand, or 0 */
    bool reserved;   /* a reserved operand was refused */
    bool cut;        /* something was not looked at */
};

/* Keeps a refusal's number, the first one; gives true if there is one. */
bool source_refused(struct source *source, int32_t answer);

/* A value as the reader gives it. */
struct value {
    uint64_t kind;
    uint64_t bits;
    uint64_t offset;
};

/* Reads element `element` of what is asked for. */
typedef int32_t values_read(const struct source *source, const void *asked, int64_t element, struct value *value);

/* Elements that are asked for, how each of them is read, and their data type. */
struct elements {
    values_read *read;
    const void *asked;
    int32_t type;
    int64_t count;
};

/* Prints bytes as a string: ASCII, the rest as \xNN, or as JSON, where codes from 80 hex on are U+0080 to U+00FF. */
void values_string(const struct source *source, const uint8_t *bytes, size_t length);

/*
 * Prints elements: numbers with what is given between them, characters together as one string. Nothing of them is printed if
 * the first is refused; a reserved operand is shown as reserved, in JSON a string. An epoch that has a date is shown as that,
 * in JSON with its number; any other is a number. Gives the answer that ended it.
 */
int32_t values_print(struct source *source, const struct elements *elements, const char *between);

#endif
