/* The types of records: their names, and the fields that the format description gives them. */
#ifndef TOOLS_RECORD_H
#define TOOLS_RECORD_H

#include <stddef.h>
#include <stdint.h>

/* A record has its size and its type in its first bytes; these have no rows in the tables. */
enum { RECORD_HEAD = 8 };

/* How a field is shown: a number; links and flags, also in hexadecimal; a data type or encoding with its name; a string. */
enum form { AS_NUMBER, AS_HEX, AS_TYPE, AS_ENCODING, AS_STRING };

/* A field of `length` bytes, 4 unless it is a string. */
struct field {
    uint32_t at; /* its offset in the record */
    uint32_t length;
    const char *name;
    enum form form;
};

/* Numbers of 4 bytes behind the fields, as many as a field says, at most MOST_NUMBERS; no array if it has no name. */
struct array {
    const char *name;
    int32_t count_at; /* where in the record their count stands, or OF_THE_GDR: it is rNumDims */
};

enum { OF_THE_GDR = -1, ARRAYS = 2, MOST_NUMBERS = 10 };

/* A type of records. */
struct kind {
    int32_t type;
    const char *name;  /* as the format description has it .. */
    const char *words; /* .. and in plain words */
    uint32_t least;    /* the least size that such a record may have */
    const struct field *fields;
    size_t count;
    struct array arrays[ARRAYS];
    const char *rest; /* the name of what stands behind all these, or NULL if it has none */
};

/* Types that are looked at in another way than by their rows. */
enum { TYPE_OF_VXR = 6 };

/* A control field: 4 bytes, highest first. */
int32_t record_field(const uint8_t *bytes);

/* The kind of a type, NULL if there is no such type. */
const struct kind *record_kind(int32_t type);

/* In plain words what stands at an offset of a file that ends at `end`: a record by its type, or bytes that are none. */
const char *record_words(const uint8_t *file, size_t end, uint64_t offset);

#endif
