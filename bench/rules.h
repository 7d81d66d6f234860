/* What the plain check and the plain reader share: fields, the opening, the rules of an index record and of a variable. */
#ifndef BENCH_RULES_H
#define BENCH_RULES_H

#include <stddef.h>
#include <stdint.h>

enum { CDR = 1, GDR, RVDR, ADR, GR_AEDR, VXR, VVR, ZVDR, Z_AEDR, UIR = -1 };

static const int64_t GREATEST = 2147483647;

/* The most levels of an index, its top chain included; the most bytes from a file's end to its length. */
enum { LEVELS = 8, PADDING = 511 };

static inline int32_t field(const uint8_t *f, int64_t o)
{
    uint32_t n = (uint32_t)f[o] << 24 | (uint32_t)f[o + 1] << 16 | (uint32_t)f[o + 2] << 8 | f[o + 3];
    return (int32_t)n;
}

/* Bytes of an element of a data type, 0 if there is no such type. */
static inline int64_t element_size(int32_t type)
{
    switch (type) {
    case 1: case 11: case 41: case 51: case 52: return 1;
    case 2: case 12: return 2;
    case 4: case 14: case 21: case 44: return 4;
    case 22: case 31: case 45: return 8;
    default: return 0;
    }
}

/* n fields from o on are in a range. */
static inline int within(const uint8_t *f, int64_t o, int32_t n, int32_t least, int32_t most)
{
    for (int32_t i = 0; i < n; i++) {
        int32_t value = field(f, o + 4 * (int64_t)i);
        if (value < least || value > most)
            return 0;
    }
    return 1;
}

static inline int cdr_right(const uint8_t *f)
{
    int32_t encoding = field(f, 28);
    int known = encoding >= 1 && encoding <= 16 && encoding != 8 && encoding != 10;
    return field(f, 12) == CDR && field(f, 8) == 304 && field(f, 20) == 2 && known && (uint32_t)field(f, 32) < 4;
}

static inline int gdr_right(const uint8_t *f, int64_t length)
{
    int64_t g = field(f, 16);
    if (g < 312 || g + 60 > length || field(f, g + 4) != GDR)
        return 0;
    int64_t end = field(f, g + 20);
    if (end > length || end < length - PADDING)
        return 0;
    int32_t dimensions = field(f, g + 36);
    if (dimensions < 0 || dimensions > 10 || field(f, g) != 60 + 4 * dimensions || g + 60 + 4 * dimensions > end)
        return 0;
    int counts = field(f, g + 24) >= 0 && field(f, g + 28) >= 0 && field(f, g + 40) >= 0;
    return counts && field(f, g + 32) >= -1 && within(f, g + 60, dimensions, 1, INT32_MAX);
}

/* The end of a file that opens: eof. What is behind it is padding. */
static inline int64_t end_of(const uint8_t *f)
{
    return field(f, (int64_t)field(f, 16) + 20);
}

/* 1, 2, 3, 4, 5, 14, 6 in this order, or 0. */
static inline int32_t opening(const uint8_t *f, size_t length, size_t marks_len)
{
    if (length > (size_t)GREATEST)
        return 1;
    if (marks_len < length)
        return 2;
    if (length < 372)
        return 3;
    uint32_t second = (uint32_t)field(f, 4);
    if ((uint32_t)field(f, 0) != 0xCDF26002u || (second != 0x0000FFFFu && second != 0xCCCC0001u))
        return 3;
    if (second == 0xCCCC0001u)
        return 4;
    if (!cdr_right(f))
        return 5;
    if (!(field(f, 32) & 2))
        return 14;
    return gdr_right(f, (int64_t)length) ? 0 : 6;
}

/* The VXR x keeps its rule. */
static inline int index_right(const uint8_t *f, int64_t x)
{
    int64_t size = field(f, x);
    if (size < 20 || field(f, x + 16) < 0 || field(f, x + 16) > field(f, x + 12))
        return 0;
    return size == 20 + 12 * (int64_t)field(f, x + 12);
}

/* Bytes of a record of a variable whose dimensions keep their rule, or -1. */
static inline int64_t dimension_bytes(const uint8_t *f, int64_t sizes, int64_t variances, int32_t count, int64_t value)
{
    if (!within(f, sizes, count, 1, INT32_MAX) || !within(f, variances, count, -1, 0))
        return -1;
    for (int32_t i = 0; i < count && value <= GREATEST; i++)
        if (field(f, variances + 4 * (int64_t)i) == -1)
            value *= field(f, sizes + 4 * (int64_t)i);
    return value <= GREATEST ? value : -1;
}

/* Bytes of a record of a variable whose VDR keeps its rule, or -1. */
static inline int64_t variable_bytes(const uint8_t *f, int64_t o, int32_t kind)
{
    int64_t fixed = kind == ZVDR ? 132 : 128, size = field(f, o), gdr = field(f, 16);
    if (size < fixed)
        return -1;
    int32_t type = field(f, o + 12), flags = field(f, o + 28), elements = field(f, o + 48);
    int64_t value = elements * element_size(type);
    int characters = type == 51 || type == 52;
    if (value < 1 || (elements != 1 && !characters) || (uint32_t)flags > 7 || field(f, o + 16) < -1)
        return -1;
    if (field(f, o + 32) < 0 || field(f, o + 32) > 2)
        return -1;
    int32_t count = kind == ZVDR ? field(f, o + 128) : field(f, gdr + 36);
    if (count < 0 || count > 10)
        return -1;
    int64_t own = kind == ZVDR ? 4 * (int64_t)count : 0;
    if (size != fixed + own + 4 * (int64_t)count + (flags & 2 ? value : 0))
        return -1;
    return dimension_bytes(f, kind == ZVDR ? o + 132 : gdr + 60, o + fixed + own, count, value);
}

#endif
