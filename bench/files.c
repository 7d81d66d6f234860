#include "files.h"

#include <stdio.h>
#include <stdlib.h>
#include <string.h>

enum { BASE = 372, GDR = 312 };

static void put(struct file *file, size_t o, int64_t value)
{
    uint32_t n = (uint32_t)value;
    for (int i = 0; i < 4; i++)
        file->bytes[o + (size_t)i] = (uint8_t)(n >> (24 - 8 * i));
}

void *allocated(size_t n)
{
    void *p = malloc(n + 1);
    if (p == NULL) {
        fprintf(stderr, "no memory\n");
        exit(1);
    }
    memset(p, 0x55, n);
    return p;
}

/* A file of this length with magics, CDR and GDR, and no lists. */
static struct file base(size_t length)
{
    static const int32_t cdr[] = { 304, 1, GDR, 2, 0, 6, 3 };
    struct file file = { allocated(length), length };
    memset(file.bytes, 0, length);
    put(&file, 0, 0xCDF26002);
    put(&file, 4, 0x0000FFFF);
    for (size_t i = 0; i < sizeof cdr / sizeof *cdr; i++)
        put(&file, 8 + 4 * i, cdr[i]);
    put(&file, GDR, 60);
    put(&file, GDR + 4, 2);
    put(&file, GDR + 20, (int64_t)length);
    put(&file, GDR + 32, -1);
    return file;
}

struct file one_record(size_t size)
{
    struct file file = base(BASE + size);
    put(&file, BASE, (int64_t)size);
    put(&file, BASE + 4, -1);
    return file;
}

struct file unused_records(size_t n)
{
    struct file file = base(BASE + 16 * n);
    put(&file, GDR + 44, BASE);
    for (size_t i = 0; i < n; i++) {
        size_t o = BASE + 16 * i;
        put(&file, o, 16);
        put(&file, o + 4, -1);
        put(&file, o + 8, i + 1 < n ? (int64_t)o + 16 : 0);
        put(&file, o + 12, i > 0 ? (int64_t)o - 16 : 0);
    }
    return file;
}

/* A zVariable at o of one record of 4 bytes: its VDR, its VXR at 132 behind it, its VVR at 164. */
static void put_variable(struct file *file, size_t o, size_t number, size_t next)
{
    int64_t vxr = (int64_t)o + 132, vvr = (int64_t)o + 164;
    int64_t vdr_fields[] = { 132, 8, (int64_t)next, 4, 0, vxr, vxr, 1 };
    int64_t vxr_fields[] = { 32, 6, 0, 1, 1, 0, 0, vvr, 12, 7 };
    for (size_t i = 0; i < sizeof vdr_fields / sizeof *vdr_fields; i++)
        put(file, o + 4 * i, vdr_fields[i]);
    put(file, o + 48, 1);
    put(file, o + 52, (int64_t)number);
    for (size_t i = 0; i < sizeof vxr_fields / sizeof *vxr_fields; i++)
        put(file, o + 132 + 4 * i, vxr_fields[i]);
}

struct file variables(size_t n)
{
    struct file file = base(BASE + 176 * n);
    put(&file, GDR + 12, BASE);
    put(&file, GDR + 40, (int64_t)n);
    for (size_t i = 0; i < n; i++)
        put_variable(&file, BASE + 176 * i, i, i + 1 < n ? BASE + 176 * (i + 1) : 0);
    return file;
}

/* Where the values of one zVariable begin that is the whole of a file. */
enum { VALUES = BASE + 172 };

/* A file with one zVariable of n records of so many bytes in one run; the values are zero. */
static struct file one_run(size_t n, size_t size)
{
    struct file file = base(VALUES + size * n);
    put(&file, GDR + 12, BASE);
    put(&file, GDR + 40, 1);
    put_variable(&file, BASE, 0, 0);
    put(&file, BASE + 16, (int64_t)n - 1);
    put(&file, BASE + 132 + 24, (int64_t)n - 1);
    put(&file, BASE + 164, 8 + (int64_t)(size * n));
    return file;
}

struct file records(size_t n)
{
    struct file file = one_run(n, 4);
    for (size_t i = 0; i < n; i++)
        put(&file, VALUES + 4 * i, (int64_t)(i * 2654435761u));
    return file;
}

uint64_t next(uint64_t *seed)
{
    *seed ^= *seed << 13;
    *seed ^= *seed >> 7;
    *seed ^= *seed << 17;
    return *seed * 0x2545F4914F6CDD1D;
}

/* The words of a VAX double, the most significant first, each with its low byte first. */
static void put_words(struct file *file, size_t o, uint64_t n)
{
    for (size_t i = 0; i < 8; i += 2) {
        file->bytes[o + i] = (uint8_t)(n >> (48 - 8 * i));
        file->bytes[o + i + 1] = (uint8_t)(n >> (56 - 8 * i));
    }
}

struct file vax_doubles(size_t n, int32_t encoding)
{
    struct file file = one_run(n, 8);
    int mantissa = encoding == 15 ? 52 : 55;
    uint64_t sign = UINT64_C(1) << 63, seed = 88172645463325252, exponent = sign - (UINT64_C(1) << mantissa);
    put(&file, 28, encoding);
    put(&file, BASE + 12, 45);
    for (size_t i = 0; i < n; i++) {
        uint64_t bits = next(&seed);
        if (i % 16 == 0)
            bits &= ~(exponent << 2) | sign; /* the last two bits of the exponent are left */
        if ((bits & exponent) == 0)
            bits &= ~sign; /* else it were the reserved operand */
        put_words(&file, VALUES + 8 * i, bits);
    }
    return file;
}

/* Bytes of an index record of so many levels and entries, with all that is below it. */
static size_t tree_length(size_t levels, size_t entries, size_t below)
{
    return 20 + entries * (12 + (levels > 1 ? tree_length(levels - 1, below, below) : 12));
}

/* Puts such an index record at o; its ranges begin at `first`, each of them of `span` records. */
static void put_tree(struct file *file, size_t o, size_t span, size_t entries, size_t below, size_t first)
{
    int64_t fields[] = { 20 + 12 * (int64_t)entries, 6, 0, (int64_t)entries, (int64_t)entries };
    size_t levels = 0, each = 12, under = o + 20 + 12 * entries;
    for (size_t n = span; n > 1; n /= below)
        levels++;
    if (levels > 0)
        each = tree_length(levels, below, below);
    for (size_t i = 0; i < sizeof fields / sizeof *fields; i++)
        put(file, o + 4 * i, fields[i]);
    for (size_t i = 0; i < entries; i++, first += span, under += each) {
        put(file, o + 20 + 4 * i, (int64_t)first);
        put(file, o + 20 + 4 * (entries + i), (int64_t)(first + span - 1));
        put(file, o + 20 + 4 * (2 * entries + i), (int64_t)under);
        if (levels > 0) {
            put_tree(file, under, span / below, below, below, first);
        } else {
            put(file, under, 12);
            put(file, under + 4, 7);
            put(file, under + 8, (int64_t)(first * 2654435761u));
        }
    }
}

struct file tree(size_t levels, size_t top, size_t below)
{
    struct file file = base(BASE + 132 + tree_length(levels, top, below));
    size_t span = 1;
    for (size_t i = 1; i < levels; i++)
        span *= below;
    put(&file, GDR + 12, BASE);
    put(&file, GDR + 40, 1);
    put_variable(&file, BASE, 0, 0);
    put(&file, BASE + 16, (int64_t)(top * span) - 1);
    put_tree(&file, BASE + 132, span, top, below, 0);
    return file;
}
