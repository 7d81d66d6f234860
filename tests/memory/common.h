/* What the programs over files share: chance and buffers, files, and a file's end, found apart from the library. */
#ifndef MEMORY_COMMON_H
#define MEMORY_COMMON_H

#include "exact.h"

#include <string.h>

/* The most bytes of padding that a file may have. */
enum { PADDING = 511 };

/* Reads a file, which stays until the next is read; NULL, after a message, if it cannot be read or has 65,536 bytes or more. */
static const uint8_t *read_file(const char *name, size_t *length)
{
    static uint8_t bytes[65536];
    FILE *in = fopen(name, "rb");

    *length = in == NULL ? 0 : fread(bytes, 1, sizeof bytes, in);
    if (in == NULL || *length == sizeof bytes) {
        fprintf(stderr, "%s: cannot be read, or is too long\n", name);
        return NULL;
    }
    fclose(in);
    return bytes;
}

/* A control field that lies in the file. */
static int64_t control(const uint8_t *file, size_t at)
{
    return (int32_t)((uint32_t)file[at] << 24 | (uint32_t)file[at + 1] << 16 | (uint32_t)file[at + 2] << 8 | file[at + 3]);
}

/* The end of a file (docs/STATE.md): eof, or its length. */
static size_t end_of(const uint8_t *file, size_t length)
{
    int64_t whole = (int64_t)length, gdr = length < 20 ? whole : control(file, 16), eof = 0;

    gdr = gdr < 0 ? 1 : gdr;
    if (gdr + 60 > whole)
        return length;
    eof = control(file, (size_t)gdr + 20);
    return eof >= gdr + 60 && eof >= whole - PADDING && eof <= whole ? (size_t)eof : length;
}

/* A file with a GDR gets this eof. */
static void set_eof(uint8_t *file, size_t length, size_t eof)
{
    int64_t gdr = length < 372 ? -1 : control(file, 16);

    for (int k = 0; k < 4 && gdr >= 0 && (size_t)gdr + 24 <= length; k++)
        file[(size_t)gdr + 20 + (size_t)k] = (uint8_t)(eof >> (24 - 8 * k));
}

/* Half of the files get up to 512 bytes behind them, and some of these an eof near the window; gives the length then. */
static size_t pad(uint8_t *file, size_t length)
{
    size_t more = any(2) == 0 ? any(PADDING + 2) : 0;

    memset(file + length, (int)any(256), more);
    if (more > 0 && any(4) == 0)
        set_eof(file, length + more, length + any(more + 2) - any(9));
    return length + more;
}

#endif
