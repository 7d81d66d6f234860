/* Large good files, built in memory. */
#ifndef BENCH_FILES_H
#define BENCH_FILES_H

#include <stddef.h>
#include <stdint.h>

struct file {
    uint8_t *bytes;
    size_t length;
};

/* So many bytes, written to; ends the program if there is no memory. */
void *allocated(size_t n);

/* The next number by chance, from a fixed start: all 64 bits of it. */
uint64_t next(uint64_t *seed);

/* One unused record, on no list. */
struct file one_record(size_t size);

/* n listed unused records of 16 bytes. */
struct file unused_records(size_t n);

/* n zVariables with one index entry each, of one record of 4 bytes. */
struct file variables(size_t n);

/* One zVariable of n records of 4 bytes, in one run. */
struct file records(size_t n);

/*
 * One zVariable of n records of CDF_DOUBLE in one run, in encoding 3, 14 (D_FLOAT) or 15 (G_FLOAT), drawn by chance from a fixed
 * start: all signs, exponents and mantissas, ties among them, but no reserved operand. Every 16th has an exponent of 0 to 3,
 * where G_FLOAT has to be rounded too.
 */
struct file vax_doubles(size_t n, int32_t encoding);

/*
 * One zVariable whose index has so many levels: a top record of `top` entries, below it records of `below` entries; each of
 * the lowest names one record of 4 bytes. There are top * below ^ (levels - 1) of these.
 */
struct file tree(size_t levels, size_t top, size_t below);

#endif
