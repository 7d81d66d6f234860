#include "clearing.h"

#include "files.h"
#include "times.h"

#include <stdint.h>
#include <stdio.h>
#include <stdlib.h>
#include <string.h>

enum { WAYS = 3, OFFSETS = 4, TURNS = 15 };

/* Clears the marks of records of these sizes, one after the other, as far as they have 8 bytes or more and fit; as the sweep
   does, or all singly. Gives where that ends. */
typedef size_t clear_records(uint8_t *marks, size_t marks_len, const size_t *sizes, size_t count, uint32_t singly);

/* The proved call (crates/clearing), at four offsets in a cache line. */
clear_records clearing_records_0, clearing_records_16, clearing_records_32, clearing_records_48;

static size_t by_memset(uint8_t *marks, size_t marks_len, const size_t *sizes, size_t count, uint32_t singly)
{
    size_t at = 0;
    (void)singly;
    for (size_t i = 0; i < count; i++) {
        if (sizes[i] < 8 || marks_len - at < sizes[i])
            return at;
        memset(marks + at, 0, sizes[i]);
        at += sizes[i];
    }
    return at;
}

static clear_records *const proved[OFFSETS] = { clearing_records_0, clearing_records_16, clearing_records_32, clearing_records_48 };

/* A way at one of the offsets: as the sweep does now, singly as before, by memset, which has one. */
static clear_records *call(int way, int which)
{
    return way < 2 ? proved[which] : by_memset;
}

/* Each way clears exactly the first so many of the marks; ends the program if one does not. */
static void compared(uint8_t *marks, size_t length, const size_t *sizes, size_t count)
{
    for (int i = 0; i < WAYS * OFFSETS; i++) {
        int way = i % WAYS;
        memset(marks, 0x55, length + 1);
        int wrong = call(way, i / WAYS)(marks, length, sizes, count, way == 1) != length || marks[length] != 0x55;
        for (size_t j = 0; j < length; j++)
            wrong |= marks[j] != 0;
        if (wrong) {
            fprintf(stderr, "clearing of %zu records of %zu bytes: way %d is wrong\n", count, sizes[0], way);
            exit(1);
        }
    }
}

/* Times the three ways by turns, each as often first, on so many records of a size: the mean over the offsets of the medians. */
static void timed_clearing(size_t count, size_t size)
{
    double times[WAYS][OFFSETS][TURNS], mean[WAYS] = { 0 };
    size_t length = count * size;
    uint8_t *marks = allocated(length);
    size_t *sizes = allocated(count * sizeof *sizes);
    for (size_t i = 0; i < count; i++)
        sizes[i] = size;
    compared(marks, length, sizes, count);
    for (int i = 0; i < TURNS * OFFSETS * WAYS; i++) {
        int turn = i / (OFFSETS * WAYS), which = i / WAYS % OFFSETS, way = (i + turn) % WAYS;
        double start = now();
        call(way, which)(marks, length, sizes, count, way == 1);
        times[way][which][turn] = now() - start;
    }
    for (int i = 0; i < WAYS * OFFSETS; i++)
        mean[i % WAYS] += median(times[i % WAYS][i / WAYS], TURNS) / OFFSETS;
    printf("%9zu of %8zu bytes  now %6.3f ms  before %6.3f ms  memset %6.3f ms  now/before %.2f  now/memset %.2f\n",
           count, size, 1e3 * mean[0], 1e3 * mean[1], 1e3 * mean[2], mean[0] / mean[1], mean[0] / mean[2]);
    free(marks);
    free(sizes);
}

void clearing(void)
{
    static const size_t small[] = { 15, 16, 17, 31, 32, 33 };
    printf("\nThe clearing of marks by itself: so many records of so many bytes; in runs of sixteen from 256 bytes on\n");
    timed_clearing(1, 16000000);
    for (size_t i = 0; i < sizeof small / sizeof *small; i++)
        timed_clearing(1000000, small[i]);
}
