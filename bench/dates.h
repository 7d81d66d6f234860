/* Epochs as dates: the proved calls against the same in plain C. */
#ifndef BENCH_DATES_H
#define BENCH_DATES_H

#include <stdint.h>

/*
 * Compares answers and numbers of the two: an epoch of each day of all years, to its date and back; so many epochs, doubles and
 * pairs of them drawn by chance; the edges, and dates that do not exist. Gives how many differ; how many were compared and how
 * many of these refused is set.
 */
uint64_t dates_differ(uint64_t drawn, uint64_t *compared, uint64_t *refused);

/* Times 1,000,000 conversions each way and as many differences, after the two were compared on them. */
void dates(void);

#endif
