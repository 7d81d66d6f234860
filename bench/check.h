/* The whole check in plain C, as a yardstick for the proved one. */
#ifndef BENCH_CHECK_H
#define BENCH_CHECK_H

#include <stddef.h>
#include <stdint.h>

/*
 * Verdict of the check of a file with marks of marks_len bytes; steps is set to the steps made, where to the location that
 * tlz_check_grant gives.
 */
int32_t plain_check(const uint8_t *file, size_t file_len, uint8_t *marks, size_t marks_len, uint64_t *steps, uint64_t *where);

#endif
