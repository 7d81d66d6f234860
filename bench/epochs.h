/* Epochs as dates in plain C, for comparison with the proved calls. */
#ifndef BENCH_EPOCHS_H
#define BENCH_EPOCHS_H

#include <stdint.h>

/* As tlz_epoch_date. */
int32_t plain_date(double epoch, int32_t *year, int32_t *month, int32_t *day, int32_t *milliseconds);

/* As tlz_epoch_from. */
int32_t plain_from(int64_t year, int64_t month, int64_t day, int64_t milliseconds, double *epoch);

/* As tlz_epoch_difference. */
int32_t plain_difference(double a, double b, double *difference);

#endif
