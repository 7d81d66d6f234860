/* The way to a value of a variable in plain C, for comparison with the proved reader. */
#ifndef BENCH_READ_H
#define BENCH_READ_H

#include <stddef.h>
#include <stdint.h>

/* As tlz_read_value: the same records are met and judged by the same rules, the opening in each call. */
int32_t plain_value(const uint8_t *file, size_t file_len, int64_t kind, int64_t number, int64_t record,
                    const int64_t *indices, size_t index_count, int64_t element, uint64_t *value_kind, uint64_t *bits,
                    uint64_t *offset);

/* As tlz_read_levels: the way of plain_value as far as the lowest index entry that covers the record. */
int32_t plain_levels(const uint8_t *file, size_t file_len, int64_t kind, int64_t number, int64_t record, int32_t *levels);

#endif
