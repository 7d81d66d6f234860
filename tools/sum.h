/* FNV-1a of 64 bits: a sum that tells accidental changes, not made ones. */
#ifndef TOOLS_SUM_H
#define TOOLS_SUM_H

#include <stddef.h>
#include <stdint.h>

#define SUM_OF_NOTHING UINT64_C(0xcbf29ce484222325)

/* The sum of what `sum` stands for, followed by these bytes. */
static inline uint64_t sum_with(uint64_t sum, const void *bytes, size_t length)
{
    const uint8_t *at = bytes;

    for (size_t i = 0; i < length; i++)
        sum = (sum ^ at[i]) * UINT64_C(0x100000001b3);
    return sum;
}

#endif
