/* What all programs here share: chance, and buffers of exact lengths. */
#ifndef MEMORY_EXACT_H
#define MEMORY_EXACT_H

#include <stdint.h>
#include <stdio.h>
#include <stdlib.h>

static uint64_t seed = 88172645463325252;

static uint64_t any(uint64_t below)
{
    seed ^= seed << 13;
    seed ^= seed >> 7;
    seed ^= seed << 17;
    return (seed >> 11) % below;
}

static void *exactly(size_t length)
{
    void *bytes = malloc(length);

    if (bytes == NULL) {
        fprintf(stderr, "no memory\n");
        exit(2);
    }
    return bytes;
}

#endif
