/* What boundary.c and rounds.c share: made-up states, and damage to files. */
#ifndef MEMORY_STATES_H
#define MEMORY_STATES_H

#include "common.h"
#include "tlepozaluh.h"

/* How many numbers of a state come before its levels; which number is the location. */
enum { PLAIN = 12, LOCATION = 33 };

/* What number 0 of a finished state may be. */
static const uint32_t firsts[] = { 1, 2, 3, 4, 5, 6, 7, 8, 9, 10, 11, 12, 13, 14, 15, 21, 24 };

/* An edge, a number about the file's length, a small one, or an offset in the file. */
static uint32_t made_up_number(size_t length)
{
    static const uint32_t edges[] = { 0, 1, 3, 5, 8, 9, 312, 372, 2147483647, 2147483648, 2147483711, UINT32_MAX };

    switch (any(4)) {
    case 0:
        return edges[any(sizeof edges / sizeof *edges)];
    case 1:
        return (uint32_t)(length + any(80) - 40);
    case 2:
        return (uint32_t)any(4);
    default:
        return (uint32_t)any(length + 1);
    }
}

/* Levels of an index, none to seven; now and then one is missing, or has any numbers. */
static void make_up_levels(uint32_t *state, size_t length)
{
    uint64_t levels = any(8);

    for (uint64_t i = 0; i < levels; i++) {
        uint32_t *level = state + PLAIN + 3 * i;
        int odd = any(20) == 0;
        level[0] = odd ? made_up_number(length) : (uint32_t)any(length + 1);
        level[1] = odd ? made_up_number(length) : 1 + (uint32_t)any(3);
        level[2] = odd ? made_up_number(length) : (uint32_t)any(20);
    }
}

/* A state of a phase with the numbers that have no meaning there left 0, most of the time; many are near `end`. */
static void make_up(uint32_t *state, size_t length, size_t end)
{
    static const uint16_t meant[] = { 0, 0x010, 0, 0x070, 0xdf0, 0xfe0, 0x030, 0x6b0, 0x110 };
    uint32_t phase = (uint32_t)any(9);

    memset(state, 0, TLZ_STATE_LEN * sizeof *state);
    for (int i = 0; i < PLAIN; i++)
        state[i] = (meant[phase] >> i & 1) != 0 || any(100) == 0 ? made_up_number(end) : 0;
    if (phase == 4 || phase == 5 || any(100) == 0)
        make_up_levels(state, end);
    state[1] = phase == 0 ? 0 : (uint32_t)length;
    state[2] = phase;
    state[11] &= 1;
    state[LOCATION] = any(50) == 0 ? made_up_number(end) : 0;
    if (phase >= 3 && phase <= 5)
        state[3] = any(2) ? 3 : 8;
    if (phase == 7)
        state[3] = any(2) ? 5 : 9;
}

/* One to four fields get other values. */
static void damage(uint8_t *file, size_t length)
{
    for (uint64_t i = any(4); i < 4 && length >= 4; i++) {
        size_t at = any(4) == 0 ? any(length - 3) : any((length - 3) / 4 + 1) * 4;
        uint32_t value = any(3) == 0 ? made_up_number(length) : (uint32_t)any(length);
        for (int k = 0; k < 4 && at + (size_t)k < length; k++)
            file[at + (size_t)k] = (uint8_t)(value >> (24 - 8 * k));
    }
}

#endif
