/* The areas of tools/area.h against a map of bytes: parts are taken and given back at random, and no other byte is taken. */
#include "area.h"

#include <stdio.h>
#include <stdlib.h>
#include <string.h>

enum { LENGTH = 200, PARTS = 40, TURNS = 200000 };

static uint8_t map[LENGTH]; /* 1 where a byte is taken */

static int wrong(const char *what)
{
    printf("%s\n", what);
    return 1;
}

/* Where the first free stretch of a length begins, or LENGTH if there is none. */
static size_t first_free(size_t length)
{
    size_t run = 0;

    for (size_t i = 0; i < LENGTH; i++) {
        run = map[i] == 0 ? run + 1 : 0;
        if (run == length)
            return i + 1 - length;
    }
    return LENGTH;
}

/* Takes a part where the area is free, or gives the one there back. Gives 0 if the area does what the map says. */
static int turn(struct area *area, struct gap *part, size_t length)
{
    size_t wanted = length > 0 ? first_free(length) : 0;

    if (part->from < LENGTH) {
        area_give(area, part->from, part->length);
        memset(map + part->from, 0, part->length);
        part->from = LENGTH;
        return 0;
    }
    part->length = length;
    if (!area_take(area, length, &part->from)) {
        part->from = LENGTH;
        return wanted < LENGTH ? wrong("a part is not taken, though it is free") : 0;
    }
    if (part->from != wanted)
        return wrong("a part is taken that is not the first free one");
    memset(map + part->from, 1, length);
    memset(area->files + part->from, 1, length);
    memset(area->marks + part->from, 1, length);
    return 0;
}

int main(void)
{
    struct area area = { 0 };
    struct gap parts[PARTS];
    size_t from = 0;
    int bad = 0;

    srand(105);
    area_make(&area, LENGTH, PARTS);
    for (size_t i = 0; i < PARTS; i++)
        parts[i].from = LENGTH;
    for (int i = 0; i < TURNS && bad == 0; i++)
        bad = turn(&area, &parts[rand() % PARTS], (size_t)(rand() % 4 == 0 ? rand() % 60 : rand() % 8));
    for (size_t i = 0; i < PARTS; i++)
        bad |= parts[i].from < LENGTH && turn(&area, &parts[i], 0);
    if (area.gap_count != 1 || !area_take(&area, LENGTH, &from) || from != 0 || area_take(&area, 1, &from))
        bad = wrong("an area of which all is given back is not whole");
    area_give(&area, 0, LENGTH);
    if (!area_take(&area, 2 * LENGTH, &from) || area.length != 2 * LENGTH || area_take(&area, 1, &from))
        bad = wrong("an area is not made longer when nothing is taken of it");
    area_free(&area);
    return bad;
}
