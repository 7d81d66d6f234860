#include "area.h"

#include <stdlib.h>
#include <string.h>

/* Both areas, never null where a length is 0; false if there is no memory. */
static bool allocate(struct area *area, size_t length)
{
    area->files = malloc(length > 0 ? length : 1);
    area->marks = malloc(length > 0 ? length : 1);
    if (area->files != NULL && area->marks != NULL)
        return true;
    free(area->files);
    free(area->marks);
    area->files = area->marks = NULL;
    return false;
}

void area_make(struct area *area, size_t length, size_t most)
{
    area_free(area);
    area->most = most;
    area->gaps = calloc(most + 1, sizeof *area->gaps); /* between n parts there are up to n + 1 */
    if (area->gaps == NULL)
        return;
    while (!allocate(area, length) && length > 0)
        length /= 2;
    area->length = length;
    area->gaps[0] = (struct gap){ 0, length };
    area->gap_count = length > 0 ? 1 : 0;
}

/* Puts a gap, or nothing if it is empty, in the place of some. */
static void replace(struct area *area, size_t first, size_t old, const struct gap *gap)
{
    size_t new = gap->length > 0 ? 1 : 0;

    memmove(area->gaps + first + new, area->gaps + first + old, (area->gap_count - first - old) * sizeof *area->gaps);
    if (new > 0)
        area->gaps[first] = *gap;
    area->gap_count = area->gap_count - old + new;
}

bool area_take(struct area *area, size_t length, size_t *from)
{
    size_t i = 0;

    if (area->taken == 0 && (area->files == NULL || length > area->length))
        area_make(area, length, area->most);
    if (area->files == NULL || area->taken >= area->most)
        return false;
    *from = 0;
    if (length > 0) {
        while (i < area->gap_count && area->gaps[i].length < length)
            i++;
        if (i == area->gap_count)
            return false;
        *from = area->gaps[i].from;
        replace(area, i, 1, &(struct gap){ *from + length, area->gaps[i].length - length });
    }
    area->taken++;
    return true;
}

void area_give(struct area *area, size_t from, size_t length)
{
    struct gap gap = { from, length };
    size_t first = 0, old = 0;

    area->taken--;
    if (length == 0)
        return;
    while (first < area->gap_count && area->gaps[first].from < from)
        first++;
    if (first < area->gap_count && area->gaps[first].from == from + length) {
        gap.length += area->gaps[first].length;
        old++;
    }
    if (first > 0 && area->gaps[first - 1].from + area->gaps[first - 1].length == from) {
        first--;
        gap.from = area->gaps[first].from;
        gap.length += area->gaps[first].length;
        old++;
    }
    replace(area, first, old, &gap);
}

void area_free(struct area *area)
{
    free(area->files);
    free(area->marks);
    free(area->gaps);
    *area = (struct area){ .most = area->most };
}
