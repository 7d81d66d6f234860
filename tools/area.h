/*
 * Room for files and their marks: two areas of one length, each allocated at once. A file has the same part of both, so that
 * one list of gaps serves both.
 */
#ifndef TOOLS_AREA_H
#define TOOLS_AREA_H

#include <stdbool.h>
#include <stddef.h>
#include <stdint.h>

/* A stretch of an area that is free. */
struct gap {
    size_t from;
    size_t length;
};

struct area {
    uint8_t *files; /* NULL if none is made, or there is no memory */
    uint8_t *marks;
    size_t length;    /* of each of the two */
    struct gap *gaps; /* in order; no two adjoin */
    size_t gap_count;
    size_t taken; /* how many parts are taken .. */
    size_t most;  /* .. and how many may be */
};

/*
 * Makes an area for so many parts, in place of the one before. It has this length, or a half of it, a quarter and so on where
 * there is no memory for more.
 */
void area_make(struct area *area, size_t length, size_t most);

/*
 * Takes the first free part of a length. An area of which nothing is taken is made longer for it if need be. False if there is
 * no room: because of other parts, or for want of memory if there are none.
 */
bool area_take(struct area *area, size_t length, size_t *from);

/* Gives a part back. */
void area_give(struct area *area, size_t from, size_t length);

/* Gives the memory back. */
void area_free(struct area *area);

#endif
