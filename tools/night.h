/* The files of a night, by turns: rounds of up to eight, in which each is granted the same number of steps. */
#ifndef TOOLS_NIGHT_H
#define TOOLS_NIGHT_H

#include "listing.h"

struct night {
    struct found *files; /* in order of turns */
    size_t count;
    size_t next;         /* those before it have been begun */
    bool full;           /* there is no room for the next one until a check ends */
    struct area area;    /* where the open files lie */
    struct found *first; /* of the open files the one whose turn is next, or NULL .. */
    struct found *last;  /* .. and the one behind all others */
};

/* Checks the files until all are done or the window is over. Files and marks of so many bytes are held at a time. */
void night_run(struct night *night, const struct manner *manner, uint64_t memory);

#endif
