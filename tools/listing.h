/* The files below a folder. */
#ifndef TOOLS_LISTING_H
#define TOOLS_LISTING_H

#include "job.h"

struct found {
    struct job job;
    char *path;
    const char *why;      /* why it cannot be checked, or NULL */
    size_t named;         /* length of the path's part that names the owner: the folder's name and the next */
    uint32_t owner;       /* the owner's number: each has its own */
    size_t rank;          /* how many files of its owner come before it */
    uint64_t length;      /* bytes of the file when it was listed, 0 if it cannot be checked */
    struct found *behind; /* of open files, the one whose turn comes after its own */
};

/*
 * All that is below a folder and is no folder, in order of turns: the first file of each owner, then the second of each,
 * and so on. An owner is a name in the folder. Symbolic links are not followed; they, folders that cannot be read and all
 * that is no regular file are listed as unchecked. NULL if the folder cannot be read or there is no memory; that is
 * complained of then.
 */
struct found *listing_of(const char *folder, size_t *count);

/* Puts the files in order of their paths. */
void listing_sort(struct found *files, size_t count);

void listing_free(struct found *files, size_t count);

#endif
