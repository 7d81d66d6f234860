/*
 * Unfinished checks on disk. Each has one file in a folder, named after the checked file's path. Numbers are stored lowest
 * byte first:
 *
 *     8 bytes   "TLZSAVE1"
 *     4         how many numbers the state has, TLZ_STATE_LEN, then these, 4 bytes each
 *     8 each    steps made; the file's length; its time of change in seconds, and nanoseconds; the sum of its bytes; the
 *               length of its path
 *     then      its path, from the root; the marks, as many as the file has bytes
 *     8         the sum of all that stands before
 *
 * The sums are FNV-1a of 64 bits. In older forms the state has 12 or 33 numbers; such a check cannot be gone on with.
 */
#ifndef TOOLS_SAVED_H
#define TOOLS_SAVED_H

#include "job.h"

/* Keeps an open job: written under a temporary name, flushed, then renamed. NULL, or why not. */
const char *saved_write(const char *folder, const struct job *job);

/* Goes on with a kept check, if there is one. NULL, or why it cannot be gone on with; then nothing of it may be used. */
const char *saved_read(const char *folder, struct job *job);

/* Removes what is kept of a file, if there is any. NULL, or why not. */
const char *saved_remove(const char *folder, const char *path);

#endif
