/* A file's bytes. */
#ifndef TOOLS_INPUT_H
#define TOOLS_INPUT_H

#include <stdbool.h>
#include <stddef.h>
#include <stdint.h>

/* A file as it was when it was read. */
struct input {
    int fd;         /* while it is open */
    uint8_t *bytes; /* once it is read */
    size_t length;
    int64_t changed;    /* when it was last changed: seconds .. */
    int64_t changed_ns; /* .. and nanoseconds */
    bool too_long;      /* it was not read, because it is longer than the library takes */
};

/* Opens a file and notes how long it is. NULL, or in words why it cannot be read; then it is not open. */
const char *input_open(const char *path, struct input *input);

/*
 * Reads the whole of an open file into a buffer of its length, and closes it. NULL, or why it cannot be read.
 *
 * It is read and not mapped. A mapped file that becomes shorter ends the program at the next look at it, and one that is
 * written to would change under the check; what is read once stays as it is, and the verdict is about those bytes.
 */
const char *input_fill(struct input *input, uint8_t *bytes);

/* Closes an open file that is not to be read. */
void input_close(struct input *input);

/* Reads a whole file into memory of its own. NULL, or why not; then nothing is held. */
const char *input_read(const char *path, struct input *input);

/*
 * NULL if the file of this name still has the length and time of change that it had when it was read; or in words that it has
 * not, or that it cannot be seen.
 */
const char *input_changed(const char *path, const struct input *input);

/* Gives the memory of input_read back. */
void input_free(struct input *input);

#endif
