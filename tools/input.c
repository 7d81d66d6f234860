#define _POSIX_C_SOURCE 200809L

#include "input.h"

#include "tlepozaluh.h"
#include "words.h"

#include <errno.h>
#include <fcntl.h>
#include <stdlib.h>
#include <string.h>
#include <sys/stat.h>
#include <unistd.h>

/* Looks for the end of a file whose bytes are read; NULL, or what is there instead. */
static const char *read_end(int fd)
{
    ssize_t got = 0;

    do
        got = read(fd, &(uint8_t){ 0 }, 1);
    while (got < 0 && errno == EINTR);
    if (got < 0)
        return strerror(errno);
    return got == 0 ? NULL : "the file has more bytes than its length says";
}

/* Reads a file of so many bytes; NULL, or why not. */
static const char *read_all(int fd, uint8_t *bytes, size_t length)
{
    size_t done = 0;

    while (done < length) {
        ssize_t got = read(fd, bytes + done, length - done);
        if (got == 0)
            return "the file became shorter while it was read";
        if (got < 0 && errno != EINTR)
            return strerror(errno);
        done += got > 0 ? (size_t)got : 0;
    }
    return read_end(fd);
}

/* What kind of file it is and how long; NULL if it can be checked. */
static const char *unfit(const struct stat *found)
{
    if (S_ISDIR(found->st_mode))
        return "a directory";
    if (!S_ISREG(found->st_mode))
        return "not a regular file";
    return found->st_size > TLZ_LONGEST_FILE ? words_of_number(TLZ_TOO_LONG) : NULL;
}

/* A look at a file shows the length and time of change that are noted. */
static bool as_noted(const struct stat *found, const struct input *input)
{
    return (uint64_t)found->st_size == input->length && found->st_mtim.tv_sec == input->changed &&
           found->st_mtim.tv_nsec == input->changed_ns;
}

/* Notes length and time of change of an open file; NULL, or why it cannot be read. */
static const char *note(struct input *input)
{
    struct stat found;

    if (fstat(input->fd, &found) != 0)
        return strerror(errno);
    input->too_long = S_ISREG(found.st_mode) && found.st_size > TLZ_LONGEST_FILE;
    if (unfit(&found) != NULL)
        return unfit(&found);
    input->length = (size_t)found.st_size;
    input->changed = found.st_mtim.tv_sec;
    input->changed_ns = found.st_mtim.tv_nsec;
    return NULL;
}

const char *input_open(const char *path, struct input *input)
{
    const char *why = NULL;

    memset(input, 0, sizeof *input);
    input->fd = open(path, O_RDONLY | O_NONBLOCK | O_CLOEXEC | O_NOCTTY);
    if (input->fd < 0)
        return strerror(errno);
    why = note(input);
    if (why != NULL)
        input_close(input);
    return why;
}

const char *input_fill(struct input *input, uint8_t *bytes)
{
    struct stat after;
    const char *why = read_all(input->fd, bytes, input->length);

    if (why == NULL && fstat(input->fd, &after) != 0)
        why = strerror(errno);
    else if (why == NULL && !as_noted(&after, input))
        why = "the file was changed while it was read";
    input_close(input);
    input->bytes = bytes;
    return why;
}

void input_close(struct input *input)
{
    close(input->fd);
    input->fd = -1;
}

const char *input_read(const char *path, struct input *input)
{
    const char *why = input_open(path, input);
    uint8_t *bytes = NULL;

    if (why != NULL)
        return why;
    bytes = malloc(input->length > 0 ? input->length : 1);
    if (bytes == NULL) {
        input_close(input);
        return "out of memory";
    }
    why = input_fill(input, bytes);
    if (why != NULL)
        input_free(input);
    return why;
}

const char *input_changed(const char *path, const struct input *input)
{
    struct stat found;

    if (stat(path, &found) != 0)
        return "the file cannot be looked at again";
    return as_noted(&found, input) ? NULL : "the file changed while it was checked";
}

void input_free(struct input *input)
{
    free(input->bytes);
    input->bytes = NULL;
}
