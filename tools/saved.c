#define _XOPEN_SOURCE 700

#include "saved.h"

#include "sum.h"

#include <errno.h>
#include <fcntl.h>
#include <inttypes.h>
#include <stdio.h>
#include <stdlib.h>
#include <string.h>
#include <sys/stat.h>
#include <unistd.h>

static const char magic[] = "TLZSAVE1";
static const char damaged[] = "the saved check is damaged";

/* How many numbers a state had before indexes had levels, and before refusals had locations. */
enum { STATE_WITHOUT_LEVELS = 12, STATE_WITHOUT_LOCATION = 33 };

enum { MAGIC = 8, SUM = 8, HEADER = MAGIC + 4 + 4 * TLZ_STATE_LEN + 6 * 8, ROOM = 4096, PIECE = 65536 };

/* What stands before the path. */
struct header {
    uint32_t count;
    uint32_t state[TLZ_STATE_LEN];
    uint64_t steps;
    uint64_t length;
    int64_t changed;
    int64_t changed_ns;
    uint64_t sum;
    uint64_t path_length;
};

static void put(uint8_t **at, uint64_t number, int bytes)
{
    for (int i = 0; i < bytes; i++)
        *(*at)++ = (uint8_t)(number >> (8 * i));
}

static uint64_t get(const uint8_t **at, int bytes)
{
    uint64_t number = 0;

    for (int i = 0; i < bytes; i++)
        number |= (uint64_t)*(*at)++ << (8 * i);
    return number;
}

static void pack(const struct header *header, uint8_t *bytes)
{
    uint8_t *at = bytes + MAGIC;

    memcpy(bytes, magic, MAGIC);
    put(&at, header->count, 4);
    for (int i = 0; i < TLZ_STATE_LEN; i++)
        put(&at, header->state[i], 4);
    put(&at, header->steps, 8);
    put(&at, header->length, 8);
    put(&at, (uint64_t)header->changed, 8);
    put(&at, (uint64_t)header->changed_ns, 8);
    put(&at, header->sum, 8);
    put(&at, header->path_length, 8);
}

static void unpack(const uint8_t *bytes, struct header *header)
{
    const uint8_t *at = bytes + MAGIC;

    header->count = (uint32_t)get(&at, 4);
    for (int i = 0; i < TLZ_STATE_LEN; i++)
        header->state[i] = (uint32_t)get(&at, 4);
    header->steps = get(&at, 8);
    header->length = get(&at, 8);
    header->changed = (int64_t)get(&at, 8);
    header->changed_ns = (int64_t)get(&at, 8);
    header->sum = get(&at, 8);
    header->path_length = get(&at, 8);
}

/* The name of the kept check of a path, seen from the root. */
static const char *name_of(const char *folder, const char *real, char *name)
{
    uint64_t sum = sum_with(SUM_OF_NOTHING, real, strlen(real));
    int length = snprintf(name, ROOM, "%s/%016" PRIx64 ".tlz", folder, sum);

    return length < 0 || length >= ROOM ? strerror(ENAMETOOLONG) : NULL;
}

static const char *write_bytes(int fd, const void *bytes, size_t length, uint64_t *sum)
{
    const uint8_t *at = bytes;

    *sum = sum_with(*sum, bytes, length);
    while (length > 0) {
        ssize_t done = write(fd, at, length);
        if (done < 0 && errno != EINTR)
            return strerror(errno);
        at += done > 0 ? done : 0;
        length -= done > 0 ? (size_t)done : 0;
    }
    return NULL;
}

/* Header, path, marks, sum. */
static const char *write_job(int fd, const struct job *job, const char *real)
{
    const struct input *input = &job->input;
    uint64_t file_sum = sum_with(SUM_OF_NOTHING, input->bytes, input->length);
    struct header header = { .count = TLZ_STATE_LEN,
                             .steps = job->steps,
                             .length = input->length,
                             .changed = input->changed,
                             .changed_ns = input->changed_ns,
                             .sum = file_sum,
                             .path_length = strlen(real) };
    uint64_t sum = SUM_OF_NOTHING, ignored = 0;
    uint8_t bytes[HEADER], last[SUM], *end = last;
    const char *why = NULL;

    memcpy(header.state, job->state, sizeof header.state);
    pack(&header, bytes);
    why = write_bytes(fd, bytes, HEADER, &sum);
    if (why == NULL)
        why = write_bytes(fd, real, strlen(real), &sum);
    if (why == NULL)
        why = write_bytes(fd, job->marks, input->length, &sum);
    put(&end, sum, SUM);
    return why != NULL ? why : write_bytes(fd, last, SUM, &ignored);
}

/* Flushes a folder, so that a new name in it stays. */
static const char *flush_folder(const char *folder)
{
    int fd = open(folder, O_RDONLY | O_CLOEXEC);
    const char *why = fd < 0 || fsync(fd) != 0 ? strerror(errno) : NULL;

    if (fd >= 0)
        close(fd);
    return why;
}

/* Writes a job under a name that is there only for this. */
static const char *write_under(const char *name, const struct job *job, const char *real)
{
    int fd = open(name, O_WRONLY | O_CREAT | O_TRUNC | O_CLOEXEC | O_NOFOLLOW, 0600);
    const char *why = NULL;

    if (fd < 0)
        return strerror(errno);
    why = write_job(fd, job, real);
    if (why == NULL && fsync(fd) != 0)
        why = strerror(errno);
    if (close(fd) != 0 && why == NULL)
        why = strerror(errno);
    return why;
}

/* Writes a job whose path from the root is known. */
static const char *write_real(const char *folder, const struct job *job, const char *real)
{
    char name[ROOM], temporary[ROOM + 32];
    const char *why = name_of(folder, real, name);

    if (why != NULL)
        return why;
    if (mkdir(folder, 0700) != 0 && errno != EEXIST)
        return strerror(errno);
    snprintf(temporary, sizeof temporary, "%s.%ld.tmp", name, (long)getpid());
    why = write_under(temporary, job, real);
    if (why == NULL && rename(temporary, name) != 0)
        why = strerror(errno);
    if (why != NULL) {
        unlink(temporary);
        return why;
    }
    return flush_folder(folder);
}

const char *saved_write(const char *folder, const struct job *job)
{
    char *real = realpath(job->path, NULL);
    const char *why = real == NULL ? strerror(errno) : write_real(folder, job, real);

    free(real);
    return why;
}

/* The sum at the end is that of all before it. */
static bool sums_agree(FILE *in, uint64_t length)
{
    uint8_t piece[PIECE];
    uint64_t sum = SUM_OF_NOTHING, left = length - SUM;
    const uint8_t *end = piece;

    while (left > 0) {
        size_t want = left < PIECE ? (size_t)left : PIECE;
        if (fread(piece, 1, want, in) != want)
            return false;
        sum = sum_with(sum, piece, want);
        left -= want;
    }
    return fread(piece, 1, SUM, in) == SUM && get(&end, SUM) == sum;
}

/* NULL, or why a state of so many numbers cannot be used. */
static const char *other_state(uint32_t count)
{
    if (count == STATE_WITHOUT_LEVELS)
        return "the saved check is of an older form, with a state of 12 numbers";
    if (count == STATE_WITHOUT_LOCATION)
        return "the saved check is of an older form, with a state of 33 numbers";
    return count == TLZ_STATE_LEN ? NULL : "the saved check has a state of another length";
}

/* Reads the header of a file that is whole; NULL, or why it cannot be used. */
static const char *read_header(FILE *in, struct header *header)
{
    uint8_t bytes[HEADER];
    struct stat found;

    if (fstat(fileno(in), &found) != 0)
        return strerror(errno);
    if (found.st_size < MAGIC + 4 + SUM || !sums_agree(in, (uint64_t)found.st_size))
        return damaged;
    rewind(in);
    memset(bytes, 0, sizeof bytes);
    if (fread(bytes, 1, HEADER, in) < MAGIC + 4 || memcmp(bytes, magic, MAGIC) != 0)
        return damaged;
    unpack(bytes, header);
    if (other_state(header->count) != NULL)
        return other_state(header->count);
    if (header->state[0] != 0 || header->path_length >= ROOM)
        return damaged;
    if ((uint64_t)found.st_size != HEADER + header->path_length + header->length + SUM)
        return damaged;
    return NULL;
}

/* NULL, or in what the file is not the one whose check was saved. */
static const char *changed(const struct header *header, const struct input *input)
{
    if (header->length != input->length)
        return "the file changed since its check was saved: another length";
    if (header->changed != input->changed || header->changed_ns != input->changed_ns)
        return "the file changed since its check was saved: another time of change";
    if (header->sum != sum_with(SUM_OF_NOTHING, input->bytes, input->length))
        return "the file changed since its check was saved: other bytes";
    return NULL;
}

/* Goes on with the kept check that is open here. */
static const char *read_job(FILE *in, struct job *job, const char *real)
{
    struct header header = { 0 };
    char path[ROOM];
    const char *why = read_header(in, &header);

    if (why != NULL)
        return why;
    if (fread(path, 1, (size_t)header.path_length, in) != header.path_length)
        return damaged;
    if (header.path_length != strlen(real) || memcmp(path, real, strlen(real)) != 0)
        return "the saved check is of another file";
    why = changed(&header, &job->input);
    if (why != NULL)
        return why;
    if (fread(job->marks, 1, job->input.length, in) != job->input.length)
        return damaged;
    memcpy(job->state, header.state, sizeof header.state);
    job->steps = job->before = header.steps;
    return NULL;
}

/* Goes on with the kept check of a path from the root. */
static const char *read_real(const char *folder, struct job *job, const char *real)
{
    char name[ROOM];
    const char *why = name_of(folder, real, name);
    FILE *in = why == NULL ? fopen(name, "rb") : NULL;

    if (why != NULL)
        return why;
    if (in == NULL)
        return errno == ENOENT ? NULL : strerror(errno);
    why = read_job(in, job, real);
    fclose(in);
    return why;
}

const char *saved_read(const char *folder, struct job *job)
{
    char *real = realpath(job->path, NULL);
    const char *why = real == NULL ? strerror(errno) : read_real(folder, job, real);

    free(real);
    return why;
}

const char *saved_remove(const char *folder, const char *path)
{
    char *real = realpath(path, NULL);
    char name[ROOM];
    const char *why = real == NULL ? strerror(errno) : name_of(folder, real, name);

    free(real);
    if (why != NULL)
        return why;
    if (unlink(name) != 0)
        return errno == ENOENT ? NULL : strerror(errno);
    return flush_folder(folder);
}
