#define _XOPEN_SOURCE 700

#include "listing.h"

#include "console.h"

#include <errno.h>
#include <ftw.h>
#include <stdio.h>
#include <stdlib.h>
#include <string.h>
#include <sys/stat.h>

enum { FOLDERS_OPEN = 16 };

/* What nftw has found so far; it hands its function nothing of the caller's. */
static struct found *list = NULL;
static size_t length = 0, room = 0, base = 0;

/* Room for one more; false if there is no memory. */
static bool grow(void)
{
    size_t more = room > 0 ? 2 * room : 64;
    struct found *larger = length < room ? list : realloc(list, more * sizeof *list);

    if (larger == NULL)
        return false;
    room = length < room ? room : more;
    list = larger;
    return true;
}

/* Why something that was found cannot be checked; NULL for a regular file. */
static const char *unfit(const struct stat *found, int type)
{
    if (type == FTW_DNR)
        return "a folder that cannot be read";
    if (type == FTW_NS)
        return "cannot be looked at";
    if (type == FTW_SL || type == FTW_SLN)
        return "a symbolic link, not followed";
    return S_ISREG(found->st_mode) ? NULL : "not a regular file";
}

/* Length of the part of a path that names the owner. */
static size_t named_in(const char *path)
{
    size_t start = base + strspn(path + base, "/");

    return start + strcspn(path + start, "/");
}

static int note(const char *path, const struct stat *found, int type, struct FTW *where)
{
    struct found *file = NULL;

    (void)where;
    if (type == FTW_D)
        return 0;
    if (!grow())
        return ENOMEM;
    file = &list[length];
    memset(file, 0, sizeof *file);
    file->path = strdup(path);
    if (file->path == NULL)
        return ENOMEM;
    file->why = unfit(found, type);
    file->named = named_in(path);
    file->length = file->why == NULL && found->st_size <= TLZ_LONGEST_FILE ? (uint64_t)found->st_size : 0;
    length++;
    return 0;
}

static int by_path(const void *a, const void *b)
{
    return strcmp(((const struct found *)a)->path, ((const struct found *)b)->path);
}

static int by_turn(const void *a, const void *b)
{
    const struct found *one = a, *other = b;

    if (one->rank != other->rank)
        return one->rank < other->rank ? -1 : 1;
    return by_path(a, b);
}

/* One owner has both files; in order of paths its files stand together. */
static bool same_owner(const struct found *a, const struct found *b)
{
    return a->named == b->named && strncmp(a->path, b->path, a->named) == 0;
}

/* A job for a file that was found: unfinished, or unchecked if it is unfit. */
static void make_job(struct found *file)
{
    job_wait(&file->job, file->path);
    if (file->why != NULL)
        job_unfit(&file->job, file->why);
}

/* Numbers the owners, and puts the files in order of turns. */
static void by_turns(struct found *files, size_t count)
{
    listing_sort(files, count);
    for (size_t i = 1; i < count; i++) {
        bool same = same_owner(&files[i], &files[i - 1]);
        files[i].rank = same ? files[i - 1].rank + 1 : 0;
        files[i].owner = files[i - 1].owner + (same ? 0 : 1);
    }
    if (count > 1)
        qsort(files, count, sizeof *files, by_turn);
    for (size_t i = 0; i < count; i++)
        make_job(&files[i]);
}

/* The folder itself can be listed; complains if not. */
static bool is_folder(const char *folder)
{
    struct stat found;

    if (stat(folder, &found) != 0)
        console_complain(folder, "cannot be listed", strerror(errno));
    else if (!S_ISDIR(found.st_mode))
        console_complain(folder, "cannot be listed", strerror(ENOTDIR));
    else
        return true;
    return false;
}

/* Lists what is below a folder; 0, or the error's number. */
static int walk(const char *start)
{
    int failed = 0;

    base = strlen(start);
    if (!grow())
        return ENOMEM;
    failed = nftw(start, note, FOLDERS_OPEN, FTW_PHYS);
    return failed < 0 ? errno : failed;
}

/* Where to start: the folder's name without slashes at its end, or where it leads if it is a symbolic link. */
static char *start_of(const char *folder)
{
    char *start = strdup(folder), *real = NULL;
    struct stat found;

    for (size_t end = start == NULL ? 0 : strlen(start); end > 1 && start[end - 1] == '/'; end--)
        start[end - 1] = '\0';
    if (start == NULL || lstat(start, &found) != 0 || !S_ISLNK(found.st_mode))
        return start;
    real = realpath(start, NULL);
    free(start);
    return real;
}

struct found *listing_of(const char *folder, size_t *count)
{
    char *start = NULL;
    int failed = ENOMEM;

    *count = 0;
    if (!is_folder(folder))
        return NULL;
    start = start_of(folder);
    if (start != NULL)
        failed = walk(start);
    free(start);
    if (failed != 0) {
        console_complain(folder, "cannot be listed", strerror(failed));
        listing_free(list, length);
        return NULL;
    }
    by_turns(list, length);
    *count = length;
    return list;
}

void listing_sort(struct found *files, size_t count)
{
    if (count > 1)
        qsort(files, count, sizeof *files, by_path);
}

void listing_free(struct found *files, size_t count)
{
    for (size_t i = 0; i < count; i++)
        free(files[i].path);
    free(files);
}
