#include "console.h"

#include "text.h"

#include <errno.h>
#include <inttypes.h>
#include <stdio.h>
#include <string.h>

static bool line_shown = false, complained = false;

void console_progress(const char *path, const char *where, uint64_t steps)
{
    fputs("\r\033[K", stderr);
    text_name(stderr, path);
    fprintf(stderr, ": %s, %" PRIu64 " steps", where, steps);
    fflush(stderr);
    line_shown = true;
}

void console_clear(void)
{
    if (line_shown)
        fputs("\r\033[K", stderr);
    line_shown = false;
}

void console_complain(const char *path, const char *what, const char *why)
{
    console_clear();
    text_name(stderr, path);
    fprintf(stderr, ": %s: %s\n", what, why);
    complained = true;
}

bool console_trouble(void)
{
    console_clear();
    if (fflush(stdout) != 0 || ferror(stdout))
        console_complain("standard output", "not written", strerror(errno));
    return complained;
}
