/* What goes to standard error: where a long check stands, and complaints. */
#ifndef TOOLS_CONSOLE_H
#define TOOLS_CONSOLE_H

#include <stdbool.h>
#include <stdint.h>

/* Shows where the check of a file stands, on one line that is written over. */
void console_progress(const char *path, const char *where, uint64_t steps);

/* Clears that line, if it is there. */
void console_clear(void);

/* Says what went wrong with a file, apart from its check. */
void console_complain(const char *path, const char *what, const char *why);

/* Something was complained of, or standard output could not be written: the run exits with 2. */
bool console_trouble(void);

#endif
