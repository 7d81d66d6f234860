/* What came out of a check, on standard output. */
#ifndef TOOLS_PRINT_H
#define TOOLS_PRINT_H

#include "job.h"

/*
 * One line: outcome, number, steps, seconds, name, padding if there is any, and in words why it is not accepted, with the
 * record at fault and its location if there is one. `counted` is the word for the job's steps: "steps", or "granted".
 */
void print_line(const struct job *job, const char *counted, bool marks);

/* The same as a JSON object on one line. */
void print_json(const struct job *job, const char *counted, bool marks);

#endif
