/* Files by turns: rounds of the proved check against single grants of it, and against rounds in plain C. */
#ifndef BENCH_ROUNDS_H
#define BENCH_ROUNDS_H

#include "files.h"

#include <stdint.h>

/*
 * Grants of q steps by the plain check and by the proved one, to the verdict: they agree after each in answer, steps, state and
 * location, and at the end in the marks. Gives the verdict; NOT_HERE if they agree as far as the plain one carries the file; -1 if
 * they differ.
 */
int32_t agreed_by_grants(const struct file *file, uint64_t q);

/* Times rounds of 1, 100 and 10,000 steps over eight jobs of 100,000 listed unused records each. */
void rounds(void);

#endif
