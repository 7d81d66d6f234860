/* A variable as the reader describes it, its description and its records. */
#ifndef TOOLS_VARIABLE_H
#define TOOLS_VARIABLE_H

#include "values.h"

enum { MOST_DIMENSIONS = 10 };

struct variable {
    int64_t kind, number; /* how it is asked for */
    int32_t type, max_rec, flags, sparseness, elements, num, dimensions;
    int32_t sizes[MOST_DIMENSIONS], variances[MOST_DIMENSIONS];
    uint64_t name, name_length;
};

/* Asks for all that describes a variable: 0, or the first refusal. */
int32_t variable_read(const struct source *source, int64_t kind, int64_t number, struct variable *variable);

/* Prints what describes it. */
void variable_describe(struct source *source, const struct variable *variable);

/* Prints the stored values of one record, or that it is a gap. */
void variable_record(struct source *source, const struct variable *variable, int64_t record);

/*
 * Prints those of all records from 0 to MaxRec, gaps that follow one another as one line; of record 0 alone if records do not
 * vary. Ends at a refusal.
 */
void variable_records(struct source *source, const struct variable *variable);

#endif
