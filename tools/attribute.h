/* An attribute and its entries, as the reader describes them. */
#ifndef TOOLS_ATTRIBUTE_H
#define TOOLS_ATTRIBUTE_H

#include "values.h"

/* Prints the attribute of a number with its entries: 0, or the refusal if there is none; then nothing is printed. */
int32_t attribute_describe(struct source *source, int64_t number);

#endif
