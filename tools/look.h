/* A look at one record of any bytes: its fields by name, and the bytes that are no fields. */
#ifndef TOOLS_LOOK_H
#define TOOLS_LOOK_H

#include "values.h"

/*
 * Shows what stands at an offset. Nothing is trusted: no byte is looked at behind the file's length or, where the size can be
 * one, behind the record's size. What is wrong with the record's offset, size, type or counts is said; gives true if nothing is.
 */
bool look_at(const struct source *source, uint64_t offset);

#endif
