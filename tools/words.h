/* What the library's numbers mean, in words. */
#ifndef TOOLS_WORDS_H
#define TOOLS_WORDS_H

#include <stddef.h>
#include <stdint.h>

/* The meaning of a number that comes back. */
const char *words_of_number(int32_t number);

/* The meaning of a number that the reader refuses with. */
const char *words_of_refusal(int32_t number);

/* A data type's name, by its number in the file. */
const char *words_of_type(int32_t type);

/* An encoding's name, by its number in the file. */
const char *words_of_encoding(int32_t encoding);

/* Where a check stands, by the numbers of its state (docs/STATE.md); the file's body has so many bytes. */
void words_of_state(const uint32_t *state, size_t body, char *words, size_t room);

#endif
