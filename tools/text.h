/* Names and numbers as text: what is printed, and what is given on the command line. */
#ifndef TOOLS_TEXT_H
#define TOOLS_TEXT_H

#include <stdbool.h>
#include <stdint.h>
#include <stdio.h>

/* Prints a name on one line: control characters and backslashes as \xNN, so that no name can look like a line of its own. */
void text_name(FILE *out, const char *name);

/* Prints a JSON string; bytes that are no UTF-8 become U+FFFD. Gives false if there were such bytes. */
bool text_json(FILE *out, const char *string);

/* Prints a string's bytes as hexadecimal digits. */
void text_hex(FILE *out, const char *string);

/* A whole number, digits only; false if it is none or does not fit. */
bool text_number(const char *word, uint64_t *number);

/* A whole number in decimal, or in hexadecimal with 0x before it; false if it is none or does not fit. */
bool text_offset(const char *word, uint64_t *number);

/* Seconds, 0 or more, with or without a fraction; false if it is no such number. */
bool text_seconds(const char *word, double *seconds);

/* An hour and minute, HH:MM; false if it is none. */
bool text_hour(const char *word, int *hour, int *minute);

#endif
