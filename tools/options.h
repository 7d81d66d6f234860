/* The command line. */
#ifndef TOOLS_OPTIONS_H
#define TOOLS_OPTIONS_H

#include "job.h"

struct options {
    struct manner manner;
    double seconds; /* of the window, below 0 if it has no end */
    int hour;       /* when the window ends, below 0 if no time of day is given .. */
    int minute;     /* .. and the minute */
    uint64_t memory; /* bytes of files and marks that are held at a time */
    uint64_t at; /* the offset of the record to be looked at .. */
    bool look;   /* .. if one is to be */
    bool json;
    bool quiet;
};

/* Which options a program has: those of a check, also those of a night, or --at, --json, --help and --version alone. */
enum work { CHECK, NIGHT, READ };

/* A program: its name, its help, and its options. */
struct program {
    const char *name;
    const char *help;
    enum work work;
};

/*
 * Reads the options and begins the window, if the program checks. Gives the place of the first word that is none. Help and
 * version are printed and end the program with 0; a word that cannot be read ends it with 2.
 */
int options_read(int count, char **words, const struct program *program, struct options *options);

/* Ends the program with 2 and says what is wrong with its command line. */
_Noreturn void options_fail(const struct program *program, const char *what, const char *word);

#endif
