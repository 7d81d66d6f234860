/* A check of one file: its part of an area, where it stands, and what came out of it. */
#ifndef TOOLS_JOB_H
#define TOOLS_JOB_H

#include "area.h"
#include "input.h"
#include "tlepozaluh.h"

#include <stdbool.h>
#include <stdint.h>

/* What came out. Only verdict 0 is ACCEPTED. */
enum outcome { ACCEPTED, REFUSED, UNFINISHED, UNCHECKED, OUTCOMES };

/* The number of a file that was not checked for a reason that the table does not have; the padding of one that was not read or
 * does not open. */
enum { NO_NUMBER = -2, NO_PADDING = -1, WHY_ROOM = 160 };

struct job {
    const char *path;
    struct input input;
    int32_t padding; /* bytes of the file from its end on, or NO_PADDING */
    struct area *area; /* where its bytes and marks lie, or NULL .. */
    size_t from;       /* .. and from where on, in both */
    uint8_t *marks;
    uint32_t state[TLZ_STATE_LEN];
    uint64_t steps;  /* since the check began, see struct turn .. */
    uint64_t before; /* .. and those of earlier runs among them */
    double seconds;  /* of this run */
    enum outcome outcome;
    int32_t number;
    char why[WHY_ROOM]; /* in words, unless it is accepted */
    uint64_t location;  /* of a refusal: the file offset of the record at fault, or 0 .. */
    const char *record; /* .. and in words what stands there; NULL where it is 0 */
    uint64_t marks_sum; /* of the marks at the end, if asked for */
    bool open;          /* can be granted steps */
};

/* What a turn of a job came to. */
struct turn {
    int32_t answer;
    uint64_t location; /* of a refusal */
    uint64_t steps;    /* those made; of a round, which does not tell them, those granted: the same where the answer is -1 */
    double seconds;    /* of the grant, or of the whole round */
};

/* How checks are made, for all files of a run. */
struct manner {
    uint64_t grant;     /* steps a grant */
    uint64_t limit;     /* the most steps a file in this run */
    const char *save;   /* where unfinished checks are kept, or NULL */
    const char *resume; /* where they are taken from, or NULL */
    bool marks;         /* marks are AA hex at first, and their sum is shown */
    bool progress;      /* where the check stands is shown after every grant */
    bool terminal;      /* it is shown now and then, for long work */
};

/* A job that has not begun: unfinished. */
void job_wait(struct job *job, const char *path);

/* A job whose file cannot be checked, for a reason in words. */
void job_unfit(struct job *job, const char *why);

/*
 * Reads the file into a part of an area and begins its check, or takes up the saved one. It is open then, or unchecked, or
 * closed again if it may make no step. False if there is no room for it as long as others have their parts: it waits as before.
 */
bool job_open(struct job *job, const struct manner *manner, struct area *area);

/* The steps of its next turn: those of a grant, or what the limit leaves. */
uint64_t job_due(const struct job *job, const struct manner *manner);

/* Takes what a turn came to. Closes the job if it is finished or has reached its limit. */
void job_take(struct job *job, const struct manner *manner, const struct turn *turn);

/* A turn of its own: one grant. */
void job_grant(struct job *job, const struct manner *manner);

/* Ends a job: keeps it if it is unfinished and is to be saved, and gives its part back. */
void job_close(struct job *job, const struct manner *manner);

/* The word for what came out. */
const char *job_word(enum outcome outcome);

/* The exit status of a run with so many files of each outcome. */
int job_status(const uint64_t counts[OUTCOMES]);

#endif
