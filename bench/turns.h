/* A check in plain C that takes grants, and rounds of it, as a yardstick for tlz_round. */
#ifndef BENCH_TURNS_H
#define BENCH_TURNS_H

#include <stddef.h>
#include <stdint.h>

/* The answer where a file has what this check does not carry: a variable or an attribute. No number of the rules. */
enum { NOT_HERE = 99 };

/*
 * Where a check stands between grants: of the numbers of docs/STATE.md those that it needs, with the verdict as it is answered
 * (-1 while it is not finished), and the file's end. All are 0 in a finished state but verdict and location.
 */
struct plain_state {
    int32_t verdict;
    uint32_t length, end, phase, kind, link, before, location;
};

/* A row of a list of jobs, as tlz_job. */
struct plain_job {
    uint32_t owner;
    int32_t answer;
    size_t file_from, file_len, marks_from, marks_len;
    struct plain_state state;
};

/* A fresh state. */
struct plain_state plain_begin(void);

/* As tlz_check_grant, or NOT_HERE, for a grant of 1 or more; the location of a refusal is in the state. */
int32_t plain_grant(const uint8_t *file, size_t file_len, uint8_t *marks, size_t marks_len, struct plain_state *state,
                    uint64_t grant, uint64_t *steps);

/* As tlz_round. */
int32_t plain_round(const uint8_t *files, size_t files_len, uint8_t *marks, size_t marks_len, struct plain_job *jobs,
                    size_t count, uint64_t q);

#endif
