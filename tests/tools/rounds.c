/*
 * A round in place of the library's, for tests of cdfnight. It tells the length of the areas, q and the rows' owners on standard
 * error and grants each row its steps; or, with ANSWER in the environment, gives that answer and makes every row accepted, which
 * the rows' states do not say.
 */
#include "tlepozaluh.h"

#include <inttypes.h>
#include <stdio.h>
#include <stdlib.h>

/* One row's turn. */
static int32_t grant(const uint8_t *files, uint8_t *marks, tlz_job *job, uint64_t q)
{
    uint64_t steps = 0, where = 0;

    return tlz_check_grant(files + job->file_from, job->file_len, marks + job->marks_from, job->marks_len, job->state,
                           TLZ_STATE_LEN, q, &steps, &where);
}

int32_t tlz_round(const uint8_t *files, size_t files_len, uint8_t *marks, size_t marks_len, tlz_job *jobs, size_t count,
                  uint64_t q)
{
    const char *answer = getenv("ANSWER");

    fprintf(stderr, "round: areas %zu %zu, q %" PRIu64 ", owners", files_len, marks_len, q);
    for (size_t i = 0; i < count; i++) {
        fprintf(stderr, " %" PRIu32, jobs[i].owner);
        jobs[i].answer = answer != NULL ? TLZ_ACCEPTED : grant(files, marks, &jobs[i], q);
    }
    fprintf(stderr, "\n");
    return answer != NULL ? atoi(answer) : TLZ_RUNNING;
}
