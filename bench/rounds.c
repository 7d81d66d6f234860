#include "rounds.h"

#include "times.h"
#include "tlepozaluh.h"
#include "turns.h"

#include <inttypes.h>
#include <stdio.h>
#include <stdlib.h>
#include <string.h>

enum { JOBS = TLZ_MOST_JOBS, RECORDS = 100000, WAYS = 3, TURNS = 33 };

/* The plain check stands where the proved one does: its numbers are those of docs/STATE.md, all others are 0. */
static int stand_alike(const uint32_t *state, const struct plain_state *plain)
{
    uint32_t wanted[TLZ_STATE_LEN] = { (uint32_t)(plain->verdict + 1), plain->length, plain->phase, plain->kind, plain->link };
    wanted[8] = plain->before;
    wanted[TLZ_STATE_LEN - 1] = plain->location;
    return memcmp(state, wanted, sizeof wanted) == 0;
}

/* The same with the marks of the two given. */
static int32_t agreed_on(const struct file *file, uint64_t q, uint8_t *marks, uint8_t *other)
{
    uint32_t state[TLZ_STATE_LEN];
    struct plain_state plain = plain_begin();
    uint64_t steps = 0, other_steps = 0, where = 0;
    int32_t answer = tlz_check_begin(state, TLZ_STATE_LEN);
    while (answer == TLZ_RUNNING) {
        answer = tlz_check_grant(file->bytes, file->length, marks, file->length, state, TLZ_STATE_LEN, q, &steps, &where);
        int32_t plain_answer = plain_grant(file->bytes, file->length, other, file->length, &plain, q, &other_steps);
        if (plain_answer == NOT_HERE)
            return NOT_HERE;
        if (answer != plain_answer || steps != other_steps || where != plain.location || !stand_alike(state, &plain))
            return -1;
    }
    return memcmp(marks, other, file->length) == 0 ? answer : -1;
}

int32_t agreed_by_grants(const struct file *file, uint64_t q)
{
    uint8_t *marks = allocated(file->length), *other = allocated(file->length);
    int32_t answer = agreed_on(file, q, marks, other);
    free(marks);
    free(other);
    return answer;
}

/* The areas, one behind the other the parts of JOBS files of one length; the jobs of the proved check and of the plain one. */
struct lent {
    uint8_t *files, *marks;
    size_t length;
    tlz_job jobs[JOBS];
    struct plain_job plain[JOBS];
};

/* Fresh jobs. */
static void begin(struct lent *l)
{
    for (size_t i = 0; i < JOBS; i++) {
        size_t from = i * l->length;
        uint32_t owner = 1000 + (uint32_t)i;
        l->jobs[i] = (tlz_job){ owner, TLZ_RUNNING, from, l->length, from, l->length, { 0 } };
        l->plain[i] = (struct plain_job){ owner, TLZ_RUNNING, from, l->length, from, l->length, plain_begin() };
    }
}

static void fail(uint64_t q, const char *why)
{
    fprintf(stderr, "rounds of %" PRIu64 " steps: %s\n", q, why);
    exit(1);
}

/* A way to make so many rounds of q steps a job. */
typedef void make_rounds(struct lent *l, uint64_t q, uint64_t count);

static void by_rounds(struct lent *l, uint64_t q, uint64_t count)
{
    for (uint64_t i = 0; i < count; i++)
        if (tlz_round(l->files, JOBS * l->length, l->marks, JOBS * l->length, l->jobs, JOBS, q) != TLZ_RUNNING)
            fail(q, "a round was refused");
}

static void by_grants(struct lent *l, uint64_t q, uint64_t count)
{
    uint64_t steps = 0, where = 0;
    for (uint64_t i = 0; i < count; i++)
        for (tlz_job *job = l->jobs; job < l->jobs + JOBS; job++)
            job->answer = tlz_check_grant(l->files + job->file_from, job->file_len, l->marks + job->marks_from, job->marks_len,
                                          job->state, TLZ_STATE_LEN, q, &steps, &where);
}

static void by_plain(struct lent *l, uint64_t q, uint64_t count)
{
    for (uint64_t i = 0; i < count; i++)
        if (plain_round(l->files, JOBS * l->length, l->marks, JOBS * l->length, l->plain, JOBS, q) != TLZ_RUNNING)
            fail(q, "a round in C was refused");
}

static make_rounds *const ways[WAYS] = { by_rounds, by_grants, by_plain };

/* How many jobs have this answer: those of the proved check, or of the plain one. */
static int answered(const struct lent *l, int plain, int32_t answer)
{
    int n = 0;
    for (int i = 0; i < JOBS; i++)
        n += (plain ? l->plain[i].answer : l->jobs[i].answer) == answer;
    return n;
}

/* The three went alike so far: the rows of rounds and of single grants are the same, and the plain jobs stand where they do. */
static int rows_alike(const struct lent *l)
{
    int alike = memcmp(l[0].jobs, l[1].jobs, sizeof l[0].jobs) == 0;
    for (int i = 0; i < JOBS; i++)
        alike &= l[0].jobs[i].answer == l[2].plain[i].answer && stand_alike(l[0].jobs[i].state, &l[2].plain[i].state);
    return alike;
}

static int marks_alike(const struct lent *l)
{
    size_t all = JOBS * l->length;
    return memcmp(l[0].marks, l[1].marks, all) == 0 && memcmp(l[0].marks, l[2].marks, all) == 0;
}

/*
 * Makes rounds the three ways, each on marks of its own, until all jobs are accepted, and compares rows after each, marks about
 * every 25,000 steps and at the end. Gives the number of rounds; ends the program if anything differs.
 */
static uint64_t compared(const struct lent *lent, uint64_t q)
{
    struct lent l[WAYS] = { *lent, *lent, *lent };
    uint64_t count = 0, often = q < 25000 ? 25000 / q : 1;
    int alike = 1;
    for (int way = 0; way < WAYS; way++) {
        begin(&l[way]);
        l[way].marks = allocated(JOBS * lent->length);
    }
    while (alike && answered(&l[0], 0, TLZ_ACCEPTED) < JOBS) {
        for (int way = 0; way < WAYS; way++)
            ways[way](&l[way], q, 1);
        alike = rows_alike(l) && answered(&l[0], 0, TLZ_RUNNING) + answered(&l[0], 0, TLZ_ACCEPTED) == JOBS;
        if (++count % often == 0)
            alike &= marks_alike(l);
    }
    if (!alike || !marks_alike(l)) {
        fprintf(stderr, "rounds of %" PRIu64 " steps: round %" PRIu64 " differs\n", q, count);
        exit(1);
    }
    for (int way = 0; way < WAYS; way++)
        free(l[way].marks);
    return count;
}

/* Times the three ways by turns, each as often first, on the same areas. */
static void timed_rounds(struct lent *l, uint64_t q)
{
    double times[WAYS][TURNS], took[WAYS];
    uint64_t count = compared(l, q);
    for (int i = 0; i < TURNS * WAYS; i++) {
        int turn = i / WAYS, way = (i + turn) % WAYS;
        begin(l);
        double start = now();
        ways[way](l, q, count);
        times[way][turn] = now() - start;
        if (answered(l, way == 2, TLZ_ACCEPTED) != JOBS)
            fail(q, "a job was not accepted");
    }
    for (int way = 0; way < WAYS; way++)
        took[way] = median(times[way], TURNS);
    printf("%6" PRIu64 " steps %7" PRIu64 " rounds  rounds %8.3f ms  grants %8.3f ms  C %8.3f ms  a round %9.0f ns  "
           "rounds/grants %.2f  rounds/C %.2f\n",
           q, count, 1e3 * took[0], 1e3 * took[1], 1e3 * took[2], 1e9 * took[0] / (double)count, took[0] / took[1],
           took[0] / took[2]);
}

void rounds(void)
{
    struct file file = unused_records(RECORDS);
    struct lent l = { allocated(JOBS * file.length), allocated(JOBS * file.length), file.length, { { 0 } }, { { 0 } } };
    printf("\nFiles by turns: rounds of so many steps a job, over eight jobs of 100,000 listed unused records each\n");
    for (size_t i = 0; i < JOBS; i++)
        memcpy(l.files + i * file.length, file.bytes, file.length);
    for (uint64_t q = 1; q <= 10000; q *= 100) {
        if (agreed_by_grants(&file, q) != TLZ_ACCEPTED) {
            fprintf(stderr, "grants of %" PRIu64 " steps differ\n", q);
            exit(1);
        }
        timed_rounds(&l, q);
    }
    free(l.files);
    free(l.marks);
    free(file.bytes);
}
