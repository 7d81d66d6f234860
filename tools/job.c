#include "job.h"

#include "console.h"
#include "record.h"
#include "saved.h"
#include "sum.h"
#include "window.h"
#include "words.h"

#include <stdio.h>
#include <string.h>

/* Long work is work of a quarter of a second. */
static const double progress_after = 0.25, progress_every = 0.2;

static void set(struct job *job, enum outcome outcome, int32_t number, const char *why)
{
    job->outcome = outcome;
    job->number = number;
    job->location = 0;
    job->record = NULL;
    snprintf(job->why, sizeof job->why, "%s", why);
}

void job_wait(struct job *job, const char *path)
{
    memset(job, 0, sizeof *job);
    job->path = path;
    job->padding = NO_PADDING;
    set(job, UNFINISHED, TLZ_RUNNING, "not begun");
}

void job_unfit(struct job *job, const char *why)
{
    set(job, UNCHECKED, NO_NUMBER, why);
}

/* Gives its part back, if it has one. */
static void drop(struct job *job)
{
    if (job->area != NULL)
        area_give(job->area, job->from, job->input.length);
    job->area = NULL;
    job->input.bytes = job->marks = NULL;
    job->open = false;
}

/* How many bytes the file's body has. */
static size_t body(const struct job *job)
{
    return job->input.length - (job->padding == NO_PADDING ? 0 : (size_t)job->padding);
}

/* Where an unfinished check stands, in words. */
static void say_where(struct job *job)
{
    words_of_state(job->state, body(job), job->why, sizeof job->why);
}

/* Bytes, padding, marks and state, fresh or kept, of a job that has its part; NULL, or why not. */
static const char *prepare(struct job *job, const struct manner *manner)
{
    size_t length = job->input.length;
    const char *why = input_fill(&job->input, job->area->files + job->from);

    if (why != NULL)
        return why;
    tlz_read_file(job->input.bytes, length, TLZ_FILE_PADDING, &job->padding); /* a refusal leaves it as it is */
    job->marks = job->area->marks + job->from;
    memset(job->marks, manner->marks ? 0xaa : 0, length);
    if (tlz_check_begin(job->state, TLZ_STATE_LEN) != TLZ_RUNNING)
        return words_of_number(TLZ_BAD_STATE);
    return manner->resume != NULL ? saved_read(manner->resume, job) : NULL;
}

/* A job whose file is in its part and whose state is ready: it is open, unless it may make no step. */
static void begin(struct job *job, const struct manner *manner)
{
    job->open = true;
    say_where(job);
    if (job_due(job, manner) == 0)
        job_close(job, manner);
}

bool job_open(struct job *job, const struct manner *manner, struct area *area)
{
    double start = window_clock();
    const char *why = input_open(job->path, &job->input);

    if (why == NULL && area_take(area, job->input.length, &job->from)) {
        job->area = area;
        why = prepare(job, manner);
    } else if (why == NULL) {
        input_close(&job->input);
        if (area->taken > 0)
            return false;
        why = "out of memory";
    }
    job->seconds += window_clock() - start;
    if (why == NULL) {
        begin(job, manner);
        return true;
    }
    job->steps = job->before = 0;
    set(job, UNCHECKED, job->input.too_long ? TLZ_TOO_LONG : NO_NUMBER, why);
    drop(job);
    return true;
}

uint64_t job_due(const struct job *job, const struct manner *manner)
{
    uint64_t left = manner->limit - (job->steps - job->before);
    uint64_t countable = UINT64_MAX - job->steps;

    if (left > countable)
        left = countable;
    return left < manner->grant ? left : manner->grant;
}

/* What an answer says, and its location. 20, 21 and 24 speak of state and round and not of the file, so it was not checked. */
static void judge(struct job *job, int32_t answer, uint64_t location)
{
    if (answer == TLZ_RUNNING)
        say_where(job);
    else if (answer == TLZ_ACCEPTED)
        set(job, ACCEPTED, answer, "");
    else if ((answer > TLZ_ACCEPTED && answer <= TLZ_NOT_CARRIED) || answer == TLZ_TOO_DEEP)
        set(job, REFUSED, answer, words_of_number(answer));
    else
        set(job, UNCHECKED, answer, words_of_number(answer));
    if (location != 0 && job->outcome == REFUSED) {
        job->location = location;
        job->record = record_words(job->input.bytes, body(job), location);
    }
}

/* Shows where a long check stands. */
static void show(const struct job *job, const struct manner *manner)
{
    static double shown = 0;
    double now = window_clock();
    bool due = manner->terminal && job->seconds >= progress_after && now - shown >= progress_every;

    if (job->outcome != UNFINISHED || !(due || manner->progress))
        return;
    shown = now;
    console_progress(job->path, job->why, job->steps);
}

void job_take(struct job *job, const struct manner *manner, const struct turn *turn)
{
    judge(job, turn->answer, turn->location);
    job->steps += turn->steps;
    job->seconds += turn->seconds;
    show(job, manner);
    if (job->outcome != UNFINISHED || job_due(job, manner) == 0)
        job_close(job, manner);
}

void job_grant(struct job *job, const struct manner *manner)
{
    double start = window_clock();
    struct turn turn = { 0 };
    size_t length = job->input.length;

    turn.answer = tlz_check_grant(job->input.bytes, length, job->marks, length, job->state, TLZ_STATE_LEN,
                                  job_due(job, manner), &turn.steps, &turn.location);
    turn.seconds = window_clock() - start;
    job_take(job, manner, &turn);
}

/* Keeps an unfinished check that has begun; removes what is kept of a finished one. */
static void keep(struct job *job, const struct manner *manner)
{
    const char *why = NULL;

    if (job->outcome == UNFINISHED && job->steps > 0)
        why = saved_write(manner->save, job);
    else if (job->outcome == ACCEPTED || job->outcome == REFUSED)
        why = saved_remove(manner->save, job->path);
    if (why != NULL)
        console_complain(job->path, "the check could not be saved", why);
}

void job_close(struct job *job, const struct manner *manner)
{
    const char *why = NULL;

    if (!job->open)
        return;
    if (job->outcome != UNFINISHED)
        why = input_changed(job->path, &job->input);
    if (why != NULL)
        job_unfit(job, why);
    if (manner->marks)
        job->marks_sum = sum_with(SUM_OF_NOTHING, job->marks, job->input.length);
    if (manner->save != NULL)
        keep(job, manner);
    drop(job);
}

const char *job_word(enum outcome outcome)
{
    static const char *const words[OUTCOMES] = { "accepted", "refused", "unfinished", "unchecked" };

    return words[outcome];
}

int job_status(const uint64_t counts[OUTCOMES])
{
    if (counts[UNCHECKED] > 0)
        return 2;
    if (counts[REFUSED] > 0)
        return 1;
    return counts[UNFINISHED] > 0 ? 3 : 0;
}
