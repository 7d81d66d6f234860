#include "night.h"

#include "window.h"

#include <string.h>

/* Puts an open file behind all others. */
static void join(struct night *night, struct found *file)
{
    file->behind = NULL;
    if (night->first == NULL)
        night->first = file;
    else
        night->last->behind = file;
    night->last = file;
}

/* Takes out the file whose turn is next. */
static struct found *leave(struct night *night)
{
    struct found *file = night->first;

    night->first = file->behind;
    return file;
}

/* Begins files, in order of turns, as long as there is room for the next one. One alone has room, if there is memory for it. */
static void take_in(struct night *night, const struct manner *manner)
{
    while (!night->full && night->next < night->count && !window_over()) {
        struct found *file = &night->files[night->next];
        if (file->job.outcome == UNFINISHED && !job_open(&file->job, manner, &night->area)) {
            night->full = true;
            return;
        }
        night->next++;
        if (file->job.open)
            join(night, file);
    }
}

/* A file as a row of a round. */
static tlz_job row_of(const struct found *file)
{
    const struct job *job = &file->job;
    tlz_job row = { .owner = file->owner,
                    .answer = TLZ_RUNNING,
                    .file_from = job->from,
                    .file_len = job->input.length,
                    .marks_from = job->from,
                    .marks_len = job->input.length };

    memcpy(row.state, job->state, sizeof row.state);
    return row;
}

/* A grant of 0 says a row's verdict again, and its location. If it says another, row and state do not belong to each other. */
static void say_again(struct job *job, struct turn *turn)
{
    uint64_t steps = 0;
    size_t length = job->input.length;
    int32_t again = tlz_check_grant(job->input.bytes, length, job->marks, length, job->state, TLZ_STATE_LEN, 0, &steps,
                                    &turn->location);

    if (again != turn->answer)
        turn->answer = TLZ_BAD_STATE;
}

/* Takes a row that had its turn. */
static void take_row(struct job *job, const struct manner *manner, const tlz_job *row, uint64_t q, double seconds)
{
    struct turn turn = { .answer = row->answer, .steps = q, .seconds = seconds };

    memcpy(job->state, row->state, sizeof row->state);
    if (row->answer != TLZ_RUNNING && row->answer != TLZ_BAD_STATE && row->answer != TLZ_OTHER_FILE)
        say_again(job, &turn);
    job_take(job, manner, &turn);
}

/* A round for the next files, up to eight; those that are still open go behind all others. */
static void make_round(struct night *night, const struct manner *manner)
{
    struct found *group[TLZ_MOST_JOBS];
    tlz_job rows[TLZ_MOST_JOBS];
    size_t count = 0;
    uint64_t q = manner->grant, due = 0;
    double start = window_clock(), seconds = 0;
    int32_t answer = 0;

    for (; count < TLZ_MOST_JOBS && night->first != NULL; count++) {
        group[count] = leave(night);
        rows[count] = row_of(group[count]);
        due = job_due(&group[count]->job, manner);
        if (due < q)
            q = due;
    }
    answer = tlz_round(night->area.files, night->area.length, night->area.marks, night->area.length, rows, count, q);
    seconds = window_clock() - start;
    for (size_t i = 0; i < count; i++) {
        if (answer == TLZ_RUNNING)
            take_row(&group[i]->job, manner, &rows[i], q, seconds);
        else
            job_take(&group[i]->job, manner, &(struct turn){ .answer = TLZ_BAD_ROUND, .seconds = seconds });
        if (group[i]->job.open)
            join(night, group[i]);
        else
            night->full = false;
    }
}

/* How long the area is made: as half of the memory, but no longer than all files together and no shorter than the longest. */
static size_t area_length(const struct night *night, uint64_t memory)
{
    uint64_t length = 0, longest = 0;

    for (size_t i = 0; i < night->count; i++) {
        length += night->files[i].length;
        if (night->files[i].length > longest)
            longest = night->files[i].length;
    }
    if (length > memory / 2)
        length = memory / 2;
    if (length < longest)
        length = longest;
    return length < PTRDIFF_MAX ? (size_t)length : PTRDIFF_MAX;
}

void night_run(struct night *night, const struct manner *manner, uint64_t memory)
{
    area_make(&night->area, area_length(night, memory), night->count);
    take_in(night, manner);
    while (night->first != NULL && !window_over()) {
        make_round(night, manner);
        take_in(night, manner);
    }
    while (night->first != NULL)
        job_close(&leave(night)->job, manner);
    area_free(&night->area);
}
