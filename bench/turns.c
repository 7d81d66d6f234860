/*
 * A check in plain C that can be put down after any step: opening, sweep, and the walk along the CDR's link, the GDR's heads and
 * the list of unused records, with the numbers, locations and steps of the rules. It carries files whose lists of variables and
 * attributes are empty; where one is not, the grant ends with NOT_HERE. It does less than the proved check in each grant: it
 * believes its state, which is its own and has eight numbers, and keeps the file's end in it, while the proved check looks at
 * the ranges of 34 numbers and finds the end anew.
 */
#include "turns.h"

#include "rules.h"
#include "tlepozaluh.h"

#include <string.h>

/* The phases of docs/STATE.md that are met here. */
enum { FRESH = 0, SWEEP = 1, START = 2, VARIABLES = 3, ATTRIBUTES = 6, UNUSED = 8 };

/* A grant: file and marks, where the check stands, and the steps that are left. */
struct turn {
    const uint8_t *f;
    uint8_t *m;
    struct plain_state s;
    uint64_t left;
};

struct plain_state plain_begin(void)
{
    return (struct plain_state){ .verdict = TLZ_RUNNING };
}

static void finish(struct turn *t, int32_t verdict, int64_t location)
{
    t->s = (struct plain_state){ .verdict = verdict, .location = (uint32_t)location };
}

static void stand(struct turn *t, uint32_t phase, uint32_t kind, int64_t link)
{
    t->s.phase = phase;
    t->s.kind = kind;
    t->s.link = (uint32_t)link;
}

static void open_file(struct turn *t, size_t file_len, size_t marks_len)
{
    int32_t number = opening(t->f, file_len, marks_len);
    t->left--;
    if (number != 0) {
        finish(t, number, 0);
        return;
    }
    t->s.length = (uint32_t)file_len;
    t->s.end = (uint32_t)end_of(t->f);
    stand(t, SWEEP, 0, 8);
}

/* A step a record, to the file's end or the last step that is left. */
static void sweep(struct turn *t)
{
    const uint8_t *f = t->f;
    uint8_t *m = t->m;
    int64_t o = t->s.link, end = t->s.end;
    uint64_t left = t->left;
    int32_t number = 0;
    while (left > 0 && o != end) {
        left--;
        int64_t size = end - o < 8 ? 0 : field(f, o);
        int32_t type = end - o < 8 ? 0 : field(f, o + 4);
        if (size < 8 || size > end - o || type < -1 || type == 0 || type >= 10) {
            number = size >= 8 && size <= end - o && type >= 10 && type <= 13 ? 14 : 7;
            break;
        }
        memset(m + o, 0, (size_t)size);
        m[o] = 1;
        o += size;
    }
    t->left = left;
    if (number != 0)
        finish(t, number, o);
    else if (o == end)
        stand(t, START, 0, 0);
    else
        t->s.link = (uint32_t)o;
}

/* 8 or 9, or -1 if a link leads to a record of a type that is not claimed. */
static int32_t leads(const uint8_t *f, const uint8_t *m, int64_t end, int64_t o, int32_t type)
{
    if (o < 8 || o >= end || (m[o] != 1 && m[o] != 2) || field(f, o + 4) != type)
        return 8;
    return m[o] == 1 ? TLZ_RUNNING : 9;
}

/* The CDR's link. */
static void start(struct turn *t)
{
    int64_t g = field(t->f, 16);
    int32_t number = leads(t->f, t->m, t->s.end, g, GDR);
    t->left--;
    if (number != TLZ_RUNNING) {
        finish(t, number, 8);
        return;
    }
    t->m[g] = 2;
    stand(t, VARIABLES, RVDR, g + 8);
}

/* The head of a list of variables or attributes, which has to be empty. */
static void head(struct turn *t)
{
    const uint8_t *f = t->f;
    int64_t g = field(f, 16);
    int variables = t->s.phase == VARIABLES, first = variables && t->s.kind == RVDR;
    t->left--;
    if (field(f, t->s.link) != 0)
        finish(t, NOT_HERE, 0);
    else if (field(f, g + (first ? 24 : variables ? 40 : 28)) != 0 || (first && field(f, g + 32) != -1))
        finish(t, 11, g);
    else if (first)
        stand(t, VARIABLES, ZVDR, g + 12);
    else if (variables)
        stand(t, ATTRIBUTES, 0, g + 16);
    else
        stand(t, UNUSED, 0, g + 44);
}

/* The unused record u is the next of its list: 8 to 11, or -1. */
static int32_t next_unused(const uint8_t *f, const uint8_t *m, int64_t end, int64_t u, int64_t before)
{
    int32_t number = leads(f, m, end, u, UIR);
    if (number != TLZ_RUNNING)
        return number;
    if (field(f, u) < 16)
        return 10;
    return field(f, u + 12) == before ? TLZ_RUNNING : 11;
}

/* The first record in use that was not claimed, or 0. */
static int64_t unclaimed(const uint8_t *f, const uint8_t *m, int64_t end)
{
    for (int64_t o = 8; o != end; o += field(f, o))
        if (o != 8 && m[o] != 2 && field(f, o + 4) != UIR)
            return o;
    return 0;
}

/* A step a link of the list of unused records, to the zero link or the last step that is left. */
static void walk_unused(struct turn *t)
{
    const uint8_t *f = t->f;
    uint8_t *m = t->m;
    int64_t link = t->s.link, before = t->s.before, end = t->s.end, location = 0;
    uint64_t left = t->left;
    int32_t number = TLZ_RUNNING;
    while (left > 0) {
        int64_t u = field(f, link);
        left--;
        if (u == 0) {
            location = unclaimed(f, m, end);
            number = location != 0 ? 13 : 0;
            break;
        }
        number = next_unused(f, m, end, u, before);
        if (number != TLZ_RUNNING) {
            location = number >= 10 ? u : before != 0 ? before : field(f, 16);
            break;
        }
        m[u] = 2;
        before = u;
        link = u + 8;
    }
    t->left = left;
    t->s.link = (uint32_t)link;
    t->s.before = (uint32_t)before;
    if (number != TLZ_RUNNING)
        finish(t, number, location);
}

int32_t plain_grant(const uint8_t *file, size_t file_len, uint8_t *marks, size_t marks_len, struct plain_state *state,
                    uint64_t grant, uint64_t *steps)
{
    struct turn t = { file, marks, *state, grant };
    *steps = 0;
    if (t.s.verdict != TLZ_RUNNING)
        return t.s.verdict;
    if (t.s.phase != FRESH && (file_len != t.s.length || marks_len < t.s.length))
        return TLZ_OTHER_FILE;
    while (t.left > 0 && t.s.verdict == TLZ_RUNNING) {
        switch (t.s.phase) {
        case FRESH: open_file(&t, file_len, marks_len); break;
        case SWEEP: sweep(&t); break;
        case START: start(&t); break;
        case UNUSED: walk_unused(&t); break;
        default: head(&t); break;
        }
    }
    *state = t.s;
    *steps = grant - t.left;
    return t.s.verdict;
}

static int inside(size_t from, size_t length, size_t area)
{
    return from <= area && length <= area - from;
}

/* Two parts that lie in one area share a byte. */
static int overlap(size_t from, size_t length, size_t other, size_t other_length)
{
    return length > 0 && other_length > 0 && from < other + other_length && other < from + length;
}

/* Each part lies in its area, and no two share a byte. */
static int parts_right(const struct plain_job *jobs, size_t count, size_t files_len, size_t marks_len)
{
    for (size_t i = 0; i < count; i++) {
        const struct plain_job *a = &jobs[i];
        if (!inside(a->file_from, a->file_len, files_len) || !inside(a->marks_from, a->marks_len, marks_len))
            return 0;
        for (const struct plain_job *b = jobs; b < a; b++)
            if (overlap(a->file_from, a->file_len, b->file_from, b->file_len) ||
                overlap(a->marks_from, a->marks_len, b->marks_from, b->marks_len))
                return 0;
    }
    return 1;
}

int32_t plain_round(const uint8_t *files, size_t files_len, uint8_t *marks, size_t marks_len, struct plain_job *jobs,
                    size_t count, uint64_t q)
{
    uint64_t steps = 0;
    if (q == 0 || count > TLZ_MOST_JOBS || !parts_right(jobs, count, files_len, marks_len))
        return TLZ_BAD_ROUND;
    for (size_t i = 0; i < count; i++) {
        struct plain_job *job = &jobs[i];
        job->answer = plain_grant(files + job->file_from, job->file_len, marks + job->marks_from, job->marks_len, &job->state, q,
                                  &steps);
    }
    return TLZ_RUNNING;
}
