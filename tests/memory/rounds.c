/*
 * rounds LISTS FILE..: makes rounds over areas and lists that are heap buffers of exactly the lengths that the library is told,
 * to be run under a memory checker. So many lists are drawn by chance: files as they are, padded, damaged and cut, laid out in
 * any order, touching or not; fresh, finished and made-up states. Each round is compared with single grants on copies of the
 * parts, byte by byte; a round that must be refused has to leave all as it was. Prints how many rounds were made and what came
 * back; exits with 1 if anything is wrong or an answer never came.
 */
#include "states.h"
#include "tlepozaluh.h"

#include <inttypes.h>
#include <stddef.h>

/* Which buffer is a byte too short, to see that the memory checker finds that: 1 the file area, 2 the marks area, 3 the list. */
#ifndef MISSING
#define MISSING 0
#endif

/* The row as C lays it out where size_t has 64 bits: the library takes it so. */
_Static_assert(sizeof(size_t) != 8 || sizeof(tlz_job) == 176, "176 bytes a row");
_Static_assert(offsetof(tlz_job, owner) == 0 && offsetof(tlz_job, answer) == 4, "owner at 0, answer at 4");
_Static_assert(sizeof(size_t) != 8 || (offsetof(tlz_job, file_from) == 8 && offsetof(tlz_job, file_len) == 16), "file at 8");
_Static_assert(sizeof(size_t) != 8 || (offsetof(tlz_job, marks_from) == 24 && offsetof(tlz_job, marks_len) == 32), "marks at 24");
_Static_assert(sizeof(size_t) != 8 || offsetof(tlz_job, state) == 40, "state at 40");

/* The most rows of a list here, one too many; how many answers there are, -1 the first of them. */
enum { ROWS = TLZ_MOST_JOBS + 1, ANSWERS = TLZ_BAD_ROUND + 2 };

/* What a round is lent, each an allocation of its own. */
struct lent {
    uint8_t *files, *marks;
    tlz_job *jobs;
    size_t files_len, marks_len, count;
    int bare; /* marks, padding and the bytes between files were never written */
};

static uint64_t rounds = 0, answers[ANSWERS], wrong = 0;

static void expect(int right, const char *what)
{
    if (right)
        return;
    wrong++;
    fprintf(stderr, "wrong: %s\n", what);
}

static struct lent lend(size_t files_len, size_t marks_len, size_t count)
{
    struct lent l = { .files_len = files_len, .marks_len = marks_len, .count = count };

    l.files = exactly(files_len - (MISSING == 1));
    l.marks = exactly(marks_len - (MISSING == 2));
    l.jobs = exactly(count * sizeof *l.jobs - (MISSING == 3));
    return l;
}

static void give_back(struct lent *l)
{
    free(l->files);
    free(l->marks);
    free(l->jobs);
}

static void *copied(const void *bytes, size_t length)
{
    void *copy = exactly(length);

    memcpy(copy, bytes, length);
    return copy;
}

/* A part of an area. */
struct part {
    size_t from, length;
};

static struct part part_of(const tlz_job *job, int in_files)
{
    return in_files ? (struct part){ job->file_from, job->file_len } : (struct part){ job->marks_from, job->marks_len };
}

static void set_part(tlz_job *job, int in_files, struct part part)
{
    *(in_files ? &job->file_from : &job->marks_from) = part.from;
    *(in_files ? &job->file_len : &job->marks_len) = part.length;
}

/* All parts lie in the area and no byte of it is in two of them, found by counting for each byte. */
static int apart(const struct lent *l, int in_files)
{
    size_t area = in_files ? l->files_len : l->marks_len;
    uint8_t *owners = exactly(area);
    int right = 1;

    memset(owners, 0, area);
    for (size_t i = 0; i < l->count && right; i++) {
        struct part p = part_of(&l->jobs[i], in_files);
        right = p.from <= area && p.length <= area - p.from;
        for (size_t k = 0; right && k < p.length; k++)
            right = ++owners[p.from + k] == 1;
    }
    free(owners);
    return right;
}

/* A grant on copies of a row's parts, of exactly their lengths; the row and its part of the marks become what it leaves. */
static void single(const uint8_t *files, uint8_t *marks, tlz_job *row, uint64_t q)
{
    uint8_t *file = copied(files + row->file_from, row->file_len), *own = copied(marks + row->marks_from, row->marks_len);
    uint64_t steps = 0, where = 0;

    row->answer = tlz_check_grant(file, row->file_len, own, row->marks_len, row->state, TLZ_STATE_LEN, q, &steps, &where);
    memcpy(marks + row->marks_from, own, row->marks_len);
    free(file);
    free(own);
}

/* A round: rows and marks become what single grants make of copies of them, or nothing changes. Gives its answer. */
static int32_t one_round(struct lent *l, uint64_t q)
{
    tlz_job *rows = copied(l->jobs, l->count * sizeof *rows);
    uint8_t *files = copied(l->files, l->files_len), *marks = copied(l->marks, l->marks_len);
    int right = q > 0 && l->count <= TLZ_MOST_JOBS && apart(l, 1) && apart(l, 0);
    int32_t answer = 0;

    for (size_t i = 0; right && i < l->count; i++) {
        int running = rows[i].state[0] == 0;
        single(files, marks, &rows[i], q);
        answers[rows[i].answer + 1] += running;
    }
    answer = tlz_round(l->files, l->files_len, l->marks, l->marks_len, l->jobs, l->count, q);
    rounds++;
    answers[TLZ_BAD_ROUND + 1] += !right;
    expect(answer == (right ? TLZ_RUNNING : TLZ_BAD_ROUND), "the answer of a round");
    expect(memcmp(l->jobs, rows, l->count * sizeof *rows) == 0, right ? "rows" : "a refused round changed a row");
    expect(l->bare || memcmp(l->files, files, l->files_len) == 0, "the file area was written");
    expect(l->bare || memcmp(l->marks, marks, l->marks_len) == 0, right ? "marks" : "a refused round changed a mark");
    free(rows);
    free(files);
    free(marks);
    return answer;
}

/* ---- Lists that are always the same */

static void put(uint8_t *file, size_t at, uint32_t value)
{
    for (int k = 0; k < 4; k++)
        file[at + (size_t)k] = (uint8_t)(value >> (24 - 8 * k));
}

/* A good file's length. It has CDR, GDR and an unused record of 8 bytes, so that the sweep reads its last byte. */
enum { GOOD = 380 };

static void make_good(uint8_t *file)
{
    static const uint32_t cdr[] = { 0xCDF26002, 0x0000FFFF, 304, 1, 312, 2, 0, 6, 3 };

    memset(file, 0, GOOD);
    for (size_t i = 0; i < sizeof cdr / sizeof *cdr; i++)
        put(file, 4 * i, cdr[i]);
    put(file, 312, 60);
    put(file, 316, 2);
    put(file, 332, GOOD);
    put(file, 344, UINT32_MAX);
    put(file, 372, 8);
    put(file, 376, UINT32_MAX);
}

/* Eight good files that touch and fill both areas, their marks in the other order; what is missing is not written here. */
static struct lent full_list(void)
{
    struct lent l = lend(TLZ_MOST_JOBS * GOOD, TLZ_MOST_JOBS * GOOD, TLZ_MOST_JOBS);
    uint8_t file[GOOD];

    make_good(file);
    l.bare = 1;
    for (size_t i = 0; i < TLZ_MOST_JOBS; i++) {
        size_t from = i * GOOD, last = i == TLZ_MOST_JOBS - 1;
        tlz_job job = { (uint32_t)i, 77, from, GOOD, (TLZ_MOST_JOBS - 1) * GOOD - from, GOOD, { 0 } };
        memcpy(l.files + from, file, GOOD - (MISSING == 1 && last));
        memcpy((uint8_t *)l.jobs + i * sizeof job, &job, sizeof job - (MISSING == 3 && last));
    }
    return l;
}

/* They are accepted after so many rounds, and no sooner. */
static void full_rounds(uint64_t q)
{
    const uint64_t steps = 9; /* opening, three records, the CDR's link, four zero links */
    struct lent l = full_list();
    uint64_t last = (steps - 1) / q + 1;

    for (uint64_t i = 1; i <= last + 1; i++) {
        one_round(&l, q);
        for (size_t k = 0; k < TLZ_MOST_JOBS; k++)
            expect(l.jobs[k].answer == (i < last ? TLZ_RUNNING : TLZ_ACCEPTED), "eight good files");
    }
    give_back(&l);
}

/* Two parts of an area of 40 bytes, and whether a round takes them. */
static const struct pair {
    struct part a, b;
    int taken;
} pairs[] = {
    { { 0, 20 }, { 20, 20 }, 1 },          /* touching */
    { { 20, 20 }, { 0, 20 }, 1 },          /* touching, in the other order */
    { { 0, 20 }, { 19, 21 }, 0 },          /* one byte shared */
    { { 19, 21 }, { 0, 20 }, 0 },
    { { 10, 10 }, { 10, 10 }, 0 },         /* the same */
    { { 0, 40 }, { 39, 1 }, 0 },           /* one in the other */
    { { 39, 1 }, { 0, 40 }, 0 },
    { { 0, 40 }, { 40, 0 }, 1 },           /* empty, at the area's end */
    { { 0, 40 }, { 17, 0 }, 1 },           /* empty, in the midst of the other */
    { { 17, 0 }, { 17, 0 }, 1 },           /* both empty, at one offset */
    { { 0, 0 }, { 41, 0 }, 0 },            /* empty, past the end */
    { { 39, 1 }, { 0, 0 }, 1 },            /* the last byte */
    { { 39, 2 }, { 0, 0 }, 0 },            /* one byte too far */
    { { 0, 41 }, { 0, 0 }, 0 },
    { { 40, 1 }, { 0, 0 }, 0 },
    { { SIZE_MAX, 1 }, { 0, 0 }, 0 },      /* sums that pass the greatest number */
    { { 1, SIZE_MAX }, { 0, 0 }, 0 },
    { { 20, SIZE_MAX - 9 }, { 0, 0 }, 0 },
    { { SIZE_MAX - 9, 20 }, { 0, 0 }, 0 },
    { { SIZE_MAX, SIZE_MAX }, { 0, 0 }, 0 },
    { { SIZE_MAX, 0 }, { 0, 0 }, 0 },
};

/* Two rows with these parts of the file area, or of the marks area; fresh ones, or finished. */
static void paired(const struct pair *pair, int in_files, uint32_t verdict)
{
    struct lent l = lend(in_files ? 40 : 0, in_files ? 0 : 40, 2);

    memset(l.files, 5, l.files_len);
    memset(l.marks, 5, l.marks_len);
    memset(l.jobs, 0, 2 * sizeof *l.jobs);
    set_part(&l.jobs[0], in_files, pair->a);
    set_part(&l.jobs[1], in_files, pair->b);
    l.jobs[0].state[0] = l.jobs[1].state[0] = verdict;
    expect(one_round(&l, 3) == (pair->taken ? TLZ_RUNNING : TLZ_BAD_ROUND), "a pair of parts");
    expect(one_round(&l, 0) == TLZ_BAD_ROUND, "a round of 0 steps");
    give_back(&l);
}

/* Lists of none to nine rows without a byte, over areas with and without bytes. */
static void empty_parts(size_t count, size_t area)
{
    struct lent l = lend(area, area, count);

    memset(l.files, 1, area);
    memset(l.marks, 1, area);
    memset(l.jobs, 0, count * sizeof *l.jobs);
    for (size_t i = 0; i < count; i++)
        l.jobs[i].file_from = l.jobs[i].marks_from = area;
    expect(one_round(&l, UINT64_MAX) == (count <= TLZ_MOST_JOBS ? TLZ_RUNNING : TLZ_BAD_ROUND), "rows without a byte");
    for (size_t i = 0; i < count; i++)
        expect(l.jobs[i].answer == (count <= TLZ_MOST_JOBS ? TLZ_NOT_CDF : 0), "the answer of a row without a byte");
    expect(one_round(&l, 0) == TLZ_BAD_ROUND, "a round of 0 steps");
    give_back(&l);
}

static void fixed_lists(void)
{
    for (uint64_t q = 1; q <= 10; q++)
        full_rounds(q);
    for (size_t i = 0; i < sizeof pairs / sizeof *pairs; i++)
        for (uint32_t verdict = 0; verdict < 3; verdict++) {
            paired(&pairs[i], 1, verdict);
            paired(&pairs[i], 0, verdict);
        }
    for (size_t count = 0; count <= ROWS; count++) {
        empty_parts(count, 0);
        empty_parts(count, 3);
    }
}

/* ---- Lists drawn by chance */

/* The files that were named, and which is the next to be taken. */
static struct file {
    uint8_t *bytes;
    size_t length;
} *named;
static size_t named_count = 0, next = 0;

/* The next file, as it is, padded, damaged, cut, or without a byte. */
static struct file drawn(void)
{
    const struct file *from = &named[next++ % named_count];
    struct file file = { exactly(from->length + PADDING + 1), from->length };

    memcpy(file.bytes, from->bytes, from->length);
    if (any(3) == 0)
        file.length = pad(file.bytes, file.length);
    if (any(3) == 0)
        damage(file.bytes, file.length);
    if (any(6) == 0)
        file.length = any(4) == 0 ? 0 : any(file.length + 1);
    return file;
}

/* Lays parts into an area, in any order, most of them touching, the last one mostly at its end. Gives the area's length. */
static size_t lay_out(struct part *parts, size_t count)
{
    size_t order[ROWS] = { 0 }, at = 0;

    for (size_t i = 0; i < count; i++) {
        size_t k = any(i + 1);
        order[i] = order[k];
        order[k] = i;
    }
    for (size_t i = 0; i < count; i++) {
        at += any(4) == 0 ? any(20) : 0;
        parts[order[i]].from = at;
        at += parts[order[i]].length;
    }
    return at + (any(4) == 0 ? any(20) : 0);
}

/* A finished state with any other numbers. */
static void make_finished(uint32_t *state, size_t length)
{
    for (int i = 0; i < TLZ_STATE_LEN; i++)
        state[i] = made_up_number(length);
    state[0] = firsts[any(sizeof firsts / sizeof *firsts)];
}

/* A state for a file: mostly fresh; else finished, or made up where the marks were written, also for a file of another length. */
static void draw_state(uint32_t *state, const struct file *file, int bare)
{
    uint64_t kind = any(bare ? 5 : 10);

    memset(state, 0, TLZ_STATE_LEN * sizeof *state);
    if (kind == 4)
        make_finished(state, file->length);
    if (kind >= 5 && kind < 8)
        make_up(state, file->length, end_of(file->bytes, file->length));
    if (kind == 8)
        make_up(state, file->length + 1 - any(3), file->length);
}

/* All bytes of the areas get values; many marks look like starts of records. */
static void fill(struct lent *l)
{
    int starts = any(2) == 0;

    memset(l->files, (int)any(256), l->files_len);
    for (size_t i = 0; i < l->marks_len; i++)
        l->marks[i] = starts ? 1 : (uint8_t)any(4);
}

/* Drawn rows with their files, and marks as long as these, longer or too short. */
static struct lent drawn_list(size_t count, int bare)
{
    struct file files[ROWS];
    struct part parts[ROWS], own[ROWS];

    for (size_t i = 0; i < count; i++) {
        files[i] = drawn();
        parts[i].length = files[i].length;
        own[i].length = any(16) == 0 ? files[i].length / 2 : files[i].length + (any(8) == 0 ? any(9) : 0);
    }
    size_t files_len = lay_out(parts, count), marks_len = lay_out(own, count);
    struct lent l = lend(files_len, marks_len, count);
    l.bare = bare;
    if (!bare)
        fill(&l);
    for (size_t i = 0; i < count; i++) {
        l.jobs[i].owner = (uint32_t)any(UINT32_MAX);
        l.jobs[i].answer = (int32_t)any(30) - 2;
        set_part(&l.jobs[i], 1, parts[i]);
        set_part(&l.jobs[i], 0, own[i]);
        draw_state(l.jobs[i].state, &files[i], bare);
        memcpy(l.files + parts[i].from, files[i].bytes, bare ? end_of(files[i].bytes, parts[i].length) : parts[i].length);
        free(files[i].bytes);
    }
    return l;
}

/* A round with one part moved, longer or shorter; by its bytes it is refused or not. Then the part is as before. */
static void moved_part(struct lent *l, uint64_t q)
{
    tlz_job *job = &l->jobs[any(l->count)];
    int in_files = any(2) == 0;
    struct part was = part_of(job, in_files), other = part_of(&l->jobs[any(l->count)], in_files), now = was;
    size_t area = in_files ? l->files_len : l->marks_len;
    const size_t froms[] = { was.from + 1, was.from - 1, other.from, 0, area - was.length, area, SIZE_MAX - was.length + 1 };
    const size_t lengths[] = { was.length + 1, was.length - 1, 0, area - was.from, area, SIZE_MAX, SIZE_MAX - was.from + 1 };

    if (any(2) == 0)
        now.from = froms[any(sizeof froms / sizeof *froms)];
    else
        now.length = lengths[any(sizeof lengths / sizeof *lengths)];
    set_part(job, in_files, now);
    one_round(l, q);
    set_part(job, in_files, was);
}

/* Some rounds over a drawn list: a job begun fresh ends as soon as it must. Then rounds with a part moved. */
static void some_rounds(void)
{
    static const uint64_t grants[] = { 0, 1, 2, 5, 20, 20, 100, 1000, UINT64_MAX };
    static const uint32_t fresh[TLZ_STATE_LEN];
    uint64_t q = grants[any(sizeof grants / sizeof *grants)], most = 1 + any(12);
    int bare = any(2) == 0, began[ROWS] = { 0 };
    struct lent l = drawn_list(any(8) == 0 ? any(ROWS + 1) : 2 + any(TLZ_MOST_JOBS - 1), bare);

    for (size_t i = 0; i < l.count; i++)
        began[i] = memcmp(l.jobs[i].state, fresh, sizeof fresh) == 0;
    for (uint64_t r = 1; r <= most && one_round(&l, q) == TLZ_RUNNING && q > 0; r++)
        for (size_t i = 0; i < l.count; i++)
            expect(!began[i] || l.jobs[i].state[0] != 0 || l.jobs[i].file_len / 4 / q >= r, "a fresh job goes on too long");
    for (uint64_t k = any(4); !bare && l.count > 0 && k < 4; k++)
        moved_part(&l, q);
    give_back(&l);
}

/* Each of these came at least once, to a job that was not finished before. */
static void all_met(void)
{
    static const int32_t met[] = { -1, 0, 2, 3, 5, 6, 7, 8, 9, 10, 11, 12, 13, 14, 20, 21, 23, 24 };

    for (size_t i = 0; i < sizeof met / sizeof *met; i++)
        expect(answers[met[i] + 1] > 0, "an answer never came");
}

static void drawn_lists(uint64_t lists)
{
    for (uint64_t i = 0; i < lists; i++)
        some_rounds();
    all_met();
    for (size_t i = 0; i < named_count; i++)
        free(named[i].bytes);
}

int main(int count, char **words)
{
    if (MISSING != 0) {
        struct lent l = full_list();
        tlz_round(l.files, l.files_len, l.marks, l.marks_len, l.jobs, l.count, UINT64_MAX);
        give_back(&l);
        return 0;
    }
    named = exactly((size_t)count * sizeof *named);
    for (int i = 2; i < count; i++) {
        size_t length = 0;
        const uint8_t *bytes = read_file(words[i], &length);
        if (bytes == NULL)
            return 2;
        named[named_count++] = (struct file){ copied(bytes, length), length };
    }
    fixed_lists();
    if (named_count > 0)
        drawn_lists(strtoull(words[1], NULL, 10));
    free(named);
    printf("%zu files, %" PRIu64 " rounds, %" PRIu64 " wrong; answers", named_count, rounds, wrong);
    for (int i = 0; i < ANSWERS; i++)
        if (answers[i] > 0)
            printf(" %d: %" PRIu64, i - 1, answers[i]);
    printf("\n");
    return wrong != 0;
}
