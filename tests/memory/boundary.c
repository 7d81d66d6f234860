/*
 * boundary ROUNDS FILE..: calls the library with heap buffers of exactly the lengths that it is told, to be run under a memory
 * checker. Fresh checks get marks that were never written; made-up states get made-up marks. Files are also damaged and padded;
 * their padding was never written. Prints how many grants were made; exits with 1 if an answer, the steps, the location or a byte
 * that must not change is wrong.
 */
#include "states.h"
#include "tlepozaluh.h"

#include <inttypes.h>

/* How many bytes of marks are missing: 0, or 1 to see that the memory checker finds that. */
#ifndef MISSING
#define MISSING 0
#endif

/* Buffers of one check, each an allocation of its own. */
struct lent {
    uint8_t *file, *marks;
    uint32_t *state;
    uint64_t *steps, *where;
    size_t length, end, marks_len, state_len;
};

static uint64_t grants = 0, wrong = 0;

/* Buffers for a file; its padding is not written. */
static struct lent lend(const uint8_t *file, size_t length, size_t marks_len, size_t state_len)
{
    size_t missing = marks_len > 0 ? MISSING : 0;
    struct lent lent = { .length = length, .end = end_of(file, length), .marks_len = marks_len, .state_len = state_len };

    lent.file = exactly(length);
    lent.marks = exactly(marks_len - missing);
    lent.state = exactly(state_len * sizeof *lent.state);
    lent.steps = exactly(sizeof *lent.steps);
    lent.where = exactly(sizeof *lent.where);
    memcpy(lent.file, file, lent.end);
    return lent;
}

static void give_back(struct lent *lent)
{
    free(lent->file);
    free(lent->marks);
    free(lent->state);
    free(lent->steps);
    free(lent->where);
}

static void expect(int right, const char *what)
{
    if (right)
        return;
    wrong++;
    fprintf(stderr, "wrong: %s\n", what);
}

/* Verdicts that a finished state has a location for; 14 may have none. */
static int has_location(int32_t answer)
{
    return (answer >= TLZ_NOT_TILED && answer <= TLZ_NOT_CARRIED) || answer == TLZ_TOO_DEEP;
}

/* A grant whose answer, steps and location are what they can be. */
static int32_t grant(struct lent *lent, uint64_t steps)
{
    int32_t answer = tlz_check_grant(lent->file, lent->length, lent->marks, lent->marks_len, lent->state, lent->state_len, steps,
                                     lent->steps, lent->where);

    grants++;
    expect((answer >= TLZ_RUNNING && answer <= TLZ_NOT_CARRIED) || answer == TLZ_BAD_STATE || answer == TLZ_OTHER_FILE ||
               answer == TLZ_TOO_DEEP,
           "answer");
    expect(*lent->steps <= steps, "steps");
    expect(answer != TLZ_RUNNING || *lent->steps == steps, "fewer steps and not finished");
    expect(*lent->where == (has_location(answer) ? lent->state[LOCATION] : 0), "location");
    return answer;
}

/* A finished check gives its verdict and location again, in 0 steps. */
static void repeats(struct lent *lent, int32_t verdict)
{
    uint64_t where = *lent->where;

    for (uint64_t steps = 0; steps < 3; steps++)
        expect(grant(lent, steps) == verdict && *lent->steps == 0 && *lent->where == where, "a repeated verdict");
}

/* A fresh check in grants of up to `most` steps, on marks that were never written. */
static void fresh_check(const uint8_t *file, size_t length, uint64_t most)
{
    struct lent lent = lend(file, length, length, TLZ_STATE_LEN);
    int32_t answer = TLZ_RUNNING;

    expect(tlz_check_begin(lent.state, TLZ_STATE_LEN) == TLZ_RUNNING, "begin");
    while (answer == TLZ_RUNNING)
        answer = grant(&lent, 1 + any(most));
    expect(answer != TLZ_OTHER_FILE && answer != TLZ_BAD_STATE, "a fresh check's verdict");
    expect(!has_location(answer) || (*lent.where >= 8 && *lent.where < lent.end) || (answer == TLZ_NOT_CARRIED && *lent.where == 0),
           "a fresh check's location");
    repeats(&lent, answer);
    expect(memcmp(lent.file, file, lent.end) == 0, "the file was written");
    give_back(&lent);
}

/* Marks that are too short, at opening and later. */
static void short_marks(const uint8_t *file, size_t length)
{
    struct lent lent = lend(file, length, length / 2, TLZ_STATE_LEN);

    tlz_check_begin(lent.state, TLZ_STATE_LEN);
    if (length / 2 < length)
        expect(grant(&lent, 9) == TLZ_MARKS_TOO_SHORT, "short marks");
    memset(lent.state, 0, TLZ_STATE_LEN * sizeof *lent.state);
    lent.state[1] = (uint32_t)length;
    lent.state[2] = 8;
    if (length / 2 < length)
        expect(grant(&lent, 9) == TLZ_OTHER_FILE, "short marks later");
    give_back(&lent);
}

/* States of every length but the right one, each finished as accepted; they are refused and stay as they are. */
static void other_lengths(const uint8_t *file, size_t length)
{
    for (size_t n = 0; n < 2 * TLZ_STATE_LEN; n++) {
        struct lent lent = lend(file, length, length, n);
        memset(lent.state, 0, n * sizeof *lent.state);
        if (n > 0)
            lent.state[0] = 1;
        if (n != TLZ_STATE_LEN) {
            expect(tlz_check_begin(lent.state, n) == TLZ_BAD_STATE, "begin with another length");
            expect(grant(&lent, any(3)) == TLZ_BAD_STATE && *lent.steps == 0, "another length");
        }
        for (size_t i = 0; i < n; i++)
            expect(lent.state[i] == (i == 0), "a state of another length was written");
        give_back(&lent);
    }
}

/* Finished states with any other numbers: they repeat verdict and location, and stay as they are. */
static void finished(const uint8_t *file, size_t length)
{
    for (size_t k = 0; k < sizeof firsts / sizeof *firsts; k++) {
        struct lent lent = lend(file, length, length, TLZ_STATE_LEN);
        uint32_t before[TLZ_STATE_LEN] = { firsts[k] };
        for (int i = 1; i < TLZ_STATE_LEN; i++)
            before[i] = made_up_number(length);
        memcpy(lent.state, before, sizeof before);
        expect(grant(&lent, any(3)) == (int32_t)firsts[k] - 1 && *lent.steps == 0, "a finished state's verdict");
        repeats(&lent, (int32_t)firsts[k] - 1);
        expect(memcmp(lent.state, before, sizeof before) == 0, "a finished state was written");
        give_back(&lent);
    }
}

/* An unfinished state with a location is out of range. */
static void location_too_early(const uint8_t *file, size_t length)
{
    struct lent lent = lend(file, length, length, TLZ_STATE_LEN);

    memset(lent.state, 0, TLZ_STATE_LEN * sizeof *lent.state);
    lent.state[LOCATION] = 1 + (uint32_t)any(UINT32_MAX);
    expect(grant(&lent, 0) == TLZ_RUNNING, "a location in an unfinished state, not looked at");
    expect(grant(&lent, 1 + any(9)) == TLZ_BAD_STATE && *lent.steps == 1, "a location in an unfinished state");
    expect(lent.state[0] == TLZ_BAD_STATE + 1 && lent.state[LOCATION] == 0, "20 has no location");
    repeats(&lent, TLZ_BAD_STATE);
    give_back(&lent);
}

/* How far a head stands from its record's start, by phase and kind; the number of a state that is 0 while none is taken. */
static const struct head {
    uint32_t phase, kind, taken, from;
} heads[] = { { 3, 3, 5, 8 },  { 3, 8, 5, 12 }, { 4, 3, 8, 20 }, { 4, 8, 8, 20 },
              { 6, 0, 5, 16 }, { 7, 5, 9, 12 }, { 7, 9, 9, 36 }, { 8, 0, 8, 44 } };

/* A link to 7, which is no record, anywhere but in what gives the file's end: its holder is found from the state. */
static void holder(const uint8_t *file, size_t length, const struct head *head, uint32_t taken)
{
    struct lent lent = lend(file, length, length, TLZ_STATE_LEN);
    size_t link = 20 + any(lent.end - 23), from = taken > 0 ? 8 : head->from;
    int64_t gdr = control(lent.file, 16) < 0 ? 1 : control(lent.file, 16); /* docs/STATE.md: a negative link stands for 1 */

    memset(lent.state, 0, TLZ_STATE_LEN * sizeof *lent.state);
    lent.state[1] = (uint32_t)length;
    lent.state[2] = head->phase;
    lent.state[3] = head->kind;
    lent.state[4] = (uint32_t)link;
    lent.state[head->taken] = taken;
    memcpy(lent.file + link, "\0\0\0\7", 4);
    if ((int64_t)link + 3 < gdr + 20 || (int64_t)link > gdr + 23) {
        expect(grant(&lent, 1) == TLZ_BAD_LINK, "a link to 7");
        expect(*lent.where == (link < from ? 0 : link - from), "the holder of a link to 7");
    }
    give_back(&lent);
}

static void holders(const uint8_t *file, size_t length)
{
    if (length < 372 || end_of(file, length) < 372)
        return;
    for (size_t k = 0; k < sizeof heads / sizeof *heads; k++)
        for (uint32_t taken = 0; taken < 3; taken++)
            holder(file, length, &heads[k], taken);
}

/* Marks 0 to 7 and those from the file's end on are as they were. */
static void outside_stays(const struct lent *lent, uint8_t outside)
{
    for (size_t i = 0; i < lent->marks_len; i++)
        if (i < 8 || i >= lent->end)
            expect(lent->marks[i] == outside, i < 8 ? "marks 0 to 7" : "marks from the file's end on");
}

/* A made-up state on made-up marks; those outside the body look like starts of records, or not. */
static void made_up(const uint8_t *file, size_t length)
{
    struct lent lent = lend(file, length, length + 2, TLZ_STATE_LEN);
    int all_starts = any(2) == 0;
    uint8_t outside = any(2) == 0 ? 1 : 0x55;
    int32_t answer = TLZ_RUNNING;

    for (size_t i = 0; i < length + 2; i++)
        lent.marks[i] = i < 8 || i >= lent.end ? outside : all_starts ? 1 : (uint8_t)any(4);
    make_up(lent.state, length, any(2) == 0 ? length : lent.end);
    for (size_t most = 2 * length + 100; answer == TLZ_RUNNING && most > 0; most--)
        answer = grant(&lent, 1 + any(9));
    expect(answer != TLZ_RUNNING, "a made-up state goes on for ever");
    if (answer != TLZ_OTHER_FILE)
        repeats(&lent, answer);
    outside_stays(&lent, outside);
    give_back(&lent);
}

static void try_file(const uint8_t *bytes, size_t length, uint64_t rounds)
{
    uint8_t *copy = exactly(length + PADDING + 1);

    fresh_check(bytes, length, 1);
    fresh_check(bytes, length, 1000000);
    short_marks(bytes, length);
    other_lengths(bytes, length);
    finished(bytes, length);
    location_too_early(bytes, length);
    for (uint64_t i = 0; i < rounds; i++) {
        memcpy(copy, bytes, length);
        size_t padded = pad(copy, length);
        fresh_check(copy, any(padded + 1), 20);
        if (any(2) == 0)
            damage(copy, padded);
        made_up(copy, padded);
        holders(copy, padded);
        damage(copy, padded);
        fresh_check(copy, padded, 20);
    }
    free(copy);
}

int main(int count, char **words)
{
    uint64_t rounds = count > 1 ? strtoull(words[1], NULL, 10) : 0;

    for (int i = 2; i < count; i++) {
        size_t length = 0;
        const uint8_t *bytes = read_file(words[i], &length);
        if (bytes == NULL)
            return 2;
        try_file(bytes, length, rounds);
    }
    printf("%d files, %" PRIu64 " grants, %" PRIu64 " wrong\n", count - 2, grants, wrong);
    return wrong != 0;
}
