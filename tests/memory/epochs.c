/*
 * epochs EVERY: makes the calls for epochs with each number that they set in an allocation of its own, of exactly its size and,
 * but for refusals, never written before, to be run under a memory checker. A calendar is walked day by day from the first of
 * year 0 to the last of year 9999, by the lengths of months; of every so many days, and of the last month's, the first and the
 * last millisecond and one by chance go to dates and back, and are subtracted from others. Then come doubles that are no epochs and dates that do not exist. Prints how
 * many calls were made; exits with 1 if an answer or a number is wrong, or a refusal changed a number.
 */
#include "exact.h"
#include "tlepozaluh.h"

#include <inttypes.h>
#include <math.h>
#include <string.h>

/* Which number has an allocation that is one byte short: 0 for none, or 1 to 6 to see that the memory checker finds it. */
#ifndef MISSING
#define MISSING 0
#endif

enum { DAY = 86400000, LAST_YEAR = 9999, NUMBERS = 4 };

/* What a call may set: a date's numbers, an epoch, a difference. */
struct lent {
    int32_t *date[NUMBERS];
    double *epoch, *difference;
};

/* A day of the calendar, and its number from the first of year 0 on. */
struct day {
    int64_t year, month, day, number;
};

static const int32_t BEFORE = 0x5aa50ff0;
static const double BEFORE_DOUBLE = -12345.678;
static uint64_t dates = 0, epochs = 0, differences = 0, refused = 0, wrong = 0;

static struct lent lend(void)
{
    struct lent l = { .epoch = exactly(sizeof *l.epoch - (MISSING == 5)),
                      .difference = exactly(sizeof *l.difference - (MISSING == 6)) };

    for (int i = 0; i < NUMBERS; i++)
        l.date[i] = exactly(sizeof *l.date[i] - (MISSING == i + 1));
    return l;
}

static void give_back(struct lent *l)
{
    for (int i = 0; i < NUMBERS; i++)
        free(l->date[i]);
    free(l->epoch);
    free(l->difference);
}

static void expect(int right, const char *what)
{
    if (right)
        return;
    wrong++;
    fprintf(stderr, "wrong: %s\n", what);
}

/* The same double to the bit. */
static int same(double a, double b)
{
    return memcmp(&a, &b, sizeof a) == 0;
}

static int32_t ask_date(const struct lent *l, double epoch)
{
    dates++;
    return tlz_epoch_date(epoch, l->date[0], l->date[1], l->date[2], l->date[3]);
}

static int32_t ask_epoch(const struct lent *l, int64_t year, int64_t month, int64_t day, int64_t milliseconds)
{
    epochs++;
    return tlz_epoch_from(year, month, day, milliseconds, l->epoch);
}

static int32_t ask_difference(const struct lent *l, double a, double b)
{
    differences++;
    return tlz_epoch_difference(a, b, l->difference);
}

/* A millisecond of a day goes to its date and back, and is subtracted from one before and the other way round. */
static void one_epoch(const struct day *d, int64_t milliseconds)
{
    static int64_t before = 0;
    struct lent l = lend();
    int64_t n = d->number * DAY + milliseconds;

    expect(ask_date(&l, (double)n) == 0, "the answer for an epoch");
    expect(*l.date[0] == d->year && *l.date[1] == d->month && *l.date[2] == d->day, "a date");
    expect(*l.date[3] == milliseconds, "milliseconds of a day");
    expect(ask_epoch(&l, d->year, d->month, d->day, milliseconds) == 0, "the answer for a date");
    expect(same(*l.epoch, (double)n), "an epoch");
    expect(ask_difference(&l, (double)n, (double)before) == 0, "the answer for a difference");
    expect(same(*l.difference, (double)(n - before)), "a difference");
    expect(ask_difference(&l, (double)before, (double)n) == 0, "the answer for a difference, the other way round");
    expect(same(*l.difference, (double)(before - n)), "a difference, the other way round");
    before = any(4) == 0 ? n : before;
    give_back(&l);
}

/* The days of a month. */
static int64_t month_days(int64_t year, int64_t month)
{
    static const int64_t days[] = { 31, 28, 31, 30, 31, 30, 31, 31, 30, 31, 30, 31 };
    int leap = year % 4 == 0 && (year % 100 != 0 || year % 400 == 0);

    return days[month - 1] + (month == 2 && leap);
}

/* The day after a day. */
static void step(struct day *d)
{
    d->number++;
    d->day++;
    if (d->day <= month_days(d->year, d->month))
        return;
    d->day = 1;
    d->month++;
    if (d->month <= 12)
        return;
    d->month = 1;
    d->year++;
}

/* Walks the calendar to its end, which is the number of days that 25 times 400 years have. */
static void walk(int64_t every)
{
    struct day d = { 0, 1, 1, 0 };

    for (; d.year <= LAST_YEAR; step(&d))
        if (d.number % every == 0 || (d.year == LAST_YEAR && d.month == 12)) {
            one_epoch(&d, 0);
            one_epoch(&d, DAY - 1);
            one_epoch(&d, (int64_t)any(DAY));
        }
    expect(d.number == 25 * 146097, "the days of all years");
}

/* Puts what was before into all numbers. */
static struct lent lend_before(void)
{
    struct lent l = lend();

    for (int i = 0; i < NUMBERS; i++)
        *l.date[i] = BEFORE;
    *l.epoch = BEFORE_DOUBLE;
    *l.difference = BEFORE_DOUBLE;
    return l;
}

/* A call was refused, and all numbers are as before. */
static void judge_refusal(struct lent *l, int32_t answer, const char *what)
{
    int left = same(*l->epoch, BEFORE_DOUBLE) && same(*l->difference, BEFORE_DOUBLE);

    for (int i = 0; i < NUMBERS; i++)
        left = left && *l->date[i] == BEFORE;
    expect(answer == TLZ_NO_EPOCH, what);
    expect(left, "a refusal changed a number");
    refused++;
    give_back(l);
}

/* A double that is no epoch has no date and no difference, neither from an epoch nor of one. */
static void no_epoch(double x)
{
    struct lent l = lend_before();

    judge_refusal(&l, ask_date(&l, x), "the answer for the date of no epoch");
    l = lend_before();
    judge_refusal(&l, ask_difference(&l, x, 0), "the answer for the difference of no epoch and 0");
    l = lend_before();
    judge_refusal(&l, ask_difference(&l, 62167219200000, x), "the answer for the difference of 1970 and no epoch");
    l = lend_before();
    judge_refusal(&l, ask_difference(&l, x, x), "the answer for the difference of no epoch from itself");
}

static void no_date(int64_t year, int64_t month, int64_t day, int64_t milliseconds)
{
    struct lent l = lend_before();

    judge_refusal(&l, ask_epoch(&l, year, month, day, milliseconds), "the answer for a date that does not exist");
}

/* Not a number, not finite, negative, negative zero, with a fraction, past the last. */
static void no_epochs(void)
{
    static const double all[] = { NAN, -NAN, INFINITY, -INFINITY, -0.0, -1.0, -0.5, -1e300, -62167219200000.0, -5e-324,
                                  5e-324, 0.5, 0.99999999999999989, 1.5, 62167219200000.5, 315569519999998.5,
                                  315569519999999.5, 315569520000000.0, 9007199254740992.0, 9223372036854775808.0,
                                  18446744073709549568.0, 18446744073709551616.0, 1e300 };

    for (size_t i = 0; i < sizeof all / sizeof *all; i++)
        no_epoch(all[i]);
}

/* Each number out of its range by one, and far out; numbers whose low 32 bits are good; the day after the last of each month. */
static void no_dates(void)
{
    static const int64_t far[] = { INT64_MIN, INT32_MIN, -4294965326, -1, 99999999, 4294967297, 4294969266, INT64_MAX };
    static const int64_t years[] = { 0, 1, 4, 100, 400, 1900, 1970, 2000, 2024, 9996, 9999 };

    for (size_t i = 0; i < sizeof far / sizeof *far; i++) {
        no_date(far[i], 1, 1, 0);
        no_date(1970, far[i], 1, 0);
        no_date(1970, 1, far[i], 0);
        no_date(1970, 1, 1, far[i]);
        no_date(far[i], far[i], far[i], far[i]);
    }
    no_date(10000, 1, 1, 0);
    no_date(1970, 0, 1, 0);
    no_date(1970, 13, 1, 0);
    no_date(1970, 1, 1, DAY);
    for (size_t i = 0; i < 12 * sizeof years / sizeof *years; i++) {
        int64_t year = years[i / 12], month = 1 + (int64_t)i % 12;
        no_date(year, month, 0, 0);
        no_date(year, month, month_days(year, month) + 1, DAY - 1);
    }
}

/* Each call once, at the head of 1970; this program itself does not touch the numbers. */
static int32_t ask_all(void)
{
    struct lent l = lend();
    int32_t answers = ask_date(&l, 62167219200000) + ask_epoch(&l, 1970, 1, 1, 0) + ask_difference(&l, 62167219200000, 0);

    give_back(&l);
    return answers;
}

int main(int count, char **words)
{
    int64_t every = count == 2 ? strtoll(words[1], NULL, 10) : 0;

    if (MISSING != 0)
        return ask_all() != 0;
    if (every < 1)
        return 2;
    walk(every);
    no_epochs();
    no_dates();
    printf("%" PRIu64 " dates, %" PRIu64 " epochs, %" PRIu64 " differences, %" PRIu64 " of them refused, %" PRIu64 " wrong\n",
           dates, epochs, differences, refused, wrong);
    return wrong != 0;
}
