#include "dates.h"

#include "epochs.h"
#include "files.h"
#include "times.h"
#include "tlepozaluh.h"

#include <inttypes.h>
#include <math.h>
#include <stdio.h>
#include <stdlib.h>
#include <string.h>

enum { ITEMS = 1000000, TURNS = 33, WAYS = 2, DAYS = 3652425, DAY = 86400000 };

/* The number of epochs. */
static const uint64_t all = (uint64_t)DAYS * DAY;

/* What was compared so far, what of it the proved calls refused, and where the two differ. */
static uint64_t count = 0, refusals = 0, differ = 0;

static void judge(int same, int32_t answer)
{
    count++;
    refusals += answer != 0;
    differ += !same;
}

/* Year, month, day, milliseconds of the day. */
struct date {
    int32_t numbers[4];
};

/* The two agree on the way back from a date. */
static void way_back(int64_t year, int64_t month, int64_t day, int64_t milliseconds)
{
    double ours = -7, other = -7;
    int32_t a = tlz_epoch_from(year, month, day, milliseconds, &ours);
    int32_t b = plain_from(year, month, day, milliseconds, &other);
    judge(a == b && memcmp(&ours, &other, sizeof ours) == 0, a);
}

/* The two agree on a date, and on the way back from it; what is no epoch leaves a date that does not exist. */
static void there_and_back(double epoch)
{
    struct date ours = { { -7, -7, -7, -7 } }, other = ours;
    int32_t *n = ours.numbers, *m = other.numbers;
    int32_t a = tlz_epoch_date(epoch, &n[0], &n[1], &n[2], &n[3]), b = plain_date(epoch, &m[0], &m[1], &m[2], &m[3]);
    judge(a == b && memcmp(&ours, &other, sizeof ours) == 0, a);
    way_back(n[0], n[1], n[2], n[3]);
}

static void subtraction(double x, double y)
{
    double ours = -7, other = -7;
    int32_t a = tlz_epoch_difference(x, y, &ours), b = plain_difference(x, y, &other);
    judge(a == b && memcmp(&ours, &other, sizeof ours) == 0, a);
}

/* Each day, at a millisecond that moves through the day. */
static void each_day(void)
{
    for (uint64_t i = 0; i < DAYS; i++)
        there_and_back((double)(i * DAY + i * 2654435761 % DAY));
}

/* Of eight doubles four are epochs, one has half a millisecond more, two are near the last epoch, one has any bits. */
static double drawn_double(uint64_t *seed)
{
    uint64_t n = next(seed), kind = n % 8;
    double x = (double)(next(seed) % all);
    if (kind == 4)
        return x + 0.5;
    if (kind < 7)
        return kind < 4 ? x : (double)(all - 50 + n / 8 % 100);
    n = next(seed);
    memcpy(&x, &n, sizeof x);
    return x;
}

static void drawn_doubles(uint64_t n)
{
    uint64_t seed = 88172645463325252;
    double before = 0;
    for (uint64_t i = 0; i < n; i++) {
        double x = drawn_double(&seed);
        there_and_back(x);
        subtraction(x, before);
        subtraction(before, x);
        before = x;
    }
}

/* Doubles at the edges of zero, of the epochs, of the tests for them and of doubles; every second is negative. */
static const double edges[] = { 0.0, 5e-324, 0.5, 0.99999999999999989, 1.0, 1.5, DAY, 315569519999998.5, 315569519999999.0,
                                315569519999999.5, 315569520000000.0, 4503599627370496.0, 9007199254740992.0, 9223372036854775808.0,
                                18446744073709549568.0, 18446744073709551616.0, 1e300, INFINITY, NAN };
enum { EDGES = 2 * sizeof edges / sizeof *edges };

static double edge(int i)
{
    return i % 2 == 0 ? edges[i / 2] : -edges[i / 2];
}

static void all_edges(void)
{
    for (int i = 0; i < EDGES; i++) {
        there_and_back(edge(i));
        for (int j = 0; j < EDGES; j++)
            subtraction(edge(i), edge(j));
    }
}

/* Months and days from -1 to 33, and far ones; those whose low 32 bits are a good number are among them. */
static int64_t number(int i)
{
    static const int64_t far[] = { INT64_MIN, INT32_MIN, 99999999, 4294967297, INT64_MAX };
    return i < 35 ? i - 1 : far[i - 35];
}

static void months_and_days(int64_t year, int64_t milliseconds)
{
    for (int m = 0; m < 40; m++)
        for (int d = 0; d < 40; d++)
            way_back(year, number(m), number(d), milliseconds);
}

/* Dates that exist and that do not. */
static void all_dates(void)
{
    static const int64_t years[] = { INT64_MIN, -1, 0, 1, 4, 100, 1900, 2000, 2023, 2024, 9999, 10000, 4294969296, INT64_MAX };
    static const int64_t times[] = { INT64_MIN, -1, 0, 1, 86399999, 86400000, 99999999, 4294967297, INT64_MAX };
    for (size_t y = 0; y < sizeof years / sizeof *years; y++)
        for (size_t t = 0; t < sizeof times / sizeof *times; t++)
            months_and_days(years[y], times[t]);
}

uint64_t dates_differ(uint64_t drawn, uint64_t *compared, uint64_t *refused)
{
    count = refusals = differ = 0;
    each_day();
    drawn_doubles(drawn);
    all_edges();
    all_dates();
    *compared = count;
    *refused = refusals;
    return differ;
}

/* The calls, the proved first. */
static const struct {
    int32_t (*date)(double, int32_t *, int32_t *, int32_t *, int32_t *);
    int32_t (*from)(int64_t, int64_t, int64_t, int64_t, double *);
    int32_t (*difference)(double, double, double *);
} ways[WAYS] = { { tlz_epoch_date, tlz_epoch_from, tlz_epoch_difference }, { plain_date, plain_from, plain_difference } };

/* Epochs, and their dates. */
struct items {
    double *epochs;
    struct date *dates;
};

/* Puts a question to a way for each item; gives a sum over what came. The loop is the same for both ways. */
typedef uint64_t ask_all(const struct items *items, int way);

static uint64_t ask_dates(const struct items *items, int way)
{
    uint64_t sum = 0;
    int32_t year = 0, month = 0, day = 0, milliseconds = 0;
    for (size_t i = 0; i < ITEMS; i++) {
        if (ways[way].date(items->epochs[i], &year, &month, &day, &milliseconds) != 0)
            exit(1);
        sum += (uint64_t)year + (uint64_t)month + (uint64_t)day + (uint64_t)milliseconds;
    }
    return sum;
}

static uint64_t bits_of(double x)
{
    uint64_t bits = 0;
    memcpy(&bits, &x, sizeof bits);
    return bits;
}

static uint64_t ask_epochs(const struct items *items, int way)
{
    uint64_t sum = 0;
    double epoch = 0;
    for (size_t i = 0; i < ITEMS; i++) {
        const int32_t *n = items->dates[i].numbers;
        if (ways[way].from(n[0], n[1], n[2], n[3], &epoch) != 0)
            exit(1);
        sum += bits_of(epoch);
    }
    return sum;
}

static uint64_t ask_differences(const struct items *items, int way)
{
    uint64_t sum = 0;
    double difference = 0;
    for (size_t i = 0; i < ITEMS; i++) {
        if (ways[way].difference(items->epochs[i], items->epochs[ITEMS - 1 - i], &difference) != 0)
            exit(1);
        sum += bits_of(difference);
    }
    return sum;
}

/* Times the two ways by turns, each as often first. */
static void timed_dates(const char *name, const struct items *items, ask_all *ask)
{
    double times[WAYS][TURNS], p = 0, c = 0;
    uint64_t sums[WAYS] = { 0, 0 };
    for (int i = 0; i < TURNS * WAYS; i++) {
        int turn = i / WAYS, way = (i + turn) % WAYS;
        double start = now();
        sums[way] = ask(items, way);
        times[way][turn] = now() - start;
        if (i % WAYS == 1 && sums[0] != sums[1]) {
            fprintf(stderr, "%s: sums differ\n", name);
            exit(1);
        }
    }
    p = median(times[0], TURNS);
    c = median(times[1], TURNS);
    printf("%-44s %10d calls  proved %9.3f ms  C %9.3f ms  %17s  proved/C %.2f\n", name, ITEMS, 1e3 * p, 1e3 * c, "", p / c);
}

static void end_differing(void)
{
    fprintf(stderr, "epochs: %" PRIu64 " of %" PRIu64 " differ\n", differ, count);
    exit(1);
}

/* Sets the dates of the epochs and compares the two on both and on the differences; ends the program if they differ. */
static void prepare(const struct items *items)
{
    for (size_t i = 0; i < ITEMS; i++) {
        int32_t *n = items->dates[i].numbers;
        differ += tlz_epoch_date(items->epochs[i], &n[0], &n[1], &n[2], &n[3]) != 0;
        there_and_back(items->epochs[i]);
        subtraction(items->epochs[i], items->epochs[ITEMS - 1 - i]);
    }
    if (differ != 0)
        end_differing();
}

void dates(void)
{
    struct items items = { allocated(ITEMS * sizeof *items.epochs), allocated(ITEMS * sizeof *items.dates) };
    uint64_t seed = 88172645463325252, compared = 0, refused = 0;
    if (dates_differ(ITEMS, &compared, &refused) != 0)
        end_differing();
    for (size_t i = 0; i < ITEMS; i++)
        items.epochs[i] = (double)(next(&seed) % all);
    prepare(&items);
    timed_dates("dates of epochs drawn by chance", &items, ask_dates);
    timed_dates("epochs of dates drawn by chance", &items, ask_epochs);
    timed_dates("differences of epochs drawn by chance", &items, ask_differences);
    for (size_t i = 0; i < ITEMS; i++)
        items.epochs[i] = (double)(63000000000000 + 60000 * i);
    prepare(&items);
    timed_dates("dates of epochs a minute apart", &items, ask_dates);
    timed_dates("epochs of dates a minute apart", &items, ask_epochs);
    free(items.epochs);
    free(items.dates);
}
