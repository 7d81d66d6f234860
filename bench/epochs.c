/*
 * Epochs as dates in plain C: the year by the mean length of a year, with one correction; the month as if February had 30 days.
 * It stands in a file of its own so that its calls are calls in the loops that time them.
 */
#include "epochs.h"

#include <string.h>

enum { NO_EPOCH = 27, DAY = 86400000 };

static int is_leap(uint64_t y)
{
    return y % 4 == 0 && (y % 100 != 0 || y % 400 == 0);
}

/* Days of the years before a year; year 0 is a leap year. */
static uint64_t before_year(uint64_t y)
{
    return 365 * y + (y + 3) / 4 + (y + 399) / 400 - (y + 99) / 100;
}

/* Days of a month, the lack of February given; 0 if there is no such month. */
static uint64_t month_days(uint64_t m, uint64_t lack)
{
    if (m < 1 || m > 12)
        return 0;
    return m == 2 ? 30 - lack : 30 + (m + m / 8) % 2;
}

/* Days of the months before a month. */
static uint64_t before_month(uint64_t m, uint64_t lack)
{
    return (367 * m - 362) / 12 - (m > 2 ? lack : 0);
}

/* Days that February lacks to 30. */
static uint64_t lack_of(uint64_t y)
{
    return is_leap(y) ? 1 : 2;
}

/* A double is an epoch, and its milliseconds. Below 1 there is 0 alone; from 2^52 on a double has no room for a fraction. */
static int is_epoch(double x, int64_t *n)
{
    const double large = 4503599627370496.0;
    uint64_t bits = 0;
    memcpy(&bits, &x, sizeof bits);
    if (!(x <= 315569519999999.0))
        return 0;
    if (x < 1.0)
        return bits == 0;
    if ((x + large) - large != x)
        return 0;
    *n = (int64_t)x;
    return 1;
}

int32_t plain_date(double epoch, int32_t *year, int32_t *month, int32_t *day, int32_t *milliseconds)
{
    int64_t count = 0;
    if (!is_epoch(epoch, &count))
        return NO_EPOCH;
    uint64_t n = (uint64_t)count, days = n / DAY, y = (400 * days + 400) / 146097, before = before_year(y);
    if (days < before)
        before = before_year(--y);
    uint64_t d = days - before, lack = lack_of(y);
    uint64_t m = (12 * (d < 61 - lack ? d : d + lack) + 373) / 367;
    *year = (int32_t)y;
    *month = (int32_t)m;
    *day = (int32_t)(d - before_month(m, lack) + 1);
    *milliseconds = (int32_t)(n % DAY);
    return 0;
}

int32_t plain_from(int64_t year, int64_t month, int64_t day, int64_t milliseconds, double *epoch)
{
    if (year < 0 || year > 9999 || milliseconds < 0 || milliseconds >= DAY || month < 0 || day < 1)
        return NO_EPOCH;
    uint64_t y = (uint64_t)year, m = (uint64_t)month, d = (uint64_t)day, lack = lack_of(y);
    if (d > month_days(m, lack))
        return NO_EPOCH;
    uint64_t days = before_year(y) + before_month(m, lack) + (d - 1);
    *epoch = (double)(int64_t)(days * DAY + (uint64_t)milliseconds);
    return 0;
}

int32_t plain_difference(double a, double b, double *difference)
{
    int64_t m = 0, n = 0;
    if (!is_epoch(a, &m) || !is_epoch(b, &n))
        return NO_EPOCH;
    *difference = a - b;
    return 0;
}
