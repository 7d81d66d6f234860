#define _XOPEN_SOURCE 700

#include "window.h"

#include <signal.h>
#include <string.h>
#include <time.h>

static volatile sig_atomic_t stopped = 0;
static bool has_end = false, has_hour = false;
static double end = 0;
static time_t hour_end = 0;

static void stop(int number)
{
    (void)number;
    stopped = 1;
}

double window_clock(void)
{
    struct timespec now = { 0, 0 };

    clock_gettime(CLOCK_MONOTONIC, &now);
    return (double)now.tv_sec + (double)now.tv_nsec / 1e9;
}

void window_begin(void)
{
    struct sigaction action;

    memset(&action, 0, sizeof action);
    action.sa_handler = stop;
    sigemptyset(&action.sa_mask);
    action.sa_flags = (int)SA_RESETHAND | SA_RESTART;
    sigaction(SIGINT, &action, NULL);
    sigaction(SIGTERM, &action, NULL);
}

void window_for(double seconds)
{
    has_end = true;
    end = window_clock() + seconds;
}

void window_until(int hour, int minute)
{
    time_t now = time(NULL);
    struct tm day;

    localtime_r(&now, &day);
    day.tm_mday += 60 * day.tm_hour + day.tm_min >= 60 * hour + minute ? 1 : 0;
    day.tm_hour = hour;
    day.tm_min = minute;
    day.tm_sec = 0;
    day.tm_isdst = -1;
    has_hour = true;
    hour_end = mktime(&day);
}

bool window_over(void)
{
    if (stopped)
        return true;
    if (has_end && window_clock() >= end)
        return true;
    return has_hour && time(NULL) >= hour_end;
}
