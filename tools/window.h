/* The time that a run has. */
#ifndef TOOLS_WINDOW_H
#define TOOLS_WINDOW_H

#include <stdbool.h>

/* Seconds of a clock that only goes forward. */
double window_clock(void);

/* Begins the window. SIGINT and SIGTERM end it from now on, so that a run stops between two grants or rounds and saves. */
void window_begin(void);

/* Ends it so many seconds after now. */
void window_for(double seconds);

/* Ends it when the local clock next shows this hour and minute. */
void window_until(int hour, int minute);

/* It is over. */
bool window_over(void);

#endif
