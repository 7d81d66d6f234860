/* Times of this program, and their median. */
#ifndef BENCH_TIMES_H
#define BENCH_TIMES_H

/* Processor time of this program, in seconds. */
double now(void);

/* The median of so many times, which it sorts. */
double median(double *times, int count);

#endif
