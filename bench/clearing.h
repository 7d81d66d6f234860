/* The clearing of marks by itself. */
#ifndef BENCH_CLEARING_H
#define BENCH_CLEARING_H

/* Times it on one large record and on many small ones: as the sweep does it, singly as it was done before, and by memset. */
void clearing(void);

#endif
