/* The sum of a boundary's strips. */
#ifndef BENCH_BOUNDARIES_H
#define BENCH_BOUNDARIES_H

/* Prints one table row for each kind of strips: nanoseconds a strip. */
void time_boundaries(void);

#endif
