/* The clock of the benchmark: two works timed in turn, many times, and the best and the median of each. */
#ifndef BENCH_TIMING_H
#define BENCH_TIMING_H

#include <stdint.h>

/* One pass over all operands; what it answers depends on every result. */
typedef struct work {
    uint64_t (*pass)(const void *what);
    const void *what;
} work;

/* Nanoseconds for each call. */
typedef struct timed {
    double best, median;
} timed;

double now_ns(void);
/* Best and median of `count` times, which are put in order. */
timed summary(double *times, int count);
/* Times the works in turn, each pass being `calls` calls, so that other load on the machine falls on all of them. */
void time_works(const work *works, timed *results, int count, int calls);

#endif
