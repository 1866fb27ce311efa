/* Times short works in turn. The best of many repeats is what the code costs; the median shows the load of the machine. */
#define _POSIX_C_SOURCE 200809L
#include "timing.h"

#include <stdlib.h>
#include <time.h>

enum { REPEATS = 101, MOST_WORKS = 8 };

static volatile uint64_t sink;

double now_ns(void) {
    struct timespec t;
    clock_gettime(CLOCK_MONOTONIC, &t);
    return (double)t.tv_sec * 1e9 + (double)t.tv_nsec;
}

static int by_size(const void *a, const void *b) {
    double x = *(const double *)a, y = *(const double *)b;
    return (x > y) - (x < y);
}

timed summary(double *times, int count) {
    qsort(times, (size_t)count, sizeof *times, by_size);
    return (timed){times[0], times[count / 2]};
}

void time_works(const work *works, timed *results, int count, int calls) {
    static double times[MOST_WORKS][REPEATS];
    for (int r = -3; r < REPEATS; r++) { /* three repeats to warm up */
        for (int w = 0; w < count; w++) {
            double start = now_ns();
            sink ^= works[w].pass(works[w].what);
            if (r >= 0)
                times[w][r] = (now_ns() - start) / calls;
        }
    }
    for (int w = 0; w < count; w++)
        results[w] = summary(times[w], REPEATS);
}
