/* What the C tests share: a count of comparisons, a stop at the first difference, and random words. */
#ifndef COMPARE_H
#define COMPARE_H

#include <inttypes.h>
#include <stdint.h>
#include <stdio.h>
#include <stdlib.h>

static uint64_t comparisons;

static inline void same(const char *what, uint64_t ours, uint64_t wanted) {
    comparisons++;
    if (ours != wanted) {
        printf("%s: %" PRIu64 ", wanted %" PRIu64 "\n", what, ours, wanted);
        exit(1);
    }
}

static uint64_t state = 88172645463325252u;
static inline uint32_t random32(void) {
    state ^= state << 13;
    state ^= state >> 7;
    state ^= state << 17;
    return (uint32_t)(state >> 16);
}

static inline uint64_t random64(void) {
    return (uint64_t)random32() << 32 | random32();
}

/* The number of random rounds: the first argument, or the default. */
static inline uint64_t rounds_of(int count, char **arguments, uint64_t otherwise) {
    return count > 1 ? strtoull(arguments[1], NULL, 10) : otherwise;
}

static inline int no_difference(void) {
    printf("%" PRIu64 " comparisons, no difference\n", comparisons);
    return 0;
}

#endif
