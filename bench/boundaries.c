/* Sums of 4,096 strips through the C interface: both passes over the steps, and the pass for strips that are not finite. */
#include "boundaries.h"

#include <stdio.h>

#include "operands.h"
#include "timing.h"

enum { STRIPS = 4096 };

typedef struct boundary {
    const char *name;
    uint32_t low, fields; /* the exponent fields: low and the next ones */
    uint32_t strips[STRIPS];
} boundary;

static uint32_t rests[STRIPS - 1];

static uint64_t sum_pass(const void *what) {
    const boundary *b = what;
    zurkeb_boundary_answer r = zurkeb_boundary_sum(b->strips, STRIPS, rests, STRIPS - 1, ZURKEB_NEAREST_EVEN);
    return (uint64_t)r.refusal << 32 ^ r.sum ^ rests[STRIPS - 2];
}

void time_boundaries(void) {
    static boundary boundaries[] = {{"strips of one size", 127, 1, {0}},
                                    {"strips of sizes up to 2^10 apart", 120, 11, {0}},
                                    {"strips so large that each sum is examined first", 243, 1, {0}}};
    enum { count = sizeof boundaries / sizeof *boundaries };
    work works[count];
    timed t[count];
    for (int b = 0; b < count; b++) {
        for (int i = 0; i < STRIPS; i++)
            boundaries[b].strips[i] = (random32() & 0x807fffffu) | (boundaries[b].low + random32() % boundaries[b].fields) << 23;
        works[b] = (work){sum_pass, &boundaries[b]};
    }
    time_works(works, t, count, STRIPS);
    printf("\n| boundary_sum, a strip | ns | median |\n|---|---|---|\n");
    for (int b = 0; b < count; b++)
        printf("| %s | %.1f | %.1f |\n", boundaries[b].name, t[b].best, t[b].median);
}
