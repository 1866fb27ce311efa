/* The time of a fraction and of a quotient, on the same parts, which are numbers of the format. */
#include "fractions.h"

#include <stdio.h>

#include "operands.h"
#include "timing.h"

typedef struct fractions {
    zurkeb_format format;
    int32_t numerators[PAIRS];
    uint32_t denominators[PAIRS];
    pair pairs[PAIRS];
} fractions;

static uint64_t used(uint32_t refusal, zurkeb_number x) {
    return (uint64_t)refusal << 40 ^ (uint64_t)x.negative << 39 ^ (uint64_t)(uint32_t)x.exponent << 32 ^ x.significand;
}

static uint64_t fraction_pass(const void *what) {
    const fractions *f = what;
    uint64_t all = 0;
    for (int i = 0; i < PAIRS; i++) {
        zurkeb_rounded_answer r = zurkeb_fraction(f->format, ZURKEB_NEAREST_EVEN, f->numerators[i], f->denominators[i]);
        all ^= used(r.refusal, r.number);
    }
    return all;
}

static uint64_t quotient_pass(const void *what) {
    const fractions *f = what;
    uint64_t all = 0;
    for (int i = 0; i < PAIRS; i++) {
        zurkeb_quotient_answer r = zurkeb_quotient(f->format, ZURKEB_NEAREST_EVEN, f->pairs[i].a, f->pairs[i].b);
        all ^= used(r.refusal, r.number);
    }
    return all;
}

void time_fractions(const char *name, zurkeb_format format) {
    static fractions f;
    f.format = format;
    for (int i = 0; i < PAIRS; i++) {
        f.numerators[i] = (int32_t)(1 + random32() % 999);
        f.denominators[i] = 1 + random32() % 999;
        f.pairs[i].a = zurkeb_fraction(format, ZURKEB_NEAREST_EVEN, f.numerators[i], 1).number;
        f.pairs[i].b = zurkeb_fraction(format, ZURKEB_NEAREST_EVEN, (int32_t)f.denominators[i], 1).number;
    }
    work works[2] = {{fraction_pass, &f}, {quotient_pass, &f}};
    timed t[2];
    time_works(works, t, 2, PAIRS);
    printf("| %s | %.1f | %.1f | %.1f | %.1f | %.2f |\n", name, t[0].best, t[0].median, t[1].best, t[1].median, t[0].best / t[1].best);
    if (fraction_pass(&f) != quotient_pass(&f))
        printf("\n%s: a fraction differs from the quotient\n", name);
}
