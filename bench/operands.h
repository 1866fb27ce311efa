/* The operands of the benchmark: random pairs of a format, of the kinds that occur. */
#ifndef BENCH_OPERANDS_H
#define BENCH_OPERANDS_H

#include "zurkeb.h"

enum { PAIRS = 4096 };

typedef struct pair {
    zurkeb_number a, b;
} pair;

/* The quotient without its digits, to stand beside the other operations. */
static inline zurkeb_rounded_answer rounded_quotient(zurkeb_format format, uint32_t direction, zurkeb_number a, zurkeb_number b) {
    zurkeb_quotient_answer q = zurkeb_quotient(format, direction, a, b);
    return (zurkeb_rounded_answer){q.refusal, q.mark, q.number};
}

/* A pseudorandom number, the same sequence in every run. */
uint32_t random32(void);
/* Fills the pairs: a quarter near in exponent, a quarter far apart, a quarter cancelling, a quarter subnormal or with subnormal
 * results, in random order. No divisor is zero, and no sum, product or quotient is too large. */
void draw_pairs(zurkeb_format format, pair pairs[PAIRS]);
/* Simple pairs: of either sign, with all digits, exponents from -15 to 15. */
void draw_simple(zurkeb_format format, pair *pairs, int count);

#endif
