/* A plain rounding in 128-bit integers for the C tests: whole steps at an exponent and what remains of a divisor, rounded into a format in
 * each direction, with the mark. */
#ifndef ROUNDING_H
#define ROUNDING_H

#include <stdbool.h>

#include "answers.h"

typedef unsigned __int128 wide;

/* v * base^count, or a number of 100 bits or more where that is larger. */
static inline wide raised(wide v, uint32_t base, int64_t count) {
    while (count-- > 0 && v < (wide)1 << 100)
        v *= base;
    return v;
}

/* A value at an exponent: whole steps and what remains of `divisor`. */
typedef struct steps {
    wide whole, rest, divisor;
    int64_t exponent;
} steps;

static inline bool takes_next(uint32_t direction, bool negative, steps s) {
    switch (direction) {
    case ZURKEB_NEAREST_EVEN:
        return 2 * s.rest > s.divisor || (2 * s.rest == s.divisor && s.whole % 2 == 1);
    case ZURKEB_NEAREST_AWAY:
        return 2 * s.rest >= s.divisor;
    case ZURKEB_UPWARD:
        return s.rest != 0 && !negative;
    case ZURKEB_DOWNWARD:
        return s.rest != 0 && negative;
    default:
        return false;
    }
}

static inline zurkeb_rounded_answer rounded(zurkeb_format f, uint32_t direction, bool negative, steps s) {
    wide top = raised(1, f.base, f.digits), m = s.whole + takes_next(direction, negative, s);
    int64_t e = s.exponent;
    if (m == top) {
        m = top / f.base;
        e++;
    }
    if (e > f.emax)
        return refusal_by(ZURKEB_TOO_LARGE);
    uint32_t side = takes_next(direction, negative, s) != negative ? ZURKEB_HIGH : ZURKEB_LOW;
    return (zurkeb_rounded_answer){0, s.rest == 0 ? ZURKEB_EXACT : side, {(uint64_t)m, (int32_t)e, negative}};
}

#endif
