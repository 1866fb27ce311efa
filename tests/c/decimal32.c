/* decimal32 patterns in their densely packed form against a plain reading of IEEE 754, clause 3.5, and against Intel's decimal library
 * where it is built in (HAVE_INTEL): each pattern is read, written and read again. All 1,024 declets stand in both places, with every
 * sign and every combination field; all pairs of declets; random patterns. Then numbers that are written or refused by 3. An argument is
 * the number of random rounds. */
#include <stdbool.h>

#include "answers.h"
#include "zurkeb.h"
#ifdef HAVE_INTEL
#include <bid_conf.h>
#include <bid_functions.h>
#endif

enum { DECLETS = 1024, TOPS = 4096, FULL = 1000000, BOUND = 10000000, EMIN = -101, EMAX = 90 };

/* ---- the clause's tables */
static uint32_t low(uint32_t a, uint32_t b, uint32_t c) {
    return 4 * a + 2 * b + c;
}

/* The three digits of a declet, whose bits are p q r s t u v w x y. */
static uint32_t declet_value(uint32_t n) {
    uint32_t p = n >> 9 & 1, q = n >> 8 & 1, r = n >> 7 & 1, s = n >> 6 & 1, t = n >> 5 & 1, u = n >> 4 & 1;
    uint32_t v = n >> 3 & 1, w = n >> 2 & 1, x = n >> 1 & 1, y = n & 1;
    uint32_t a = low(p, q, r), b = low(s, t, u), c = low(w, x, y), rule = v == 0 ? 0 : w + x < 2 ? 1 + 2 * w + x : 4 + 2 * s + t;
    switch (rule) {
    case 0: break;
    case 1: c = 8 + y; break;
    case 2: b = 8 + u; c = low(s, t, y); break;
    case 3: a = 8 + r; c = low(p, q, y); break;
    case 4: a = 8 + r; b = 8 + u; c = low(p, q, y); break;
    case 5: a = 8 + r; b = low(p, q, u); c = 8 + y; break;
    case 6: b = 8 + u; c = 8 + y; break;
    default: a = 8 + r; b = 8 + u; c = 8 + y; break;
    }
    return 100 * a + 10 * b + c;
}

static uint32_t values[DECLETS], declets[1000];

/* The canonical declet of a number is the least of its declets: in the others p or q is 1. */
static void make_tables(void) {
    for (uint32_t n = DECLETS; n-- > 0;) {
        values[n] = declet_value(n);
        declets[values[n]] = n;
    }
}

/* ---- a pattern's number, and a number's pattern */
static bool is_finite(uint32_t pattern) {
    return (pattern >> 27 & 15) != 15;
}

/* The number of format 3 with this value: as many digits as there is room for, zero at the lowest exponent. */
static zurkeb_number of_parts(uint32_t sign, uint32_t coefficient, int32_t exponent) {
    if (coefficient == 0)
        return (zurkeb_number){0, EMIN, sign};
    for (; coefficient < FULL && exponent > EMIN; exponent--)
        coefficient *= 10;
    return (zurkeb_number){coefficient, exponent, sign};
}

static zurkeb_number read_plainly(uint32_t pattern) {
    uint32_t field = pattern >> 20 & 0x7ff; /* tt ddd eeeeee, or 11 tt d eeeeee */
    bool large = field >> 9 == 3;
    uint32_t high = large ? field >> 7 & 3 : field >> 9, digit = large ? 8 + (field >> 6 & 1) : field >> 6 & 7;
    uint32_t coefficient = digit * FULL + values[pattern >> 10 & 1023] * 1000 + values[pattern & 1023];
    return of_parts(pattern >> 31, coefficient, (int32_t)(high << 6 | (field & 63)) + EMIN);
}

static uint32_t write_plainly(zurkeb_number x) {
    uint32_t biased = (uint32_t)(x.exponent - EMIN), high = biased >> 6, digit = x.significand / FULL;
    uint32_t five = digit < 8 ? high << 3 | digit : 24 | high << 1 | (digit & 1);
    return x.negative << 31 | five << 26 | (biased & 63) << 20 | declets[x.significand / 1000 % 1000] << 10 | declets[x.significand % 1000];
}

/* ---- comparisons */
static void same_read(const char *what, zurkeb_number_answer ours, uint32_t refusal, zurkeb_number wanted) {
    same(what, ours.refusal, refusal);
    same_number(what, ours.number, wanted);
}

#ifdef HAVE_INTEL
/* Its own form holds the coefficient in binary; one of 24 bits leaves its first three, 100, to the mark 11. */
static zurkeb_number read_by_intel(uint32_t pattern) {
    uint32_t n = __bid_dpd_to_bid32(pattern);
    bool wide = (n >> 29 & 3) == 3;
    return of_parts(n >> 31, wide ? 0x800000 | (n & 0x1fffff) : n & 0x7fffff, (int32_t)(n >> (wide ? 21 : 23) & 255) + EMIN);
}

static void against_intel(uint32_t pattern, uint32_t written, zurkeb_number_answer ours) {
    same_read("read, Intel", ours, 0, read_by_intel(pattern));
    same("written, Intel", written, __bid_to_dpd32(__bid_dpd_to_bid32(written)));
}
#endif

static void pattern_goes_round(uint32_t pattern) {
    zurkeb_number_answer first = zurkeb_read_decimal32(pattern);
    if (!is_finite(pattern)) {
        same_read("not finite", first, ZURKEB_NOT_FINITE, no_number);
        return;
    }
    same_read("read", first, 0, read_plainly(pattern));
    uint64_t written = zurkeb_write_decimal32(first.number);
    same("written", written, write_plainly(first.number));
    same_read("read again", zurkeb_read_decimal32((uint32_t)written), 0, first.number);
#ifdef HAVE_INTEL
    against_intel(pattern, (uint32_t)written, first);
#endif
}

/* Any number, many at the edges of the format; signs from 2 on are none. */
static void number_is_written(void) {
    static const uint32_t significands[] = {0, 1, FULL - 1, FULL, BOUND - 1, BOUND, UINT32_MAX};
    static const int32_t exponents[] = {EMIN - 1, EMIN, EMIN + 1, EMAX - 1, EMAX, EMAX + 1, INT32_MIN, INT32_MAX};
    zurkeb_number x = {random32() % (BOUND + BOUND / 8), (int32_t)(random32() % 200) - 105, random32() % 3};
    if (random32() % 4 == 0)
        x.significand = significands[random32() % 7];
    if (random32() % 4 == 0)
        x.exponent = exponents[random32() % 8];
    bool normal = FULL <= x.significand && x.significand < BOUND && EMIN <= x.exponent && x.exponent <= EMAX;
    bool inside = x.negative < 2 && (normal || (x.significand < FULL && x.exponent == EMIN));
    same("a number written", zurkeb_write_decimal32(x), inside ? write_plainly(x) : (uint64_t)ZURKEB_NUMBER_NOT_IN_FORMAT << 32);
}

int main(int count, char **arguments) {
    uint64_t rounds = rounds_of(count, arguments, 10000000);
    make_tables();
    for (uint32_t top = 0; top < TOPS; top++) {
        for (uint32_t declet = 0; declet < DECLETS; declet++) {
            pattern_goes_round(top << 20 | declet << 10 | random32() % DECLETS);
            pattern_goes_round(top << 20 | random32() % DECLETS << 10 | declet);
        }
    }
    for (uint32_t pair = 0; pair < DECLETS * DECLETS; pair++)
        pattern_goes_round(random32() << 20 | pair);
    for (uint64_t i = 0; i < rounds; i++) {
        pattern_goes_round(random32());
        number_is_written();
    }
    return no_difference();
}
