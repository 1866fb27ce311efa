/* Formats of up to 63 bits. binary64 against this machine's own arithmetic in the four directions that it has (sum, difference, product,
 * quotient, neighbours), its patterns against their parts; formats of 56 to 63 bits in bases 2, 3, 10 and 256, in all five directions,
 * against a plain computation in 128-bit integers, with places, neighbours, order and the three-step sum. An argument is the number of
 * random rounds. */
#include <math.h>
#include <stdbool.h>

#include "answers.h"
#include "machine.h"
#include "operations.h"
#include "rounding.h"
#include "zurkeb.h"

/* ---- binary64 and the machine */
static bool is_finite(uint64_t pattern) {
    return (pattern >> 52 & 2047) != 2047;
}

static void patterns(uint64_t pattern) {
    zurkeb_number_answer r = zurkeb_read_binary64(pattern);
    if (!is_finite(pattern)) {
        same("read_binary64", r.refusal, ZURKEB_NOT_FINITE);
        same_number("read_binary64", r.number, no_number);
        return;
    }
    uint64_t fraction = pattern & 0xfffffffffffffu, field = pattern >> 52 & 2047;
    same("read_binary64", r.refusal, 0);
    same_number("read_binary64", r.number,
                (zurkeb_number){field ? 0x10000000000000u | fraction : fraction, (field ? (int32_t)field : 1) - 1075, pattern >> 63});
    zurkeb_pattern64_answer back = zurkeb_write_binary64(r.number);
    same("write_binary64", back.refusal, 0);
    same("write_binary64", back.pattern, pattern);
}

/* A number as the machine's, or the refusal's number. */
static void written(const char *what, uint32_t refusal, zurkeb_number x, double wanted, bool none) {
    same(what, refusal, none ? ZURKEB_TOO_LARGE : 0);
    if (!none)
        same(what, zurkeb_write_binary64(x).pattern, pattern_of_double(wanted));
}

static void machine(zurkeb_format f, uint64_t a, uint64_t b) {
    if (!is_finite(a) || !is_finite(b))
        return;
    zurkeb_number x = zurkeb_read_binary64(a).number, y = zurkeb_read_binary64(b).number;
    for (uint32_t d = 0; d < 5; d++) {
        for (int o = 0; o < OPERATIONS && modes[d] >= 0; o++) {
            zurkeb_rounded_answer r = operations[o](f, d, x, y);
            if (o == QUOTIENT && b << 1 == 0) {
                same(names[o], r.refusal, ZURKEB_DIVISOR_ZERO);
                continue;
            }
            volatile double v = double_of(a), w = double_of(b), kept;
            feclearexcept(FE_ALL_EXCEPT);
            fesetround(modes[d]);
            kept = o == 0 ? v + w : o == 1 ? v - w : o == 2 ? v * w : v / w;
            bool overflow = fetestexcept(FE_OVERFLOW) != 0, inexact = fetestexcept(FE_INEXACT) != 0;
            fesetround(FE_TONEAREST);
            written(names[o], r.refusal, r.number, kept, overflow);
            same("inexact", r.mark != ZURKEB_EXACT, !overflow && inexact);
        }
    }
    double up = nextafter(double_of(a), INFINITY), down = nextafter(double_of(a), -INFINITY);
    zurkeb_number_answer after = zurkeb_successor(f, x), before = zurkeb_predecessor(f, x);
    written("successor", after.refusal, after.number, up, isinf(up));
    written("predecessor", before.refusal, before.number, down, isinf(down));
    double v = double_of(a), w = double_of(b);
    same("compare", (uint32_t)zurkeb_compare(f, x, y).order, (uint32_t)((v > w) - (v < w)));
}

/* ---- any format, by 128-bit integers: (n + rest / divisor) * base^exponent */
typedef struct exact {
    bool negative;
    wide n, rest, divisor;
    int32_t exponent;
} exact;

/* v * base^count, which fits. */
static wide times_power(wide v, uint32_t base, int32_t count) {
    while (count-- > 0)
        v *= base;
    return v;
}

static int32_t digits_of(wide n, uint32_t base) {
    int32_t count = 0;
    for (; n != 0; n /= base)
        count++;
    return count;
}

/* Whole steps at the exponent at which the format holds its digits; where more is cut off than stands there, any rest below half a step. */
static steps cut(zurkeb_format f, exact x) {
    int32_t count = digits_of(x.n, f.base), e = x.exponent + count - (int32_t)f.digits;
    if (e < f.emin || x.n == 0)
        e = f.emin;
    int32_t drop = e - x.exponent;
    if (drop < 0)
        return (steps){times_power(x.n, f.base, -drop), 0, 1, e};
    if (drop > count)
        return (steps){0, x.n != 0 || x.rest != 0, 3, e};
    wide power = times_power(1, f.base, drop);
    return (steps){x.n / power, x.n % power * x.divisor + x.rest, power * x.divisor, e};
}

/* Numbers at most p places apart are added as they are. Further apart, b is a rest below one unit of the place under a's; where it is more
 * than p + 1 places below, any rest so small will do. */
static exact plain_sum(zurkeb_format f, uint32_t direction, zurkeb_number a, zurkeb_number b) {
    if (a.exponent < b.exponent) {
        zurkeb_number other = a;
        a = b;
        b = other;
    }
    int32_t gap = a.exponent - b.exponent, p = (int32_t)f.digits;
    bool differ = a.negative != b.negative;
    if (gap > p) {
        wide bound = times_power(1, f.base, p), low = gap == p + 1 ? b.significand : b.significand != 0;
        bool borrow = differ && low != 0;
        return (exact){a.negative, (wide)a.significand * f.base - borrow, borrow ? bound - low : low, bound, a.exponent - 1};
    }
    wide high = times_power(a.significand, f.base, gap), low = b.significand;
    if (!differ)
        return (exact){a.negative, high + low, 0, 1, b.exponent};
    if (high == low)
        return (exact){direction == ZURKEB_DOWNWARD, 0, 0, 1, b.exponent};
    return (exact){high < low ? b.negative : a.negative, high < low ? low - high : high - low, 0, 1, b.exponent};
}

static exact plain_product(zurkeb_number a, zurkeb_number b) {
    return (exact){a.negative != b.negative, (wide)a.significand * b.significand, 0, 1, a.exponent + b.exponent};
}

/* Long division, to all digits of the format. */
static exact plain_quotient(zurkeb_format f, zurkeb_number a, zurkeb_number b) {
    exact x = {a.negative != b.negative, a.significand / b.significand, a.significand % b.significand, b.significand, a.exponent - b.exponent};
    while (x.rest != 0 && digits_of(x.n, f.base) < (int32_t)f.digits) {
        wide lowered = x.rest * f.base;
        x.n = x.n * f.base + lowered / x.divisor;
        x.rest = lowered % x.divisor;
        x.exponent--;
    }
    return x;
}

static zurkeb_number negated(zurkeb_number x) {
    x.negative = !x.negative;
    return x;
}

static zurkeb_rounded_answer plain(int o, zurkeb_format f, uint32_t direction, zurkeb_number a, zurkeb_number b) {
    if (o == QUOTIENT && b.significand == 0)
        return refusal_by(ZURKEB_DIVISOR_ZERO);
    exact x = o == 0 ? plain_sum(f, direction, a, b) : o == 1 ? plain_sum(f, direction, a, negated(b)) : o == 2 ? plain_product(a, b) : plain_quotient(f, a, b);
    return rounded(f, direction, x.negative, cut(f, x));
}

static const zurkeb_format formats[] = {
    {2, 63, -1200, 1200}, {2, 63, -70, 70}, {2, 62, -140, 100}, {2, 61, -3, 60}, {2, 60, -1074, 971}, {2, 32, -40, 40}, {2, 31, -40, 40},
    {3, 39, -60, 60}, {3, 38, -5, 9}, {10, 18, -398, 369}, {10, 18, -20, 3}, {10, 16, -398, 369}, {256, 7, -9, 9}, {256, 7, -140, 140},
    {255, 7, -9, 9}, {7, 22, -30, 30}, {128, 9, -10, 10}, {233, 8, -9, 9}};
enum { FORMATS = sizeof formats / sizeof *formats };

/* A number of the format: often small, a power of the base, or the last before one. */
static zurkeb_number member(zurkeb_format f, int32_t near) {
    uint64_t bound = (uint64_t)times_power(1, f.base, (int32_t)f.digits), least = bound / f.base;
    uint32_t sign = random32() & 1, kind = random32() % 8;
    if (kind == 0)
        return (zurkeb_number){random64() % least >> random32() % 64, f.emin, sign};
    int32_t e = random32() % 4 ? near + (int32_t)(random32() % (2 * f.digits + 5)) - (int32_t)f.digits - 2 : f.emin + (int32_t)(random32() % (uint32_t)(f.emax - f.emin + 1));
    e = e < f.emin ? f.emin : e > f.emax ? f.emax : e;
    uint64_t m = kind == 1 ? least + random32() % 3 : kind == 2 ? bound - 1 - random32() % 3 : least + random64() % (bound - least);
    return (zurkeb_number){m, e, sign};
}

static void places(zurkeb_format f, zurkeb_number x) {
    uint64_t least = (uint64_t)times_power(1, f.base, (int32_t)f.digits - 1), first = x.significand != 0;
    while (x.significand / f.base >= first && first != 0)
        first *= f.base;
    same("ufp", zurkeb_ufp(f, x).number.significand, first);
    zurkeb_number unit = zurkeb_ulp(f, x).number;
    if (x.significand != 0)
        same("ulp", digits_of(unit.significand, f.base) - 1 + unit.exponent == x.exponent && times_power(1, f.base, digits_of(unit.significand, f.base) - 1) == unit.significand, 1);
    zurkeb_number_answer by[4] = {zurkeb_ufp_toward_zero(f, x), zurkeb_ulp_upward(f, x), zurkeb_ulp_toward_zero(f, x),
                                  zurkeb_ulp_toward_zero_unbranched(f, x)};
    for (int i = 0; i < 4; i++) {
        if (by[i].refusal != ZURKEB_PREMISE_FAILS)
            same_number("route", by[i].number, i == 0 ? zurkeb_ufp(f, x).number : unit);
    }
    x.negative = 0;
    zurkeb_number_answer next = zurkeb_successor(f, x);
    if (next.refusal == 0) {
        bool over = x.significand + 1 == least * f.base;
        same_number("successor", next.number, (zurkeb_number){over ? least : x.significand + 1, x.exponent + over, 0});
        same_number("predecessor", zurkeb_predecessor(f, next.number).number, x);
    } else {
        same("no successor", x.exponent == f.emax && x.significand + 1 == least * f.base, 1);
    }
}

static void three_steps(zurkeb_format f, uint32_t direction, zurkeb_number a, zurkeb_number b) {
    zurkeb_triple_answer t = zurkeb_fast_two_sum(f, direction, direction, direction, a, b);
    if (t.refusal != 0)
        return;
    same_number("x", t.x, plain(0, f, direction, a, b).number);
    same_number("z", t.z, plain(1, f, direction, t.x, a).number);
    same_number("y", t.y, plain(1, f, direction, b, t.z).number);
    same("is_fast_two_sum", zurkeb_is_fast_two_sum(f, a, b, t.x, t.z, t.y).yes, 1);
}

static void format(zurkeb_format f) {
    zurkeb_number a = member(f, (f.emin + f.emax) / 2), b = member(f, a.exponent);
    for (uint32_t d = 0; d < 5; d++) {
        for (int o = 0; o < OPERATIONS; o++)
            same_answer(names[o], operations[o](f, d, a, b), plain(o, f, d, a, b));
        three_steps(f, d, a, b);
    }
    places(f, a);
}

/* The limits: 63 bits and no more. */
static void limits(void) {
    same("2^63", zurkeb_check_format((zurkeb_format){2, 63, -1, 1}), 0);
    same("2^64", zurkeb_check_format((zurkeb_format){2, 64, -1, 1}), ZURKEB_FORMAT_NOT_ADMITTED);
    for (uint32_t base = 2; base <= 256; base++) {
        for (uint32_t digits = 1; digits <= 66; digits++) {
            bool fits = digits <= 63;
            wide power = 1;
            for (uint32_t i = 0; i < digits && fits; i++) {
                power *= base;
                fits = power <= (wide)1 << 63;
            }
            same("limit", zurkeb_check_format((zurkeb_format){base, digits, 0, 0}), fits ? 0 : ZURKEB_FORMAT_NOT_ADMITTED);
        }
    }
}

int main(int count, char **arguments) {
    uint64_t rounds = rounds_of(count, arguments, 300000);
    zurkeb_format binary64 = zurkeb_published(4).format;
    limits();
    for (uint64_t i = 0; i < rounds; i++) {
        uint64_t a = random64(), b = random64();
        if (i % 2)
            b = (a & 0x7ff0000000000000u) + ((uint64_t)(random32() % 120) << 52) - ((uint64_t)60 << 52) + (random64() & 0x800fffffffffffffu);
        patterns(a);
        machine(binary64, a, b);
        machine(binary64, a & 0x801fffffffffffffu, b >> random32() % 63);
        format(formats[i % FORMATS]);
    }
    return no_difference();
}
