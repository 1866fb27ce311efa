/* Fractions against a plain computation in 128-bit integers: every direction, formats with Emin below, at and above zero and with
 * Emax below it, the refusals in their order, and the ends of both ranges. An argument is the number of random fractions. */
#include <stdbool.h>

#include "compare.h"
#include "operations.h"
#include "rounding.h"
#include "zurkeb.h"

static const zurkeb_format formats[] = {
    {2, 11, -24, 5},     {2, 24, -149, 104}, {10, 7, -101, 90}, {10, 3, -5, 5},   {2, 31, 0, 0},      {2, 31, -5, 1},
    {2, 1, -9, 9},       {3, 1, -9, 9},      {3, 19, -100, 40}, {256, 3, -3, 2},  {256, 1, 0, 3},     {10, 9, 2, 8},
    {16, 7, -10, -3},    {2, 24, 3, 9},      {10, 3, 4, 4},     {2, 5, -33, -28}, {10, 3, 1200, 1200}, {7, 11, -1200, 1200},
};
enum { FORMATS = sizeof formats / sizeof *formats };

/* The steps at the lowest exponent of the format at which the digits suffice, found from above. */
static steps divided(zurkeb_format f, wide n, uint32_t d) {
    wide limit = raised(d, f.base, f.digits);
    int32_t e = f.emin > 40 ? f.emin : 40;
    while (e > f.emin && (n == 0 || raised(n, f.base, 1 - e) < raised(limit, f.base, e - 1)))
        e--;
    wide dividend = raised(n, f.base, -e), divisor = raised(d, f.base, e);
    return (steps){dividend / divisor, dividend % divisor, divisor, e};
}

static wide size(int32_t n) {
    return n < 0 ? (wide)-(int64_t)n : (wide)n;
}

/* All directions. */
static void fraction(zurkeb_format f, int32_t n, uint32_t d) {
    steps s = divided(f, size(n), d);
    for (uint32_t direction = 0; direction < 5; direction++)
        same_answer("fraction", zurkeb_fraction(f, direction, n, d), rounded(f, direction, n < 0, s));
}

/* A word of any length, often short. */
static uint32_t any_length(void) {
    return random32() >> random32() % 32;
}

/* The whole number n where it is a number of the format: it is not rounded, up or down. */
static bool whole(zurkeb_format f, int32_t n, zurkeb_number *x) {
    zurkeb_rounded_answer up = zurkeb_fraction(f, ZURKEB_UPWARD, n, 1), down = zurkeb_fraction(f, ZURKEB_DOWNWARD, n, 1);
    *x = up.number;
    return up.refusal == 0 && down.refusal == 0 && up.number.significand == down.number.significand &&
           up.number.exponent == down.number.exponent;
}

/* n over d is the quotient of n and d, where both are numbers of the format. */
static void as_quotient(zurkeb_format f, int32_t n, uint32_t d) {
    zurkeb_number a, b;
    if (!whole(f, n, &a) || !whole(f, (int32_t)d, &b))
        return;
    for (uint32_t direction = 0; direction < 5; direction++)
        same_answer("quotient", rounded_quotient(f, direction, a, b), zurkeb_fraction(f, direction, n, d));
}

static void random_fraction(zurkeb_format f) {
    int32_t n = (int32_t)(any_length() * (random32() & 1 ? 1 : -1));
    uint32_t d = any_length();
    if (d == 0)
        return;
    fraction(f, n, d);
    uint32_t factor = 1 + random32() % 16; /* both parts multiplied */
    if (size(n) * factor < (wide)1 << 31 && (wide)d * factor < (wide)1 << 32) {
        uint32_t direction = random32() % 5;
        same_answer("multiplied", zurkeb_fraction(f, direction, n * (int32_t)factor, d * factor), zurkeb_fraction(f, direction, n, d));
    }
    if (d < (uint32_t)1 << 31)
        as_quotient(f, n, d);
}

static void edges(zurkeb_format f) {
    static const uint32_t parts[] = {1, 2, 3, 5, 7, 9, 10, 16, 99, 100, 256, 999, 1000, 65535, 65536, 0x7fffffff, 0x80000000, 0xffffffff};
    enum { PARTS = sizeof parts / sizeof *parts };
    for (int i = 0; i < PARTS; i++) {
        fraction(f, 0, parts[i]);
        for (int j = 0; j < PARTS; j++) {
            fraction(f, (int32_t)parts[i], parts[j]);
            fraction(f, (int32_t)-parts[i], parts[j]);
        }
    }
}

static void refusals(void) {
    zurkeb_format d = {10, 3, -5, 5}, wrong = {1, 3, -5, 5}, tiny = {2, 24, -149, -140};
    same_answer("format", zurkeb_fraction(wrong, 5, 1, 0), refusal_by(ZURKEB_FORMAT_NOT_ADMITTED));
    same_answer("direction", zurkeb_fraction(d, 5, 1, 0), refusal_by(ZURKEB_NO_SUCH_DIRECTION));
    same_answer("direction", zurkeb_fraction(d, (uint32_t)-1, 1, 1), refusal_by(ZURKEB_NO_SUCH_DIRECTION));
    same_answer("zero", zurkeb_fraction(d, 0, 1, 0), refusal_by(ZURKEB_DIVISOR_ZERO));
    same_answer("zero over zero", zurkeb_fraction(d, 0, 0, 0), refusal_by(ZURKEB_DIVISOR_ZERO));
    same_answer("zero before too large", zurkeb_fraction(tiny, 0, INT32_MAX, 0), refusal_by(ZURKEB_DIVISOR_ZERO));
    same_answer("too large", zurkeb_fraction(tiny, 0, INT32_MAX, 1), refusal_by(ZURKEB_TOO_LARGE));
    same_answer("too large", zurkeb_fraction(d, ZURKEB_TOWARD_ZERO, 100000000, 1), refusal_by(ZURKEB_TOO_LARGE));
}

/* In binary with 31 digits every numerator over 1 is unchanged, but for -2^31, which is 5 where Emax = 0. */
static void unchanged(zurkeb_format f, int32_t n) {
    for (uint32_t direction = 0; direction < 5; direction++) {
        zurkeb_rounded_answer r = zurkeb_fraction(f, direction, n, 1);
        same("unchanged", r.refusal, 0);
        same("sign", r.number.negative, n < 0);
        same("value", (uint64_t)(raised(r.number.significand, 2, r.number.exponent) == raised(size(n), 2, -r.number.exponent)), 1);
    }
}

static void numerators(void) {
    static const zurkeb_format binary[] = {{2, 31, 0, 0}, {2, 31, 0, 7}, {2, 31, -40, 0}, {2, 31, -31, 1}};
    for (int i = 0; i < 4; i++) {
        for (int j = 0; j < 1000; j++) {
            int32_t n = (int32_t)any_length();
            if (n != INT32_MIN)
                unchanged(binary[i], n);
        }
        unchanged(binary[i], INT32_MAX);
        unchanged(binary[i], -INT32_MAX);
        unchanged(binary[i], 0);
        if (binary[i].emax == 0)
            same_answer("-2^31", zurkeb_fraction(binary[i], 0, INT32_MIN, 1), refusal_by(ZURKEB_TOO_LARGE));
        else
            unchanged(binary[i], INT32_MIN);
    }
}

int main(int count, char **arguments) {
    uint64_t rounds = rounds_of(count, arguments, 2000000);
    refusals();
    numerators();
    for (int i = 0; i < FORMATS; i++)
        edges(formats[i]);
    for (uint64_t i = 0; i < rounds; i++)
        random_fraction(formats[i % FORMATS]);
    return no_difference();
}
