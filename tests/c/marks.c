/* Marks: against the machine's inexact flag on binary32 patterns, in the directions that it has; against the exact result in 128-bit
 * integers, multiplied out, in formats of several bases; and the slice sum's count of entries that are not exact. An argument is the
 * number of random rounds. */
#include <stdbool.h>
#include <string.h>

#include "compare.h"
#include "exact.h"
#include "machine.h"
#include "members.h"
#include "operations.h"
#include "zurkeb.h"

typedef __int128 wide;

/* ---- the machine */
static void flags(uint32_t a, uint32_t b) {
    static const zurkeb_format binary32 = {2, 24, -149, 104};
    if (!is_finite_pattern(a) || !is_finite_pattern(b))
        return;
    zurkeb_number x = zurkeb_read_pattern(a).number, y = zurkeb_read_pattern(b).number;
    for (uint32_t d = 0; d < 5; d++) {
        for (int o = 0; o < OPERATIONS && modes[d] >= 0; o++) {
            zurkeb_rounded_answer r = operations[o](binary32, d, x, y);
            volatile float v = float_of(a), w = float_of(b), kept;
            feclearexcept(FE_ALL_EXCEPT);
            fesetround(modes[d]);
            kept = o == 0 ? v + w : o == 1 ? v - w : o == 2 ? v * w : v / w;
            (void)kept;
            bool inexact = fetestexcept(FE_INEXACT) != 0;
            fesetround(FE_TONEAREST);
            same(names[o], r.mark != ZURKEB_EXACT, r.refusal == 0 && inexact);
        }
    }
}

/* ---- wider integers: formats whose values, in units of base^emin, have at most 60 bits */
static const zurkeb_format formats[] = {{2, 12, -9, 9}, {2, 1, -9, 9}, {3, 9, -6, 6}, {10, 3, -4, 4}, {10, 7, -3, 3}, {16, 5, -4, 4}, {256, 3, -2, 1}, {7, 4, 0, 5}};
enum { FORMATS = sizeof formats / sizeof *formats };

static wide value(zurkeb_format f, zurkeb_number x) {
    wide n = (wide)x.significand * power_of(f.base, (uint32_t)(x.exponent - f.emin));
    return x.negative ? -n : n;
}

static zurkeb_number member(zurkeb_format f) {
    wide least = power_of(f.base, f.digits - 1);
    zurkeb_number x = {least + random32() % (least * (f.base - 1)), f.emin + (int32_t)(random32() % (uint32_t)(f.emax - f.emin + 1)),
                       random32() & 1};
    if (random32() % 4 == 0) /* few digits, so that results are often exact */
        x.significand = (uint32_t)(least * (1 + random32() % (f.base - 1)));
    if (random32() % 16 == 0)
        x = (zurkeb_number){random32() % least, f.emin, 0};
    return x;
}

/* The kept number times `denominator` against `numerator`. */
static void multiplied(const char *what, zurkeb_format f, zurkeb_rounded_answer r, wide numerator, wide denominator) {
    if (r.refusal != 0) {
        same(what, r.mark, 0);
        return;
    }
    wide kept = value(f, r.number) * denominator;
    same(what, r.mark, kept == numerator ? ZURKEB_EXACT : kept < numerator ? ZURKEB_LOW : ZURKEB_HIGH);
}

static void exact_results(zurkeb_format f) {
    zurkeb_number a = member(f), b = member(f);
    wide v = value(f, a), w = value(f, b), one = power_of(f.base, (uint32_t)-f.emin);
    int32_t n = (int32_t)(random32() >> random32() % 32) * (random32() & 1 ? 1 : -1);
    uint32_t m = 1 + (random32() >> (1 + random32() % 31));
    for (uint32_t d = 0; d < 5; d++) {
        multiplied("sum", f, zurkeb_sum(f, d, a, b), v + w, 1);
        multiplied("difference", f, zurkeb_difference(f, d, a, b), v - w, 1);
        multiplied("product", f, zurkeb_product(f, d, a, b), v * w, one);
        if (w != 0)
            multiplied("quotient", f, rounded_quotient(f, d, a, b), w < 0 ? -v * one : v * one, w < 0 ? -w : w);
        multiplied("fraction", f, zurkeb_fraction(f, d, n, m), n * one, m);
    }
}

/* ---- the slice sum */
static uint32_t finite_pattern(void) {
    uint32_t n = random32();
    return (n & 0x807fffffu) | (100 + (n >> 23 & 31)) << 23;
}

static bool is_exact_sum(uint32_t a, uint32_t b, uint32_t sum) {
    exact total = exact_sum(exact_value(a), exact_value(b)), kept = exact_value(sum);
    return memcmp(&total, &kept, sizeof total) == 0;
}

static void counts(void) {
    enum { LENGTH = 40 };
    uint32_t a[LENGTH], b[LENGTH], out[LENGTH];
    size_t length = random32() % (LENGTH + 1);
    for (size_t i = 0; i < length; i++) {
        a[i] = finite_pattern();
        b[i] = random32() & 1 ? finite_pattern() : a[i];
    }
    for (uint32_t d = 0; d < 5; d++) {
        zurkeb_slices_answer r = zurkeb_sum_slices(a, length, b, length, out, length, d);
        uint64_t inexact = 0;
        for (size_t i = 0; i < length; i++)
            inexact += !is_exact_sum(a[i], b[i], out[i]);
        same("count", r.refusal, 0);
        same("count", r.inexact, inexact);
    }
    if (length > 0) {
        a[length - 1] = 0x7f800000u;
        zurkeb_slices_answer r = zurkeb_sum_slices(a, length, b, length, out, length, 0);
        same("refused count", r.refusal, ZURKEB_NOT_FINITE);
        same("refused count", r.inexact, 0);
    }
}

/* Low and high by value, for each sign. */
static void by_hand(void) {
    zurkeb_format d = {10, 3, -5, 5};
    same("2/3 up", zurkeb_fraction(d, ZURKEB_UPWARD, 2, 3).mark, ZURKEB_HIGH);
    same("2/3 toward zero", zurkeb_fraction(d, ZURKEB_TOWARD_ZERO, 2, 3).mark, ZURKEB_LOW);
    same("-2/3 toward zero", zurkeb_fraction(d, ZURKEB_TOWARD_ZERO, -2, 3).mark, ZURKEB_HIGH);
    same("-2/3 down", zurkeb_fraction(d, ZURKEB_DOWNWARD, -2, 3).mark, ZURKEB_LOW);
    same("1/4", zurkeb_fraction(d, ZURKEB_NEAREST_EVEN, 1, 4).mark, ZURKEB_EXACT);
    same("refused", zurkeb_fraction(d, ZURKEB_NEAREST_EVEN, 1, 0).mark, 0);
}

int main(int count, char **arguments) {
    uint64_t rounds = rounds_of(count, arguments, 1000000);
    by_hand();
    for (uint64_t i = 0; i < rounds; i++) {
        uint32_t a = random32(), b = random32();
        flags(a, b);
        flags(finite_pattern(), finite_pattern());
        flags(a, (a & 0xff800000u) | (b & 0x007fffffu));
        exact_results(formats[i % FORMATS]);
        if (i % 16 == 0)
            counts();
    }
    return no_difference();
}
