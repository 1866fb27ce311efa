/* Conversions against a plain computation in 128-bit integers: any significand of 64 bits and any exponent of 32 bits, formats of many
 * bases and digits, every direction, marks, signs of zero, and the refusals in their order; whole numbers against the fraction, against
 * this machine's own conversions and, where SOFTFLOAT names its folder, against Berkeley SoftFloat's. An argument is the number of random
 * rounds. */
#include <stdbool.h>

#include "compare.h"
#include "machine.h"
#include "members.h"
#include "rounding.h"
#include "zurkeb.h"
#ifdef HAVE_SOFTFLOAT
#include <softfloat.h>
#endif

static const zurkeb_format formats[] = {
    {2, 11, -24, 5},     {2, 24, -149, 104},    {10, 7, -101, 90},   {2, 53, -1074, 971}, {10, 16, -398, 369},   {2, 63, -1200, 1200},
    {10, 18, -1200, 1200}, {3, 39, -60, 60},    {3, 1, -9, 9},       {2, 1, -9, 9},       {10, 1, 1200, 1200},   {10, 1, -1200, -1200},
    {256, 7, -3, 2},     {255, 7, -1200, 1200}, {256, 1, 0, 3},      {7, 22, -100, 40},   {16, 15, -10, -3},     {2, 24, 3, 9},
    {10, 3, -5, 5},      {10, 9, 2, 8},         {2, 31, 0, 0},       {13, 17, -1200, 5},  {5, 2, -1200, -1190},  {101, 4, 1190, 1200},
};
enum { FORMATS = sizeof formats / sizeof *formats };
static const zurkeb_format binary32 = {2, 24, -149, 104}, binary64 = {2, 53, -1074, 971}, decimal32 = {10, 7, -101, 90};

/* ---- the model */
/* m * base^e in steps of the lowest exponent of the format at which the digits suffice. */
static steps scaled(zurkeb_format f, uint64_t m, int32_t e) {
    int64_t place = f.emin, digits = 0;
    for (uint64_t rest = m; rest != 0; rest /= f.base)
        digits++;
    if (m == 0)
        return (steps){0, 0, 1, place};
    if (e + digits - (int64_t)f.digits > place)
        place = e + digits - (int64_t)f.digits;
    if (place <= e)
        return (steps){raised(m, f.base, e - place), 0, 1, place};
    wide divisor = raised(1, f.base, place - e);
    return (steps){m / divisor, m % divisor, divisor, place};
}

/* All directions. */
static void convert(zurkeb_format f, zurkeb_number x) {
    steps s = scaled(f, x.significand, x.exponent);
    for (uint32_t direction = 0; direction < 5; direction++)
        same_answer("convert", zurkeb_convert(f, direction, x), rounded(f, direction, x.negative, s));
}

/* ---- records */
/* Any word, often short, often near its greatest; a significand of the format with zeros, or with half a step and a little, behind it. */
static uint64_t any_significand(zurkeb_format f) {
    uint32_t kind = random32() % 8;
    if (kind == 0)
        return UINT64_MAX - random32() % 3;
    if (kind <= 3)
        return random64() >> random32() % 64;
    uint64_t q = random64() % power_of(f.base, f.digits), unit = 1;
    for (uint32_t k = random32() % 20; k > 0 && unit <= UINT64_MAX / f.base && (q + 1) <= UINT64_MAX / (unit * f.base); k--)
        unit *= f.base;
    return kind == 4 ? q * unit : q * unit + (unit / 2 + random32() % 3) % unit;
}

/* Near the format's ends, within it, or at an end or in the middle of all exponents. */
static int32_t any_exponent(zurkeb_format f) {
    int32_t near = (int32_t)(random32() % 140) - 70;
    switch (random32() % 8) {
    case 0:
        return INT32_MIN + (int32_t)(random32() % 4);
    case 1:
        return INT32_MAX - (int32_t)(random32() % 4);
    case 2:
        return (random32() & 1 ? 1 << 30 : -(1 << 30)) + near;
    case 3:
        return (int32_t)random32();
    case 4:
        return f.emax + near;
    case 5:
        return f.emin + (int32_t)(random32() % (uint32_t)(f.emax - f.emin + 1));
    default:
        return f.emin + near;
    }
}

/* ---- laws */
/* A number of the format comes out as it is, exact. */
static void unchanged(zurkeb_format f, zurkeb_number x) {
    for (uint32_t direction = 0; direction < 5; direction++)
        same_answer("unchanged", zurkeb_convert(f, direction, x), (zurkeb_rounded_answer){0, ZURKEB_EXACT, x});
}

/* One value in two forms gives one number. */
static void two_forms(zurkeb_format f, zurkeb_number x) {
    uint32_t direction = random32() % 5;
    if (x.significand > UINT64_MAX / f.base || x.exponent == INT32_MIN)
        return;
    zurkeb_number y = {x.significand * f.base, x.exponent - 1, x.negative};
    same_answer("two forms", zurkeb_convert(f, direction, y), zurkeb_convert(f, direction, x));
}

/* A whole number is that number over 1. */
static void as_fraction(zurkeb_format f, int32_t n) {
    zurkeb_number x = {(uint64_t)(n < 0 ? -(int64_t)n : n), 0, n < 0};
    for (uint32_t direction = 0; direction < 5; direction++)
        same_answer("fraction", zurkeb_convert(f, direction, x), zurkeb_fraction(f, direction, n, 1));
}

/* ---- the machine and SoftFloat */
static zurkeb_number whole(uint64_t size, bool negative) {
    return (zurkeb_number){size, 0, negative};
}

/* The pattern, and whether it is exact. */
static void same_float(const char *what, uint32_t direction, zurkeb_number x, uint32_t pattern, bool inexact) {
    zurkeb_rounded_answer r = zurkeb_convert(binary32, direction, x);
    same(what, zurkeb_write_pattern(r.number), pattern);
    same(what, r.refusal == 0 && r.mark != ZURKEB_EXACT, inexact);
}

static void same_double(const char *what, uint32_t direction, zurkeb_number x, uint64_t pattern, bool inexact) {
    zurkeb_rounded_answer r = zurkeb_convert(binary64, direction, x);
    same(what, zurkeb_write_binary64(r.number).pattern, pattern);
    same(what, r.refusal == 0 && r.mark != ZURKEB_EXACT, inexact);
}

static void machine(int64_t n) {
    zurkeb_number x = whole(n < 0 ? -(uint64_t)n : (uint64_t)n, n < 0);
    for (uint32_t direction = 0; direction < 5; direction++) {
        if (modes[direction] < 0)
            continue;
        volatile int64_t operand = n;
        fesetround(modes[direction]);
        feclearexcept(FE_ALL_EXCEPT);
        volatile float single = (float)operand;
        bool inexact = fetestexcept(FE_INEXACT) != 0;
        feclearexcept(FE_ALL_EXCEPT);
        volatile double twice = (double)operand;
        bool inexact_twice = fetestexcept(FE_INEXACT) != 0;
        fesetround(FE_TONEAREST);
        same_float("machine, binary32", direction, x, pattern_of_float(single), inexact);
        same_double("machine, binary64", direction, x, pattern_of_double(twice), inexact_twice);
    }
}

#ifdef HAVE_SOFTFLOAT
static void softfloat_single(uint32_t direction, zurkeb_number x, float32_t wanted) {
    same_float("SoftFloat, f32", direction, x, wanted.v, (softfloat_exceptionFlags & softfloat_flag_inexact) != 0);
    softfloat_exceptionFlags = 0;
}

static void softfloat_double(uint32_t direction, zurkeb_number x, float64_t wanted) {
    same_double("SoftFloat, f64", direction, x, wanted.v, (softfloat_exceptionFlags & softfloat_flag_inexact) != 0);
    softfloat_exceptionFlags = 0;
}

/* The word as ui64, i64, ui32 and i32, to f32 and f64. */
static void softfloat(uint64_t word) {
    static const uint_fast8_t its_modes[5] = {softfloat_round_near_even, softfloat_round_near_maxMag, softfloat_round_minMag,
                                          softfloat_round_max, softfloat_round_min};
    int64_t n = (int64_t)word;
    uint32_t half = (uint32_t)word;
    int32_t h = (int32_t)half;
    zurkeb_number signed_n = whole(n < 0 ? -(uint64_t)n : (uint64_t)n, n < 0);
    zurkeb_number signed_h = whole(h < 0 ? (uint64_t) - (int64_t)h : (uint64_t)h, h < 0);
    softfloat_exceptionFlags = 0;
    for (uint32_t direction = 0; direction < 5; direction++) {
        softfloat_roundingMode = its_modes[direction];
        softfloat_single(direction, whole(word, false), ui64_to_f32(word));
        softfloat_double(direction, whole(word, false), ui64_to_f64(word));
        softfloat_single(direction, signed_n, i64_to_f32(n));
        softfloat_double(direction, signed_n, i64_to_f64(n));
        softfloat_single(direction, whole(half, false), ui32_to_f32(half));
        softfloat_double(direction, whole(half, false), ui32_to_f64(half));
        softfloat_single(direction, signed_h, i32_to_f32(h));
        softfloat_double(direction, signed_h, i32_to_f64(h));
    }
}
#else
static void softfloat(uint64_t word) {
    (void)word;
}
#endif

/* ---- by hand */
static void number_is(const char *what, zurkeb_rounded_answer r, uint64_t m, int32_t e, uint32_t negative, uint32_t mark) {
    same_answer(what, r, (zurkeb_rounded_answer){0, mark, {m, e, negative}});
}

static void refusals(void) {
    zurkeb_format wrong = {10, 19, -5, 5};
    zurkeb_number bad = {1, 400, 2}, large = {1, 400, 0};
    same_answer("format first", zurkeb_convert(wrong, 5, bad), refusal_by(ZURKEB_FORMAT_NOT_ADMITTED));
    same_answer("then the direction", zurkeb_convert(decimal32, 5, bad), refusal_by(ZURKEB_NO_SUCH_DIRECTION));
    same_answer("then the sign", zurkeb_convert(decimal32, 0, bad), refusal_by(ZURKEB_NUMBER_NOT_IN_FORMAT));
    same_answer("the sign of zero", zurkeb_convert(decimal32, 0, (zurkeb_number){0, 0, 2}), refusal_by(ZURKEB_NUMBER_NOT_IN_FORMAT));
    same_answer("the greatest sign", zurkeb_convert(decimal32, 0, (zurkeb_number){1, 0, UINT32_MAX}), refusal_by(ZURKEB_NUMBER_NOT_IN_FORMAT));
    same_answer("direction", zurkeb_convert(decimal32, UINT32_MAX, large), refusal_by(ZURKEB_NO_SUCH_DIRECTION));
    for (uint32_t direction = 0; direction < 5; direction++) {
        same_answer("too large", zurkeb_convert(decimal32, direction, large), refusal_by(ZURKEB_TOO_LARGE));
        same_answer("10^97", zurkeb_convert(decimal32, direction, (zurkeb_number){1, 97, 0}), refusal_by(ZURKEB_TOO_LARGE));
        same_answer("2^31 - 1", zurkeb_convert(decimal32, direction, (zurkeb_number){1, INT32_MAX, 1}), refusal_by(ZURKEB_TOO_LARGE));
        number_is("zero far above", zurkeb_convert(decimal32, direction, (zurkeb_number){0, INT32_MAX, 1}), 0, -101, 1, ZURKEB_EXACT);
        number_is("zero far below", zurkeb_convert(decimal32, direction, (zurkeb_number){0, INT32_MIN, 0}), 0, -101, 0, ZURKEB_EXACT);
    }
}

static void by_hand(void) {
    zurkeb_number one = {1, 0, 0}, least = {UINT64_MAX, INT32_MIN, 0}, most = {UINT64_MAX, 0, 0};
    same("1 is not in the format", zurkeb_check_number(decimal32, one), ZURKEB_NUMBER_NOT_IN_FORMAT);
    number_is("1", zurkeb_convert(decimal32, 0, one), 1000000, -6, 0, ZURKEB_EXACT);
    number_is("far below, up", zurkeb_convert(decimal32, ZURKEB_UPWARD, least), 1, -101, 0, ZURKEB_HIGH);
    number_is("far below, down", zurkeb_convert(decimal32, ZURKEB_DOWNWARD, least), 0, -101, 0, ZURKEB_LOW);
    least.negative = 1;
    number_is("minus, far below, up", zurkeb_convert(decimal32, ZURKEB_UPWARD, least), 0, -101, 1, ZURKEB_HIGH);
    number_is("minus, far below, down", zurkeb_convert(decimal32, ZURKEB_DOWNWARD, least), 1, -101, 1, ZURKEB_LOW);
    number_is("2^64 - 1", zurkeb_convert(binary64, 0, most), (uint64_t)1 << 52, 12, 0, ZURKEB_HIGH);
    number_is("2^64 - 1, toward zero", zurkeb_convert(binary64, 2, most), ((uint64_t)1 << 53) - 1, 11, 0, ZURKEB_LOW);
    number_is("a tie", zurkeb_convert(decimal32, 0, (zurkeb_number){10000005, 0, 0}), 1000000, 1, 0, ZURKEB_LOW);
    number_is("a tie, away", zurkeb_convert(decimal32, 1, (zurkeb_number){10000005, 0, 1}), 1000001, 1, 1, ZURKEB_LOW);
}

/* Significands and exponents at both ends, in every format. */
static void edges(zurkeb_format f) {
    const int32_t exponents[] = {INT32_MIN, INT32_MIN + 1, -(1 << 30), f.emin - 66, f.emin - 65, f.emin - 64, f.emin - 63, f.emin - 1,
                                 f.emin,    f.emin + 1,    0,          f.emax - 1,  f.emax,      f.emax + 1,  1 << 30,     INT32_MAX};
    const uint64_t top = power_of(f.base, f.digits);
    const uint64_t significands[] = {0,       1,       2,        f.base - 1,          f.base,         top / f.base - 1,     top / f.base,
                                     top - 1, top,     top + 1,  (uint64_t)1 << 63,   UINT64_MAX - 1, UINT64_MAX,           top / 2,
                                     top * 2 - 1, UINT64_MAX / f.base, UINT64_MAX / 2};
    for (size_t i = 0; i < sizeof exponents / sizeof *exponents; i++)
        for (size_t k = 0; k < sizeof significands / sizeof *significands; k++)
            for (uint32_t sign = 0; sign < 2; sign++)
                convert(f, (zurkeb_number){significands[k], exponents[i], sign});
}

int main(int count, char **arguments) {
    uint64_t rounds = rounds_of(count, arguments, 1000000);
    refusals();
    by_hand();
    for (int i = 0; i < FORMATS; i++)
        edges(formats[i]);
    for (uint64_t i = 0; i < rounds; i++) {
        zurkeb_format f = formats[i % FORMATS];
        zurkeb_number x = {any_significand(f), any_exponent(f), random32() & 1};
        convert(f, x);
        two_forms(f, x);
        unchanged(f, random_member(f));
        as_fraction(f, (int32_t)(random32() >> random32() % 32) * (random32() & 1 ? 1 : -1));
        uint64_t word = any_significand(binary64);
        machine((int64_t)word);
        softfloat(word);
    }
    return no_difference();
}
