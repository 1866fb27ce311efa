/* How long a division takes: the number of quotient digits against a plain long division, digit by digit, on random quotients of formats
 * in several bases, with zero dividends and divisors and results that are cut at Emin or lie below it; and the mark, which is exact
 * exactly where nothing remains. An argument is the number of random rounds, each a quotient in every format. */
#include <stdbool.h>

#include "answers.h"
#include "members.h"
#include "zurkeb.h"

static const zurkeb_format formats[] = {
    {2, 24, -149, 104}, {2, 53, -1074, 971}, {2, 63, -40, 40}, {2, 1, -9, 9},    {3, 1, -9, 9},    {3, 39, -60, 20},  {10, 3, -5, 5},
    {10, 16, -8, 8},    {10, 18, -398, 369}, {7, 5, 2, 12},    {16, 15, -20, 9}, {100, 9, -3, 30}, {256, 7, -10, 10}, {256, 1, -2, 2},
};
enum { FORMATS = sizeof formats / sizeof *formats };

/* ---- the long division */
typedef struct division {
    uint32_t digits;
    bool remains;
} division;

/* Brings the significand to all digits of the format. */
static zurkeb_number brought(zurkeb_format f, zurkeb_number x) {
    for (; x.significand < power_of(f.base, f.digits - 1); x.exponent--)
        x.significand *= f.base;
    return x;
}

static division divided(zurkeb_format f, zurkeb_number a, zurkeb_number b) {
    if (a.significand == 0)
        return (division){0, false};
    a = brought(f, a);
    b = brought(f, b);
    unsigned __int128 rest = a.significand;
    uint32_t digits = 0, significant = 0;
    for (int32_t place = a.exponent - b.exponent; place >= f.emin; place--) {
        uint64_t digit = (uint64_t)(rest / b.significand);
        rest -= (unsigned __int128)digit * b.significand;
        digits++;
        significant += digit != 0 || significant != 0;
        if (significant == f.digits || rest == 0)
            break;
        rest *= f.base;
    }
    return (division){digits, rest != 0};
}

/* ---- random numbers of a format: with all digits, with few, small ones, zeros */
static zurkeb_number member(zurkeb_format f) {
    uint64_t least = power_of(f.base, f.digits - 1);
    uint32_t kind = random32() % 16, few = random32() % f.digits;
    if (kind == 0)
        return (zurkeb_number){random64() % least, f.emin, random32() & 1};
    zurkeb_number x = {least + random64() % (least * (f.base - 1)), f.emin + (int32_t)(random32() % (uint32_t)(f.emax - f.emin + 1)),
                       random32() & 1};
    if (kind < 9)
        x.significand -= x.significand % power_of(f.base, f.digits - 1 - few);
    return x;
}

static void quotient(zurkeb_format f, zurkeb_number a, zurkeb_number b) {
    zurkeb_quotient_answer r = zurkeb_quotient(f, random32() % 5, a, b);
    if (r.refusal != 0) {
        same("refusal", r.refusal, b.significand == 0 ? ZURKEB_DIVISOR_ZERO : ZURKEB_TOO_LARGE);
        same("digits of a refusal", r.digits, 0);
        same_number("number of a refusal", r.number, no_number);
        return;
    }
    division wanted = divided(f, a, b);
    same("digits", r.digits, wanted.digits);
    same("digits above p + 1", r.digits > f.digits + 1, false);
    same("mark", r.mark != ZURKEB_EXACT, wanted.remains);
}

/* Both near Emin, or the quotient near it: the digit at Emin ends the division. */
static void near_emin(zurkeb_format f) {
    zurkeb_number a = member(f), b = member(f);
    a.exponent = f.emin;
    quotient(f, a, b);
    if (b.significand >= power_of(f.base, f.digits - 1)) {
        int32_t wanted = (int32_t)(random32() % (f.digits + 3)) - 1;
        b.exponent = wanted > f.emax ? f.emax : wanted < f.emin ? f.emin : wanted;
    }
    quotient(f, a, b);
}

int main(int count, char **arguments) {
    uint64_t rounds = rounds_of(count, arguments, 100000);
    for (uint64_t i = 0; i < rounds; i++) {
        for (int k = 0; k < FORMATS; k++) {
            zurkeb_number a = member(formats[k]), b = member(formats[k]);
            quotient(formats[k], a, b);
            quotient(formats[k], a, a);
            near_emin(formats[k]);
        }
    }
    for (int k = 0; k < FORMATS; k++) {
        zurkeb_number one = member(formats[k]), zero = {0, formats[k].emin, 0}, minus_zero = {0, formats[k].emin, 1};
        quotient(formats[k], zero, one);
        quotient(formats[k], minus_zero, one);
        quotient(formats[k], one, zero);
        quotient(formats[k], zero, zero);
    }
    same("number not in the format", zurkeb_quotient(formats[0], 0, (zurkeb_number){1, 0, 0}, (zurkeb_number){1, 0, 0}).digits, 0);
    return no_difference();
}
