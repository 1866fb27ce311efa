/* The routes with the successor, in all five directions: where the premise holds they give the first and the last place, as zurkeb_ufp and
 * zurkeb_ulp do and as worked out here from the significand; where it fails they refuse by 8. Formats of many bases and digits, with the
 * lowest exponent from far below 0 to above the digits and the highest from the lowest on. An argument is the number of random numbers that
 * are tried in each format. */
#include <stdbool.h>

#include "answers.h"
#include "members.h"
#include "zurkeb.h"

enum { DIRECTIONS = 5, LIMIT = 1200 };

static const uint32_t bases[] = {2, 3, 5, 7, 10, 16, 36, 100, 255, 256};
enum { BASES = sizeof bases / sizeof *bases };

static bool same_record(zurkeb_number a, zurkeb_number b) {
    return a.significand == b.significand && a.exponent == b.exponent && a.negative == b.negative;
}

/* ---- the places, from the significand */
static zurkeb_number first_place(zurkeb_format f, zurkeb_number x) {
    uint64_t place = 1;
    while (x.significand / f.base >= place)
        place *= f.base;
    return (zurkeb_number){place, x.exponent, 0};
}

/* base^e with as many digits as there is room for above emin. */
static zurkeb_number last_place(zurkeb_format f, zurkeb_number x) {
    uint32_t room = (uint32_t)(x.exponent - f.emin), digits = room < f.digits - 1 ? room : f.digits - 1;
    return (zurkeb_number){power_of(f.base, digits), x.exponent - (int32_t)digits, 0};
}

/* ---- the premises */
static bool is_inner(zurkeb_format f, zurkeb_number x) {
    return x.significand != 0 && !(x.significand == power_of(f.base, f.digits) - 1 && x.exponent == f.emax);
}

/* base^(p - 1) is in the format, and |x| times it is less than the greatest number. */
static bool is_scalable(zurkeb_format f, zurkeb_number x) {
    int32_t lead = (int32_t)f.digits - 1, exponent = x.exponent + lead;
    uint64_t top = power_of(f.base, f.digits), least = top / f.base, significand = x.significand;
    if (lead < f.emin || f.emax < 0 || significand == 0)
        return false;
    for (; significand < least; significand *= f.base)
        exponent--;
    return exponent < f.emax || (exponent == f.emax && significand < top - 1);
}

/* ---- comparisons */
static uint64_t held, failed;

static void answered(const char *name, zurkeb_number_answer r, bool holds, zurkeb_number wanted, zurkeb_number_answer call) {
    same(name, r.refusal, holds ? 0 : ZURKEB_PREMISE_FAILS);
    same(name, same_record(r.number, holds ? wanted : no_number), 1);
    if (holds)
        same(name, call.refusal == 0 && same_record(r.number, call.number), 1);
    holds ? held++ : failed++;
}

static void routes(zurkeb_format f, zurkeb_number x) {
    for (x.negative = 0; x.negative < 2; x.negative++) {
        same("check_number", zurkeb_check_number(f, x), 0);
        for (uint32_t direction = 0; direction < DIRECTIONS; direction++) {
            answered("ufp_by_successor", zurkeb_ufp_by_successor(f, direction, x), is_scalable(f, x), first_place(f, x), zurkeb_ufp(f, x));
            answered("ulp_by_successor", zurkeb_ulp_by_successor(f, direction, x), is_inner(f, x), last_place(f, x), zurkeb_ulp(f, x));
        }
    }
}

/* 1 before 2 before 3 before 8. */
static void refused(zurkeb_format f, uint32_t direction, zurkeb_number x, uint32_t wanted) {
    zurkeb_number_answer first = zurkeb_ufp_by_successor(f, direction, x), last = zurkeb_ulp_by_successor(f, direction, x);
    same("ufp_by_successor", first.refusal, wanted);
    same("ulp_by_successor", last.refusal, wanted);
    same("a refusal has no number", same_record(first.number, no_number) && same_record(last.number, no_number), 1);
}

static void refusals(zurkeb_format f) {
    zurkeb_format bad = f;
    zurkeb_number zero = {0, f.emin, 0}, outside = {power_of(f.base, f.digits), f.emin, 0};
    bad.base = 257;
    refused(bad, 5, outside, ZURKEB_FORMAT_NOT_ADMITTED);
    refused(bad, 0, zero, ZURKEB_FORMAT_NOT_ADMITTED);
    refused(f, 5, outside, ZURKEB_NO_SUCH_DIRECTION);
    refused(f, UINT32_MAX, zero, ZURKEB_NO_SUCH_DIRECTION);
    for (uint32_t direction = 0; direction < DIRECTIONS; direction++) {
        refused(f, direction, outside, ZURKEB_NUMBER_NOT_IN_FORMAT);
        refused(f, direction, zero, ZURKEB_PREMISE_FAILS);
    }
}

/* ---- numbers of a format */
static void at_exponent(zurkeb_format f, int32_t exponent) {
    uint64_t top = power_of(f.base, f.digits), least = top / f.base;
    if (exponent < f.emin || exponent > f.emax)
        return;
    const uint64_t significands[] = {least, least + 1, top / 2, top - 2, top - 1};
    for (int i = 0; i < 5; i++) {
        if (significands[i] >= least && significands[i] < top)
            routes(f, (zurkeb_number){significands[i], exponent, 0});
    }
}

static void of_format(zurkeb_format f, uint64_t rounds) {
    uint64_t top = power_of(f.base, f.digits), least = top / f.base;
    int32_t p = (int32_t)f.digits, highest = f.emax - p + 1; /* where |x| base^(p - 1) comes to the greatest number */
    const int32_t exponents[] = {f.emin, f.emin + 1, highest - 1, highest, highest + 1, f.emax - 1, f.emax, 0, 1 - p};
    same("check_format", zurkeb_check_format(f), 0);
    refusals(f);
    for (uint64_t m = 1; m < least; m *= f.base) {
        routes(f, (zurkeb_number){m, f.emin, 0});
        routes(f, (zurkeb_number){m * f.base - 1, f.emin, 0});
    }
    for (size_t i = 0; i < sizeof exponents / sizeof *exponents; i++)
        at_exponent(f, exponents[i]);
    for (uint64_t round = 0; round < rounds; round++) {
        uint64_t wide = (uint64_t)random32() << 32 | random32();
        int32_t exponent = f.emin + (int32_t)(random32() % (uint32_t)(f.emax - f.emin + 1));
        routes(f, (zurkeb_number){least + wide % (top - least), exponent, 0});
        routes(f, (zurkeb_number){wide % least, f.emin, 0});
    }
}

static void with_digits(uint32_t base, uint32_t digits, uint64_t rounds) {
    int32_t p = (int32_t)digits;
    const int32_t lowest[] = {-LIMIT, -p - 1, -p, -2, -1, 0, 1, p - 2, p - 1, p, p + 1, LIMIT};
    const int32_t highest[] = {-LIMIT, -1, 0, 1, p - 2, p - 1, p, 2 * p, LIMIT};
    for (size_t i = 0; i < sizeof lowest / sizeof *lowest; i++) {
        of_format((zurkeb_format){base, digits, lowest[i], lowest[i]}, rounds);
        for (size_t k = 0; k < sizeof highest / sizeof *highest; k++) {
            if (highest[k] > lowest[i])
                of_format((zurkeb_format){base, digits, lowest[i], highest[k]}, rounds);
        }
    }
}

int main(int count, char **arguments) {
    uint64_t rounds = rounds_of(count, arguments, 100000) / 5000; /* in each of many formats */
    for (int i = 0; i < BASES; i++) {
        for (uint32_t digits = 1; digits <= 63 && power_of(bases[i], digits) != 0; digits++)
            with_digits(bases[i], digits, rounds);
    }
    printf("premise held %" PRIu64 ", failed %" PRIu64 "; ", held, failed);
    return no_difference();
}
