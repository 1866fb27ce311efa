/* Within one step: every pair of numbers of small formats against their positions in the ascending list of its values; the customer's
 * lines; random pairs of larger formats against order, predecessor and successor, and in binary32 against nextafterf. An argument is the
 * number of random rounds. */
#include <math.h>
#include <stdbool.h>

#include "compare.h"
#include "machine.h"
#include "members.h"
#include "zurkeb.h"

/* The answer, whichever of the two stands first. */
static bool within(zurkeb_format f, zurkeb_number a, zurkeb_number b) {
    zurkeb_check_answer r = zurkeb_within_one_step(f, a, b), turned = zurkeb_within_one_step(f, b, a);
    same("refusal", r.refusal + turned.refusal, 0);
    same("symmetric", r.yes, turned.yes);
    return r.yes;
}

/* ---- every pair of a small format */
enum { MOST = 4096 };
static zurkeb_number list[MOST];
static int places[MOST]; /* of the value among all values of the format, from the least on */

/* The numbers above zero from the least on, first those of the lowest exponent. */
static int positive(zurkeb_format f, zurkeb_number *out) {
    uint64_t top = power_of(f.base, f.digits);
    int count = 0;
    for (int32_t e = f.emin; e <= f.emax; e++)
        for (uint64_t m = e == f.emin ? 1 : top / f.base; m < top; m++)
            out[count++] = (zurkeb_number){m, e, 0};
    return count;
}

static int ascending(zurkeb_format f) {
    static zurkeb_number above[MOST];
    int half = positive(f, above), count = 0;
    for (int i = half - 1; i >= 0; i--) {
        list[count] = above[i];
        list[count].negative = 1;
        places[count++] = -i - 1;
    }
    for (uint32_t sign = 0; sign < 2; sign++) {
        list[count] = (zurkeb_number){0, f.emin, sign};
        places[count++] = 0;
    }
    for (int i = 0; i < half; i++) {
        list[count] = above[i];
        places[count++] = i + 1;
    }
    return count;
}

static void every_pair(zurkeb_format f) {
    int count = ascending(f);
    for (int i = 0; i < count; i++)
        for (int k = i; k < count; k++)
            same("every pair", within(f, list[i], list[k]), places[k] - places[i] <= 1);
}

/* ---- random pairs of larger formats */
static const zurkeb_format formats[] = {
    {2, 11, -24, 5},       {2, 24, -149, 104},   {10, 7, -101, 90}, {2, 53, -1074, 971}, {10, 16, -398, 369}, {2, 63, -1200, 1200},
    {10, 18, -1200, 1200}, {3, 39, -60, 60},     {3, 1, -9, 9},     {2, 1, -9, 9},       {10, 1, 1200, 1200}, {256, 7, -3, 2},
    {255, 7, -1200, 1200}, {7, 22, -100, 40},    {16, 15, -10, -3}, {2, 31, 0, 0},       {10, 3, -5, 5},      {13, 17, -1200, 5},
};
enum { FORMATS = sizeof formats / sizeof *formats };

/* Has b the value of a, of its predecessor or of its successor? */
static bool is_neighbour(zurkeb_format f, zurkeb_number a, zurkeb_number b) {
    zurkeb_number_answer below = zurkeb_predecessor(f, a), above = zurkeb_successor(f, a);
    return zurkeb_compare(f, a, b).order == 0 || (below.refusal == 0 && zurkeb_compare(f, below.number, b).order == 0) ||
           (above.refusal == 0 && zurkeb_compare(f, above.number, b).order == 0);
}

/* a, and up to three steps away from it; a significand or a sign changed; any other number. */
static zurkeb_number near(zurkeb_format f, zurkeb_number a) {
    zurkeb_number b = a;
    uint32_t kind = random32() % 8;
    if (kind == 0)
        return random_member(f);
    if (kind == 1) {
        b.negative ^= 1;
        return b;
    }
    for (uint32_t i = random32() % 4; i > 0; i--) {
        zurkeb_number_answer next = kind & 1 ? zurkeb_successor(f, b) : zurkeb_predecessor(f, b);
        if (next.refusal == 0)
            b = next.number;
    }
    return b;
}

static void random_pair(zurkeb_format f) {
    zurkeb_number a = random_member(f), b = near(f, a);
    same("neighbours", within(f, a, b), is_neighbour(f, a, b));
    same("itself", within(f, a, a), 1);
}

/* ---- binary32 and the machine */
static void machine(uint32_t a, uint32_t b) {
    float x = float_of(a), y = float_of(b);
    if (!isfinite(x) || !isfinite(y))
        return;
    bool wanted = x == y || nextafterf(x, INFINITY) == y || nextafterf(x, -INFINITY) == y;
    same("machine", within(formats[1], zurkeb_read_pattern(a).number, zurkeb_read_pattern(b).number), wanted);
}

/* ---- by hand */
static void by_hand(void) {
    zurkeb_format decimal = {10, 7, -101, 90}, wrong = {10, 7, -101, 1201};
    zurkeb_number line = {1000000, -3, 0}, outside = {1000, 0, 0}; /* 1000.000 twice */
    same("999.9998", within(decimal, line, (zurkeb_number){9999998, -4, 0}), 0);
    same("999.9990", within(decimal, line, (zurkeb_number){9999990, -4, 0}), 0);
    same("999.9991", within(decimal, line, (zurkeb_number){9999991, -4, 0}), 0);
    same("999.9999", within(decimal, line, (zurkeb_number){9999999, -4, 0}), 1);
    same("1000.000", within(decimal, line, line), 1);
    same("1000.001", within(decimal, line, (zurkeb_number){1000001, -3, 0}), 1);
    same("1000.002", within(decimal, line, (zurkeb_number){1000002, -3, 0}), 0);
    same("-1000.000", within(decimal, line, (zurkeb_number){1000000, -3, 1}), 0);
    same("the zeros", within(decimal, (zurkeb_number){0, -101, 0}, (zurkeb_number){0, -101, 1}), 1);
    same("zero and the least", within(decimal, (zurkeb_number){0, -101, 0}, (zurkeb_number){1, -101, 1}), 1);
    same("the least of each sign", within(decimal, (zurkeb_number){1, -101, 0}, (zurkeb_number){1, -101, 1}), 0);
    same("format first", zurkeb_within_one_step(wrong, outside, line).refusal, ZURKEB_FORMAT_NOT_ADMITTED);
    same("the first number", zurkeb_within_one_step(decimal, outside, line).refusal, ZURKEB_NUMBER_NOT_IN_FORMAT);
    same("the second number", zurkeb_within_one_step(decimal, line, outside).refusal, ZURKEB_NUMBER_NOT_IN_FORMAT);
    same("no yes beside a refusal", zurkeb_within_one_step(decimal, outside, outside).yes, 0);
}

int main(int count, char **arguments) {
    static const zurkeb_format small[] = {{2, 1, -3, 3}, {2, 3, -4, 4}, {3, 2, -2, 2}, {10, 1, 0, 2},    {10, 2, -1, 1},
                                          {2, 5, 0, 0},  {5, 1, 2, 2},  {16, 2, 3, 4}, {256, 1, -1, 1}, {7, 3, 1, 2}};
    uint64_t rounds = rounds_of(count, arguments, 1000000);
    by_hand();
    for (size_t i = 0; i < sizeof small / sizeof *small; i++)
        every_pair(small[i]);
    for (uint64_t i = 0; i < rounds; i++) {
        uint32_t a = random32();
        random_pair(formats[i % FORMATS]);
        machine(a, a + random32() % 5 - 2);
        machine(a & 0x807fffffu, (a & 0x7fffffu) | (random32() & 0x80000000u));
        machine(a & 0xff800000u, (a & 0xff800000u) + random32() % 7 - 3);
    }
    return no_difference();
}
