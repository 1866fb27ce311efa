/* The C interface against this machine's binary32 arithmetic (fesetround, nextafterf) and, call by call, each refusal. Prints how
 * many comparisons were made; stops with an error at the first difference. */
#include <math.h>
#include <stdbool.h>

#include "compare.h"
#include "machine.h"
#include "zurkeb.h"

static void fail(const char *what, uint32_t a, uint32_t b, uint32_t direction, uint64_t ours, uint64_t theirs) {
    printf("%s of %08" PRIx32 " and %08" PRIx32 " in direction %" PRIu32 ": ours %016" PRIx64 ", the machine's %016" PRIx64 "\n", what, a, b,
           direction, ours, theirs);
    exit(1);
}

/* Where the machine overflows, document 01 refuses by 5, also in a direction in which the machine gives the greatest number. */
static uint64_t expected(float result, bool overflow) {
    return overflow ? (uint64_t)ZURKEB_TOO_LARGE << 32 : pattern_of_float(result);
}


static void operations(uint32_t a, uint32_t b) {
    uint32_t finite = (a >> 23 & 255) != 255 && (b >> 23 & 255) != 255;
    for (uint32_t d = 0; d < 5; d++) {
        if (modes[d] < 0)
            continue;
        for (int op = 0; op < 4; op++) {
            uint64_t ours = op == 0   ? zurkeb_pattern_sum(a, b, d)
                            : op == 1 ? zurkeb_pattern_difference(a, b, d)
                            : op == 2 ? zurkeb_pattern_product(a, b, d)
                                      : zurkeb_pattern_quotient(a, b, d);
            static const char *const names[4] = {"sum", "difference", "product", "quotient"};
            comparisons++;
            if (!finite) {
                if (ours != (uint64_t)ZURKEB_NOT_FINITE << 32)
                    fail(names[op], a, b, d, ours, (uint64_t)ZURKEB_NOT_FINITE << 32);
                continue;
            }
            if (op == 3 && (b & 0x7fffffffu) == 0) {
                if (ours != (uint64_t)ZURKEB_DIVISOR_ZERO << 32)
                    fail(names[op], a, b, d, ours, (uint64_t)ZURKEB_DIVISOR_ZERO << 32);
                continue;
            }
            volatile float x = float_of(a), y = float_of(b), r;
            feclearexcept(FE_ALL_EXCEPT);
            fesetround(modes[d]);
            r = op == 0 ? x + y : op == 1 ? x - y : op == 2 ? x * y : x / y;
            bool overflow = fetestexcept(FE_OVERFLOW) != 0;
            fesetround(FE_TONEAREST);
            uint64_t theirs = expected(r, overflow);
            if (ours != theirs)
                fail(names[op], a, b, d, ours, theirs);
        }
    }
}

/* Rump's routes against the places. */
static void routes(zurkeb_format f, zurkeb_number x) {
    zurkeb_number_answer ufp = zurkeb_ufp(f, x), ulp = zurkeb_ulp(f, x);
    zurkeb_number_answer by[4] = {zurkeb_ufp_toward_zero(f, x), zurkeb_ulp_upward(f, x), zurkeb_ulp_toward_zero(f, x),
                                  zurkeb_ulp_toward_zero_unbranched(f, x)};
    for (int i = 0; i < 4; i++) {
        zurkeb_number wanted = i == 0 ? ufp.number : ulp.number;
        comparisons++;
        if (by[i].refusal == ZURKEB_PREMISE_FAILS)
            continue;
        if (by[i].refusal != 0 || by[i].number.significand != wanted.significand || by[i].number.exponent != wanted.exponent)
            fail("route", x.significand, (uint32_t)x.exponent, (uint32_t)i, by[i].number.significand, wanted.significand);
    }
}

static void neighbours(uint32_t a) {
    zurkeb_format f = zurkeb_published(2).format;
    zurkeb_number_answer x = zurkeb_read_pattern(a);
    if (x.refusal != 0)
        return;
    routes(f, x.number);
    zurkeb_number_answer up = zurkeb_successor(f, x.number), down = zurkeb_predecessor(f, x.number);
    float u = nextafterf(float_of(a), INFINITY), l = nextafterf(float_of(a), -INFINITY);
    uint64_t ours = up.refusal ? (uint64_t)up.refusal << 32 : zurkeb_write_pattern(up.number);
    uint64_t theirs = isinf(u) ? (uint64_t)ZURKEB_TOO_LARGE << 32 : pattern_of_float(u);
    comparisons += 2;
    if (ours != theirs)
        fail("successor", a, 0, 0, ours, theirs);
    ours = down.refusal ? (uint64_t)down.refusal << 32 : zurkeb_write_pattern(down.number);
    theirs = isinf(l) ? (uint64_t)ZURKEB_TOO_LARGE << 32 : pattern_of_float(l);
    if (ours != theirs)
        fail("predecessor", a, 0, 0, ours, theirs);
}

/* One call for each refusal number, and results of each kind. */
static void interface(void) {
    zurkeb_format d = {10, 3, -5, 5}, bad = {257, 3, -5, 5}, two = {2, 3, -9, 9};
    zurkeb_number one = {100, -2, 0}, greatest = {999, 5, 0}, outside = {1000, 0, 0}, zero = {0, -5, 0};
    same("check_format", zurkeb_check_format(d), 0);
    same("check_format", zurkeb_check_format(bad), ZURKEB_FORMAT_NOT_ADMITTED);
    same("published", zurkeb_published(3).format.base, 10);
    same("published", zurkeb_published(4).format.digits, 53);
    same("published", zurkeb_published(5).format.digits, 16);
    same("published", zurkeb_published(6).refusal, ZURKEB_NO_SUCH_FORMAT);
    same("check_number", zurkeb_check_number(d, one), 0);
    same("check_number", zurkeb_check_number(d, outside), ZURKEB_NUMBER_NOT_IN_FORMAT);
    same("compare", (uint32_t)zurkeb_compare(d, zero, one).order, (uint32_t)-1);
    same("compare", zurkeb_compare(bad, zero, one).refusal, ZURKEB_FORMAT_NOT_ADMITTED);
    same("negate", zurkeb_negate(d, one).number.negative, 1);
    same("magnitude", zurkeb_magnitude(d, zurkeb_negate(d, one).number).number.negative, 0);
    same("ufp", zurkeb_ufp(d, greatest).number.significand, 100);
    same("ulp", zurkeb_ulp(d, one).number.exponent == -4 && zurkeb_ulp(d, one).number.significand == 100, 1);
    same("uls", zurkeb_uls(d, one).number.exponent == -2 && zurkeb_uls(d, one).number.significand == 100, 1);
    same("successor", zurkeb_successor(d, greatest).refusal, ZURKEB_TOO_LARGE);
    same("predecessor", zurkeb_predecessor(d, one).number.significand, 999);
    same("sum", zurkeb_sum(d, 5, one, one).refusal, ZURKEB_NO_SUCH_DIRECTION);
    same("sum", zurkeb_sum(d, 0, one, one).number.significand, 200);
    same("difference", zurkeb_difference(d, 0, one, one).number.significand, 0);
    same("product", zurkeb_product(d, 0, greatest, greatest).refusal, ZURKEB_TOO_LARGE);
    same("quotient", zurkeb_quotient(d, 0, one, zero).refusal, ZURKEB_DIVISOR_ZERO);
    zurkeb_number minus_zero = {0, -5, 1};
    same("minus zero is a number", zurkeb_check_number(d, minus_zero), 0);
    same("the zeros are equal", zurkeb_compare(d, minus_zero, zero).refusal == 0 && zurkeb_compare(d, minus_zero, zero).order == 0, 1);
    same("negate", zurkeb_negate(d, zero).number.negative, 1);
    same("negate", zurkeb_negate(d, minus_zero).number.negative, 0);
    same("magnitude", zurkeb_magnitude(d, minus_zero).number.negative, 0);
    same("ufp", zurkeb_ufp(d, minus_zero).number.negative + zurkeb_ulp(d, minus_zero).number.negative + zurkeb_uls(d, minus_zero).number.negative, 0);
    same("quotient", zurkeb_quotient(d, 0, one, minus_zero).refusal, ZURKEB_DIVISOR_ZERO);
    for (uint32_t direction = 0; direction < 5; direction++) {
        same("difference", zurkeb_difference(d, direction, one, one).number.negative, direction == ZURKEB_DOWNWARD);
        same("sum", zurkeb_sum(d, direction, zero, minus_zero).number.negative, direction == ZURKEB_DOWNWARD);
        same("sum", zurkeb_sum(d, direction, minus_zero, minus_zero).number.negative, 1);
        same("product", zurkeb_product(d, direction, minus_zero, one).number.negative, 1);
        same("fraction", zurkeb_fraction(d, direction, 0, 7).number.negative, 0);
    }
    same("fraction", zurkeb_fraction(d, ZURKEB_TOWARD_ZERO, -1, UINT32_MAX).number.negative, 1);
    zurkeb_format routes = {10, 3, -3, 3}, short_of = {10, 3, -2, 3};
    zurkeb_number unit = {100, -2, 0};
    same("ufp_toward_zero", zurkeb_ufp_toward_zero(routes, unit).number.significand, 100);
    same("ufp_toward_zero", zurkeb_ufp_toward_zero(short_of, unit).refusal, ZURKEB_PREMISE_FAILS);
    same("ulp_upward", zurkeb_ulp_upward(d, one).number.exponent == -4, 1);
    same("ulp_toward_zero", zurkeb_ulp_toward_zero(d, one).number.exponent == -4, 1);
    same("ulp_toward_zero_unbranched", zurkeb_ulp_toward_zero_unbranched(d, one).number.exponent == -4, 1);
    zurkeb_number four = {4, 0, 0}, half = {4, -3, 0}, sixteenth = {4, -6, 0};
    same("fast_two_sum", zurkeb_fast_two_sum(d, 0, 0, 0, one, one).refusal, ZURKEB_NOT_BINARY);
    same("fast_two_sum", zurkeb_fast_two_sum(two, 3, 3, 3, half, four).refusal, ZURKEB_SMALLER_FIRST);
    zurkeb_triple_answer t = zurkeb_fast_two_sum(two, 3, 3, 3, four, sixteenth);
    same("fast_two_sum x", t.x.negative == 0 && t.x.significand == 5 && t.x.exponent == 0, 1);
    same("fast_two_sum z", t.z.negative == 0 && t.z.significand == 4 && t.z.exponent == -2, 1);
    same("fast_two_sum y", t.y.negative == 1 && t.y.significand == 7 && t.y.exponent == -3, 1);
    same("is_fast_two_sum", zurkeb_is_fast_two_sum(two, four, sixteenth, t.x, t.z, t.y).yes, 1);
    same("is_fast_two_sum", zurkeb_is_fast_two_sum(two, four, sixteenth, t.x, t.z, four).yes, 0);
    same("read_pattern", zurkeb_read_pattern(0x7f800000u).refusal, ZURKEB_NOT_FINITE);
    same("write_pattern", zurkeb_write_pattern(outside), (uint64_t)ZURKEB_NUMBER_NOT_IN_FORMAT << 32);
    same("pattern_sum", zurkeb_pattern_sum(0, 0, 5), (uint64_t)ZURKEB_NO_SUCH_DIRECTION << 32);
    uint32_t a[3] = {0x3f800000u, 0x7f7fffffu, 0x3f800000u}, b[3] = {0x3f800000u, 0x7f7fffffu, 0x7f800000u}, out[3] = {7, 8, 9};
    same("sum_slices", zurkeb_sum_slices(a, 3, b, 2, out, 3, 0).refusal, ZURKEB_LENGTHS_DIFFER);
    zurkeb_slices_answer s = zurkeb_sum_slices(a, 3, b, 3, out, 3, 0);
    same("sum_slices", s.refusal == ZURKEB_TOO_LARGE && s.index == 1 && out[0] == 7 && out[1] == 8 && out[2] == 9, 1);
    same("sum_slices", zurkeb_sum_slices(a, 1, b, 1, out, 1, 0).refusal == 0 && out[0] == 0x40000000u, 1);
    same("sum_slices", zurkeb_sum_slices(a, 0, b, 0, out, 0, 0).refusal, 0);
}

int main(int count, char **arguments) {
    uint64_t rounds = rounds_of(count, arguments, 2000000);
    static const uint32_t edges[] = {0,          1,          2,          0x007fffffu, 0x00800000u, 0x00800001u, 0x00ffffffu, 0x01000000u,
                                     0x33800000u, 0x34000000u, 0x3f7fffffu, 0x3f800000u, 0x3f800001u, 0x40000000u, 0x4b000000u, 0x4b7fffffu,
                                     0x4b800000u, 0x5f000000u, 0x7e7fffffu, 0x7e800000u, 0x7effffffu, 0x7f000000u, 0x7f7ffffeu, 0x7f7fffffu,
                                     0x7f800000u, 0x7f800001u, 0x7fc00000u, 0x7fffffffu};
    enum { edge_count = sizeof edges / sizeof *edges };
    interface();
    for (unsigned i = 0; i < 2 * edge_count; i++) {
        uint32_t a = edges[i % edge_count] | (i < edge_count ? 0 : 0x80000000u);
        neighbours(a);
        for (unsigned j = 0; j < 2 * edge_count; j++)
            operations(a, edges[j % edge_count] | (j < edge_count ? 0 : 0x80000000u));
    }
    for (uint64_t i = 0; i < rounds; i++) {
        uint32_t a = random32(), b = random32();
        if (i % 3 == 1)
            b = (a & 0x7f800000u) + (b & 0x81ffffffu); /* near exponents */
        if (i % 3 == 2)
            b = a ^ (b & 0x800000ffu); /* cancellation and ties */
        operations(a, b);
        neighbours(a);
    }
    return no_difference();
}
