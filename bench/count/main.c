/* Makes calls of the C interface on 1,024 simple pairs of operands, over and over, for an instruction counter: bench/count/run counts two
 * runs and divides the difference by the difference in calls. Arguments: the call, base, digits, and how often the pairs are gone through. */
#include <stdlib.h>
#include <string.h>

#include "../operands.h"

enum { SIMPLE = 1024 };

typedef zurkeb_rounded_answer (*our_call)(zurkeb_format, uint32_t, zurkeb_number, zurkeb_number);
typedef zurkeb_number_answer (*route_call)(zurkeb_format, uint32_t, zurkeb_number);
typedef uint64_t (*pattern_call)(uint32_t, uint32_t, uint32_t);

static pair pairs[SIMPLE];
static zurkeb_number lines[SIMPLE]; /* each within two steps above its a */
static uint64_t words[SIMPLE];
static uint32_t left[SIMPLE], right[SIMPLE], out[SIMPLE];

static uint64_t numbers_pass(our_call call, zurkeb_format format) {
    uint64_t used = 0;
    for (int i = 0; i < SIMPLE; i++)
        used ^= call(format, ZURKEB_NEAREST_EVEN, pairs[i].a, pairs[i].b).number.significand;
    return used;
}

static uint64_t quotients_pass(zurkeb_format format) {
    uint64_t used = 0;
    for (int i = 0; i < SIMPLE; i++)
        used ^= zurkeb_quotient(format, ZURKEB_NEAREST_EVEN, pairs[i].a, pairs[i].b).number.significand;
    return used;
}

/* Each number of the format taken into it again. */
static uint64_t conversions_pass(zurkeb_format format) {
    uint64_t used = 0;
    for (int i = 0; i < SIMPLE; i++)
        used ^= zurkeb_convert(format, ZURKEB_NEAREST_EVEN, pairs[i].a).number.significand;
    return used;
}

/* A whole number of 64 bits, taken into the format. */
static uint64_t words_pass(zurkeb_format format) {
    uint64_t used = 0;
    for (int i = 0; i < SIMPLE; i++) {
        zurkeb_number x = {words[i], 0, 0};
        used ^= zurkeb_convert(format, ZURKEB_NEAREST_EVEN, x).number.significand;
    }
    return used;
}

static uint64_t one_step_pass(zurkeb_format format) {
    uint64_t used = 0;
    for (int i = 0; i < SIMPLE; i++)
        used += zurkeb_within_one_step(format, pairs[i].a, lines[i]).yes;
    return used;
}

/* Fractions of whole numbers from 1 to 999. */
static uint64_t fractions_pass(zurkeb_format format) {
    uint64_t used = 0;
    for (int i = 0; i < SIMPLE; i++)
        used ^= zurkeb_fraction(format, ZURKEB_NEAREST_EVEN, (int32_t)(words[i] % 999 + 1), (uint32_t)(words[i] / 999 % 999 + 1)).number.significand;
    return used;
}

static uint64_t routes_pass(route_call call, zurkeb_format format) {
    uint64_t used = 0;
    for (int i = 0; i < SIMPLE; i++)
        used ^= call(format, ZURKEB_NEAREST_EVEN, pairs[i].a).number.significand;
    return used;
}

static uint64_t patterns_pass(pattern_call call) {
    uint64_t used = 0;
    for (int i = 0; i < SIMPLE; i++)
        used ^= call(left[i], right[i], ZURKEB_NEAREST_EVEN);
    return used;
}

static uint64_t pass(const char *name, zurkeb_format format) {
    static const char *const names[3] = {"sum", "difference", "product"};
    static const char *const pattern_names[4] = {"pattern_sum", "pattern_difference", "pattern_product", "pattern_quotient"};
    static const our_call calls[3] = {zurkeb_sum, zurkeb_difference, zurkeb_product};
    static const pattern_call pattern_calls[4] = {zurkeb_pattern_sum, zurkeb_pattern_difference, zurkeb_pattern_product,
                                                  zurkeb_pattern_quotient};
    for (int i = 0; i < 3; i++)
        if (strcmp(name, names[i]) == 0)
            return numbers_pass(calls[i], format);
    for (int i = 0; i < 4; i++)
        if (strcmp(name, pattern_names[i]) == 0)
            return patterns_pass(pattern_calls[i]);
    if (strcmp(name, "convert") == 0)
        return conversions_pass(format);
    if (strcmp(name, "convert_word") == 0)
        return words_pass(format);
    if (strcmp(name, "within_one_step") == 0)
        return one_step_pass(format);
    if (strcmp(name, "fraction") == 0)
        return fractions_pass(format);
    if (strcmp(name, "ufp_by_successor") == 0)
        return routes_pass(zurkeb_ufp_by_successor, format);
    if (strcmp(name, "ulp_by_successor") == 0)
        return routes_pass(zurkeb_ulp_by_successor, format);
    if (strcmp(name, "sum_slices") == 0)
        return zurkeb_sum_slices(left, SIMPLE, right, SIMPLE, out, SIMPLE, ZURKEB_NEAREST_EVEN).inexact;
    return quotients_pass(format);
}

int main(int count, char **arguments) {
    if (count != 5)
        return 2;
    zurkeb_format format = {(uint32_t)atoi(arguments[2]), (uint32_t)atoi(arguments[3]), -149, 104};
    volatile uint64_t used = 0;
    draw_simple(format, pairs, SIMPLE);
    for (int i = 0; i < SIMPLE; i++) {
        left[i] = (uint32_t)zurkeb_write_pattern(pairs[i].a);
        right[i] = (uint32_t)zurkeb_write_pattern(pairs[i].b);
        words[i] = (uint64_t)random32() << 32 | random32();
        lines[i] = pairs[i].a;
        for (int k = i % 3; k > 0; k--)
            lines[i] = zurkeb_successor(format, lines[i]).number;
    }
    for (long i = atol(arguments[4]); i > 0; i--)
        used ^= pass(arguments[1], format);
    return 0;
}
