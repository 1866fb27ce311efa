/* Exact values of finite binary32 patterns for the C tests: whole multiples of 2^-149 as signed numbers of 384 bits, in six words with
 * the lowest first, negative ones in two's complement. Sums of some thousand values fit, 2^47 times as large too. */
#ifndef EXACT_H
#define EXACT_H

#include <stdbool.h>
#include <stdint.h>

enum { EXACT_WORDS = 6 };

typedef struct exact {
    uint64_t words[EXACT_WORDS];
} exact;

static inline bool is_finite_pattern(uint32_t pattern) {
    return (pattern >> 23 & 255) != 255;
}

static inline exact exact_negated(exact a) {
    uint64_t carry = 1;
    for (int i = 0; i < EXACT_WORDS; i++) {
        a.words[i] = ~a.words[i] + carry;
        carry = carry && a.words[i] == 0;
    }
    return a;
}

static inline exact exact_sum(exact a, exact b) {
    uint64_t carry = 0;
    for (int i = 0; i < EXACT_WORDS; i++) {
        uint64_t sum = a.words[i] + b.words[i];
        uint64_t over = sum < a.words[i];
        a.words[i] = sum + carry;
        carry = over | (a.words[i] < carry);
    }
    return a;
}

static inline exact exact_difference(exact a, exact b) {
    return exact_sum(a, exact_negated(b));
}

/* -1, 0 or 1: the sign. */
static inline int exact_sign(exact a) {
    if (a.words[EXACT_WORDS - 1] >> 63)
        return -1;
    for (int i = 0; i < EXACT_WORDS; i++) {
        if (a.words[i] != 0)
            return 1;
    }
    return 0;
}

/* -1, 0 or 1: less, equal, greater. */
static inline int exact_compare(exact a, exact b) {
    return exact_sign(exact_difference(a, b));
}

static inline exact exact_size(exact a) {
    return exact_sign(a) < 0 ? exact_negated(a) : a;
}

/* 2^scale times the value of a finite pattern: the fraction at place 0, or with a leading bit at the place of the exponent field less 1. */
static inline exact exact_scaled(uint32_t pattern, unsigned scale) {
    uint32_t field = pattern >> 23 & 255, fraction = pattern & 0x7fffffu;
    uint64_t significand = field == 0 ? fraction : fraction | 0x800000u;
    unsigned place = (field == 0 ? 0 : field - 1) + scale, word = place / 64, shift = place % 64;
    exact value = {{0}};
    value.words[word] = significand << shift;
    if (shift > 40)
        value.words[word + 1] = significand >> (64 - shift);
    return pattern >> 31 ? exact_negated(value) : value;
}

static inline exact exact_value(uint32_t pattern) {
    return exact_scaled(pattern, 0);
}

#endif
