/* This machine's own binary32 and binary64, for the C tests: its numbers by their patterns, and its rounding modes. */
#ifndef MACHINE_H
#define MACHINE_H

#include <fenv.h>
#include <stdint.h>
#include <string.h>

/* The mode of each direction; ties away from zero it has not. */
static const int modes[5] = {FE_TONEAREST, -1, FE_TOWARDZERO, FE_UPWARD, FE_DOWNWARD};

static inline float float_of(uint32_t pattern) {
    float x;
    memcpy(&x, &pattern, sizeof x);
    return x;
}

static inline uint32_t pattern_of_float(float x) {
    uint32_t pattern;
    memcpy(&pattern, &x, sizeof pattern);
    return pattern;
}

static inline double double_of(uint64_t pattern) {
    double x;
    memcpy(&x, &pattern, sizeof x);
    return x;
}

static inline uint64_t pattern_of_double(double x) {
    uint64_t pattern;
    memcpy(&pattern, &x, sizeof pattern);
    return pattern;
}

#endif
