/* Random pairs of any format. A number's size is the exponent of its first digit, so that size 0 is a value from 1 to the base. */
#include "operands.h"

#include <stdbool.h>

static uint64_t state = 88172645463325252u;

uint32_t random32(void) {
    state ^= state << 13;
    state ^= state >> 7;
    state ^= state << 17;
    return (uint32_t)(state >> 16);
}

/* A number from low to high, both included. */
static int32_t between(int32_t low, int32_t high) {
    return low + (int32_t)(random32() % (uint32_t)(high - low + 1));
}

static uint64_t random64(void) {
    return (uint64_t)random32() << 32 | random32();
}

/* base^count. */
static uint64_t power(uint32_t base, uint32_t count) {
    uint64_t result = 1;
    while (count-- > 0)
        result *= base;
    return result;
}

static zurkeb_number normal(zurkeb_format f, int32_t size) {
    uint64_t full = power(f.base, f.digits - 1), rest = random64() % (full * (f.base - 1));
    return (zurkeb_number){full + rest, size - (int32_t)f.digits + 1, random32() & 1};
}

/* A number below the normal ones, with any number of digits. */
static zurkeb_number subnormal(zurkeb_format f) {
    uint64_t limit = power(f.base, (uint32_t)between(1, (int32_t)f.digits - 1));
    return (zurkeb_number){1 + random64() % (limit - 1), f.emin, random32() & 1};
}

/* a with the other sign and a few units of the last place more or less. */
static zurkeb_number cancelling(zurkeb_format f, zurkeb_number a) {
    uint64_t full = power(f.base, f.digits - 1), change = random32() % 256;
    uint64_t m = a.significand - full > change ? a.significand - change : a.significand;
    return (zurkeb_number){m, a.exponent, !a.negative};
}

/* A subnormal number beside another or beside a moderate one, or two normal numbers whose product is subnormal. */
static pair small_pair(zurkeb_format f) {
    int32_t p = (int32_t)f.digits, lowest = f.emin + p - 1;
    zurkeb_number moderate = normal(f, between(-p, 0));
    switch (random32() % 3) {
    case 0:
        return (pair){subnormal(f), subnormal(f)};
    case 1:
        return (pair){subnormal(f), moderate};
    default:
        return (pair){normal(f, between(lowest, lowest + p)), moderate};
    }
}

/* Two normal numbers whose sizes differ by at most the digits, or by more. */
static pair apart(zurkeb_format f, int32_t half, bool far) {
    int32_t p = (int32_t)f.digits, size = between(-half, half), other;
    do {
        other = far ? between(-half, half) : between(size - p, size + p);
    } while (other < -half || half < other || far != (other < size - p || size + p < other));
    return (pair){normal(f, size), normal(f, other)};
}

void draw_pairs(zurkeb_format f, pair pairs[PAIRS]) {
    int32_t lowest = f.emin + (int32_t)f.digits - 1, highest = f.emax + (int32_t)f.digits - 1;
    int32_t half = (-lowest < highest ? -lowest : highest) / 2 - 1;
    for (int i = 0; i < PAIRS; i++) {
        uint32_t kind = random32() % 4;
        if (kind == 0) {
            zurkeb_number a = normal(f, between(-half, half));
            pairs[i] = (pair){a, cancelling(f, a)};
        } else {
            pairs[i] = kind == 1 ? small_pair(f) : apart(f, half, kind == 2);
        }
    }
}

void draw_simple(zurkeb_format f, pair *pairs, int count) {
    for (int i = 0; i < count; i++) {
        pairs[i] = (pair){normal(f, 0), normal(f, 0)};
        pairs[i].a.exponent = between(-15, 15);
        pairs[i].b.exponent = between(-15, 15);
    }
}
