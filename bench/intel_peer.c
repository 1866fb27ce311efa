/* Intel's decimal library as a peer: decimal32 and decimal64 in the binary encoding, arguments by value, direction and flags by argument
 * (the library's build 000). */
#include "peers.h"

#ifdef HAVE_INTEL
#include <bid_conf.h>
#include <bid_functions.h>

static const _IDEC_round modes[5] = {BID_ROUNDING_TO_NEAREST, BID_ROUNDING_TIES_AWAY, BID_ROUNDING_TO_ZERO, BID_ROUNDING_UP,
                                     BID_ROUNDING_DOWN};

/* A word of `bits` bits: sign, biased exponent, and a significand of `plain` bits; one with a bit more leaves its first three, 100, to the
 * mark 11 after the sign. */
typedef struct layout {
    int bits, plain;
    int32_t emin;
    uint64_t least; /* the least significand with all digits */
} layout;

static const layout layout32 = {32, 23, -101, 1000000}, layout64 = {64, 53, -398, 1000000000000000};

static uint64_t encode(layout l, zurkeb_number x) {
    uint64_t one = 1, sign = (uint64_t)x.negative << (l.bits - 1), biased = (uint64_t)(x.exponent - l.emin), m = x.significand;
    if (m < one << l.plain)
        return sign | biased << l.plain | m;
    return sign | (uint64_t)3 << (l.bits - 3) | biased << (l.plain - 2) | (m & ((one << (l.plain - 2)) - 1));
}

/* A finite result as a number: as many digits as there is room for, zero at the lowest exponent. */
static zurkeb_number decode(layout l, uint64_t n) {
    bool marked = (n >> (l.bits - 3) & 3) == 3;
    int plain = marked ? l.plain - 2 : l.plain, exponents = l.bits - 1 - l.plain;
    uint64_t one = 1, m = n & ((one << plain) - 1);
    zurkeb_number x = {marked ? m | one << l.plain : m, (int32_t)(n >> plain & ((one << exponents) - 1)) + l.emin, (uint32_t)(n >> (l.bits - 1))};
    if (x.significand == 0)
        x.exponent = l.emin;
    while (x.significand != 0 && x.significand < l.least && x.exponent > l.emin) {
        x.significand *= 10;
        x.exponent--;
    }
    return x;
}

static bool has_direction(uint32_t direction) {
    return direction < 5;
}

static bool same_number(zurkeb_number a, zurkeb_number b) {
    return a.negative == b.negative && a.significand == b.significand && a.exponent == b.exponent;
}

/* What differs by the type of the words: the operands, the calls, a pass over them. */
#define INTEL_PEER(name, word, prefix, layout)                                                                                            \
    typedef word (*name##_call)(word, word, _IDEC_round, _IDEC_flags *);                                                                  \
    static word name##_left[PAIRS], name##_right[PAIRS];                                                                                  \
    static const name##_call name##_calls[OPERATIONS] = {prefix##_add, prefix##_sub, prefix##_mul, prefix##_div};                         \
    static void name##_prepare(zurkeb_format f, const pair pairs[PAIRS]) {                                                                \
        (void)f;                                                                                                                          \
        for (int i = 0; i < PAIRS; i++) {                                                                                                 \
            name##_left[i] = (word)encode(layout, pairs[i].a);                                                                            \
            name##_right[i] = (word)encode(layout, pairs[i].b);                                                                           \
        }                                                                                                                                 \
    }                                                                                                                                     \
    static uint64_t name##_pass(const void *what) {                                                                                       \
        name##_call call = *(const name##_call *)what;                                                                                    \
        uint64_t used = 0;                                                                                                                \
        _IDEC_flags flags = 0;                                                                                                            \
        for (int i = 0; i < PAIRS; i++)                                                                                                   \
            used ^= call(name##_left[i], name##_right[i], BID_ROUNDING_TO_NEAREST, &flags);                                               \
        return used ^ flags;                                                                                                              \
    }                                                                                                                                     \
    static work name##_work_of(enum operation operation) {                                                                                \
        return (work){name##_pass, &name##_calls[operation]};                                                                             \
    }                                                                                                                                     \
    static bool name##_agrees(enum operation operation, uint32_t direction, int index, zurkeb_number ours) {                              \
        _IDEC_flags flags = 0;                                                                                                            \
        word theirs = name##_calls[operation](name##_left[index], name##_right[index], modes[direction], &flags);                         \
        return same_number(ours, decode(layout, theirs));                                                                                 \
    }                                                                                                                                     \
    const peer name##_peer = {true, "Intel", "libintelrdfpmath-dev", name##_prepare, name##_work_of, has_direction, name##_agrees};

INTEL_PEER(intel, BID_UINT32, __bid32, layout32)
INTEL_PEER(intel64, BID_UINT64, __bid64, layout64)
#else
const peer intel_peer = {.name = "Intel", .package = "libintelrdfpmath-dev"}, intel64_peer = {.name = "Intel", .package = "libintelrdfpmath-dev"};
#endif
