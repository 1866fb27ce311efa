/* Sums of boundaries against plain C: the machine's float arithmetic step by step (fesetround), in direction 1 exact integers rounded, the
 * refusals and their order, and the bound itself in exact integers. Prints how many comparisons were made; stops with an error at the first difference. */
#include <stdbool.h>
#include <string.h>

#include "compare.h"
#include "exact.h"
#include "machine.h"
#include "zurkeb.h"

enum { MOST = 4096, KEPT = 0x5eed };

static uint32_t strips[MOST + 1], rests[MOST + 1], wanted[MOST + 1];

static uint32_t size_of(uint32_t n) { return n & 0x7fffffffu; }

/* 2^47 times the distance of sum and rests from the strips, against the sum of |x| after each step. */
static void bound(uint32_t sum, size_t length, uint32_t direction, exact sizes) {
    exact off = exact_scaled(sum, 47);
    for (size_t i = 0; i + 1 < length; i++)
        off = exact_sum(off, exact_scaled(rests[i], 47));
    for (size_t i = 0; i < length; i++)
        off = exact_difference(off, exact_scaled(strips[i], 47));
    same("within the bound", exact_compare(exact_size(off), sizes) > 0, 0);
    if (direction < 2)
        same("exact", exact_sign(off) != 0, 0);
}

/* ---- direction 1, which the machine has not: the exact sum of two patterns rounded to nearest, ties away from zero */
static bool bit_of(const exact *x, int i) { return x->words[i / 64] >> i % 64 & 1; }

static int bits_of(const exact *x) {
    int bits = 64 * EXACT_WORDS;
    while (bits > 0 && !bit_of(x, bits - 1))
        bits--;
    return bits;
}

/* The pattern of a value in units of 2^-149; an infinity where it is too large. */
static uint32_t nearest_away(exact x) {
    uint32_t sign = exact_sign(x) < 0 ? 0x80000000u : 0, significand = 0;
    x = exact_size(x);
    int place = bits_of(&x) <= 24 ? 0 : bits_of(&x) - 24;
    if (place > 0) {
        exact half = {{0}};
        half.words[(place - 1) / 64] = (uint64_t)1 << (place - 1) % 64;
        x = exact_sum(x, half);
        place = bits_of(&x) - 24;
    }
    for (int i = 23; i >= 0; i--)
        significand = 2 * significand + bit_of(&x, place + i);
    if (significand < 0x800000)
        return sign | significand;
    return place + 1 > 254 ? sign | 0x7f800000u : sign | (uint32_t)(place + 1) << 23 | (significand & 0x7fffff);
}

static uint32_t add_away(uint32_t a, uint32_t b) {
    exact x = exact_sum(exact_value(a), exact_value(b));
    if (exact_sign(x) == 0)
        return a == b ? a : 0; /* two zeros of one sign keep it, else plus */
    return nearest_away(x);
}

/* ---- the sum in plain C */
typedef struct model {
    uint32_t refusal, sum, index;
    exact sizes;
} model;

/* The rounded sum of two patterns; an infinity where it is too large, in every direction. */
static uint32_t add(uint32_t a, uint32_t b, uint32_t direction) {
    if (modes[direction] < 0)
        return add_away(a, b);
    volatile float left = float_of(a), right = float_of(b), sum;
    fesetround(modes[direction]);
    feclearexcept(FE_ALL_EXCEPT);
    sum = left + right;
    bool too_large = fetestexcept(FE_OVERFLOW);
    fesetround(FE_TONEAREST);
    return too_large ? 0x7f800000u : pattern_of_float(sum);
}

static uint32_t minus(uint32_t n) { return n ^ 0x80000000u; }

static void plain_sum(model *m, size_t length, uint32_t direction) {
    uint32_t x = strips[0];
    memset(m, 0, sizeof *m);
    for (size_t i = 1; i < length; i++) {
        bool turned = size_of(x) < size_of(strips[i]);
        uint32_t a = turned ? strips[i] : x, b = turned ? x : strips[i];
        x = add(a, b, direction);
        if (size_of(x) == 0x7f800000u) {
            m->refusal = ZURKEB_TOO_LARGE;
            m->index = (uint32_t)i;
            return;
        }
        wanted[i - 1] = add(b, minus(add(x, minus(a), direction)), direction);
        m->sizes = exact_sum(m->sizes, exact_value(size_of(x)));
    }
    m->sum = x;
}

/* ---- one call: its answer, and rests as they were at a refusal */
static zurkeb_boundary_answer call(size_t length, size_t rests_length, uint32_t direction) {
    size_t seen = rests_length < length ? length : rests_length;
    for (size_t i = 0; i < seen; i++)
        rests[i] = KEPT + (uint32_t)i;
    zurkeb_boundary_answer r = zurkeb_boundary_sum(strips, length, rests, rests_length, direction);
    size_t written = r.refusal == 0 ? rests_length : 0;
    for (size_t i = written; i < seen; i++)
        same("rests are as they were", rests[i], KEPT + (uint32_t)i);
    return r;
}

static void refused(const char *what, zurkeb_boundary_answer r, uint32_t refusal, uint32_t indexed, uint32_t index) {
    same(what, r.refusal, refusal);
    same(what, r.sum, 0);
    same(what, r.indexed, indexed);
    same(what, r.index, index);
}

static void against_plain(size_t length) {
    static model m;
    for (uint32_t d = 0; d < 5; d++) {
        zurkeb_boundary_answer r = call(length, length - 1, d);
        plain_sum(&m, length, d);
        if (m.refusal != 0) {
            refused("too large", r, m.refusal, 1, m.index);
            continue;
        }
        same("refusal", r.refusal, 0);
        same("sum", r.sum, m.sum);
        same("indexed", r.indexed, 0);
        same("index", r.index, 0);
        for (size_t i = 0; i + 1 < length; i++)
            same("rest", rests[i], wanted[i]);
        bound(r.sum, length, d, m.sizes);
    }
}

/* Exponent fields from `low` on over a width: near each other, far apart, subnormal, or so large that sums overflow. */
static uint32_t random_strip(uint32_t low, uint32_t width) {
    uint32_t field = low + random32() % width;
    return (random32() & 0x807fffffu) | field << 23;
}

static void random_sums(uint64_t rounds) {
    static const uint32_t kinds[5][2] = {{0, 255}, {120, 10}, {0, 3}, {250, 5}, {100, 60}};
    for (uint64_t round = 0; round < rounds; round++) {
        const uint32_t *kind = kinds[round % 5];
        size_t length = 1 + random32() % 12;
        for (size_t i = 0; i < length; i++) {
            strips[i] = random_strip(kind[0], kind[1]);
            if (i > 0 && random32() % 4 == 0) /* equal magnitudes, and sums that cancel */
                strips[i] = strips[i - 1] ^ (random32() & 0x80000000u);
        }
        against_plain(length);
    }
}

static void long_sums(void) {
    for (size_t length = MOST - 1; length <= MOST; length++) {
        for (size_t i = 0; i < length; i++)
            strips[i] = random_strip(110, 30);
        against_plain(length);
    }
    strips[MOST - 1] = strips[MOST - 2] = 0x7f7fffffu; /* the last strip makes the sum too large */
    against_plain(MOST);
}

/* Each refusal and the order 18, 11, 2, 9, 5; a lone strip. */
static void refusals(void) {
    const uint32_t greatest = 0x7f7fffffu, infinity = 0x7f800000u, nan = 0xffc00001u;
    for (size_t i = 0; i <= MOST; i++)
        strips[i] = i % 2 == 0 ? infinity : greatest;
    refused("no strips", call(0, 3, 9), ZURKEB_STRIP_COUNT, 0, 0);
    refused("too many strips", call(MOST + 1, 3, 9), ZURKEB_STRIP_COUNT, 0, 0);
    refused("rests too short", call(MOST, MOST - 2, 9), ZURKEB_LENGTHS_DIFFER, 0, 0);
    refused("rests too long", call(3, 3, 9), ZURKEB_LENGTHS_DIFFER, 0, 0);
    refused("no direction", call(3, 2, 5), ZURKEB_NO_SUCH_DIRECTION, 0, 0);
    refused("negative direction", call(3, 2, (uint32_t)-1), ZURKEB_NO_SUCH_DIRECTION, 0, 0);
    refused("first strip", call(1, 0, 0), ZURKEB_NOT_FINITE, 1, 0);
    strips[0] = strips[1] = strips[2] = greatest;
    strips[3] = nan;
    refused("9 before 5", call(4, 3, 0), ZURKEB_NOT_FINITE, 1, 3);
    strips[3] = infinity;
    refused("first of two", call(7, 6, 4), ZURKEB_NOT_FINITE, 1, 3);
    for (uint32_t d = 0; d < 5; d++) {
        strips[1] = 0;
        refused("third strip", call(3, 2, d), ZURKEB_TOO_LARGE, 1, 2);
    }
    static const uint32_t lone[4] = {0, 0x80000000u, 1, 0xff7fffffu};
    for (int i = 0; i < 4; i++) {
        strips[0] = lone[i];
        for (uint32_t d = 0; d < 5; d++) {
            zurkeb_boundary_answer r = call(1, 0, d);
            same("lone strip", r.sum, lone[i]);
            same("lone strip", (uint64_t)r.refusal + r.indexed + r.index, 0);
        }
    }
}

int main(int count, char **arguments) {
    refusals();
    long_sums();
    random_sums(rounds_of(count, arguments, 100000));
    return no_difference();
}
