/* The calmer of two logs in a stretch against plain C on exact integers: random logs of 1 to 300 entries (subnormals, greatest numbers,
 * neighbours, logs that differ by their order or in one last place), stretches within and past the end, starts and lengths near 2^64,
 * infinities and NaN within the stretch and outside it. Prints how many comparisons were made; stops at the first difference. */
#include <string.h>

#include "compare.h"
#include "exact.h"
#include "zurkeb.h"

enum { LONGEST = 300 };

typedef struct logs {
    uint32_t first[LONGEST], second[LONGEST];
    size_t first_length, second_length, start, length;
} logs;

static exact spread(const uint32_t *part, size_t length) {
    exact greatest = exact_value(part[0]), least = greatest;
    for (size_t i = 1; i < length; i++) {
        exact v = exact_value(part[i]);
        if (exact_compare(greatest, v) < 0)
            greatest = v;
        if (exact_compare(v, least) < 0)
            least = v;
    }
    return exact_difference(greatest, least);
}

static size_t first_not_finite(const uint32_t *log, size_t start, size_t length) {
    size_t i = start;
    while (i < start + length && is_finite_pattern(log[i]))
        i++;
    return i;
}

static zurkeb_stretch_answer expected(const logs *l) {
    zurkeb_stretch_answer none = {0, 0, 0, 0};
    if (l->first_length != l->second_length)
        return (zurkeb_stretch_answer){.refusal = ZURKEB_LENGTHS_DIFFER};
    if (l->length == 0 || (unsigned __int128)l->start + l->length > l->first_length)
        return (zurkeb_stretch_answer){.refusal = ZURKEB_STRETCH_OUTSIDE};
    const uint32_t *const both[2] = {l->first, l->second};
    for (int i = 0; i < 2; i++) {
        size_t bad = first_not_finite(both[i], l->start, l->length);
        if (bad < l->start + l->length)
            return (zurkeb_stretch_answer){.refusal = ZURKEB_NOT_FINITE, .indexed = 1, .index = bad};
    }
    exact first = spread(l->first + l->start, l->length), second = spread(l->second + l->start, l->length);
    none.log = exact_compare(first, second) <= 0 ? 1 : 2;
    return none;
}

static uint64_t seen[3], refusals[18]; /* how often each log, and each refusal */

static void check(const logs *l) {
    zurkeb_stretch_answer ours = zurkeb_calmer_stretch(l->first, l->first_length, l->second, l->second_length, l->start, l->length);
    zurkeb_stretch_answer wanted = expected(l);
    same("refusal", ours.refusal, wanted.refusal);
    same("log", ours.log, wanted.log);
    same("indexed", ours.indexed, wanted.indexed);
    same("index", ours.index, wanted.index);
    seen[wanted.log]++;
    refusals[wanted.refusal]++;
}

/* A finite pattern of one kind: any, subnormal, near the greatest numbers of both signs, near 1, one of few. */
static uint32_t draw_pattern(unsigned kind) {
    uint32_t r = random32(), sign = r & 0x80000000u;
    switch (kind) {
    case 0:
        return is_finite_pattern(r) ? r : r & 0x807fffffu;
    case 1:
        return r & 0x807fffffu;
    case 2:
        return sign | (0x7f7fffffu - (r & 7));
    case 3:
        return 0x3f800000u + (r & 15);
    default:
        return sign | (r & 3) << 23;
    }
}

/* The second log beside the first: of its own, turned round, negated, or the same but for the last place of one entry. */
static void draw_second(logs *l, unsigned how, unsigned kind) {
    size_t n = l->first_length;
    for (size_t i = 0; i < n; i++) {
        l->second[i] = how == 0   ? draw_pattern(kind)
                       : how == 1 ? l->first[n - 1 - i]
                       : how == 2 ? l->first[i] ^ 0x80000000u
                                  : l->first[i];
    }
    if (how == 3) {
        size_t i = random32() % n;
        l->second[i] ^= (l->second[i] & 0x7f800000u) != 0x7f800000u;
    }
}

static void draw_stretch(logs *l, unsigned how) {
    size_t n = l->first_length;
    l->start = random32() % n;
    l->length = 1 + random32() % (n - l->start);
    if (how == 0)
        l->length = n - l->start + random32() % 2;
    if (how == 1)
        l->start = SIZE_MAX - random32() % 4;
    if (how == 2)
        l->length = SIZE_MAX - random32() % 4 - (random32() & 1 ? l->start : 0);
    if (how == 3)
        l->length = 0;
    if (how == 4) /* the sum is 2^64 or a little more */
        l->length = (size_t)0 - l->start + random32() % 3;
}

static void draw(logs *l) {
    uint32_t r = random32();
    l->first_length = 1 + (r & 7 ? random32() % 6 : random32() % LONGEST);
    l->second_length = l->first_length;
    unsigned kind = (r >> 3) % 5;
    for (size_t i = 0; i < l->first_length; i++)
        l->first[i] = draw_pattern(kind);
    draw_second(l, r >> 6 & 3, kind);
    draw_stretch(l, r >> 8 & 15);
    if ((r >> 12 & 7) == 0) { /* an infinity or a NaN anywhere */
        uint32_t *log = r >> 15 & 1 ? l->first : l->second;
        log[random32() % l->first_length] = 0x7f800000u | (random32() & 0x80000001u);
    }
    if ((r >> 16 & 31) == 0)
        l->second_length -= 1;
}

/* Each end by hand: the order of refusals, equality, and differences that round to the same. */
static void ends(void) {
    uint32_t one = 0x3f800000u, two = 0x40000000u, three = 0x40400000u, infinity = 0x7f800000u, large = 0x4b800000u;
    uint32_t a[3] = {infinity, one, three}, b[3] = {one, two, three}, c[3] = {one, infinity, infinity};
    zurkeb_stretch_answer r = zurkeb_calmer_stretch(a, 3, b, 2, 0, 0);
    same("11 before 17", r.refusal == 11 && r.log == 0 && r.indexed == 0 && r.index == 0, 1);
    r = zurkeb_calmer_stretch(a, 3, b, 3, 0, 4);
    same("17 before 9", r.refusal == 17 && r.log == 0 && r.indexed == 0 && r.index == 0, 1);
    same("17 at an empty stretch", zurkeb_calmer_stretch(b, 3, b, 3, 3, 0).refusal, 17);
    same("17 past 2^64", zurkeb_calmer_stretch(b, 3, b, 3, 2, SIZE_MAX).refusal, 17);
    r = zurkeb_calmer_stretch(a, 3, c, 3, 0, 3);
    same("9 in the first log", r.refusal == 9 && r.log == 0 && r.indexed == 1 && r.index == 0, 1);
    r = zurkeb_calmer_stretch(a, 3, c, 3, 1, 2);
    same("9 in the second log", r.refusal == 9 && r.log == 0 && r.indexed == 1 && r.index == 1, 1);
    r = zurkeb_calmer_stretch(a, 3, b, 3, 1, 2);
    same("infinity outside", r.refusal == 0 && r.log == 2 && r.indexed == 0 && r.index == 0, 1);
    same("equal", zurkeb_calmer_stretch(b, 3, a, 3, 2, 1).log, 1);
    uint32_t d[2] = {one | 0x80000000u, large}, e[2] = {0, large}; /* 2^24 + 1 rounds to 2^24 */
    same("2^24 + 1 against 2^24", zurkeb_calmer_stretch(d, 2, e, 2, 0, 2).log, 2);
    same("2^24 against 2^24 + 1", zurkeb_calmer_stretch(e, 2, d, 2, 0, 2).log, 1);
}

int main(int count, char **arguments) {
    uint64_t rounds = rounds_of(count, arguments, 2000000);
    static logs l;
    ends();
    for (uint64_t i = 0; i < rounds; i++) {
        draw(&l);
        check(&l);
    }
    if (rounds >= 100000) {
        static const unsigned met[] = {0, ZURKEB_NOT_FINITE, ZURKEB_LENGTHS_DIFFER, ZURKEB_STRETCH_OUTSIDE};
        for (int i = 0; i < 4; i++)
            same("each end was met", refusals[met[i]] > 0, 1);
        same("each log was met", seen[1] > 0 && seen[2] > 0, 1);
    }
    return no_difference();
}
