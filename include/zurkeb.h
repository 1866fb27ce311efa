/* Zurkeb: proved floating-point arithmetic for any base from 2 to 256.
 *
 * Every call takes anything: it answers, or refuses by a number of enum zurkeb_refusal (zurkeb_refusal_text has a short text for each). A
 * call's refusals are listed in the order in which they are looked for: the quotient's are 1, 2, 3, 4, 5, the pattern quotient's 2, 9, 4, 5.
 * An answer struct begins with the refusal, 0 for none. At a refusal each of its numbers is {UINT64_MAX, 0, 0}, which is in no format (see
 * zurkeb_number); its other fields are zero, except `indexed` and `index` where the refusal has an index. Numbers and formats go by value. A
 * slice goes as a pointer and a length; the caller sees to it that the pointer leads to that many entries; NULL with length 0 is accepted.
 *
 * No call keeps state, allocates memory or calls anything outside the library, so all are reentrant, in several threads too.
 * Patterns are integers in the machine's byte order. The direction is the second argument of the calls that take a format, and the last one
 * of the calls on patterns, where a wrong order compiles: zurkeb_pattern_sum(a, b, direction). */
#ifndef ZURKEB_H
#define ZURKEB_H

#include <stddef.h>
#include <stdint.h>

#define ZURKEB_VERSION "1.0.0"

#ifdef __cplusplus
extern "C" {
#endif

enum zurkeb_refusal {
    ZURKEB_NONE = 0,
    ZURKEB_FORMAT_NOT_ADMITTED = 1,
    ZURKEB_NO_SUCH_DIRECTION = 2,
    ZURKEB_NUMBER_NOT_IN_FORMAT = 3,
    ZURKEB_DIVISOR_ZERO = 4,
    ZURKEB_TOO_LARGE = 5, /* or no neighbour exists */
    ZURKEB_NOT_BINARY = 6,
    ZURKEB_SMALLER_FIRST = 7,
    ZURKEB_PREMISE_FAILS = 8,
    ZURKEB_NOT_FINITE = 9,
    ZURKEB_NO_SUCH_FORMAT = 10,
    ZURKEB_LENGTHS_DIFFER = 11, /* or more than 4,096 queries, or rests that are not one entry shorter than the strips */
    ZURKEB_LIST_LENGTH = 12,    /* empty, or longer than 4,096 */
    ZURKEB_LIST_DESCENDS = 13,
    ZURKEB_OUT_TOO_SHORT = 14,
    ZURKEB_LIST_REPEATS = 15,
    ZURKEB_QUERIES_DESCEND = 16,
    ZURKEB_STRETCH_OUTSIDE = 17,
    ZURKEB_STRIP_COUNT = 18
};

/* The directions of rounding: a call takes their numbers. */
enum zurkeb_direction {
    ZURKEB_NEAREST_EVEN = 0,
    ZURKEB_NEAREST_AWAY = 1,
    ZURKEB_TOWARD_ZERO = 2,
    ZURKEB_UPWARD = 3,
    ZURKEB_DOWNWARD = 4
};

/* How a rounded number stands to the exact result, by value: equal, below, above. For a negative result the number below is the one of
 * greater magnitude. This is MPFR's ternary value. */
enum zurkeb_mark { ZURKEB_EXACT = 0, ZURKEB_LOW = 1, ZURKEB_HIGH = 2 };

/* Base, digits, lowest and highest exponent of the whole-number significand; IEEE 754's exponents are greater by digits - 1. A format is
 * admitted if 2 <= base <= 256, 1 <= digits <= 63, base^digits <= 2^63 and -1200 <= emin <= emax <= 1200. The most digits that a base allows:
 *     base     2   3   4   5   7   8  10  12  16  36  60 100 256
 *     digits  63  39  31  27  22  21  18  17  15  12  10   9   7 */
typedef struct zurkeb_format {
    uint32_t base;
    uint32_t digits;
    int32_t emin;
    int32_t emax;
} zurkeb_format;

/* The value (-1)^negative * significand * base^exponent. A number is in a format if it is
 *     normal: base^(digits-1) <= significand < base^digits and emin <= exponent <= emax,
 *     small:  0 < significand < base^(digits-1) and exponent = emin, or
 *     zero:   significand = 0 and exponent = emin; zero has either sign.
 * So {1, 0, 0} is in no decimal format with 7 digits and emin below 0, and is refused by 3: the number one is {1000000, -6, 0} there.
 * zurkeb_convert makes it. In an answer `negative` is 0 or 1; a number that is handed over with any other value there is in no format, and is
 * refused by 3, by zurkeb_convert too. The number of a refused answer, {UINT64_MAX, 0, 0}, is in no admitted format either: a caller who goes
 * on with it is refused by 3, except by zurkeb_convert, which takes any significand. */
typedef struct zurkeb_number {
    uint64_t significand;
    int32_t exponent;
    uint32_t negative; /* 0 plus, 1 minus */
} zurkeb_number;

typedef struct zurkeb_number_answer {
    uint32_t refusal;
    zurkeb_number number;
} zurkeb_number_answer;

typedef struct zurkeb_rounded_answer {
    uint32_t refusal;
    uint32_t mark; /* of enum zurkeb_mark; a refusal has none, and 0 stands here */
    zurkeb_number number;
} zurkeb_rounded_answer;

typedef struct zurkeb_quotient_answer {
    uint32_t refusal;
    uint32_t mark;   /* of enum zurkeb_mark; 0 at a refusal */
    uint32_t digits; /* quotient digits worked out, at most the format's digits and one; 0 at a refusal */
    zurkeb_number number;
} zurkeb_quotient_answer;

typedef struct zurkeb_order_answer {
    uint32_t refusal;
    int32_t order; /* -1 less, 0 equal, 1 greater */
} zurkeb_order_answer;

typedef struct zurkeb_published_answer {
    uint32_t refusal;
    zurkeb_format format;
} zurkeb_published_answer;

typedef struct zurkeb_triple_answer {
    uint32_t refusal;
    zurkeb_number x, z, y;
} zurkeb_triple_answer;

typedef struct zurkeb_pattern64_answer {
    uint32_t refusal;
    uint64_t pattern;
} zurkeb_pattern64_answer;

typedef struct zurkeb_check_answer {
    uint32_t refusal;
    uint32_t yes; /* 1 for yes, 0 for no */
} zurkeb_check_answer;

typedef struct zurkeb_slices_answer {
    uint32_t refusal;
    uint64_t index;   /* of the first refused entry, beside refusals 5 and 9 */
    uint64_t inexact; /* how many entries are not exact; 0 at a refusal */
} zurkeb_slices_answer;

/* The next four are laid out alike; `indexed` is 1 where the refusal has an index, else 0. */
typedef struct zurkeb_position_answer {
    uint32_t refusal;
    uint32_t position;
    uint32_t indexed;
    uint32_t index; /* of the first bad pattern in the list, beside refusal 9 */
} zurkeb_position_answer;

typedef struct zurkeb_reach_answer {
    uint32_t refusal;
    uint32_t found;
    uint32_t indexed;
    uint32_t index; /* of the first bad pattern in the list, beside refusal 9 */
} zurkeb_reach_answer;

typedef struct zurkeb_row_answer {
    uint32_t refusal;
    uint32_t looked; /* lines looked at after the checks */
    uint32_t indexed;
    uint32_t index; /* of the first bad pattern in the list or in the queries, beside refusal 9 */
} zurkeb_row_answer;

typedef struct zurkeb_boundary_answer {
    uint32_t refusal;
    uint32_t sum; /* the pattern of the last x */
    uint32_t indexed;
    uint32_t index; /* of a strip, beside refusals 5 and 9 */
} zurkeb_boundary_answer;

typedef struct zurkeb_stretch_answer {
    uint32_t refusal;
    uint32_t log;     /* 1 the first, 2 the second */
    uint32_t indexed; /* 1 where the refusal has an index, else 0 */
    uint64_t index;   /* of the first pattern that is refused by 9, counted from its log's start */
} zurkeb_stretch_answer;

/* The structs are laid out as the library has them, or this header does not compile. */
#define ZURKEB_SIZE(type, size) typedef char type##_has_##size##_bytes[sizeof(type) == (size) ? 1 : -1]
ZURKEB_SIZE(zurkeb_format, 16);
ZURKEB_SIZE(zurkeb_number, 16);
ZURKEB_SIZE(zurkeb_number_answer, 24);
ZURKEB_SIZE(zurkeb_rounded_answer, 24);
ZURKEB_SIZE(zurkeb_quotient_answer, 32);
ZURKEB_SIZE(zurkeb_order_answer, 8);
ZURKEB_SIZE(zurkeb_published_answer, 20);
ZURKEB_SIZE(zurkeb_triple_answer, 56);
ZURKEB_SIZE(zurkeb_pattern64_answer, 16);
ZURKEB_SIZE(zurkeb_check_answer, 8);
ZURKEB_SIZE(zurkeb_slices_answer, 24);
ZURKEB_SIZE(zurkeb_position_answer, 16);
ZURKEB_SIZE(zurkeb_reach_answer, 16);
ZURKEB_SIZE(zurkeb_row_answer, 16);
ZURKEB_SIZE(zurkeb_boundary_answer, 16);
ZURKEB_SIZE(zurkeb_stretch_answer, 24);
#undef ZURKEB_SIZE

/* Is the format admitted? 0 if it is, else refusal 1. */
uint32_t zurkeb_check_format(zurkeb_format format);
/* The published format with this number: 1 binary16, 2 binary32, 3 decimal32, 4 binary64, 5 decimal64. By name they stand at the end of this
 * header: ZURKEB_BINARY32. Refuses 10; the format beside it is not admitted. */
zurkeb_published_answer zurkeb_published(uint32_t number);
/* Is x in the format? 0 if it is, else refusal 1 or 3. */
uint32_t zurkeb_check_number(zurkeb_format format, zurkeb_number x);
/* The order of a and b by exact value. Refuses 1, 3. */
zurkeb_order_answer zurkeb_compare(zurkeb_format format, zurkeb_number a, zurkeb_number b);
/* -x and |x|, of zero too. Refuse 1, 3. */
zurkeb_number_answer zurkeb_negate(zurkeb_format format, zurkeb_number x);
zurkeb_number_answer zurkeb_magnitude(zurkeb_format format, zurkeb_number x);

/* The first place (the greatest power of the base not above |x|), the last place (base^exponent), and the place of the least
 * nonzero digit; all three are plus zero at either zero. Refuse 1, 3. */
zurkeb_number_answer zurkeb_ufp(zurkeb_format format, zurkeb_number x);
zurkeb_number_answer zurkeb_ulp(zurkeb_format format, zurkeb_number x);
zurkeb_number_answer zurkeb_uls(zurkeb_format format, zurkeb_number x);
/* The greatest number of the format below x, and the least above; where that is zero, it has the sign of x. Refuse 1, 3, 5. */
zurkeb_number_answer zurkeb_predecessor(zurkeb_format format, zurkeb_number x);
zurkeb_number_answer zurkeb_successor(zurkeb_format format, zurkeb_number x);
/* Are a and b within one step of the format: does b have the value of a, of its predecessor or of its successor? No number of the format
 * lies strictly between them; either may stand first. Below a power of the base the step is smaller than above it: in decimal with 7 digits
 * 1000.000 is within one step of 999.9999 and of 1000.001, not of 999.9998 or 1000.002. Both zeros are one value. Refuses 1, 3. */
zurkeb_check_answer zurkeb_within_one_step(zurkeb_format format, zurkeb_number a, zurkeb_number b);

/* The exact result, rounded once in the direction. An exact sum of zero is plus zero, in direction 4 minus zero, unless both numbers have
 * one sign, which zero keeps; a difference is the sum with b negated. A product or quotient has the signs' exclusive or, at zero too.
 * Refuse 1, 2, 3, 5; the quotient 1, 2, 3, 4, 5. */
zurkeb_rounded_answer zurkeb_sum(zurkeb_format format, uint32_t direction, zurkeb_number a, zurkeb_number b);
zurkeb_rounded_answer zurkeb_difference(zurkeb_format format, uint32_t direction, zurkeb_number a, zurkeb_number b);
zurkeb_rounded_answer zurkeb_product(zurkeb_format format, uint32_t direction, zurkeb_number a, zurkeb_number b);
/* Also how many quotient digits were worked out. Both significands are brought to all digits of the format and divided; the first digit is
 * the whole-number part, perhaps 0. Digits are taken until the format's digits stand (a 0 before the first other digit is none of them),
 * or the digit at place emin is taken, or nothing remains; none where a is zero or the first digit's place lies below emin. */
zurkeb_quotient_answer zurkeb_quotient(zurkeb_format format, uint32_t direction, zurkeb_number a, zurkeb_number b);
/* numerator / denominator, two whole numbers, rounded once in the direction, with the sign of the numerator. Refuses 1, 2, 4, 5. */
zurkeb_rounded_answer zurkeb_fraction(zurkeb_format format, uint32_t direction, int32_t numerator, uint32_t denominator);
/* Any record as a number of the format: its value, rounded once in the direction. x need not be in the format: any significand and any
 * exponent are taken, far exponents too, and zero keeps its sign. In decimal with 7 digits {1, 0, 0} is no number of the format and becomes
 * {1000000, -6, 0}, exact. A number of the format comes out as it is. Refuses 1, 2, 3 (only a sign that is neither 0 nor 1), 5. */
zurkeb_rounded_answer zurkeb_convert(zurkeb_format format, uint32_t direction, zurkeb_number x);

/* Rump's routes by the operations alone: the first place by figure 1, the last place by figures 3, 4 and 5. Where the premise
 * holds they answer what zurkeb_ufp and zurkeb_ulp answer. The premise of all: emin <= -digits and digits <= emax (so never in binary16); of
 * the first |x| < base^(emax - digits + 1), of the others that x is neither zero nor plus or minus the greatest number. Refuse 1, 3, 8. */
zurkeb_number_answer zurkeb_ufp_toward_zero(zurkeb_format format, zurkeb_number x);
zurkeb_number_answer zurkeb_ulp_upward(zurkeb_format format, zurkeb_number x);
zurkeb_number_answer zurkeb_ulp_toward_zero(zurkeb_format format, zurkeb_number x);
zurkeb_number_answer zurkeb_ulp_toward_zero_unbranched(zurkeb_format format, zurkeb_number x);
/* With the successor, in any direction: the first place by figure 6 (y = |x| base^(p - 1), the successor of y less y), the last place by
 * figure 3 (the successor of |x| less |x|). Where the premise holds they answer what zurkeb_ufp and zurkeb_ulp answer. The premise of
 * both: x is not zero. Of the last place: |x| is not the greatest number. Of the first place: emin <= p - 1 and 0 <= emax, so that
 * base^(p - 1) is a number of the format, and |x| base^(p - 1) is less than the greatest number. Refuse 1, 2, 3, 8. */
zurkeb_number_answer zurkeb_ufp_by_successor(zurkeb_format format, uint32_t direction, zurkeb_number x);
zurkeb_number_answer zurkeb_ulp_by_successor(zurkeb_format format, uint32_t direction, zurkeb_number x);

/* FastTwoSum: x from a + b, z from x - a, y from b - z, each in its own direction. Refuses 1, 2, 3, 6, 7, 5. */
zurkeb_triple_answer zurkeb_fast_two_sum(zurkeb_format format, uint32_t first, uint32_t second, uint32_t third, zurkeb_number a,
                                         zurkeb_number b);
/* Are x, z and y faithful to a + b, x - a and b - z? Refuses 1, 3, 6, 7. */
zurkeb_check_answer zurkeb_is_fast_two_sum(zurkeb_format format, zurkeb_number a, zurkeb_number b, zurkeb_number x, zurkeb_number z,
                                           zurkeb_number y);

/* The number of a binary32 pattern, in published format 2. Refuses 9. */
zurkeb_number_answer zurkeb_read_pattern(uint32_t pattern);
/* The number of a decimal32 pattern in the densely packed form of IEEE 754, clause 3.5, in published format 3. All 1,024 ten-bit groups
 * are read. Refuses 9. */
zurkeb_number_answer zurkeb_read_decimal32(uint32_t pattern);
/* The number of a binary64 pattern, in published format 4. Refuses 9. */
zurkeb_number_answer zurkeb_read_binary64(uint64_t pattern);
/* The pattern of a number of published format 4. Refuses 3. */
zurkeb_pattern64_answer zurkeb_write_binary64(zurkeb_number x);
/* The next six calls answer a 64-bit number: the refusal (0 for none) in the upper half, the pattern in the lower, 0 at a refusal.
 * zurkeb_refusal_of and zurkeb_pattern_of take it apart. */
/* The pattern of a number of published format 2. Refuses 3. */
uint64_t zurkeb_write_pattern(zurkeb_number x);
/* The pattern of a number of published format 3, by its own m and e. Refuses 3. */
uint64_t zurkeb_write_decimal32(zurkeb_number x);
/* Sum, difference, product and quotient of binary32 patterns; the direction comes last. Refuse 2, 9, 5; the quotient 2, 9, 4, 5. */
uint64_t zurkeb_pattern_sum(uint32_t a, uint32_t b, uint32_t direction);
uint64_t zurkeb_pattern_difference(uint32_t a, uint32_t b, uint32_t direction);
uint64_t zurkeb_pattern_product(uint32_t a, uint32_t b, uint32_t direction);
uint64_t zurkeb_pattern_quotient(uint32_t a, uint32_t b, uint32_t direction);
/* a + b entry by entry into out, each slice a pointer and a length. Refuses 11, 2, and 9 and 5 with the index of the first refused
 * entry; a refused call leaves out as it was. out must not overlap a or b. */
zurkeb_slices_answer zurkeb_sum_slices(const uint32_t *a, size_t a_length, const uint32_t *b, size_t b_length, uint32_t *out,
                                       size_t out_length, uint32_t direction);
/* Which of two logs of binary32 patterns is calmer in the stretch of `length` entries from `start` on: the one with the smaller exact
 * difference between its greatest and its least value there, the first if equal. Patterns outside the stretch have no influence.
 * Refuses 11 for unequal logs; 17 where the length is zero or the stretch runs past the end; 9 within the stretch with its index, the
 * first log before the second. */
zurkeb_stretch_answer zurkeb_calmer_stretch(const uint32_t *first, size_t first_length, const uint32_t *second, size_t second_length,
                                            size_t start, size_t length);

/* Saved lines: offsets are binary32 patterns, rising strictly by value (plus and minus zero are equal), at most 4,096. Distances are
 * exact. */
/* The position of the offset nearest to the query; at equal distance the smaller offset. Refuses 12, 9 (in the list with its
 * index, the first; then the query without one), 13, 15. */
zurkeb_position_answer zurkeb_nearest_line(const uint32_t *offsets, size_t length, uint32_t query);
/* The positions of all offsets at most the distance away from the query, edge included, in out from its first entry on, the
 * nearest first and at equal distance the smaller offset first, and how many; a distance below zero finds none. Refuses 12, 9 (in
 * the list with its index; then the query, then the distance), 13, 15, and 14 where out is shorter than the number found. Entries
 * past the last one found are unchanged, and a refused call leaves out as it was; lend as many entries as there are offsets, and 14 cannot
 * come. out must not overlap offsets. */
zurkeb_reach_answer zurkeb_lines_within(const uint32_t *offsets, size_t length, uint32_t query, uint32_t distance, uint32_t *out,
                                          size_t out_length);
/* zurkeb_nearest_line for each of a row of queries, which ascend by value, equal ones allowed: the positions in out, and how many lines
 * were looked at, at most the saved lines and twice the queries. After each query the search goes on from the line just found. Refuses
 * 11 (unequal query and answer lengths, or more than 4,096 queries), then the list by 12, 9 (with its index), 13, 15, then the queries
 * by 9 (with its index), 16 where they descend. Whose index stands beside 9 is told by the list alone: it is of the list
 * where index < length and offsets[index] is an infinity or NaN, else of the queries. A refused call leaves out as it was. out must not
 * overlap offsets or queries. */
zurkeb_row_answer zurkeb_nearest_lines(const uint32_t *offsets, size_t length, const uint32_t *queries, size_t query_length,
                                           uint32_t *out, size_t out_length);

/* The strips of a boundary, 1 to 4,096 binary32 patterns, summed from the first on, each step a three-step sum with the larger
 * magnitude first. Answers the last x (a lone strip as it is) and writes each y into rests, which is one entry shorter. Refuses 18,
 * 11, 2, and 9 and 5 with the index of the first strip that is not finite, or of the strip that made the sum too large; a refused
 * call leaves rests as it was. rests must not overlap strips. */
zurkeb_boundary_answer zurkeb_boundary_sum(const uint32_t *strips, size_t length, uint32_t *rests, size_t rests_length,
                                          uint32_t direction);

/* ---- conveniences, in plain C */
/* The published formats by name; zurkeb_published has them by number. */
static const zurkeb_format ZURKEB_BINARY16 = {2, 11, -24, 5};
static const zurkeb_format ZURKEB_BINARY32 = {2, 24, -149, 104};
static const zurkeb_format ZURKEB_DECIMAL32 = {10, 7, -101, 90};
static const zurkeb_format ZURKEB_BINARY64 = {2, 53, -1074, 971};
static const zurkeb_format ZURKEB_DECIMAL64 = {10, 16, -398, 369};

/* The two halves of a 64-bit pattern answer. */
static inline uint32_t zurkeb_refusal_of(uint64_t answer) { return (uint32_t)(answer >> 32); }
static inline uint32_t zurkeb_pattern_of(uint64_t answer) { return (uint32_t)answer; }

/* A short English text for a refusal, "no refusal" for 0 and "no such refusal" for any other number. */
static inline const char *zurkeb_refusal_text(uint32_t refusal) {
    static const char *const texts[19] = {
        "no refusal",
        "the format is not admitted",
        "a direction is not 0 to 4",
        "a number is not in the format",
        "the divisor or denominator is zero",
        "the result is too large, or no neighbour exists",
        "the three-step sum needs base 2 and at least 2 digits",
        "the first summand is smaller than the second",
        "the premise of the route does not hold",
        "a pattern is an infinity or NaN",
        "no published format has that number",
        "the slices do not fit each other, or more than 4096 queries",
        "the list is empty or longer than 4096",
        "the list descends",
        "the lent slice is too short for what was found",
        "the list has two equal neighbours",
        "the queries descend",
        "the stretch is empty or runs past the end",
        "no strips, or more than 4096",
    };
    return refusal < 19 ? texts[refusal] : "no such refusal";
}

#ifdef __cplusplus
}
#endif
#endif
