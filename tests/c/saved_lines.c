/* Saved lines against plain searches on exact values: a pattern is a whole number of 2^-149 units in an array of words, and every
 * distance is the difference of two such numbers. */
#include <string.h>

#include "compare.h"
#include "exact.h"
#include "zurkeb.h"

enum { MOST = 4096 };

/* -1, 0 or 1: the order of two values. */
static int by_values(uint32_t a, uint32_t b) { return exact_compare(exact_value(a), exact_value(b)); }

static exact distance(uint32_t offset, uint32_t query) {
    exact apart = exact_difference(exact_value(offset), exact_value(query));
    return exact_sign(apart) < 0 ? exact_negated(apart) : apart;
}

/* ---- what the requests say */
/* What a call answers: a refusal, perhaps with an index, or a number. */
typedef struct answer {
    uint32_t refusal, number, indexed, index;
} answer;

/* The checks in their order: 12, 9 in the list, 9 beside it, 13, 15. */
static answer checked(const uint32_t *list, size_t length, bool beside_finite) {
    answer r = {0, 0, 0, 0};
    if (length == 0 || length > MOST) {
        r.refusal = 12;
        return r;
    }
    for (size_t i = 0; i < length; i++)
        if (!is_finite_pattern(list[i]))
            return (answer){9, 0, 1, (uint32_t)i};
    if (!beside_finite) {
        r.refusal = 9;
        return r;
    }
    for (size_t i = 0; i + 1 < length; i++)
        if (by_values(list[i], list[i + 1]) > 0)
            r.refusal = 13;
    for (size_t i = 0; i + 1 < length && r.refusal == 0; i++)
        if (by_values(list[i], list[i + 1]) == 0)
            r.refusal = 15;
    return r;
}

/* Is the line at i nearer than that at best, or as near and of a smaller offset? */
static bool better(const uint32_t *list, uint32_t query, size_t i, size_t best) {
    int by_distance = exact_compare(distance(list[i], query), distance(list[best], query));
    return by_distance < 0 || (by_distance == 0 && by_values(list[i], list[best]) < 0);
}

static answer nearest(const uint32_t *list, size_t length, uint32_t query) {
    answer r = checked(list, length, is_finite_pattern(query));
    if (r.refusal != 0)
        return r;
    size_t best = 0;
    for (size_t i = 1; i < length; i++)
        if (better(list, query, i, best))
            best = i;
    r.number = (uint32_t)best;
    return r;
}

/* Is the offset at most the reach away from the query? */
static bool within(uint32_t offset, uint32_t query, uint32_t reach) {
    return exact_compare(distance(offset, query), exact_value(reach)) <= 0;
}

/* How many lines are within reach, and which. */
static answer reached(const uint32_t *list, size_t length, uint32_t query, uint32_t reach, size_t room, bool *found) {
    answer r = checked(list, length, is_finite_pattern(query) && is_finite_pattern(reach));
    if (r.refusal != 0)
        return r;
    for (size_t i = 0; i < length; i++) {
        found[i] = within(list[i], query, reach);
        r.number += found[i];
    }
    if (r.number > room)
        return (answer){14, 0, 0, 0};
    return r;
}

/* A row: 11, the list, 9 and 16 of the queries; then each query's line, and the lines looked at: the line it starts from, then each
 * next line up to and including the first that is not closer, or to the end. */
static answer row(const uint32_t *list, size_t length, const uint32_t *queries, size_t count, size_t room, uint32_t *positions) {
    if (count != room || count > MOST)
        return (answer){11, 0, 0, 0};
    answer r = checked(list, length, true);
    if (r.refusal != 0)
        return r;
    for (size_t i = 0; i < count; i++)
        if (!is_finite_pattern(queries[i]))
            return (answer){9, 0, 1, (uint32_t)i};
    for (size_t i = 0; i + 1 < count; i++)
        if (by_values(queries[i], queries[i + 1]) > 0)
            return (answer){16, 0, 0, 0};
    size_t at = 0;
    for (size_t i = 0; i < count; i++) {
        bool closer = true;
        r.number++;
        for (size_t k = at + 1; k < length && closer; k++) {
            closer = exact_compare(distance(list[k], queries[i]), distance(list[k - 1], queries[i])) < 0;
            r.number++;
        }
        positions[i] = (uint32_t)(at = nearest(list, length, queries[i]).number);
    }
    return r;
}

/* ---- what was met */
/* How often each refusal was due, at 0 how often none was, and how many calls were answered on a list of the greatest length. */
static uint64_t met[ZURKEB_STRIP_COUNT + 1], full_lists;

static void note(answer wanted, size_t length) {
    met[wanted.refusal]++;
    full_lists += wanted.refusal == 0 && length == MOST;
}

static int all_were_met(void) {
    static const uint32_t refusals[] = {12, 9, 13, 15, 14, 11, 16};
    for (size_t i = 0; i < sizeof refusals / sizeof *refusals; i++) {
        printf("%" PRIu64 " refused by %" PRIu32 ", ", met[refusals[i]], refusals[i]);
        same("was never met", met[refusals[i]] == 0, 0);
    }
    printf("%" PRIu64 " answered on %d lines; ", full_lists, MOST);
    same("no list of the greatest length was answered", full_lists == 0, 0);
    return no_difference();
}

/* ---- comparisons */
static void compare_nearest(const uint32_t *list, size_t length, uint32_t query) {
    answer wanted = nearest(list, length, query);
    note(wanted, length);
    zurkeb_position_answer ours = zurkeb_nearest_line(list, length, query);
    same("nearest_line refusal", ours.refusal, wanted.refusal);
    same("nearest_line position", ours.position, wanted.number);
    same("nearest_line indexed", ours.indexed, wanted.indexed);
    same("nearest_line index", ours.index, wanted.index);
}

/* What out holds before a call and after it. */
static uint32_t before[MOST], out[MOST];

/* Two positions by exact distance from the query, and at equal distance by offset. */
static const uint32_t *sorted_list;
static uint32_t sorted_query;

static int by_nearness(const void *a, const void *b) {
    uint32_t i = *(const uint32_t *)a, j = *(const uint32_t *)b;
    return better(sorted_list, sorted_query, i, j) ? -1 : better(sorted_list, sorted_query, j, i);
}

static void compare_written(const uint32_t *list, size_t length, uint32_t query, const bool *found, uint32_t number) {
    static uint32_t wanted[MOST];
    uint32_t count = 0;
    for (size_t i = 0; i < length && number > 0; i++)
        if (found[i])
            wanted[count++] = (uint32_t)i;
    sorted_list = list;
    sorted_query = query;
    qsort(wanted, count, sizeof *wanted, by_nearness);
    for (uint32_t k = 0; k < number; k++)
        same("lines_within position", out[k], wanted[k]);
}

static void compare_within(const uint32_t *list, size_t length, uint32_t query, uint32_t reach, size_t room) {
    static bool found[MOST];
    answer wanted = reached(list, length, query, reach, room, found);
    note(wanted, length);
    for (size_t i = 0; i < MOST; i++)
        out[i] = before[i] = random32();
    zurkeb_reach_answer ours = zurkeb_lines_within(list, length, query, reach, out, room);
    same("lines_within refusal", ours.refusal, wanted.refusal);
    same("lines_within found", ours.found, wanted.number);
    same("lines_within indexed", ours.indexed, wanted.indexed);
    same("lines_within index", ours.index, wanted.index);
    compare_written(list, length, query, found, wanted.number);
    same("lines_within leaves the rest", memcmp(out + wanted.number, before + wanted.number, (MOST - wanted.number) * sizeof *out), 0);
}

static void compare_row(const uint32_t *list, size_t length, const uint32_t *queries, size_t count, size_t room) {
    static uint32_t positions[MOST + 1];
    answer wanted = row(list, length, queries, count, room, positions);
    note(wanted, length);
    for (size_t i = 0; i < MOST; i++)
        out[i] = before[i] = random32();
    zurkeb_row_answer ours = zurkeb_nearest_lines(list, length, queries, count, out, room);
    same("nearest_lines refusal", ours.refusal, wanted.refusal);
    same("nearest_lines looked", ours.looked, wanted.number);
    same("nearest_lines indexed", ours.indexed, wanted.indexed);
    same("nearest_lines index", ours.index, wanted.index);
    if (wanted.refusal == 0)
        same("nearest_lines at most", ours.looked <= length + 2 * count, 1);
    size_t written = wanted.refusal == 0 ? count : 0;
    same("nearest_lines positions", memcmp(out, positions, written * sizeof *out), 0);
    same("nearest_lines leaves the rest", memcmp(out + written, before + written, (MOST - written) * sizeof *out), 0);
}

/* ---- patterns and lists */
static const uint32_t special[] = {0,          0x80000000, 1,          0x80000001, 2,          0x80000002, 0x007fffff, 0x00800000,
                                   0x00800001, 0x807fffff, 0x80800000, 0x7f7fffff, 0xff7fffff, 0x7f7ffffe, 0xff7ffffe, 0x3f800000,
                                   0xbf800000, 0x4b800000, 0x4c000000, 0x4b7fffff, 0x3f800001, 0x3f7fffff};
static const uint32_t not_finite[] = {0x7f800000, 0xff800000, 0x7fc00000, 0xffc00001, 0x7f800001};

#define COUNT(array) (sizeof(array) / sizeof *(array))

/* A finite pattern: any, a special one, a small whole number, a subnormal one, or one near another. */
static uint32_t some_pattern(uint32_t near) {
    uint32_t pattern;
    switch (random32() % 6) {
    case 0:
        do
            pattern = random32();
        while (!is_finite_pattern(pattern));
        return pattern;
    case 1:
        return special[random32() % COUNT(special)];
    case 2: {
        float whole_number = (float)((int)(random32() % 33) - 16);
        memcpy(&pattern, &whole_number, sizeof pattern);
        return pattern;
    }
    case 3:
        return (random32() & 0x80000000) | random32() % 64;
    case 4:
        return (random32() & 0x80000000) | (0x7f7fffff - random32() % 8);
    default:
        pattern = near + random32() % 9 - 4;
        return is_finite_pattern(pattern) ? pattern : near;
    }
}

static int by_value(const void *a, const void *b) { return by_values(*(const uint32_t *)a, *(const uint32_t *)b); }

/* A list that rises strictly, of at most this length. Answers its length. */
static size_t fill(uint32_t *list, size_t most) {
    size_t length = 0;
    for (size_t i = 0; i < most; i++)
        list[i] = some_pattern(i == 0 ? 0 : list[i - 1]);
    qsort(list, most, sizeof *list, by_value);
    for (size_t i = 0; i < most; i++)
        if (length == 0 || by_values(list[length - 1], list[i]) != 0)
            list[length++] = list[i];
    return length;
}

static uint32_t some_query(const uint32_t *list, size_t length) {
    return some_pattern(length == 0 ? 0 : list[random32() % length]);
}

/* Some lists are spoiled: a pattern that is not finite, a line saved twice, two lines exchanged, or a query that is not finite. */
static void spoil(uint32_t *list, size_t length, uint32_t *query) {
    if (random32() % 8 == 0 && length > 0)
        list[random32() % length] = not_finite[random32() % COUNT(not_finite)];
    if (random32() % 4 == 0 && length > 1) {
        size_t i = 1 + random32() % (length - 1);
        list[i] = list[i - 1] << 1 == 0 ? list[i - 1] ^ 0x80000000 : list[i - 1];
    }
    if (random32() % 8 == 0 && length > 0) {
        size_t i = random32() % length, j = random32() % length;
        uint32_t kept = list[i];
        list[i] = list[j];
        list[j] = kept;
    }
    if (random32() % 16 == 0)
        *query = not_finite[random32() % COUNT(not_finite)];
}

static uint32_t list[MOST + 1];

/* A reach: one of the patterns, or the rounded distance between a line and the query, so that edges and numbers beside them occur. */
static uint32_t some_reach(size_t length, uint32_t query) {
    if (length == 0 || random32() % 3 == 0)
        return random32() % 16 == 0 ? not_finite[random32() % COUNT(not_finite)] : some_pattern(query);
    float a, b, apart;
    uint32_t pattern;
    memcpy(&a, &list[random32() % length], sizeof a);
    memcpy(&b, &query, sizeof b);
    apart = a < b ? b - a : a - b;
    memcpy(&pattern, &apart, sizeof pattern);
    return pattern + random32() % 3 - 1;
}

static void compare_all(size_t length, uint32_t query) {
    compare_nearest(list, length, query);
    size_t room = random32() % 3 == 0 ? random32() % (length + 1) : MOST;
    uint32_t reach = some_reach(length, query);
    compare_within(list, length, query, reach, room);
    compare_within(list, length, query, reach & 0x7fffffff, room);
    compare_within(list, length, query, random32() & 0x80000000, room);
}

static uint32_t queries[MOST + 1];

/* A row of queries that ascend, now and then spoiled, and now and then of another length than out. */
static void compare_rows(size_t length) {
    size_t count = random32() % 12;
    uint32_t one_query = 0;
    for (size_t i = 0; i < count; i++)
        queries[i] = some_query(list, length);
    qsort(queries, count, sizeof *queries, by_value);
    size_t room = random32() % 16 == 0 ? count + 1 : count;
    compare_row(list, length, queries, count, room);
    spoil(queries, count, &one_query);
    compare_row(list, length, queries, count, room);
}

/* ---- lists of exactly 4,096 lines */
static const uint32_t finite_values = 0xfeffffff, whole_range = 0xfeffffff / MOST;

/* The finite pattern of the nth value from the least on. */
static uint32_t nth_pattern(uint32_t n) {
    return n < 0x7f7fffff ? 0xff7fffff - n : n - 0x7f7fffff;
}

/* A list that rises strictly: a line in each of 4,096 ranges side by side, each of this many values. With whole_range of them the list
 * goes from the least value to the greatest, with some eight lines in each binade; with few it is dense, and half of the time around
 * zero. */
static void fill_ranges(uint32_t values) {
    uint32_t first = random32() % (finite_values - MOST * values + 1);
    if (values < whole_range && random32() % 2 == 0)
        first = 0x7f7fffff - random32() % (MOST * values);
    for (uint32_t i = 0; i < MOST; i++)
        list[i] = nth_pattern(first + i * values + random32() % values);
}

/* The refusals 14, 11, 16 and 12 on a valid list, then 15, 13 and 9, for which two lines of it are changed. */
static void compare_refusals(void) {
    size_t line = random32() % (MOST - 1);
    uint32_t lower = list[line], upper = list[line + 1];
    const uint32_t falling[] = {upper, lower};
    compare_within(list, MOST, lower, 0, 0);
    compare_row(list, MOST, falling, 2, 3);
    compare_row(list, MOST, falling, 2, 2);
    compare_nearest(list, MOST + 1, lower);
    list[line] = upper;
    compare_all(MOST, lower);
    list[line + 1] = lower;
    compare_all(MOST, lower);
    list[line] = not_finite[random32() % COUNT(not_finite)];
    compare_all(MOST, lower);
}

/* A list that is spread over all values, and a dense one. */
static void compare_full_lists(void) {
    for (int dense = 0; dense < 2; dense++) {
        fill_ranges(dense ? 1 + random32() % 16 : whole_range);
        compare_all(MOST, some_query(list, MOST));
        compare_within(list, MOST, 0, 0x7f7fffff, MOST);
        compare_rows(MOST);
        compare_refusals();
    }
}

/* A row of 4,096 queries. */
static void compare_full_row(void) {
    fill_ranges(whole_range);
    for (size_t i = 0; i < MOST; i++)
        queries[i] = some_query(list, MOST);
    qsort(queries, MOST, sizeof *queries, by_value);
    compare_row(list, MOST, queries, MOST, MOST);
}

/* The lines at -1 and 2^25 around 2^24: the rounded differences are equal, the exact ones are not. */
static void compare_rounded(void) {
    const uint32_t around[] = {0xbf800000, 0x4c000000};
    same("a rounded difference decides", zurkeb_nearest_line(around, 2, 0x4b800000).position, 1);
}

/* The order of the refusals where several conditions hold. */
static void compare_orders(void) {
    const uint32_t bad = 0x7f800000, one = 0x3f800000, two = 0x40000000;
    uint32_t spoiled[] = {two, one, bad, bad};
    same("12 before 9", zurkeb_nearest_line(spoiled, 0, bad).refusal, 12);
    same("9 before 13", zurkeb_nearest_line(spoiled, 4, bad).refusal, 9);
    same("9 with the first index", zurkeb_nearest_line(spoiled, 4, bad).index, 2);
    same("9 of the query before 13", zurkeb_nearest_line(spoiled, 2, bad).refusal, 9);
    same("9 of the query has no index", zurkeb_nearest_line(spoiled, 2, bad).indexed, 0);
    same("13", zurkeb_nearest_line(spoiled, 2, one).refusal, 13);
    const uint32_t both[] = {one, one, two, one}, zeros[] = {0x80000000, 0}, last[] = {0, one, two, two};
    same("13 before 15", zurkeb_nearest_line(both, 4, one).refusal, 13);
    same("15", zurkeb_nearest_line(both, 2, one).refusal, 15);
    same("15 for both zeros", zurkeb_nearest_line(zeros, 2, one).refusal, 15);
    same("15 at the end", zurkeb_nearest_line(last, 4, one).refusal, 15);
    same("9 before 15", zurkeb_nearest_line(zeros, 2, bad).refusal, 9);
    same("one line", zurkeb_nearest_line(zeros, 1, one).refusal, 0);
    same("15 before 14", zurkeb_lines_within(zeros, 2, one, two, &list[0], 0).refusal, 15);
    for (size_t i = 0; i < MOST + 1; i++)
        list[i] = bad;
    same("12 for 4,097 lines", zurkeb_nearest_line(list, MOST + 1, bad).refusal, 12);
    same("9 for 4,096 lines", zurkeb_nearest_line(list, MOST, bad).refusal, 9);
}

/* The edge is within reach, one unit less is not, and the room may be just long enough. */
static void compare_edges(void) {
    const uint32_t lines[] = {0xbf800000, 0x3f800000, 0x40000000, 0x40400000};
    compare_within(lines, 4, 0x40000000, 0x3f800000, 3);
    compare_within(lines, 4, 0x40000000, 0x3f7fffff, 1);
    compare_within(lines, 4, 0x40000000, 0x7f7fffff, 4);
    compare_within(lines, 4, 0x40000000, 0x7f7fffff, 3);
    compare_within(lines, 4, 0x40000000, 0xbf800000, 0);
    compare_within(lines, 4, 0x40000000, 0x80000000, 1);
    same("the edge is included", zurkeb_lines_within(lines, 4, 0x40000000, 0x3f800000, out, 3).found, 3);
    same("below zero finds none", zurkeb_lines_within(lines, 4, 0x40000000, 0xbf800000, out, 0).refusal, 0);
    same("14", zurkeb_lines_within(lines, 4, 0x40000000, 0x3f800000, out, 2).refusal, 14);
    same("9 of the distance before 14", zurkeb_lines_within(lines, 4, 0x40000000, 0x7f800000, out, 0).refusal, 9);
}

/* The order of a row's refusals, and its count. */
static void compare_row_orders(void) {
    const uint32_t bad = 0x7f800000, one = 0x3f800000, two = 0x40000000, three = 0x40400000, four = 0x40800000;
    const uint32_t lines[] = {one, two, four}, asked[] = {one, three, three, four}, spoiled[] = {two, one, bad, two}, falling[] = {two, one};
    compare_row(lines, 3, asked, 4, 4);
    same("lines looked at", zurkeb_nearest_lines(lines, 3, asked, 4, out, 4).looked, 9);
    same("11 before 12", zurkeb_nearest_lines(lines, 0, asked, 4, out, 3).refusal, 11);
    same("12 before 9", zurkeb_nearest_lines(lines, 0, spoiled, 4, out, 4).refusal, 12);
    same("13 of the list before 9 of the queries", zurkeb_nearest_lines(falling, 2, spoiled, 4, out, 4).refusal, 13);
    same("9 before 16", zurkeb_nearest_lines(lines, 3, spoiled, 4, out, 4).refusal, 9);
    same("with its index", zurkeb_nearest_lines(lines, 3, spoiled, 4, out, 4).index, 2);
    same("16", zurkeb_nearest_lines(lines, 3, falling, 2, out, 2).refusal, 16);
    same("no query, and a list that is checked", zurkeb_nearest_lines(falling, 2, asked, 0, out, 0).refusal, 13);
    same("no query", zurkeb_nearest_lines(lines, 3, asked, 0, out, 0).looked, 0);
    for (size_t i = 0; i < MOST + 1; i++)
        queries[i] = two;
    same("11 for 4,097 queries", zurkeb_nearest_lines(lines, 3, queries, MOST + 1, list, MOST + 1).refusal, 11);
    same("4,096 equal queries", zurkeb_nearest_lines(lines, 3, queries, MOST, out, MOST).refusal, 0);
}

int main(int count, char **arguments) {
    uint64_t rounds = rounds_of(count, arguments, 20000);
    compare_rounded();
    compare_orders();
    compare_edges();
    compare_row_orders();
    compare_full_lists();
    compare_full_row();
    for (uint64_t round = 0; round < rounds; round++) {
        if (round % 500 == 499)
            compare_full_lists();
        size_t length = fill(list, random32() % 24);
        uint32_t query = some_query(list, length);
        compare_all(length, query);
        compare_rows(length);
        spoil(list, length, &query);
        compare_all(length, query);
        compare_rows(length);
    }
    return all_were_met();
}
