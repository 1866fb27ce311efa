#include "lines.h"

#include <inttypes.h>
#include <stdio.h>

#include "timing.h"
#include "zurkeb.h"

enum { LINES = 4096, QUERIES = 64 };

/* A list that rises, the same list with its last line but one twice, which the last check refuses, and queries between the lines. */
static uint32_t rising[LINES], repeating[LINES], queries[QUERIES];

static uint64_t random_state = 88172645463325252u;
static uint32_t random_word(void) {
    random_state ^= random_state << 13;
    random_state ^= random_state >> 7;
    random_state ^= random_state << 17;
    return (uint32_t)(random_state >> 16);
}

/* Lines a little apart, from 1 on. */
static void draw_lines(void) {
    uint32_t pattern = 0x3f800000;
    for (int i = 0; i < LINES; i++) {
        pattern += 1 + random_word() % 4096;
        rising[i] = repeating[i] = pattern;
    }
    repeating[LINES - 1] = rising[LINES - 2];
    for (int i = 0; i < QUERIES; i++)
        queries[i] = rising[random_word() % LINES] + random_word() % 2048;
}

typedef struct list {
    const uint32_t *offsets;
    size_t length;
} list;

static uint64_t nearest_pass(const void *what) {
    const list *l = what;
    uint64_t used = 0;
    for (int i = 0; i < QUERIES; i++) {
        zurkeb_position_answer r = zurkeb_nearest_line(l->offsets, l->length, queries[i]);
        used ^= (uint64_t)r.refusal << 32 ^ r.position;
    }
    return used;
}

/* The reach of the calls, and what they write. */
static uint32_t reach, out[LINES];

static uint64_t within_pass(const void *what) {
    const list *l = what;
    uint64_t used = 0;
    for (int i = 0; i < QUERIES; i++) {
        zurkeb_reach_answer r = zurkeb_lines_within(l->offsets, l->length, queries[i], reach, out, LINES);
        used += (uint64_t)r.refusal << 32 ^ r.found;
    }
    return used;
}

/* How many lines are within a reach, on the average, and the time of a call. */
static void time_reach(uint32_t pattern) {
    const list full = {rising, LINES};
    reach = pattern;
    double found = (double)within_pass(&full) / QUERIES;
    const work works[] = {{within_pass, &full}};
    timed t[1];
    time_works(works, t, 1, QUERIES);
    printf("| lines_within, %.0f found | %.1f | %.1f |\n", found, t[0].best, t[0].median);
}

/* A query for each line. */
static uint32_t row[LINES];

static uint64_t row_pass(const void *what) {
    const list *l = what;
    zurkeb_row_answer r = zurkeb_nearest_lines(l->offsets, l->length, row, LINES, out, LINES);
    return (uint64_t)r.refusal << 32 ^ r.looked;
}

static void time_row(void) {
    const list full = {rising, LINES};
    for (int i = 0; i < LINES; i++)
        row[i] = rising[i] + random_word() % 2 * (random_word() % 512);
    for (int i = 1; i < LINES; i++)
        row[i] = row[i] < row[i - 1] ? row[i - 1] : row[i];
    const work works[] = {{row_pass, &full}};
    timed t[1];
    time_works(works, t, 1, 1);
    printf("| nearest_lines, 4,096 queries, %" PRIu64 " lines looked at | %.1f | %.1f |\n", row_pass(&full), t[0].best, t[0].median);
}

void time_lines(void) {
    draw_lines();
    const list full = {rising, LINES}, two = {rising, 2}, refused = {repeating, LINES};
    const char *const names[] = {"nearest_line, 4,096 lines", "nearest_line, 2 lines", "the checks of 4,096 lines"};
    const work works[] = {{nearest_pass, &full}, {nearest_pass, &two}, {nearest_pass, &refused}};
    enum { count = sizeof works / sizeof *works };
    timed t[count];
    time_works(works, t, count, QUERIES);
    printf("\n| saved lines | ns | median |\n|---|---|---|\n");
    for (int w = 0; w < count; w++)
        printf("| %s | %.1f | %.1f |\n", names[w], t[w].best, t[w].median);
    time_reach(0x3a000000);
    time_reach(0x3d000000);
    time_reach(0x7f000000);
    time_row();
    printf("\nthe checks, a line: %.2f ns\n", t[2].best / LINES);
}
