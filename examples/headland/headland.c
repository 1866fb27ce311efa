/* At the headland: saved lines near the tractor. Reads lines with a word and numbers:
 *     offsets 0 3 6      the saved lines from now on
 *     nearest 1.4        the line nearest to an offset
 *     within 3 3         all lines within a distance of an offset, the nearest first
 *     row 1 2 4          the nearest line for each of a row of offsets
 * and prints the answer, or the refusal in words. Numbers are binary32. */
#include <stdio.h>
#include <stdlib.h>
#include <string.h>

#include "zurkeb.h"

enum { MOST = 64, WIDTH = 1024 };

static uint32_t offsets[MOST], numbers[MOST], positions[MOST];
static size_t offset_count;

static uint32_t pattern_of(float x) {
    uint32_t n;
    memcpy(&n, &x, sizeof n);
    return n;
}

static float of_pattern(uint32_t n) {
    float x;
    memcpy(&x, &n, sizeof x);
    return x;
}

/* Why a call was refused, and at which entry where the refusal has an index. */
static void refuse(uint32_t refusal, uint32_t indexed, uint32_t index) {
    printf("refused: %s", zurkeb_refusal_text(refusal));
    if (indexed)
        printf(" (entry %u)", (unsigned)index);
    putchar('\n');
}

static void print_line(uint32_t position) { printf(" %g", of_pattern(offsets[position])); }

static void nearest(void) {
    zurkeb_position_answer r = zurkeb_nearest_line(offsets, offset_count, numbers[0]);
    if (r.refusal != ZURKEB_NONE) {
        refuse(r.refusal, r.indexed, r.index);
        return;
    }
    printf("nearest:");
    print_line(r.position);
    putchar('\n');
}

/* As many entries are lent as there are offsets, so 14 cannot come. */
static void within(void) {
    zurkeb_reach_answer r = zurkeb_lines_within(offsets, offset_count, numbers[0], numbers[1], positions, offset_count);
    if (r.refusal != ZURKEB_NONE) {
        refuse(r.refusal, r.indexed, r.index);
        return;
    }
    printf("%u within:", (unsigned)r.found);
    for (uint32_t i = 0; i < r.found; i++)
        print_line(positions[i]);
    putchar('\n');
}

static void row(size_t count) {
    zurkeb_row_answer r = zurkeb_nearest_lines(offsets, offset_count, numbers, count, positions, count);
    if (r.refusal != ZURKEB_NONE) {
        refuse(r.refusal, r.indexed, r.index);
        return;
    }
    printf("nearest:");
    for (size_t i = 0; i < count; i++)
        print_line(positions[i]);
    printf(", %u lines looked at\n", (unsigned)r.looked);
}

/* The numbers of the rest of a line; MOST + 1 where something is no number, or there are too many. */
static size_t read_numbers(void) {
    size_t count = 0;
    for (char *word = strtok(NULL, " \n"); word != NULL; word = strtok(NULL, " \n")) {
        char *end;
        float x = strtof(word, &end);
        if (*end != '\0' || count == MOST)
            return MOST + 1;
        numbers[count++] = pattern_of(x);
    }
    return count;
}

static void answer(char *text) {
    printf("%s", text);
    const char *word = strtok(text, " \n");
    size_t count = word == NULL ? MOST + 1 : read_numbers();
    if (count > MOST) {
        puts("bad line");
    } else if (strcmp(word, "offsets") == 0) {
        memcpy(offsets, numbers, count * sizeof *offsets);
        offset_count = count;
    } else if (strcmp(word, "nearest") == 0 && count == 1) {
        nearest();
    } else if (strcmp(word, "within") == 0 && count == 2) {
        within();
    } else if (strcmp(word, "row") == 0) {
        row(count);
    } else {
        puts("bad line");
    }
}

int main(void) {
    char text[WIDTH];
    while (fgets(text, WIDTH, stdin) != NULL)
        answer(text);
    return 0;
}
