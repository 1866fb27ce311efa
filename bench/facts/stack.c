/* How much stack the calls of the C library take: each runs in a thread that paints its own stack before the call and looks after it how
 * far down the paint is gone. Prints a line for each call, the deepest last; what a call of nothing takes is taken off. */
#include <pthread.h>
#include <stdio.h>
#include <stdlib.h>

#include "zurkeb.h"

enum { SIZE = 1 << 18, PAINT = 0xa5, LINES = 4096 };

static volatile unsigned char stack[SIZE] __attribute__((aligned(4096)));
static uint32_t offsets[LINES], queries[LINES], out[LINES];
static volatile uint64_t used;

static const zurkeb_format format = {2, 24, -149, 104};
static const zurkeb_number a = {0xffffff, 0, 0}, b = {0x800001, -9, 1};

static void nothing(void) { used ^= 1; }
static void sum(void) { used ^= zurkeb_sum(format, 0, a, b).number.significand; }
static void product(void) { used ^= zurkeb_product(format, 0, a, b).number.significand; }
static void quotient(void) { used ^= zurkeb_quotient(format, 0, a, b).number.significand; }
static void fraction(void) { used ^= zurkeb_fraction(format, 0, 1, 3).number.significand; }
static void convert(void) { used ^= zurkeb_convert(format, 0, a).number.significand; }
static void one_step(void) { used ^= zurkeb_within_one_step(format, a, b).yes; }
static void successor(void) { used ^= zurkeb_successor(format, a).number.significand; }
static void route(void) { used ^= zurkeb_ulp_toward_zero_unbranched(format, a).number.significand; }
static void by_successor(void) { used ^= zurkeb_ufp_by_successor(format, 0, b).number.significand; }
static void three_steps(void) { used ^= zurkeb_fast_two_sum(format, 0, 3, 4, a, b).y.significand; }
static void check(void) { used ^= zurkeb_is_fast_two_sum(format, a, b, a, b, b).yes; }
static void pattern_sum(void) { used ^= zurkeb_pattern_sum(0x3f800001, 0xb3800000, 0); }
static void read_decimal32(void) { used ^= zurkeb_read_decimal32(0x22512345).number.significand; }
static void write_decimal32(void) { used ^= zurkeb_write_decimal32((zurkeb_number){1234567, -3, 0}); }
static void sum_slices(void) { used ^= zurkeb_sum_slices(offsets, LINES, queries, LINES, out, LINES, 0).inexact; }
static void nearest_line(void) { used ^= zurkeb_nearest_line(offsets, LINES, 0x3f800000).position; }
static void lines_within(void) { used ^= zurkeb_lines_within(offsets, LINES, 0x3f800000, 0x40000000, out, LINES).found; }
static void nearest_lines(void) { used ^= zurkeb_nearest_lines(offsets, LINES, queries, LINES, out, LINES).looked; }
static void calmer_stretch(void) { used ^= zurkeb_calmer_stretch(offsets, LINES, queries, LINES, 0, LINES).log; }
static void boundary_sum(void) { used ^= zurkeb_boundary_sum(offsets, LINES, out, LINES - 1, 0).sum; }

typedef struct call {
    const char *name;
    void (*run)(void);
    size_t bytes;
} call;

static call calls[] = {
    {"nothing", nothing, 0},
    {"sum", sum, 0},
    {"product", product, 0},
    {"quotient", quotient, 0},
    {"fraction", fraction, 0},
    {"convert", convert, 0},
    {"within_one_step", one_step, 0},
    {"successor", successor, 0},
    {"ulp_toward_zero_unbranched", route, 0},
    {"ufp_by_successor", by_successor, 0},
    {"fast_two_sum", three_steps, 0},
    {"is_fast_two_sum", check, 0},
    {"pattern_sum", pattern_sum, 0},
    {"read_decimal32", read_decimal32, 0},
    {"write_decimal32", write_decimal32, 0},
    {"sum_slices", sum_slices, 0},
    {"nearest_line", nearest_line, 0},
    {"lines_within", lines_within, 0},
    {"nearest_lines", nearest_lines, 0},
    {"calmer_stretch", calmer_stretch, 0},
    {"boundary_sum", boundary_sum, 0},
};
enum { CALLS = sizeof calls / sizeof *calls };

/* Paints all but the 64 bytes below this frame, in which nothing else is called. */
static void *thread(void *argument) {
    call *c = argument;
    volatile unsigned char here = 0;
    size_t frame = (size_t)((uintptr_t)&here - (uintptr_t)stack), i;
    for (i = 0; i < frame - 64; i++)
        stack[i] = PAINT;
    c->run();
    for (i = 0; i < frame - 64 && stack[i] == PAINT; i++)
        continue;
    c->bytes = frame - i;
    return NULL;
}

static void measure(call *c) {
    pthread_attr_t attributes;
    pthread_t id;
    if (pthread_attr_init(&attributes) != 0 || pthread_attr_setstack(&attributes, (void *)stack, SIZE) != 0 ||
        pthread_create(&id, &attributes, thread, c) != 0 || pthread_join(id, NULL) != 0) {
        fputs("no thread\n", stderr);
        exit(1);
    }
}

static int by_bytes(const void *left, const void *right) {
    const call *x = left, *y = right;
    return x->bytes < y->bytes ? -1 : x->bytes > y->bytes;
}

int main(void) {
    for (uint32_t i = 0; i < LINES; i++)
        offsets[i] = queries[i] = 0x3f000000u + 64 * i;
    for (int i = 0; i < CALLS; i++)
        measure(&calls[i]);
    for (int i = 1; i < CALLS; i++)
        calls[i].bytes -= calls[0].bytes;
    qsort(calls + 1, CALLS - 1, sizeof *calls, by_bytes);
    for (int i = 1; i < CALLS; i++)
        printf("| %s | %zu |\n", calls[i].name, calls[i].bytes);
    return 0;
}
