/* The benchmark: nanoseconds for each call of the C interface, beside MPFR, Intel's decimal library and Berkeley SoftFloat on the same
 * operands, and a comparison of all results. Prints tables in Markdown. */
#include <inttypes.h>
#include <stdbool.h>
#include <stdio.h>

#include "boundaries.h"
#include "fractions.h"
#include "lines.h"
#include "operands.h"
#include "peers.h"
#include "programs.h"
#include "receivers.h"
#include "timing.h"

const our_call our_calls[OPERATIONS] = {zurkeb_sum, zurkeb_difference, zurkeb_product, rounded_quotient};
static const char *const operation_names[OPERATIONS] = {"sum", "difference", "product", "quotient"};

/* A format and its operands, those of all kinds and the simple ones. */
typedef struct setting {
    const char *name;
    zurkeb_format format;
    pair pairs[PAIRS], simple[PAIRS];
} setting;

typedef struct our_work {
    enum operation operation;
    zurkeb_format format;
    const pair *pairs;
} our_work;

static uint64_t used_fields(uint32_t refusal, zurkeb_number x) {
    return (uint64_t)refusal << 40 ^ (uint64_t)x.negative << 39 ^ (uint64_t)(uint32_t)x.exponent << 32 ^ x.significand;
}

static uint64_t used_number(zurkeb_number_answer r) {
    return used_fields(r.refusal, r.number);
}

static uint64_t used_rounded(zurkeb_rounded_answer r) {
    return used_fields(r.refusal, r.number);
}

/* The quotient itself: a copy of its answer would be timed too. */
static uint64_t quotient_pass(const our_work *w) {
    uint64_t used = 0;
    for (int i = 0; i < PAIRS; i++) {
        zurkeb_quotient_answer r = zurkeb_quotient(w->format, ZURKEB_NEAREST_EVEN, w->pairs[i].a, w->pairs[i].b);
        used ^= used_fields(r.refusal, r.number) ^ r.digits;
    }
    return used;
}

static uint64_t operation_pass(const void *what) {
    const our_work *w = what;
    if (w->operation == QUOTIENT)
        return quotient_pass(w);
    our_call call = our_calls[w->operation];
    uint64_t used = 0;
    for (int i = 0; i < PAIRS; i++)
        used ^= used_rounded(call(w->format, ZURKEB_NEAREST_EVEN, w->pairs[i].a, w->pairs[i].b));
    return used;
}

/* A call of one number, and the numbers that it is given. */
typedef zurkeb_number_answer (*number_call)(zurkeb_format, zurkeb_number);

typedef struct number_work {
    number_call call;
    const setting *in;
} number_work;

static uint64_t number_pass(const void *what) {
    const number_work *w = what;
    uint64_t used = 0;
    for (int i = 0; i < PAIRS; i++)
        used ^= used_number(w->call(w->in->format, w->in->pairs[i].a));
    return used;
}

/* What the entry checks of a call with one number cost. */
static uint64_t check_number_pass(const void *what) {
    const setting *in = what;
    uint64_t used = 0;
    for (int i = 0; i < PAIRS; i++)
        used += zurkeb_check_number(in->format, in->pairs[i].a);
    return used;
}

/* Our results against the peer's in every direction that it has; refusals apart. */
static void compare_with(const peer *p, const setting *in) {
    unsigned compared = 0, refused = 0, different = 0;
    for (int operation = 0; operation < OPERATIONS; operation++) {
        for (uint32_t d = 0; d < 5; d++) {
            for (int i = 0; i < PAIRS && p->has_direction(d); i++) {
                zurkeb_rounded_answer r = our_calls[operation](in->format, d, in->pairs[i].a, in->pairs[i].b);
                refused += r.refusal != 0;
                compared += r.refusal == 0;
                different += r.refusal == 0 && !p->agrees((enum operation)operation, d, i, r.number);
            }
        }
    }
    printf("\n%s against %s: %u results compared, %u differ; %u refused\n", in->name, p->name, compared, different, refused);
}

/* Times all operations of one set of operands on both sides in turn. */
static void time_peer(const peer *p, zurkeb_format format, const pair pairs[PAIRS], timed t[OPERATIONS][2]) {
    p->prepare(format, pairs);
    for (int operation = 0; operation < OPERATIONS; operation++) {
        our_work ours = {(enum operation)operation, format, pairs};
        work works[2] = {{operation_pass, &ours}, p->work_of(ours.operation)};
        time_works(works, t[operation], 2, PAIRS);
    }
}

/* A table of both sets of operands: ours, the peer's, the ratio. */
static void print_ratios(const char *name, const char *peer_name, timed mixed[OPERATIONS][2], timed simple[OPERATIONS][2]) {
    printf("\n| %s | ns | %s ns | ratio | simple: ns | %s ns | ratio |\n|---|---|---|---|---|---|---|\n", name, peer_name, peer_name);
    for (int operation = 0; operation < OPERATIONS; operation++) {
        const timed *m = mixed[operation], *s = simple[operation];
        printf("| %s | %.1f | %.1f | %.2f | %.1f | %.1f | %.2f |\n", operation_names[operation], m[0].best, m[1].best,
               m[0].best / m[1].best, s[0].best, s[1].best, s[0].best / s[1].best);
    }
}

static void against_peer(const peer *p, const setting *in) {
    if (!p->installed) {
        printf("\n%s is not installed (Debian %s): left out\n", p->name, p->package);
        return;
    }
    timed mixed[OPERATIONS][2], simple[OPERATIONS][2];
    time_peer(p, in->format, in->simple, simple);
    time_peer(p, in->format, in->pairs, mixed);
    print_ratios(in->name, p->name, mixed, simple);
    compare_with(p, in);
}

static void all_formats(const setting *settings, int count) {
    printf("\n| format | sum | product | quotient | ufp | successor | check_number |\n|---|---|---|---|---|---|---|\n");
    for (int s = 0; s < count; s++) {
        const setting *in = &settings[s];
        our_work sum = {SUM, in->format, in->pairs}, product = {PRODUCT, in->format, in->pairs},
                 quotient = {QUOTIENT, in->format, in->pairs};
        number_work ufp = {zurkeb_ufp, in}, successor = {zurkeb_successor, in};
        work works[6] = {{operation_pass, &sum}, {operation_pass, &product}, {operation_pass, &quotient},
                         {number_pass, &ufp},    {number_pass, &successor},  {check_number_pass, in}};
        timed t[6];
        time_works(works, t, 6, PAIRS);
        printf("| %s |", in->name);
        for (int w = 0; w < 6; w++)
            printf(" %.1f |", t[w].best);
        printf("\n");
    }
}

/* Rump's routes beside the places that they lead to. */
static void routes(const setting *in) {
    static const number_call calls[6] = {zurkeb_ufp,        zurkeb_ufp_toward_zero, zurkeb_ulp,
                                         zurkeb_ulp_upward, zurkeb_ulp_toward_zero, zurkeb_ulp_toward_zero_unbranched};
    static const char *const names[6] = {"ufp",        "ufp_toward_zero", "ulp",
                                         "ulp_upward", "ulp_toward_zero", "ulp_toward_zero_unbranched"};
    number_work numbers[6];
    work works[6];
    timed t[6];
    for (int w = 0; w < 6; w++) {
        numbers[w] = (number_work){calls[w], in};
        works[w] = (work){number_pass, &numbers[w]};
    }
    time_works(works, t, 6, PAIRS);
    printf("\n| %s | ns | median | refused |\n|---|---|---|---|\n", in->name);
    for (int w = 0; w < 6; w++) {
        unsigned refused = 0;
        for (int i = 0; i < PAIRS; i++)
            refused += calls[w](in->format, in->pairs[i].a).refusal != 0;
        printf("| %s | %.1f | %.1f | %u |\n", names[w], t[w].best, t[w].median, refused);
    }
}

/* The operands of the three-step sum, the greater first, and its results. */
typedef struct steps {
    zurkeb_format format;
    pair pairs[PAIRS];
    zurkeb_triple_answer triples[PAIRS];
} steps;

static uint64_t steps_pass(const void *what) {
    const steps *s = what;
    uint64_t used = 0;
    for (int i = 0; i < PAIRS; i++) {
        zurkeb_triple_answer t = zurkeb_fast_two_sum(s->format, 0, 0, 0, s->pairs[i].a, s->pairs[i].b);
        used ^= (uint64_t)t.refusal << 40 ^ (uint64_t)t.x.significand << 32 ^ t.z.significand ^ (uint64_t)t.y.significand << 16;
    }
    return used;
}

static uint64_t check_pass(const void *what) {
    const steps *s = what;
    uint64_t used = 0;
    for (int i = 0; i < PAIRS; i++) {
        const zurkeb_triple_answer *t = &s->triples[i];
        zurkeb_check_answer r = zurkeb_is_fast_two_sum(s->format, s->pairs[i].a, s->pairs[i].b, t->x, t->z, t->y);
        used += (uint64_t)r.refusal << 32 | r.yes;
    }
    return used;
}

static void three_steps(const setting *in) {
    static steps s;
    unsigned refused = 0;
    s.format = in->format;
    for (int i = 0; i < PAIRS; i++) {
        zurkeb_number a = in->pairs[i].a, b = in->pairs[i].b;
        bool smaller = zurkeb_compare(s.format, zurkeb_magnitude(s.format, a).number, zurkeb_magnitude(s.format, b).number).order < 0;
        s.pairs[i] = smaller ? (pair){b, a} : (pair){a, b};
        s.triples[i] = zurkeb_fast_two_sum(s.format, 0, 0, 0, s.pairs[i].a, s.pairs[i].b);
        refused += s.triples[i].refusal != 0;
    }
    work works[2] = {{steps_pass, &s}, {check_pass, &s}};
    timed t[2];
    time_works(works, t, 2, PAIRS);
    printf("\n| %s, %u refused | ns | median |\n|---|---|---|\n", in->name, refused);
    printf("| fast_two_sum | %.1f | %.1f |\n| is_fast_two_sum | %.1f | %.1f |\n", t[0].best, t[0].median, t[1].best, t[1].median);
}

/* ---- patterns */
typedef uint64_t (*pattern_call)(uint32_t, uint32_t, uint32_t);
static const pattern_call pattern_calls[OPERATIONS] = {zurkeb_pattern_sum, zurkeb_pattern_difference, zurkeb_pattern_product,
                                                       zurkeb_pattern_quotient};

typedef struct pattern_work {
    enum operation operation;
    const patterns *operands;
} pattern_work;

static uint64_t pattern_pass(const void *what) {
    const pattern_work *w = what;
    pattern_call call = pattern_calls[w->operation];
    uint64_t used = 0;
    for (int i = 0; i < PAIRS; i++)
        used ^= call(w->operands->a[i], w->operands->b[i], ZURKEB_NEAREST_EVEN);
    return used;
}

static uint64_t soft_pass(const void *what) {
    const pattern_work *w = what;
    return softfloat_peer.pass(w->operation, w->operands);
}

static uint64_t slices_pass(const void *what) {
    const patterns *p = what;
    static uint32_t out[PAIRS];
    zurkeb_slices_answer r = zurkeb_sum_slices(p->a, PAIRS, p->b, PAIRS, out, PAIRS, ZURKEB_NEAREST_EVEN);
    return r.refusal ^ r.index ^ out[PAIRS - 1];
}

static uint64_t read_pass(const void *what) {
    const patterns *p = what;
    uint64_t used = 0;
    for (int i = 0; i < PAIRS; i++)
        used ^= used_number(zurkeb_read_pattern(p->a[i]));
    return used;
}

static uint64_t write_pass(const void *what) {
    const setting *in = what;
    uint64_t used = 0;
    for (int i = 0; i < PAIRS; i++)
        used ^= zurkeb_write_pattern(in->pairs[i].a);
    return used;
}

static void as_patterns(const pair pairs[PAIRS], patterns *to) {
    for (int i = 0; i < PAIRS; i++) {
        to->a[i] = (uint32_t)zurkeb_write_pattern(pairs[i].a);
        to->b[i] = (uint32_t)zurkeb_write_pattern(pairs[i].b);
    }
}

static void time_patterns(const patterns *operands, timed t[OPERATIONS][2]) {
    for (int operation = 0; operation < OPERATIONS; operation++) {
        pattern_work w = {(enum operation)operation, operands};
        work works[2] = {{pattern_pass, &w}, {softfloat_peer.installed ? soft_pass : pattern_pass, &w}};
        time_works(works, t[operation], 2, PAIRS);
    }
}

/* Our patterns against SoftFloat's in every direction; refusals apart. */
static void compare_patterns(const patterns *operands) {
    unsigned compared = 0, different = 0;
    for (int operation = 0; operation < OPERATIONS; operation++) {
        for (uint32_t d = 0; d < 5; d++) {
            for (int i = 0; i < PAIRS; i++) {
                uint32_t a = operands->a[i], b = operands->b[i];
                uint64_t r = pattern_calls[operation](a, b, d);
                compared += r >> 32 == 0;
                different += r >> 32 == 0 && (uint32_t)r != softfloat_peer.result((enum operation)operation, d, a, b);
            }
        }
    }
    printf("\npatterns against %s: %u results compared, %u differ\n", softfloat_peer.name, compared, different);
}

static void all_patterns(const setting *in) {
    static patterns mixed, simple;
    timed m[OPERATIONS][2], s[OPERATIONS][2], t[3];
    as_patterns(in->pairs, &mixed);
    as_patterns(in->simple, &simple);
    time_patterns(&simple, s);
    time_patterns(&mixed, m);
    print_ratios("patterns", softfloat_peer.installed ? softfloat_peer.name : "(no peer)", m, s);
    if (softfloat_peer.installed)
        compare_patterns(&mixed);
    work works[3] = {{slices_pass, &mixed}, {read_pass, &mixed}, {write_pass, in}};
    time_works(works, t, 3, PAIRS);
    printf("\n| patterns | ns |\n|---|---|\n| sum_slices, an entry | %.1f |\n| read_pattern | %.1f |\n| write_pattern | %.1f |\n", t[0].best,
           t[1].best, t[2].best);
    printf("\nslice entry / pattern_sum: %.2f\n", t[0].best / m[SUM][0].best);
}

int main(void) {
    static setting settings[] = {{.name = "binary, 24 digits"},
                                 {.name = "decimal32"},
                                 {.name = "binary64"},
                                 {.name = "decimal64"},
                                 {"base 3, 19 digits", {3, 19, -100, 100}, {{{0}, {0}}}, {{{0}, {0}}}},
                                 {"base 16, 7 digits", {16, 7, -100, 100}, {{{0}, {0}}}, {{{0}, {0}}}},
                                 {"base 100, 4 digits", {100, 4, -100, 100}, {{{0}, {0}}}, {{{0}, {0}}}},
                                 {"base 256, 3 digits", {256, 3, -100, 100}, {{{0}, {0}}}, {{{0}, {0}}}}};
    enum { count = sizeof settings / sizeof *settings };
    for (int s = 0; s < 4; s++)
        settings[s].format = zurkeb_published((uint32_t)s + 2).format;
    for (int s = 0; s < count; s++)
        draw_pairs(settings[s].format, settings[s].pairs);
    for (int s = 0; s < count; s++)
        draw_simple(settings[s].format, settings[s].simple, PAIRS);
    against_peer(&mpfr_peer, &settings[0]);
    against_peer(&intel_peer, &settings[1]);
    against_peer(&mpfr_peer, &settings[2]);
    against_peer(&intel64_peer, &settings[3]);
    all_formats(settings, count);
    printf("\n| fractions | ns | median | quotient ns | median | ratio |\n|---|---|---|---|---|---|\n");
    for (int s = 0; s < count; s++)
        time_fractions(settings[s].name, settings[s].format);
    time_fractions("decimal, 7 digits, Emax 89", (zurkeb_format){10, 7, -101, 89});
    routes(&settings[0]);
    three_steps(&settings[0]);
    all_patterns(&settings[0]);
    time_lines();
    time_receivers();
    time_boundaries();
    if (!time_programs())
        printf("\nplaces or cat did not run\n");
    return 0;
}
