/* The peers: MPFR for binary formats, Intel's decimal library for decimal32 and decimal64, Berkeley SoftFloat for patterns. Where one is not
 * installed, its `installed` is false and nothing else of it is called. */
#ifndef BENCH_PEERS_H
#define BENCH_PEERS_H

#include <stdbool.h>

#include "operands.h"
#include "timing.h"

enum operation { SUM, DIFFERENCE, PRODUCT, QUOTIENT, OPERATIONS };

typedef zurkeb_rounded_answer (*our_call)(zurkeb_format, uint32_t, zurkeb_number, zurkeb_number);
extern const our_call our_calls[OPERATIONS];

typedef struct peer {
    bool installed;
    const char *name, *package;
    /* Takes over the operands. */
    void (*prepare)(zurkeb_format f, const pair pairs[PAIRS]);
    /* One pass of an operation, rounded to nearest, ties to even. */
    work (*work_of)(enum operation operation);
    /* Is our direction one of the peer's? */
    bool (*has_direction)(uint32_t direction);
    /* Is `ours` the peer's result for the operands with this index? */
    bool (*agrees)(enum operation operation, uint32_t direction, int index, zurkeb_number ours);
} peer;

extern const peer mpfr_peer, intel_peer, intel64_peer;

/* Operands of the pattern calls. */
typedef struct patterns {
    uint32_t a[PAIRS], b[PAIRS];
} patterns;

typedef struct pattern_peer {
    bool installed;
    const char *name;
    /* One pass of an operation over the operands, rounded to nearest, ties to even. */
    uint64_t (*pass)(enum operation operation, const patterns *operands);
    /* The result in one of our directions. */
    uint32_t (*result)(enum operation operation, uint32_t direction, uint32_t a, uint32_t b);
} pattern_peer;

extern const pattern_peer softfloat_peer;

#endif
