/* Berkeley SoftFloat 3 as a peer of the pattern calls. */
#include "peers.h"

#ifdef HAVE_SOFTFLOAT
#include <softfloat.h>

typedef float32_t (*soft_call)(float32_t, float32_t);

static const soft_call calls[OPERATIONS] = {f32_add, f32_sub, f32_mul, f32_div};
/* By our direction. */
static const uint_fast8_t modes[5] = {softfloat_round_near_even, softfloat_round_near_maxMag, softfloat_round_minMag, softfloat_round_max,
                                      softfloat_round_min};

static uint64_t pass(enum operation operation, const patterns *operands) {
    soft_call call = calls[operation];
    uint64_t used = 0;
    softfloat_roundingMode = softfloat_round_near_even;
    for (int i = 0; i < PAIRS; i++)
        used ^= call((float32_t){operands->a[i]}, (float32_t){operands->b[i]}).v;
    return used;
}

static uint32_t result(enum operation operation, uint32_t direction, uint32_t a, uint32_t b) {
    softfloat_roundingMode = modes[direction];
    return calls[operation]((float32_t){a}, (float32_t){b}).v;
}

const pattern_peer softfloat_peer = {true, "SoftFloat", pass, result};
#else
const pattern_peer softfloat_peer = {.name = "SoftFloat"};
#endif
