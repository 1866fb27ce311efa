/* MPFR as a peer: the digits and exponents of a binary format, subnormal numbers by mpfr_subnormalize. */
#include "peers.h"

#ifdef HAVE_MPFR
#define MPFR_USE_INTMAX_T
#include <mpfr.h>

typedef int (*mpfr_call)(mpfr_ptr, mpfr_srcptr, mpfr_srcptr, mpfr_rnd_t);

static mpfr_t left[PAIRS], right[PAIRS], result, ours_read;
static const mpfr_call calls[OPERATIONS] = {mpfr_add, mpfr_sub, mpfr_mul, mpfr_div};
/* By our direction; MPFR has none for 1. */
static const mpfr_rnd_t modes[5] = {MPFR_RNDN, MPFR_RNDF, MPFR_RNDZ, MPFR_RNDU, MPFR_RNDD};

static void read_number(mpfr_ptr to, zurkeb_number x) {
    mpfr_set_uj_2exp(to, x.significand, x.exponent, MPFR_RNDN);
    if (x.negative)
        mpfr_neg(to, to, MPFR_RNDN);
}

/* MPFR's significand lies from 1/2 to 1, so that 2^emin has the exponent emin + 1. */
static void prepare(zurkeb_format f, const pair pairs[PAIRS]) {
    static bool made;
    mpfr_set_emin(f.emin + 1);
    mpfr_set_emax(f.emax + (int32_t)f.digits);
    if (!made)
        mpfr_inits(result, ours_read, (mpfr_ptr)0);
    mpfr_set_prec(result, f.digits);
    mpfr_set_prec(ours_read, f.digits);
    for (int i = 0; i < PAIRS; i++) {
        if (!made)
            mpfr_inits(left[i], right[i], (mpfr_ptr)0);
        mpfr_set_prec(left[i], f.digits);
        mpfr_set_prec(right[i], f.digits);
        read_number(left[i], pairs[i].a);
        read_number(right[i], pairs[i].b);
    }
    made = true;
}

static uint64_t pass(const void *what) {
    mpfr_call call = *(const mpfr_call *)what;
    uint64_t used = 0;
    for (int i = 0; i < PAIRS; i++) {
        int ternary = call(result, left[i], right[i], MPFR_RNDN);
        mpfr_subnormalize(result, ternary, MPFR_RNDN);
        used ^= *result->_mpfr_d ^ (uint64_t)result->_mpfr_exp ^ (uint64_t)result->_mpfr_sign;
    }
    return used;
}

static work work_of(enum operation operation) {
    return (work){pass, &calls[operation]};
}

static bool has_direction(uint32_t direction) {
    return direction != ZURKEB_NEAREST_AWAY;
}

static bool agrees(enum operation operation, uint32_t direction, int index, zurkeb_number ours) {
    int ternary = calls[operation](result, left[index], right[index], modes[direction]);
    mpfr_subnormalize(result, ternary, modes[direction]);
    read_number(ours_read, ours);
    return mpfr_equal_p(result, ours_read) && !mpfr_signbit(result) == !mpfr_signbit(ours_read);
}

const peer mpfr_peer = {true, "MPFR", "libmpfr-dev", prepare, work_of, has_direction, agrees};
#else
const peer mpfr_peer = {.name = "MPFR", .package = "libmpfr-dev"};
#endif
