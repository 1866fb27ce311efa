/* Answers of the C interface compared field by field, for the C tests, and what stands in a refused one. */
#ifndef ANSWERS_H
#define ANSWERS_H

#include "compare.h"
#include "zurkeb.h"

/* The number of a refused answer, which is in no admitted format. */
static const zurkeb_number no_number = {UINT64_MAX, 0, 0};

static inline zurkeb_rounded_answer refusal_by(uint32_t refusal) {
    return (zurkeb_rounded_answer){refusal, 0, no_number};
}

static inline void same_number(const char *what, zurkeb_number ours, zurkeb_number wanted) {
    same(what, ours.significand, wanted.significand);
    same(what, (uint32_t)ours.exponent, (uint32_t)wanted.exponent);
    same(what, ours.negative, wanted.negative);
}

static inline void same_answer(const char *what, zurkeb_rounded_answer ours, zurkeb_rounded_answer wanted) {
    same(what, ours.refusal, wanted.refusal);
    same(what, ours.mark, wanted.mark);
    same_number(what, ours.number, wanted.number);
}

#endif
