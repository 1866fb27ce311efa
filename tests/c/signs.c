/* The sign of a number that C hands over: 0 and 1 are taken, any other is refused by 3, by each call that takes numbers and in each
 * place of an operand, after refusals 1 and 2 and before all others; and so is the number of a refused answer. An argument is the number of random rounds. */
#include <stdbool.h>
#include <string.h>

#include "answers.h"
#include "members.h"
#include "zurkeb.h"

static const zurkeb_format formats[] = {
    {2, 24, -149, 104}, {2, 11, -24, 5},   {10, 7, -101, 90},   {10, 3, -5, 5}, {2, 31, -1200, 1200},
    {3, 19, -100, 40},  {256, 3, -100, 9}, {7, 11, -1200, 1200}, {2, 2, 0, 0},   {10, 1, 1200, 1200},
};
enum { FORMATS = sizeof formats / sizeof *formats, MOST_OPERANDS = 5 };

/* The least of the signs that are refused, those whose low byte or low half is 0 or 1, and the ends. */
static const uint32_t bad_signs[] = {2,          3,          255,        256,        257,        0x10000,    0x10001,
                                     0x01000000, 0x01000001, 0x7fffffff, 0x80000000, 0x80000001, 0xfffffffe, 0xffffffff};
enum { BAD_SIGNS = sizeof bad_signs / sizeof *bad_signs };

static uint32_t random_bad_sign(void) { return 2 + random32() % (UINT32_MAX - 1); }

/* ---- the calls, each with its operands in an array */
/* The refusal, and the other fields of the answer, numbers first. */
typedef struct outcome {
    uint32_t refusal, fields[12], numbers;
} outcome;

static void put(outcome *o, zurkeb_number x) {
    same("an answer's sign is 0 or 1", x.negative <= 1, 1);
    memcpy(o->fields + 4 * o->numbers++, &x, sizeof x);
}

static outcome check_number(zurkeb_format f, uint32_t direction, const zurkeb_number *x) {
    (void)direction;
    return (outcome){.refusal = zurkeb_check_number(f, x[0])};
}

static outcome compare(zurkeb_format f, uint32_t direction, const zurkeb_number *x) {
    (void)direction;
    zurkeb_order_answer r = zurkeb_compare(f, x[0], x[1]);
    return (outcome){.refusal = r.refusal, .fields = {(uint32_t)r.order}};
}

static outcome within_one_step(zurkeb_format f, uint32_t direction, const zurkeb_number *x) {
    (void)direction;
    zurkeb_check_answer r = zurkeb_within_one_step(f, x[0], x[1]);
    same("yes is 0 or 1", r.yes <= 1, 1);
    return (outcome){.refusal = r.refusal, .fields = {r.yes}};
}

static outcome convert(zurkeb_format f, uint32_t direction, const zurkeb_number *x) {
    zurkeb_rounded_answer r = zurkeb_convert(f, direction, x[0]);
    outcome o = {.refusal = r.refusal};
    put(&o, r.number);
    o.fields[4] = r.mark;
    return o;
}

static outcome quotient(zurkeb_format f, uint32_t direction, const zurkeb_number *x) {
    zurkeb_quotient_answer r = zurkeb_quotient(f, direction, x[0], x[1]);
    outcome o = {.refusal = r.refusal};
    put(&o, r.number);
    o.fields[4] = r.mark;
    o.fields[5] = r.digits;
    return o;
}

static outcome fast_two_sum(zurkeb_format f, uint32_t direction, const zurkeb_number *x) {
    zurkeb_triple_answer r = zurkeb_fast_two_sum(f, direction, direction, direction, x[0], x[1]);
    outcome o = {.refusal = r.refusal};
    put(&o, r.x);
    put(&o, r.z);
    put(&o, r.y);
    return o;
}

static outcome is_fast_two_sum(zurkeb_format f, uint32_t direction, const zurkeb_number *x) {
    (void)direction;
    zurkeb_check_answer r = zurkeb_is_fast_two_sum(f, x[0], x[1], x[2], x[3], x[4]);
    same("yes is 0 or 1", r.yes <= 1, 1);
    return (outcome){.refusal = r.refusal, .fields = {r.yes}};
}

typedef struct call {
    const char *name;
    int operands;
    bool directed;
    zurkeb_number_answer (*of_one)(zurkeb_format, zurkeb_number);
    zurkeb_number_answer (*of_one_directed)(zurkeb_format, uint32_t, zurkeb_number);
    zurkeb_rounded_answer (*of_two)(zurkeb_format, uint32_t, zurkeb_number, zurkeb_number);
    outcome (*other)(zurkeb_format, uint32_t, const zurkeb_number *);
} call;

static const call calls[] = {
    {"negate", 1, false, .of_one = zurkeb_negate},
    {"magnitude", 1, false, .of_one = zurkeb_magnitude},
    {"ufp", 1, false, .of_one = zurkeb_ufp},
    {"ulp", 1, false, .of_one = zurkeb_ulp},
    {"uls", 1, false, .of_one = zurkeb_uls},
    {"predecessor", 1, false, .of_one = zurkeb_predecessor},
    {"successor", 1, false, .of_one = zurkeb_successor},
    {"ufp_toward_zero", 1, false, .of_one = zurkeb_ufp_toward_zero},
    {"ulp_upward", 1, false, .of_one = zurkeb_ulp_upward},
    {"ulp_toward_zero", 1, false, .of_one = zurkeb_ulp_toward_zero},
    {"ulp_toward_zero_unbranched", 1, false, .of_one = zurkeb_ulp_toward_zero_unbranched},
    {"ufp_by_successor", 1, true, .of_one_directed = zurkeb_ufp_by_successor},
    {"ulp_by_successor", 1, true, .of_one_directed = zurkeb_ulp_by_successor},
    {"sum", 2, true, .of_two = zurkeb_sum},
    {"difference", 2, true, .of_two = zurkeb_difference},
    {"product", 2, true, .of_two = zurkeb_product},
    {"quotient", 2, true, .other = quotient},
    {"check_number", 1, false, .other = check_number},
    {"compare", 2, false, .other = compare},
    {"within_one_step", 2, false, .other = within_one_step},
    {"convert", 1, true, .other = convert},
    {"fast_two_sum", 2, true, .other = fast_two_sum},
    {"is_fast_two_sum", 5, false, .other = is_fast_two_sum},
};
enum { CALLS = sizeof calls / sizeof *calls };

static outcome answer(const call *c, zurkeb_format f, uint32_t direction, const zurkeb_number *x) {
    if (c->other)
        return c->other(f, direction, x);
    outcome o = {0};
    if (c->of_one || c->of_one_directed) {
        zurkeb_number_answer r = c->of_one ? c->of_one(f, x[0]) : c->of_one_directed(f, direction, x[0]);
        o.refusal = r.refusal;
        put(&o, r.number);
    } else {
        zurkeb_rounded_answer r = c->of_two(f, direction, x[0], x[1]);
        o.refusal = r.refusal;
        put(&o, r.number);
        o.fields[4] = r.mark;
    }
    return o;
}

/* A refused answer's numbers are in no format, and its other fields zero. */
static void refused(const call *c, zurkeb_format f, uint32_t direction, const zurkeb_number *x, uint32_t wanted) {
    outcome o = answer(c, f, direction, x), none = {0};
    while (none.numbers < o.numbers)
        put(&none, no_number);
    same(c->name, o.refusal, wanted);
    same(c->name, (uint64_t)memcmp(o.fields, none.fields, sizeof none.fields), 0);
}

/* ---- comparisons */
/* The operands are refused by 3 once this one stands at i; 1 and 2 come before. */
static void one_outside(const call *c, zurkeb_format f, uint32_t direction, const zurkeb_number *members, int i, zurkeb_number outside) {
    zurkeb_format bad = f;
    bad.base = 257;
    zurkeb_number x[MOST_OPERANDS];
    memcpy(x, members, sizeof x);
    x[i] = outside;
    refused(c, f, direction, x, ZURKEB_NUMBER_NOT_IN_FORMAT);
    refused(c, bad, direction, x, ZURKEB_FORMAT_NOT_ADMITTED);
    if (c->directed)
        refused(c, f, 5 + direction, x, ZURKEB_NO_SUCH_DIRECTION);
}

/* The operands are taken, and refused once one of them has a bad sign or is the number of a refused answer, which only a conversion takes. */
static void one_bad_operand(const call *c, zurkeb_format f, uint32_t direction, const zurkeb_number *members, uint32_t sign) {
    same(c->name, answer(c, f, direction, members).refusal == ZURKEB_NUMBER_NOT_IN_FORMAT, 0);
    for (int i = 0; i < c->operands; i++) {
        zurkeb_number signed_badly = members[i];
        signed_badly.negative = sign;
        one_outside(c, f, direction, members, i, signed_badly);
        if (c->other != convert)
            one_outside(c, f, direction, members, i, no_number);
    }
}

static void all_bad_signs(const call *c, zurkeb_format f, uint32_t direction, const zurkeb_number *members) {
    zurkeb_number x[MOST_OPERANDS];
    for (int i = 0; i < MOST_OPERANDS; i++) {
        x[i] = members[i];
        x[i].negative = random_bad_sign();
    }
    refused(c, f, direction, x, ZURKEB_NUMBER_NOT_IN_FORMAT);
}

static void each_call(zurkeb_format f, uint32_t sign) {
    zurkeb_number members[MOST_OPERANDS];
    for (int i = 0; i < MOST_OPERANDS; i++)
        members[i] = random_member(f);
    for (int k = 0; k < CALLS; k++) {
        uint32_t direction = random32() % 5;
        one_bad_operand(&calls[k], f, direction, members, sign);
        all_bad_signs(&calls[k], f, direction, members);
    }
}

/* What signs 0 and 1 mean: the value's sign. */
static void good_signs(zurkeb_format f) {
    zurkeb_number a = random_member(f), b = random_member(f);
    zurkeb_number minus = zurkeb_negate(f, a).number, size = zurkeb_magnitude(f, a).number;
    same("negate", minus.negative, !a.negative);
    same("negate", minus.significand == a.significand && minus.exponent == a.exponent, 1);
    same("magnitude", size.negative, 0);
    same("magnitude", size.significand == a.significand && size.exponent == a.exponent, 1);
    same("compare", (uint32_t)zurkeb_compare(f, a, minus).order, a.significand == 0 ? 0 : a.negative ? (uint32_t)-1 : 1);
    zurkeb_rounded_answer product = zurkeb_product(f, ZURKEB_NEAREST_EVEN, a, b), sum = zurkeb_sum(f, ZURKEB_NEAREST_EVEN, a, minus);
    if (product.refusal == 0)
        same("product", product.number.negative, a.negative != b.negative);
    same("sum", sum.refusal + sum.number.negative + sum.number.significand, 0);
}

/* A triple that passes its check, and each of its five numbers with a bad sign. */
static void bad_triple(zurkeb_format f, uint32_t sign) {
    zurkeb_number a = random_member(f), b = random_member(f);
    if (zurkeb_compare(f, zurkeb_magnitude(f, a).number, zurkeb_magnitude(f, b).number).order < 0) {
        zurkeb_number smaller = a;
        a = b;
        b = smaller;
    }
    zurkeb_triple_answer t = zurkeb_fast_two_sum(f, 0, 0, 0, a, b);
    if (t.refusal != 0)
        return;
    zurkeb_number x[5] = {a, b, t.x, t.z, t.y};
    same("is_fast_two_sum", zurkeb_is_fast_two_sum(f, x[0], x[1], x[2], x[3], x[4]).yes, 1);
    for (int i = 0; i < 5; i++) {
        uint32_t good = x[i].negative;
        x[i].negative = sign;
        zurkeb_check_answer r = zurkeb_is_fast_two_sum(f, x[0], x[1], x[2], x[3], x[4]);
        same("is_fast_two_sum", r.refusal, ZURKEB_NUMBER_NOT_IN_FORMAT);
        same("is_fast_two_sum", r.yes, 0);
        x[i].negative = good;
    }
}

/* write_pattern: the pattern's sign comes back, and a bad one is refused. */
static void pattern(uint32_t n, uint32_t sign) {
    zurkeb_number_answer r = zurkeb_read_pattern(n);
    if (r.refusal != 0)
        return;
    same("read_pattern", r.number.negative, n >> 31);
    same("write_pattern", zurkeb_write_pattern(r.number), n);
    r.number.negative = sign;
    same("write_pattern", zurkeb_write_pattern(r.number), (uint64_t)ZURKEB_NUMBER_NOT_IN_FORMAT << 32);
    same("write_pattern", zurkeb_write_pattern(no_number), (uint64_t)ZURKEB_NUMBER_NOT_IN_FORMAT << 32);
    same("write_decimal32", zurkeb_write_decimal32(no_number), (uint64_t)ZURKEB_NUMBER_NOT_IN_FORMAT << 32);
    same("write_binary64", zurkeb_write_binary64(no_number).refusal, ZURKEB_NUMBER_NOT_IN_FORMAT);
}

static void round_of(zurkeb_format f, uint32_t sign) {
    each_call(f, sign);
    good_signs(f);
    bad_triple(f, sign);
    pattern(random32(), sign);
}

int main(int count, char **arguments) {
    uint64_t rounds = rounds_of(count, arguments, 20000);
    for (int i = 0; i < BAD_SIGNS; i++) {
        for (int k = 0; k < FORMATS; k++)
            round_of(formats[k], bad_signs[i]);
        pattern(0, bad_signs[i]);
        pattern(0x80000000u, bad_signs[i]);
    }
    for (uint64_t round = 0; round < rounds; round++)
        round_of(formats[round % FORMATS], random_bad_sign());
    return no_difference();
}
