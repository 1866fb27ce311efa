/* The four operations with one type, for the C tests: the quotient without its digits stands beside the others. */
#ifndef OPERATIONS_H
#define OPERATIONS_H

#include "zurkeb.h"

static inline zurkeb_rounded_answer rounded_quotient(zurkeb_format format, uint32_t direction, zurkeb_number a, zurkeb_number b) {
    zurkeb_quotient_answer q = zurkeb_quotient(format, direction, a, b);
    return (zurkeb_rounded_answer){q.refusal, q.mark, q.number};
}

typedef zurkeb_rounded_answer (*operation)(zurkeb_format, uint32_t, zurkeb_number, zurkeb_number);

enum { OPERATIONS = 4, QUOTIENT = 3 };
static const operation operations[OPERATIONS] = {zurkeb_sum, zurkeb_difference, zurkeb_product, rounded_quotient};
static const char *const names[OPERATIONS] = {"sum", "difference", "product", "quotient"};

#endif
