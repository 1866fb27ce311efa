/* Fractions as implement sheets print them, both parts below 1,000, beside the quotients of the same whole numbers. */
#ifndef BENCH_FRACTIONS_H
#define BENCH_FRACTIONS_H

#include "zurkeb.h"

/* Prints one table row for the format. */
void time_fractions(const char *name, zurkeb_format format);

#endif
