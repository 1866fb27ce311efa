/* Powers of a base, and random numbers of any admitted format, for the C tests. */
#ifndef MEMBERS_H
#define MEMBERS_H

#include "compare.h"
#include "zurkeb.h"

/* base^k, or 0 above 2^63. */
static inline uint64_t power_of(uint32_t base, uint32_t k) {
    const uint64_t most = ((uint64_t)1 << 63) / base;
    uint64_t result = 1;
    while (k-- > 0) {
        if (result > most)
            return 0;
        result *= base;
    }
    return result;
}

/* Zero of either sign, the greatest number, one at the lowest exponent, one beside a power of the base, or any other. */
static inline zurkeb_number random_member(zurkeb_format f) {
    uint64_t top = power_of(f.base, f.digits), full = top / f.base;
    uint32_t kind = random32() % 8, sign = random32() & 1;
    int32_t e = f.emin + (int32_t)(random32() % (uint32_t)(f.emax - f.emin + 1));
    if (kind == 0)
        return (zurkeb_number){0, f.emin, sign};
    if (kind == 1)
        return (zurkeb_number){top - 1, f.emax, sign};
    if (kind == 2)
        return (zurkeb_number){1 + random64() % (top - 1), f.emin, sign};
    if (kind == 3)
        return (zurkeb_number){random32() & 1 ? full : top - 1, e, sign};
    return (zurkeb_number){full + random64() % (top - full), e, sign};
}

#endif
