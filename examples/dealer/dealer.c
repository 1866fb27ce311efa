/* What a dealer's four figures mean. Reads lines with a word and whole numbers:
 *     format 10 7 -101 90     base, digits, lowest and highest exponent: admitted, or which of the figures is wrong
 *     number 1 0              significand and exponent: the number in the format, its places and its neighbours
 *     sum 9999999 0 5 -1      two numbers: their sum in the five directions, with its mark
 * A significand may have a minus before it. */
#include <inttypes.h>
#include <stdio.h>
#include <string.h>

#include "zurkeb.h"

enum { WIDTH = 256 };

static zurkeb_format format;

static int admitted(uint32_t base, uint32_t digits, int32_t emin, int32_t emax) {
    zurkeb_format f = {base, digits, emin, emax};
    return zurkeb_check_format(f) == ZURKEB_NONE;
}

/* Each figure is tried beside three that are right. */
static const char *fault(zurkeb_format f) {
    if (!admitted(f.base, 1, 0, 0))
        return "the base is not 2 to 256";
    if (!admitted(2, f.digits, 0, 0))
        return "the digits are not 1 to 63";
    if (!admitted(f.base, f.digits, 0, 0))
        return "too many digits for this base: base^digits is above 2^63";
    if (!admitted(2, 1, f.emin, 1200))
        return "the lowest exponent is not -1200 to 1200";
    if (!admitted(2, 1, -1200, f.emax))
        return "the highest exponent is not -1200 to 1200";
    return "the lowest exponent is above the highest";
}

static void print_number(const char *name, zurkeb_number_answer r) {
    if (r.refusal != ZURKEB_NONE)
        printf("%s: %s\n", name, zurkeb_refusal_text(r.refusal));
    else
        printf("%s %s%" PRIu64 " * %u^%d\n", name, r.number.negative ? "-" : "", r.number.significand, (unsigned)format.base,
               (int)r.number.exponent);
}

static void print_rounded(const char *name, zurkeb_rounded_answer r) {
    static const char *const marks[3] = {"exact", "low", "high"};
    zurkeb_number_answer number = {r.refusal, r.number};
    printf("%s ", r.refusal == ZURKEB_NONE ? marks[r.mark] : "refused");
    print_number(name, number);
}

/* Any significand and exponent, taken into the format to nearest. */
static zurkeb_rounded_answer number(long long significand, int exponent) {
    zurkeb_number x = {(uint64_t)(significand < 0 ? -significand : significand), exponent, significand < 0};
    return zurkeb_convert(format, ZURKEB_NEAREST_EVEN, x);
}

static void show_number(long long significand, int exponent) {
    zurkeb_rounded_answer r = number(significand, exponent);
    print_rounded("number", r);
    if (r.refusal != ZURKEB_NONE)
        return;
    print_number("first place (ufp)", zurkeb_ufp(format, r.number));
    print_number("last place (ulp)", zurkeb_ulp(format, r.number));
    print_number("place of the least nonzero digit (uls)", zurkeb_uls(format, r.number));
    print_number("predecessor", zurkeb_predecessor(format, r.number));
    print_number("successor", zurkeb_successor(format, r.number));
}

static void show_sum(zurkeb_rounded_answer a, zurkeb_rounded_answer b) {
    static const char *const directions[5] = {"nearest, ties to even", "nearest, ties away", "toward zero", "up", "down"};
    if (a.refusal != ZURKEB_NONE || b.refusal != ZURKEB_NONE) {
        puts("the numbers are too large for the format");
        return;
    }
    for (uint32_t d = 0; d < 5; d++)
        print_rounded(directions[d], zurkeb_sum(format, d, a.number, b.number));
}

static void answer(const char *text) {
    zurkeb_format f;
    long long m, n;
    int e, k;
    char more;
    printf("%s", text);
    if (sscanf(text, "format %" SCNu32 " %" SCNu32 " %" SCNd32 " %" SCNd32 " %c", &f.base, &f.digits, &f.emin, &f.emax, &more) == 4) {
        format = f;
        puts(zurkeb_check_format(f) == ZURKEB_NONE ? "admitted" : fault(f));
    } else if (sscanf(text, "number %lld %d %c", &m, &e, &more) == 2) {
        show_number(m, e);
    } else if (sscanf(text, "sum %lld %d %lld %d %c", &m, &e, &n, &k, &more) == 4) {
        show_sum(number(m, e), number(n, k));
    } else {
        puts("bad line");
    }
}

int main(void) {
    char text[WIDTH];
    while (fgets(text, WIDTH, stdin) != NULL)
        answer(text);
    return 0;
}
