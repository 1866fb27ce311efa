/* The conveniences of the header: texts of the refusals, named formats against zurkeb_published, the halves of a pattern answer; and what
 * it says beside the calls. */
#include <string.h>

#include "compare.h"
#include "zurkeb.h"

static void texts(void) {
    for (uint32_t n = 0; n <= ZURKEB_STRIP_COUNT; n++) {
        same("a text of its own", strlen(zurkeb_refusal_text(n)) > 0, 1);
        for (uint32_t m = 0; m < n; m++)
            same("no text twice", strcmp(zurkeb_refusal_text(n), zurkeb_refusal_text(m)) != 0, 1);
    }
    same("above the last", (uint64_t)strcmp(zurkeb_refusal_text(ZURKEB_STRIP_COUNT + 1), "no such refusal"), 0);
    same("far above", (uint64_t)strcmp(zurkeb_refusal_text(UINT32_MAX), "no such refusal"), 0);
    same("version", (uint64_t)strcmp(ZURKEB_VERSION, "1.0.0"), 0);
}

static void formats(void) {
    const zurkeb_format named[5] = {ZURKEB_BINARY16, ZURKEB_BINARY32, ZURKEB_DECIMAL32, ZURKEB_BINARY64, ZURKEB_DECIMAL64};
    for (uint32_t n = 1; n <= 5; n++) {
        zurkeb_published_answer r = zurkeb_published(n);
        same("published", r.refusal, ZURKEB_NONE);
        same("base", named[n - 1].base, r.format.base);
        same("digits", named[n - 1].digits, r.format.digits);
        same("emin", (uint64_t)named[n - 1].emin, (uint64_t)r.format.emin);
        same("emax", (uint64_t)named[n - 1].emax, (uint64_t)r.format.emax);
    }
}

/* The table of most digits at zurkeb_format, and one digit more. */
static void most_digits(void) {
    static const uint32_t table[13][2] = {{2, 63}, {3, 39}, {4, 31}, {5, 27}, {7, 22}, {8, 21}, {10, 18},
                                          {12, 17}, {16, 15}, {36, 12}, {60, 10}, {100, 9}, {256, 7}};
    for (int i = 0; i < 13; i++) {
        zurkeb_format format = {table[i][0], table[i][1], -1200, 1200};
        same("the most digits", zurkeb_check_format(format), ZURKEB_NONE);
        format.digits++;
        same("one more", zurkeb_check_format(format), ZURKEB_FORMAT_NOT_ADMITTED);
    }
}

static void halves(void) {
    uint64_t sum = zurkeb_pattern_sum(0x3f800000u, 0x3f800000u, ZURKEB_NEAREST_EVEN);
    same("no refusal", zurkeb_refusal_of(sum), ZURKEB_NONE);
    same("one and one", zurkeb_pattern_of(sum), 0x40000000u);
    uint64_t refused = zurkeb_pattern_quotient(0x3f800000u, 0, ZURKEB_UPWARD);
    same("refused", zurkeb_refusal_of(refused), ZURKEB_DIVISOR_ZERO);
    same("no pattern", zurkeb_pattern_of(refused), 0);
}

/* The example at zurkeb_number: one, in decimal with 7 digits. */
static void one(void) {
    zurkeb_number short_one = {1, 0, 0};
    same("not in the format", zurkeb_check_number(ZURKEB_DECIMAL32, short_one), ZURKEB_NUMBER_NOT_IN_FORMAT);
    zurkeb_rounded_answer r = zurkeb_convert(ZURKEB_DECIMAL32, ZURKEB_NEAREST_EVEN, short_one);
    same("converted", r.refusal, ZURKEB_NONE);
    same("exact", r.mark, ZURKEB_EXACT);
    same("significand", r.number.significand, 1000000);
    same("exponent", (uint64_t)r.number.exponent, (uint64_t)-6);
}

/* A caller who does not look at a refusal and sums on with what stands beside it is refused, where {0, 0, 0} would be a zero too. */
static void summed_on(void) {
    zurkeb_format format = {10, 9, 0, 3};
    zurkeb_number greatest = {999999999, 3, 0}, one = {1, 0, 0};
    zurkeb_number sum = zurkeb_sum(format, ZURKEB_NEAREST_EVEN, greatest, greatest).number;
    same("no number", zurkeb_check_number(format, sum), ZURKEB_NUMBER_NOT_IN_FORMAT);
    same("summed on", zurkeb_sum(format, ZURKEB_NEAREST_EVEN, sum, one).refusal, ZURKEB_NUMBER_NOT_IN_FORMAT);
    same("no format", zurkeb_check_format(zurkeb_published(0).format), ZURKEB_FORMAT_NOT_ADMITTED);
}

/* NULL with length 0. */
static void nothing(void) {
    same("sum_slices", zurkeb_sum_slices(NULL, 0, NULL, 0, NULL, 0, ZURKEB_NEAREST_EVEN).refusal, ZURKEB_NONE);
    same("nearest_line", zurkeb_nearest_line(NULL, 0, 0).refusal, ZURKEB_LIST_LENGTH);
    same("boundary_sum", zurkeb_boundary_sum(NULL, 0, NULL, 0, ZURKEB_NEAREST_EVEN).refusal, ZURKEB_STRIP_COUNT);
    same("calmer_stretch", zurkeb_calmer_stretch(NULL, 0, NULL, 0, 0, 0).refusal, ZURKEB_STRETCH_OUTSIDE);
}

int main(void) {
    texts();
    formats();
    most_digits();
    halves();
    one();
    summed_on();
    nothing();
    return no_difference();
}
