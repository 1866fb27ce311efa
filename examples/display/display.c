/* A display's program: reads lines of two binary32 patterns (eight hexadecimal digits each) and a direction, and prints sum, difference,
 * product and quotient, each as a pattern or as its refusal in words; for any other line `bad line`. */
#include <ctype.h>
#include <inttypes.h>
#include <stdio.h>
#include <stdlib.h>
#include <string.h>

#include "zurkeb.h"

enum { WIDTH = 80 };

static void show(const char *name, uint64_t answer) {
    if (zurkeb_refusal_of(answer) != ZURKEB_NONE)
        printf("%s: %s\n", name, zurkeb_refusal_text(zurkeb_refusal_of(answer)));
    else
        printf("%s %08" PRIx32 "\n", name, zurkeb_pattern_of(answer));
}

/* The number at *text, which has `fewest` to `most` digits to the base and ends the line or stands before one space; moves *text past it. */
static int read_field(const char **text, int base, size_t fewest, size_t most, uint32_t *out) {
    size_t length = strcspn(*text, " ");
    for (size_t i = 0; i < length; i++) {
        int c = (unsigned char)(*text)[i];
        if (base == 16 ? !isxdigit(c) : !isdigit(c))
            return 0;
    }
    if (length < fewest || length > most)
        return 0;
    unsigned long long value = strtoull(*text, NULL, base);
    *out = (uint32_t)value;
    *text += length + ((*text)[length] == ' ');
    return value <= UINT32_MAX;
}

static void answer(const char *text) {
    uint32_t a, b, direction;
    if (!read_field(&text, 16, 8, 8, &a) || !read_field(&text, 16, 8, 8, &b) || !read_field(&text, 10, 1, 10, &direction) || *text != '\0') {
        puts("bad line");
        return;
    }
    show("sum", zurkeb_pattern_sum(a, b, direction));
    show("difference", zurkeb_pattern_difference(a, b, direction));
    show("product", zurkeb_pattern_product(a, b, direction));
    show("quotient", zurkeb_pattern_quotient(a, b, direction));
}

int main(void) {
    char text[WIDTH];
    while (fgets(text, WIDTH, stdin) != NULL) {
        size_t length = strcspn(text, "\n");
        if (text[length] == '\0' && length == WIDTH - 1) { /* too long: the rest of the line is passed over */
            for (int c = getchar(); c != '\n' && c != EOF; c = getchar())
                continue;
        }
        text[length] = '\0';
        printf("%s\n", text);
        answer(text);
    }
    return 0;
}
