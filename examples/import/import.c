/* Import of a boundary: which of its lines are saved already? A line is the same if it lies within one step of the number format, which is
 * decimal with 7 digits here. Reads the saved lines from the file that is named, the new ones from standard input, a decimal number a line;
 * reading and writing text is plain C, outside the engine. */
#include <inttypes.h>
#include <stdio.h>
#include <string.h>

#include "zurkeb.h"

enum { MOST = 4096, WIDTH = 64 };

/* A line as the engine has it. */
typedef struct line {
    zurkeb_number number;
    int good;
} line;

/* The number of a text: a sign perhaps, digits, and a point perhaps, rounded into the format. */
static line read_line(const char *text) {
    line read = {{0, 0, 0}, 0};
    zurkeb_number raw = {0, 0, 0};
    int digits = 0, point = 0;
    if (*text == '-') {
        raw.negative = 1;
        text++;
    }
    for (; *text != '\0'; text++) {
        if (*text == '.' && !point) {
            point = 1;
        } else if (*text >= '0' && *text <= '9' && digits < 19) {
            raw.significand = 10 * raw.significand + (uint64_t)(*text - '0');
            raw.exponent -= point;
            digits++;
        } else {
            return read;
        }
    }
    zurkeb_rounded_answer answer = zurkeb_convert(ZURKEB_DECIMAL32, ZURKEB_NEAREST_EVEN, raw);
    read.number = answer.number;
    read.good = digits > 0 && answer.refusal == ZURKEB_NONE;
    return read;
}

/* The next line of the file without its line feed; one that is too long is cut, and is no number then. 0 at the end. */
static int next_text(FILE *file, char text[WIDTH]) {
    if (fgets(text, WIDTH, file) == NULL)
        return 0;
    size_t length = strcspn(text, "\n");
    if (text[length] != '\n' && length == WIDTH - 1) {
        for (int c = getc(file); c != '\n' && c != EOF; c = getc(file))
            continue;
        text[0] = '?';
    }
    text[length] = '\0';
    return 1;
}

/* All digits of a number: the significand with a point, or with the zeros that it lacks. */
static void print_number(zurkeb_number x) {
    char digits[24];
    int length = snprintf(digits, sizeof digits, "%" PRIu64, x.significand), before = length + x.exponent;
    printf("%s", x.negative ? "-" : "");
    if (before <= 0)
        printf("0.");
    for (int i = before; i < 0; i++)
        putchar('0');
    for (int i = 0; i < length; i++)
        printf("%s%c", i == before && before > 0 ? "." : "", digits[i]);
    for (int i = length; i < before; i++)
        putchar('0');
}

int main(int count, char **arguments) {
    static zurkeb_number saved[MOST];
    int known = 0;
    char text[WIDTH];
    FILE *file = count == 2 ? fopen(arguments[1], "r") : NULL;
    if (file == NULL) {
        fputs("usage: import SAVED < BOUNDARY\n", stderr);
        return 2;
    }
    while (known < MOST && next_text(file, text)) {
        line read = read_line(text);
        if (read.good)
            saved[known++] = read.number;
    }
    fclose(file);
    while (next_text(stdin, text)) {
        line read = read_line(text);
        int found = 0;
        if (!read.good) {
            puts("bad line");
            continue;
        }
        print_number(read.number);
        for (int i = 0; i < known; i++) {
            if (zurkeb_within_one_step(ZURKEB_DECIMAL32, saved[i], read.number).yes) {
                printf("%s", found++ == 0 ? " is saved as " : " and ");
                print_number(saved[i]);
            }
        }
        puts(found == 0 ? " is new" : "");
    }
    return 0;
}
