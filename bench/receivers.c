#include "receivers.h"

#include <stdio.h>

#include "operands.h"
#include "timing.h"

enum { ENTRIES = 4096 };

static uint32_t logs[2][ENTRIES];

/* Stretches of one length, one after the other, over both logs. */
static uint64_t stretch_pass(const void *what) {
    size_t length = *(const size_t *)what;
    uint64_t used = 0;
    for (size_t start = 0; start + length <= ENTRIES; start += length) {
        zurkeb_stretch_answer r = zurkeb_calmer_stretch(logs[0], ENTRIES, logs[1], ENTRIES, start, length);
        used = 3 * used + r.log + r.refusal;
    }
    return used;
}

void time_receivers(void) {
    static const size_t lengths[] = {1, 16, 256, ENTRIES};
    enum { count = sizeof lengths / sizeof *lengths };
    for (int i = 0; i < ENTRIES; i++) { /* offsets between 1 and 2 */
        logs[0][i] = 0x3f800000u + (random32() & 0x7fffffu);
        logs[1][i] = 0x3f800000u + (random32() & 0x7fffffu);
    }
    printf("\n| calmer_stretch, entries | ns | median | ns an entry |\n|---|---|---|---|\n");
    for (int i = 0; i < count; i++) {
        work w = {stretch_pass, &lengths[i]};
        timed t;
        time_works(&w, &t, 1, (int)(ENTRIES / lengths[i]));
        printf("| %zu | %.1f | %.1f | %.2f |\n", lengths[i], t.best, t.median, t.best / (double)lengths[i]);
    }
}
