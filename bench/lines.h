/* The calls on saved lines. */
#ifndef BENCH_LINES_H
#define BENCH_LINES_H

/* Prints a table: nanoseconds for each call on a full list, and for its checks alone. */
void time_lines(void);

#endif
