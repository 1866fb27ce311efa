/* The places program on a file of a million lines, against cat of its input and of its output. */
#ifndef BENCH_PROGRAMS_H
#define BENCH_PROGRAMS_H

/* Prints one table row for each program; answers whether the lines could be written and all programs ran. */
int time_programs(void);

#endif
