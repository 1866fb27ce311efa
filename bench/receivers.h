/* The calmer of two logs: how long a stretch takes. */
#ifndef BENCH_RECEIVERS_H
#define BENCH_RECEIVERS_H

/* Prints a table: nanoseconds for a call and for an entry of the stretch, by its length. */
void time_receivers(void);

#endif
