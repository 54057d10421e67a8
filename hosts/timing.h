/* What the benchmarks share. */
#ifndef TIMING_H
#define TIMING_H

#include <stddef.h>

/* Says what went wrong, and ends the program. */
void fail(const char *what);

/* Processor time of this program, in nanoseconds. */
double now(void);

/* The middle one of the numbers by size, which are put in order; of an even number, the upper of the two. */
double median(double *numbers, size_t count);

#endif
