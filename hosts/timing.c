/* Times and medians. */
#define _POSIX_C_SOURCE 200112L
#include "timing.h"

#include <stdio.h>
#include <stdlib.h>
#include <time.h>

void fail(const char *what)
{
    fprintf(stderr, "bench: %s\n", what);
    exit(1);
}

double now(void)
{
    struct timespec time;
    if (clock_gettime(CLOCK_PROCESS_CPUTIME_ID, &time) != 0)
        fail("there is no clock of processor time");
    return 1e9 * (double)time.tv_sec + (double)time.tv_nsec;
}

static int by_size(const void *x, const void *y)
{
    double a = *(const double *)x, b = *(const double *)y;
    return (a > b) - (a < b);
}

double median(double *numbers, size_t count)
{
    qsort(numbers, count, sizeof numbers[0], by_size);
    return numbers[count / 2];
}
