/* The clock, and the median of times. */
#ifndef RIGTEMPLE_BENCH_TIMING_H
#define RIGTEMPLE_BENCH_TIMING_H

#include <stdlib.h>
#include <time.h>

/* The clock in nanoseconds. */
static inline double now(void)
{
    struct timespec t;
    clock_gettime(CLOCK_MONOTONIC, &t);
    return 1e9 * (double)t.tv_sec + (double)t.tv_nsec;
}

static inline int by_size(const void *one, const void *other)
{
    double a = *(const double *)one, b = *(const double *)other;
    return (a > b) - (a < b);
}

static inline double median(double *times, unsigned count)
{
    qsort(times, count, sizeof times[0], by_size);
    return times[count / 2];
}

#endif
