/* A stand-in for <time.h>: what the C programs of this tree use of it, for Linux. */
#ifndef RIGTEMPLE_TESTS_TIME_H
#define RIGTEMPLE_TESTS_TIME_H

struct timespec {
    long tv_sec;
    long tv_nsec;
};
#define CLOCK_MONOTONIC 1
int clock_gettime(int clock, struct timespec *now);

#endif
