// Stands in for the C library's header, which the kit has not: what our programs call of it.
#ifndef TIME_H
#define TIME_H
struct timespec {
    long tv_sec, tv_nsec;
};
#define CLOCK_MONOTONIC 1
int clock_gettime(int clock, struct timespec *time);
#endif
