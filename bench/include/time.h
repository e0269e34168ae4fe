// The time that this process has used, as x86-64 Linux has it.
#ifndef BENCH_TIME_H
#define BENCH_TIME_H

#define CLOCK_PROCESS_CPUTIME_ID 2

struct timespec {
    long tv_sec;
    long tv_nsec;
};

int clock_gettime(int clock, struct timespec *now);

#endif
