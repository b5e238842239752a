/* The processor's clock, for measure.c, reading.c, writing.c and ties.c, which ask for POSIX before they include anything. */
#ifndef CLOCK_H
#define CLOCK_H

#include <time.h>

/* Nanoseconds that this program has taken. */
static inline double now(void)
{
    struct timespec t;
    clock_gettime(CLOCK_PROCESS_CPUTIME_ID, &t);
    return (double)t.tv_sec * 1e9 + (double)t.tv_nsec;
}

#endif
