/* What every benchmark measures with: nanoseconds, and the best of many rounds. */
#include <time.h>

static inline double now(void)
{
    struct timespec t;
    clock_gettime(CLOCK_MONOTONIC, &t);
    return t.tv_sec * 1e9 + t.tv_nsec;
}

static inline void least(double *best, double t)
{
    if (t < *best) *best = t;
}
