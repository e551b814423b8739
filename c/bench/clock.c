/* The clocks that work is timed by, in seconds. */
#define _POSIX_C_SOURCE 200809L
#include "clock.h"

#include <time.h>

static double seconds_by(clockid_t id)
{
    struct timespec now = { 0, 0 };
    (void)clock_gettime(id, &now);
    return (double)now.tv_sec + (double)now.tv_nsec / 1e9;
}

double clock_processor(void)
{
    return seconds_by(CLOCK_PROCESS_CPUTIME_ID);
}

double clock_wall(void)
{
    return seconds_by(CLOCK_MONOTONIC);
}
