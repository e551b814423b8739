/* The times that one piece of work took in several rounds, in seconds. */
#include "times.h"

void times_add(struct times *times, double seconds)
{
    unsigned at = times->count++;
    for (; at > 0 && times->seconds[at - 1] > seconds; at--)
        times->seconds[at] = times->seconds[at - 1];
    times->seconds[at] = seconds;
}

double times_best(const struct times *times)
{
    return times->seconds[0];
}

double times_median(const struct times *times)
{
    return times->seconds[times->count / 2];
}
