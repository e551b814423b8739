/* The times that one piece of work took in several rounds, in seconds. */
#ifndef BENCH_TIMES_H
#define BENCH_TIMES_H

enum { TIMES_MOST = 32 };

struct times {
    unsigned count;
    double seconds[TIMES_MOST]; /* from the shortest on */
};

/* At most TIMES_MOST of them. */
void times_add(struct times *times, double seconds);

/* Both need at least one time. The best is the least disturbed; the median tells how far it is from the common one. */
double times_best(const struct times *times);
double times_median(const struct times *times);

#endif
