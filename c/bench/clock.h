/* The clocks that work is timed by, in seconds. */
#ifndef BENCH_CLOCK_H
#define BENCH_CLOCK_H

/* Processor time of this process: what others do on the machine meanwhile is not in it. */
double clock_processor(void);

/* Time as it goes by; it never steps back. */
double clock_wall(void);

#endif
