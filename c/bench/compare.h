/* Comparing what the providers make of a capture, so that what is timed later is the same work. */
#ifndef BENCH_COMPARE_H
#define BENCH_COMPARE_H

#include "capture.h"

/* What a capture is like, as seen while comparing. */
struct summary {
    unsigned ppas;             /* at the end */
    uint64_t refused;          /* calls */
    uint64_t errors;           /* calls answered with ERROR_ACK */
    uint64_t open_streams;     /* before each call, summed up */
    uint64_t open_indications; /* likewise */
};

/* Makes each call of the capture by each caller, from a fresh table, and then the run of inner. Returns whether the
 * numbers returned, the tables and the rooms are the same after every call, and the refused calls and the table at the
 * end of the run; if not, says on standard error where. */
bool compare_providers(const char *name, const struct capture *capture, struct summary *summary);

#endif
