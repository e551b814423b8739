/* Replay of a long capture by whole programs. */
#ifndef BENCH_REPLAY_H
#define BENCH_REPLAY_H

#include <stdbool.h>

#include "status.h"

enum { REPLAY_PROGRAMS = 8 }; /* at most, and at least one */

/* Compares what the programs print; if it is all alike and times are wanted, times and prints them. Ratios are to the
 * first program. The directory keeps the capture. */
enum status replay_measure(const char *directory, char *const programs[], unsigned count, bool timed);

#endif
