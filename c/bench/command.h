/* Running a program and timing it. */
#ifndef BENCH_COMMAND_H
#define BENCH_COMMAND_H

#include <stdbool.h>

struct command_time {
    double wall; /* in seconds */
    double processor;
};

/* Runs a command line, split at spaces, from one file to another. False, with a word on standard error, if it can't be
 * run or fails: ends by a signal or with an exit status over 1. */
bool command_run(const char *line, const char *input, const char *output, struct command_time *time);

#endif
