/* Calls a second, by each provider. */
#ifndef BENCH_CALLS_H
#define BENCH_CALLS_H

#include <stdbool.h>

#include "status.h"

/* Compares the providers on every capture; if all are alike and times are wanted, times and prints them. */
enum status calls_measure(bool timed);

#endif
