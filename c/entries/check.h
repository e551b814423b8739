/* Counting named checks. */
#ifndef ENTRIES_CHECK_H
#define ENTRIES_CHECK_H

#include <stdbool.h>

struct checks {
    unsigned passed;
    unsigned failed;
};

/* Prints the name, a format with its values, of a check that does not hold. */
void check(struct checks *checks, bool holds, const char *name, ...);

#endif
