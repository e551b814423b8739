/* A comparison: what it is to do, what it is at, and what it has done. */
#ifndef COMPARE_COMPARISON_H
#define COMPARE_COMPARISON_H

#include <stdbool.h>
#include <stdint.h>

#include "../generate/dice.h"
#include "capture.h"
#include "counts.h"
#include "damage.h"

struct comparison {
    uint64_t limit;        /* how many calls to compare */
    const char *directory; /* for the captures that lead to a difference */
    uint64_t seed;         /* of the capture in hand */
    unsigned form;         /* its form in hand, from 0 for the capture as generated */
    struct dice dice;      /* start anew with each seed, so that a seed's calls follow from it alone */
    struct originals originals;
    struct capture capture; /* the form's bytes */
    struct kept kept;
    struct counts counts;
};

/* Whether enough calls are compared, or so many differ that more would tell nothing. */
bool comparison_is_over(const struct comparison *comparison);

#endif
