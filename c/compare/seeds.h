/* The order of a comparison: seed by seed, form by form. */
#ifndef COMPARE_SEEDS_H
#define COMPARE_SEEDS_H

#include "comparison.h"

/* Compares the captures of the seeds from the one given on, until the comparison is over. */
void seeds_compare(struct comparison *comparison);

#endif
