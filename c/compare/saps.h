/* Comparing what both providers tell of the numbers of a SAP field. */
#ifndef COMPARE_SAPS_H
#define COMPARE_SAPS_H

#include "comparison.h"

/* Every number of two bytes, and a sample above that follows from the comparison's seed. Prints those that differ. */
void saps_compare(struct comparison *comparison);

#endif
