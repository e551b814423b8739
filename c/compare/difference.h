/* Telling of a call on which the providers differ, and keeping what led to it. */
#ifndef COMPARE_DIFFERENCE_H
#define COMPARE_DIFFERENCE_H

#include <stdbool.h>

#include "capture.h"
#include "judge.h"

struct difference {
    uint64_t seed;
    unsigned form;
    uint64_t call; /* the number of the record, as a replay counts */
    struct verdict verdict;
    const struct lending *lending;
    const struct outcome *outcomes;
    const struct capture *capture;
    size_t before; /* how many of its bytes stand before the record */
    const char *unlike_replay; /* why a replay from a fresh table does not repeat this call, or NULL */
};

void difference_print(const struct difference *difference);

/* Writes compare-SEED-FORM.capture into the directory, the records up to this one; where a replay does not repeat the
 * call, also the image that was lent, in the file of that name with .table behind it. Prints what was written. */
void difference_keep(const struct difference *difference, const char *directory);

#endif
