/* The newest opening of a stream: its counts, and the connection indications that are open. */
#include "opening.h"

#include <string.h>

void opening_start(struct opening *opening)
{
    *opening = (struct opening){ .ordinal = opening->ordinal + 1 };
}

bool opening_ring(struct opening *opening, uint32_t number)
{
    uint64_t *open = &opening->counts.fates[FATE_OPEN];
    if (*open == INDICATIONS)
        return false;
    opening->counts.calls++;
    opening->open[(*open)++] = (struct indication){ .place = opening->counts.calls, .number = number };
    return true;
}

bool opening_end_call(struct opening *opening, uint32_t number, enum fate fate, struct indication *ended)
{
    uint64_t *open = &opening->counts.fates[FATE_OPEN];
    size_t at = 0;
    while (at < *open && opening->open[at].number != number)
        at++;
    if (at == *open)
        return false;
    *ended = opening->open[at];
    opening->counts.fates[fate]++;
    (*open)--;
    memmove(opening->open + at, opening->open + at + 1, (*open - at) * sizeof opening->open[0]);
    return true;
}

void counts_add(struct counts *sum, const struct counts *counts)
{
    sum->calls += counts->calls;
    for (size_t fate = 0; fate < FATES; fate++)
        sum->fates[fate] += counts->fates[fate];
}
