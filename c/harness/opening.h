/* The newest opening of a stream: its counts, and the connection indications that are open. */
#ifndef HARNESS_OPENING_H
#define HARNESS_OPENING_H

#include <stdbool.h>
#include <stddef.h>
#include <stdint.h>

#include "../layout.h"
#include "fate.h"

struct counts {
    uint64_t calls;        /* indications written */
    uint64_t fates[FATES]; /* records of each fate; indications still open */
};

struct indication {
    uint64_t place;  /* among those of its opening, from 1 */
    uint32_t number; /* its correlation number */
};

struct opening {
    uint64_t ordinal; /* among those of its stream, from 1; 0 if the stream was never opened */
    struct counts counts;
    struct indication open[INDICATIONS]; /* oldest first */
};

/* The stream is opened: for the first time, or again. */
void opening_start(struct opening *opening);

/* An indication rings in. Returns false if there is no room for it. */
bool opening_ring(struct opening *opening, uint32_t number);

/* The open indication of that number meets its fate. Returns false if there is none. */
bool opening_end_call(struct opening *opening, uint32_t number, enum fate fate, struct indication *ended);

void counts_add(struct counts *sum, const struct counts *counts);

#endif
