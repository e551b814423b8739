/* Captures for testing a provider: input records, right behind one another, that follow from a seed. */
#ifndef GENERATE_GENERATE_H
#define GENERATE_GENERATE_H

#include "generator.h"

void generate_start(struct generator *generator, uint64_t seed, uint64_t calls);

/* Makes the record of the next call, a datagram with its M; false after the last. */
bool generate_next(struct generator *generator, struct record *record);

#endif
