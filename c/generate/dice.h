/* Random numbers that follow from a seed alone, alike on every machine. */
#ifndef GENERATE_DICE_H
#define GENERATE_DICE_H

#include <stdbool.h>
#include <stdint.h>

struct dice {
    uint64_t state;
};

struct dice dice_from_seed(uint64_t seed);

uint32_t dice_any(struct dice *dice);

/* A number from 0 to bound - 1; the bound is not 0. */
uint32_t dice_below(struct dice *dice, uint32_t bound);

/* True once in so many times on average. */
bool dice_one_in(struct dice *dice, uint32_t times);

#endif
