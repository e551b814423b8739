#include "dice.h"

struct dice dice_from_seed(uint64_t seed)
{
    return (struct dice){ .state = seed };
}

/* The splitmix64 generator: a counter with a large odd step, and a mixing of its bits. */
uint32_t dice_any(struct dice *dice)
{
    dice->state += 0x9e3779b97f4a7c15u;
    uint64_t mixed = dice->state;
    mixed = (mixed ^ (mixed >> 30)) * 0xbf58476d1ce4e5b9u;
    mixed = (mixed ^ (mixed >> 27)) * 0x94d049bb133111ebu;
    return (uint32_t)((mixed ^ (mixed >> 31)) >> 32);
}

uint32_t dice_below(struct dice *dice, uint32_t bound)
{
    return (uint32_t)(((uint64_t)dice_any(dice) * bound) >> 32);
}

bool dice_one_in(struct dice *dice, uint32_t times)
{
    return dice_below(dice, times) == 0;
}
