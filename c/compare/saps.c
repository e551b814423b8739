/* Comparing what both providers tell of the numbers of a SAP field. */
#include "saps.h"

#include <inttypes.h>
#include <stdio.h>

#define NUMBERS_ABOVE (UINT32_MAX - NUMBERS_OF_TWO_BYTES + 1)

enum {
    NUMBERS_OF_TWO_BYTES = 65536,
    DRAWN_ABOVE = 65536
};

static void compare_number(struct comparison *comparison, uint32_t number)
{
    if (comparison_is_over(comparison))
        return;
    uint32_t library = providers[LIBRARY].sap(number), second = providers[SECOND].sap(number);
    comparison->counts.numbers++;
    if (library == second)
        return;
    comparison->counts.differences++;
    printf("SAP field 0x%08" PRIx32 ": library 0x%08" PRIx32 ", second 0x%08" PRIx32 "\n", number, library, second);
}

/* Each power of two above two bytes, with its neighbours. */
static void compare_edges(struct comparison *comparison)
{
    for (unsigned bit = 16; bit < 32; bit++)
        for (uint32_t step = 0; step < 3; step++)
            compare_number(comparison, (UINT32_C(1) << bit) - 1 + step);
    compare_number(comparison, UINT32_MAX);
}

void saps_compare(struct comparison *comparison)
{
    comparison->dice = dice_from_seed(comparison->seed);
    for (uint32_t number = 0; number < NUMBERS_OF_TWO_BYTES; number++)
        compare_number(comparison, number);
    compare_edges(comparison);
    for (unsigned drawn = 0; drawn < DRAWN_ABOVE; drawn++)
        compare_number(comparison, NUMBERS_OF_TWO_BYTES + dice_below(&comparison->dice, NUMBERS_ABOVE));
}
