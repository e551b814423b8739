/* Images that no capture leads to: some met on the way are kept, and changed at random. */
#ifndef COMPARE_DAMAGE_H
#define COMPARE_DAMAGE_H

#include <stddef.h>
#include <stdint.h>

#include "../generate/dice.h"
#include "provider.h"

enum {
    MOST_KEPT = 32,
    WRONG_LENGTHS = 5
};

/* Lengths of images that a provider may take for the right one. */
extern const size_t wrong_lengths[WRONG_LENGTHS];

struct kept {
    unsigned count;
    uint8_t images[MOST_KEPT][KUNGTHEVI_TABLE_SIZE];
};

/* Keeps a sound image, in the place of another one if there are as many as can be kept. */
void damage_keep(struct kept *kept, struct dice *dice, const uint8_t *image);

/* Makes a changed one of those kept, of which there is one at least. Many such images are not sound, and some are of a
 * wrong length; where only the counter is moved they still are. Returns the length. */
size_t damage_draw(const struct kept *kept, struct dice *dice, uint8_t image[LARGEST_TABLE]);

#endif
