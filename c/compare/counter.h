/* Moving a table's counter to where the next number is hard to find. The table stays sound. */
#ifndef COMPARE_COUNTER_H
#define COMPARE_COUNTER_H

#include <stdint.h>

#include "../generate/dice.h"

/* To 0 or an open number, or one or two before it. The image is sound. */
void counter_move(struct dice *dice, uint8_t *image);

#endif
