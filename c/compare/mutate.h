/* Forms of a capture: its records changed, moved, left out, doubled or cut, and junk among them. */
#ifndef COMPARE_MUTATE_H
#define COMPARE_MUTATE_H

#include "../generate/dice.h"
#include "capture.h"

/* The capture as it was generated. */
void mutate_nothing(const struct originals *originals, struct capture *form);

/* A form drawn by the dice. Most forms are of whole records, so that calls go on to the end; in some a record is cut or
 * junk stands before it, and what follows is read from the wrong byte on. */
void mutate_capture(const struct originals *originals, struct dice *dice, struct capture *form);

#endif
