/* sound.h - what makes a table sound. */
#ifndef SOUND_H
#define SOUND_H

#include <stdbool.h>

#include "table.h"

/* For a table that was read from a tidy image: its states have rows. */
bool second_is_sound(const struct table *table);

#endif
