/* One form of a capture, played to both providers from a fresh table, with further calls along the way. */
#ifndef COMPARE_PLAY_H
#define COMPARE_PLAY_H

#include "comparison.h"

/* Plays to where reading ends, to the first difference, or until enough calls are compared. */
void play_form(struct comparison *comparison);

#endif
