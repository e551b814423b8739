/* replay.h - replays records from a file and prints what each call gives. */
#ifndef REPLAY_H
#define REPLAY_H

#include <stdio.h>

#include "ending.h"

/* Starts from a fresh table. Whatever is refused, the replay is done. */
enum ending second_replay(FILE *in, FILE *out);

#endif
