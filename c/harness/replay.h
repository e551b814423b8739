/* kungthevi replay: prints what a correct provider answers to the calls of captures. */
#ifndef HARNESS_REPLAY_H
#define HARNESS_REPLAY_H

#include <stddef.h>

#include "status.h"
#include "text.h"

/* Replays each capture from a fresh table, and prints one text behind the other. No file means standard input. */
enum status replay(struct text *text, char *const *files, size_t count);

#endif
