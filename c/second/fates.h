/* fates.h - what became of each call of a capture. */
#ifndef FATES_H
#define FATES_H

#include <stdbool.h>
#include <stdio.h>

#include "capture.h"
#include "ending.h"
#include "ledger.h"

/*
 * Notes what a turn tells: the stream opened, the calls that ring in and the
 * fates, from the records in and out alone. False as in ledger.h.
 */
bool second_note_turn(struct ledger *ledger, const struct turn *turn);

/* Starts from a fresh table, and prints the fates of the capture. */
enum ending second_fates(FILE *in, FILE *out);

#endif
