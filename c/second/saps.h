/* saps.h - what the numbers of a SAP field are. */
#ifndef SAPS_H
#define SAPS_H

#include <stdio.h>

#include "ending.h"

/*
 * The words, up to a NULL, are numbers in decimal, or in hex behind 0x. Prints
 * a line for each; a word that is no number of four bytes is named in err.
 */
enum ending second_saps(char *const words[], FILE *out, FILE *err);

#endif
