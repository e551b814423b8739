/* A decimal number on the command line. */
#ifndef GENERATE_NUMBER_H
#define GENERATE_NUMBER_H

#include <stdbool.h>
#include <stdint.h>

/* Reads digits and nothing else, up to the limit; false if the text is anything else. */
bool number_read(const char *text, uint64_t limit, uint64_t *number);

#endif
