/* Data as an M and a frame have it: one byte of length, then 64 bytes, zero past the length. */
#ifndef GENERATE_DATA_H
#define GENERATE_DATA_H

#include "generator.h"

/* Writes any data of any length, none and all 64 bytes more often, where all is zero. */
void data_fill(struct generator *generator, uint8_t *data);

/* A length over 64. */
void data_spoil_length(struct generator *generator, uint8_t *data);

/* A byte past the length that is not zero, unless there is none. */
void data_spoil_padding(struct generator *generator, uint8_t *data);

#endif
