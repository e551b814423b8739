/* Writing a user's message into a record. */
#ifndef GENERATE_MESSAGE_H
#define GENERATE_MESSAGE_H

#include "generator.h"

/* A message of kind P or C with the code and a block of zeros behind it, L 4. */
void message_start(struct generator *generator, struct record *record, unsigned stream, uint32_t code);

void message_put16(struct record *record, unsigned offset, uint16_t value);
void message_put32(struct record *record, unsigned offset, uint32_t value);
uint32_t message_get32(const struct record *record, unsigned offset);
unsigned message_length(const struct record *record);

/* Sets L, and to zero the block's bytes past it; an L over 96 leaves the block. */
void message_cut(struct record *record, unsigned length);

/* Sets L to the end of the last field, or now and then past it, with any bytes up to there. */
void message_finish(struct generator *generator, struct record *record, unsigned end);

#endif
