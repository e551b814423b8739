/* Choosing at random from what the generator's table holds. */
#ifndef GENERATE_PICK_H
#define GENERATE_PICK_H

#include "generator.h"

/* An open stream in one of the states, or -1. Each state that occurs is as likely as another. */
int pick_stream(struct generator *generator, unsigned states);

/* A stream for which the test holds with that argument, or -1. */
typedef bool stream_test(const uint8_t *image, unsigned stream, unsigned argument);
int pick_stream_where(struct generator *generator, stream_test *test, unsigned argument);

/* Whether the stream is idle and bound in mode 2, whatever the argument: it sends datagrams and gets frames. */
stream_test is_connectionless;

/* A closed stream's number, or one over 15. */
unsigned pick_no_stream(struct generator *generator);

/* A stream bound in mode 2 to the same PPA as that one, or -1. */
int pick_connectionless_beside(struct generator *generator, unsigned stream);

/* The place of a PPA, the first one most often, or -1 if there is none. */
int pick_ppa(struct generator *generator);

/* A number that no PPA has. */
uint32_t pick_unknown_ppa(struct generator *generator);

/* A correlation number open on the stream, or 0 if there is none. */
uint32_t pick_open_number(struct generator *generator, unsigned stream);

/* A correlation number not open on the stream. */
uint32_t pick_foreign_number(struct generator *generator, unsigned stream);

/* Any up to the highest that a request has, a datagram's more often. */
uint32_t pick_small_code(struct generator *generator);

unsigned pick_sap(struct generator *generator);
unsigned pick_type(struct generator *generator);

/* A number that is apt to be handled wrongly. */
uint32_t pick_awkward(struct generator *generator);

/* A number that is apt to be taken for another one: a bit away from it, or one. */
uint32_t pick_near(struct generator *generator, uint32_t value);

/* Any bytes. */
void pick_bytes(struct generator *generator, uint8_t *bytes, size_t size);

/* Turns one bit over. */
void pick_bit(struct generator *generator, uint8_t *bytes, size_t size);

#endif
