/*
 * opening.h - adding PPAs, opening and closing streams.
 *
 * Each function serves its record, or gives the refusal and changes nothing.
 */
#ifndef OPENING_H
#define OPENING_H

#include <stdint.h>

#include "record.h"
#include "refusal.h"
#include "table.h"

enum refusal second_add_ppa(struct table *table, const uint8_t *body);

enum refusal second_open(struct table *table, struct outcome *outcome);

/* Takes the body of an X whose stream is open. */
enum refusal second_close(struct table *table, const uint8_t *body,
                          struct outcome *outcome);

#endif
