/*
 * event.h - the events from the line.
 *
 * Each function takes the body of its record, whose stream, if it names one,
 * is open. It serves the event, or gives the refusal and changes nothing.
 */
#ifndef EVENT_H
#define EVENT_H

#include <stdint.h>

#include "record.h"
#include "refusal.h"
#include "table.h"

enum refusal second_call_arrives(struct table *table, const uint8_t *body,
                                 struct outcome *outcome);
enum refusal second_peer_accepted(struct table *table, const uint8_t *body,
                                  struct outcome *outcome);
enum refusal second_peer_gone(struct table *table, const uint8_t *body,
                              struct outcome *outcome);
enum refusal second_call_withdrawn(struct table *table, const uint8_t *body,
                                   struct outcome *outcome);
enum refusal second_peer_reset(struct table *table, const uint8_t *body,
                               struct outcome *outcome);
enum refusal second_reset_confirmed(struct table *table, const uint8_t *body,
                                    struct outcome *outcome);

#endif
