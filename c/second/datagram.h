/*
 * datagram.h - connectionless traffic: datagrams from users, and frames from
 * the line.
 *
 * Each function serves its record, or gives the refusal and writes nothing.
 * Neither changes the table.
 */
#ifndef DATAGRAM_H
#define DATAGRAM_H

#include <stdint.h>

#include "record.h"
#include "refusal.h"
#include "table.h"

/* Takes a P or C of code 0x07 from an open stream, its M right behind it. */
enum refusal second_take_datagram(const struct table *table,
                                  const uint8_t *record,
                                  struct outcome *outcome);

/* Takes the body of an f. */
enum refusal second_frame_arrives(const struct table *table,
                                  const uint8_t *body,
                                  struct outcome *outcome);

#endif
