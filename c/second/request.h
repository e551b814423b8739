/*
 * request.h - the requests, their order of errors and their state rows; those
 * of datagrams are in datagram.h.
 */
#ifndef REQUEST_H
#define REQUEST_H

#include <stddef.h>
#include <stdint.h>

#include "record.h"
#include "table.h"

/*
 * Answers a message of 4 to 96 bytes from open stream s: serves the request,
 * or sends ERROR_ACK with the first error that applies and changes nothing.
 */
void second_answer_request(struct table *table, unsigned s,
                           const uint8_t *message, size_t length,
                           struct outcome *outcome);

#endif
