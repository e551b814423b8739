/* Records written as texts: the kind, then the body in hex.
 *
 * Of a message's block and of data the first bytes are written, and the others are zero. A plus stands before a second
 * record right behind the first, as a datagram has it. What is for one call ends with a semicolon. */
#ifndef ENTRIES_TEXT_H
#define ENTRIES_TEXT_H

#include <stddef.h>
#include <stdint.h>

#include "../layout.h"

/* Reads the one record or the two at the start of the text, and moves the text on to the next. Returns their size, 0 at
 * the end. */
size_t text_record(const char **text, uint8_t record[LONGEST_CALL]);

#endif
