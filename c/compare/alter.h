/* Changing the bytes of one record, so that a whole record is left. */
#ifndef COMPARE_ALTER_H
#define COMPARE_ALTER_H

#include "../generate/dice.h"
#include "../generate/record.h"

/* Changes something of the record, or of one of the two that a datagram is; the other one is where a value may come
 * from. The size stays, and a kind of that size. A cut record, one of unknown kind and an O stay as they are. */
void alter_record(struct dice *dice, struct record *record, const struct record *other);

#endif
