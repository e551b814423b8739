/* A call that leaves the table, and all that it writes. */
#ifndef ENTRIES_EXCHANGE_H
#define ENTRIES_EXCHANGE_H

#include <stddef.h>

#include "check.h"

struct exchange {
    const char *name;
    const char *setup;
    const char *record;
    const char *owed; /* as a text: the one record or the two that are written, or none */
};

/* With a room of that length. */
void exchange_check(struct checks *checks, const struct exchange *exchange, size_t room_len);

#endif
