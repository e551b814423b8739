/* Runs of bytes lent to a provider, each in an allocation of its own between guard bytes. */
#ifndef COMPARE_LENT_H
#define COMPARE_LENT_H

#include <stdbool.h>
#include <stddef.h>
#include <stdint.h>

struct lent {
    uint8_t *bytes;
    size_t size;
    size_t guard; /* how many guard bytes stand before the run, and as many behind it */
};

/* A run that starts as a copy of the bytes. Ends the program if there is no memory. */
struct lent lent_copy(const uint8_t *bytes, size_t size, size_t guard);

/* Whether every guard byte is as it was. */
bool lent_is_guarded(const struct lent *lent);

void lent_free(const struct lent *lent);

#endif
