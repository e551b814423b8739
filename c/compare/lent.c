/* Allocating, guarding and freeing what is lent. */
#include "lent.h"

#include <stdio.h>
#include <stdlib.h>
#include <string.h>

enum {
    GUARD_BYTE = 0xa5,
    CANNOT_COMPARE = 2 /* the exit status */
};

struct lent lent_copy(const uint8_t *bytes, size_t size, size_t guard)
{
    uint8_t *block = malloc(guard + size + guard);
    if (block == NULL) {
        perror("compare");
        exit(CANNOT_COMPARE);
    }
    memset(block, GUARD_BYTE, guard);
    memcpy(block + guard, bytes, size);
    memset(block + guard + size, GUARD_BYTE, guard);
    return (struct lent){ .bytes = block + guard, .size = size, .guard = guard };
}

bool lent_is_guarded(const struct lent *lent)
{
    const uint8_t *before = lent->bytes - lent->guard;
    const uint8_t *behind = lent->bytes + lent->size;
    for (size_t i = 0; i < lent->guard; i++)
        if (before[i] != GUARD_BYTE || behind[i] != GUARD_BYTE)
            return false;
    return true;
}

void lent_free(const struct lent *lent)
{
    free(lent->bytes - lent->guard);
}
