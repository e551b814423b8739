/* The providers that are measured beside one another. */
#include "provider.h"

#include <assert.h>

#include "../kungthevi.h"
#include "../second/second.h"

static_assert(SECOND_TABLE_SIZE == KUNGTHEVI_TABLE_SIZE, "a table fits every provider");
static_assert(SECOND_FRAME_ROOM_SIZE == KUNGTHEVI_FRAME_ROOM_SIZE, "a room fits every provider");

const struct caller callers[CALLERS] = {
    [LIBRARY] = { kungthevi_fresh, kungthevi_call },
    [SECOND] = { second_fresh, second_call },
};

const char *const provider_names[PROVIDERS] = {
    [LIBRARY] = "library",
    [SECOND] = "second",
    [INNER] = "inner",
};
