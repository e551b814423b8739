/* The providers that are measured beside one another. */
#ifndef BENCH_PROVIDER_H
#define BENCH_PROVIDER_H

#include <stddef.h>
#include <stdint.h>

/* Callers are called record by record; inner runs over a whole capture. Ratios are to the second program. */
enum {
    LIBRARY,
    SECOND,
    CALLERS,
    INNER = CALLERS,
    PROVIDERS
};

struct caller {
    uint32_t (*fresh)(uint8_t *table, size_t table_len);
    uint32_t (*call)(uint8_t *table, size_t table_len,
                     const uint8_t *record, size_t record_len,
                     uint8_t *room, size_t room_len);
};

extern const struct caller callers[CALLERS];
extern const char *const provider_names[PROVIDERS];

#endif
