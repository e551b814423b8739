/* The two providers, and a call to one of them on bytes that are lent to it alone. */
#ifndef COMPARE_PROVIDER_H
#define COMPARE_PROVIDER_H

#include <stdbool.h>
#include <stddef.h>
#include <stdint.h>

#include "../kungthevi.h"

enum {
    LARGEST_TABLE = 1024, /* longer than a table, as wrong lengths are lent too */
    MOST_SPARE_ROOM = 72, /* beyond what the call needs */
    LARGEST_ROOM = KUNGTHEVI_FRAME_ROOM_SIZE + MOST_SPARE_ROOM
};

struct provider {
    const char *name;
    size_t guard; /* guard bytes on either side of what it is lent */
    uint32_t (*fresh)(uint8_t *table, size_t table_len);
    uint32_t (*call)(uint8_t *table, size_t table_len, const uint8_t *record, size_t record_len, uint8_t *room,
                     size_t room_len);
    uint32_t (*record_size)(const uint8_t *record, size_t record_len);
    uint32_t (*sap)(uint32_t number);
};

enum {
    LIBRARY,
    SECOND,
    PROVIDERS
};

extern const struct provider providers[PROVIDERS];

/* What a call is lent, as it stands before the call. */
struct lending {
    const uint8_t *table;
    size_t table_size;
    const uint8_t *record; /* with the bytes behind it that are lent, too */
    size_t record_size;
    const uint8_t *room;
    size_t room_size;
};

/* Whether the record is a frame, by its kind. */
bool lending_is_frame(const struct lending *lending);

/* The room that the call needs. */
size_t lending_room_needed(const struct lending *lending);

/* What a provider gave, and what it left. */
struct outcome {
    uint32_t answer;
    uint32_t record_size;
    const char *trespass; /* what it wrote where it must not, or NULL */
    uint8_t table[LARGEST_TABLE];
    uint8_t room[LARGEST_ROOM];
};

/* A call, and the size of its record. */
void provider_call(const struct provider *provider, const struct lending *lending, struct outcome *outcome);

/* Has a fresh table made out of the lent one. Record and room play no part. */
void provider_fresh(const struct provider *provider, const struct lending *lending, struct outcome *outcome);

#endif
