/* The entries of both providers, and the lending of bytes to them. */
#include "provider.h"

#include <assert.h>
#include <string.h>

#include "../layout.h"
#include "../second/second.h"
#include "lent.h"

static_assert(SECOND_ROOM_SIZE == KUNGTHEVI_ROOM_SIZE && SECOND_FRAME_ROOM_SIZE == KUNGTHEVI_FRAME_ROOM_SIZE,
              "both need as much room");

/* Odd, so that what is lent stands at odd addresses, and longer than a record, so that one out of place is still caught
 * before it does harm. */
enum { GUARD = 127 };

/* AddressSanitizer sees the first byte outside an allocation that the second program touches, so there the guards
 * give way to it. The library is not built with it and keeps its guards. */
#ifdef __SANITIZE_ADDRESS__
enum { GUARD_OF_SECOND = 0 };
#else
enum { GUARD_OF_SECOND = GUARD };
#endif

const struct provider providers[PROVIDERS] = {
    [LIBRARY] = { "library", GUARD, kungthevi_fresh, kungthevi_call, kungthevi_record_size, kungthevi_sap },
    [SECOND] = { "second", GUARD_OF_SECOND, second_fresh, second_call, second_record_size, second_sap },
};

bool lending_is_frame(const struct lending *lending)
{
    return lending->record_size > 0 && lending->record[AT_KIND] == 'f';
}

size_t lending_room_needed(const struct lending *lending)
{
    return lending_is_frame(lending) ? KUNGTHEVI_FRAME_ROOM_SIZE : KUNGTHEVI_ROOM_SIZE;
}

static const char *find_trespass(const struct lending *lending, const struct lent *table, const struct lent *record,
                                 const struct lent *room)
{
    if (!lent_is_guarded(table))
        return "wrote outside the table";
    if (!lent_is_guarded(room))
        return "wrote outside the room";
    if (!lent_is_guarded(record) || memcmp(record->bytes, lending->record, record->size) != 0)
        return "wrote into the record or around it";
    return NULL;
}

void provider_call(const struct provider *provider, const struct lending *lending, struct outcome *outcome)
{
    struct lent table = lent_copy(lending->table, lending->table_size, provider->guard);
    struct lent record = lent_copy(lending->record, lending->record_size, provider->guard);
    struct lent room = lent_copy(lending->room, lending->room_size, provider->guard);
    outcome->record_size = provider->record_size(record.bytes, record.size);
    outcome->answer = provider->call(table.bytes, table.size, record.bytes, record.size, room.bytes, room.size);
    outcome->trespass = find_trespass(lending, &table, &record, &room);
    memcpy(outcome->table, table.bytes, table.size);
    memcpy(outcome->room, room.bytes, room.size);
    lent_free(&table);
    lent_free(&record);
    lent_free(&room);
}

void provider_fresh(const struct provider *provider, const struct lending *lending, struct outcome *outcome)
{
    struct lent table = lent_copy(lending->table, lending->table_size, provider->guard);
    outcome->record_size = 0;
    outcome->answer = provider->fresh(table.bytes, table.size);
    outcome->trespass = lent_is_guarded(&table) ? NULL : "wrote outside the table";
    memcpy(outcome->table, table.bytes, table.size);
    memcpy(outcome->room, lending->room, lending->room_size);
    lent_free(&table);
}
