/* Making the call, and looking at what it left. */
#include "exchange.h"

#include <string.h>

#include "stage.h"
#include "text.h"

void exchange_check(struct checks *checks, const struct exchange *exchange, size_t room_len)
{
    struct stage stage;
    uint8_t owed[LONGEST_CALL];
    const char *text = exchange->owed;
    size_t size = text_record(&text, owed);
    stage_set(&stage, exchange->setup);
    uint32_t answer = stage_call_in_room(&stage, exchange->record, room_len);
    check(checks, answer == size, "%s writes %zu bytes", exchange->name, size);
    check(checks, memcmp(stage.room, owed, size) == 0, "%s writes %s", exchange->name, exchange->owed);
    check(checks, all_are(stage.room + size, sizeof stage.room - size, ROOM_BYTE), "%s leaves the rest of the room",
          exchange->name);
    check(checks, stage_table_is_kept(&stage), "%s leaves the table", exchange->name);
}
