/* Tables of each length from 0 to 2000: KUNGTHEVI_TABLE_SIZE is the one that is served. */
#include <string.h>

#include "groups.h"
#include "stage.h"

enum {
    LONGEST_TABLE = 2000,
    TABLE_BYTE = 0xa5
};

/* Whether a fresh table is made exactly if the length is right, and no other byte is written. */
static bool is_made_fresh(size_t length)
{
    static const uint8_t header[] = { 0xff, 0xff, 0, 0, 0, 0, 0, 1 };
    uint8_t area[LONGEST_TABLE];
    memset(area, TABLE_BYTE, sizeof area);
    uint32_t answer = kungthevi_fresh(area, length);
    if (length != KUNGTHEVI_TABLE_SIZE)
        return answer == KUNGTHEVI_NOT_SOUND && all_are(area, sizeof area, TABLE_BYTE);
    return answer == 0 && memcmp(area, header, sizeof header) == 0 &&
           all_are(area + sizeof header, length - sizeof header, 0) &&
           all_are(area + length, sizeof area - length, TABLE_BYTE);
}

/* Whether a call on a sound table, zeros behind it, is served exactly if it is lent with the right length. */
static bool is_called(size_t length)
{
    static const uint8_t record[] = { 'O' };
    uint8_t area[LONGEST_TABLE] = { 0 };
    uint8_t before[LONGEST_TABLE];
    struct stage stage;
    stage_set(&stage, LISTENER CALL);
    stage_prepare(&stage);
    memcpy(area, stage.table, sizeof stage.table);
    memcpy(before, area, sizeof before);
    uint32_t answer = kungthevi_call(area, length, record, sizeof record, stage.room, KUNGTHEVI_ROOM_SIZE);
    bool kept = memcmp(area, before, sizeof area) == 0 && all_are(stage.room, sizeof stage.room, ROOM_BYTE);
    if (length == KUNGTHEVI_TABLE_SIZE)
        return KUNGTHEVI_TOKEN(answer) == 3 && !kept;
    return answer == (uint32_t)KUNGTHEVI_NOT_SOUND << 16 && kept;
}

/* The first length at which it does not hold, or one that is not tried. */
static size_t first_wrong(bool (*holds)(size_t length))
{
    size_t length = 0;
    while (length <= LONGEST_TABLE && holds(length))
        length++;
    return length;
}

void run_tables(struct checks *checks)
{
    size_t fresh = first_wrong(is_made_fresh);
    size_t called = first_wrong(is_called);
    check(checks, fresh > LONGEST_TABLE, "fresh of a table of %zu bytes", fresh);
    check(checks, called > LONGEST_TABLE, "call on a table of %zu bytes", called);
}
