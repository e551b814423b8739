/* The sizes of records: of each kind when whole, when cut, and with bytes behind it; and of what is none. */
#include <string.h>

#include "groups.h"
#include "stage.h"

enum { KINDS = 256 };

/* The bytes of a whole record by itself, or 0 for what is no kind of record in. */
static size_t owed_size(unsigned kind)
{
    static const struct {
        unsigned char kind;
        size_t size;
    } sizes[] = {
        { 'G', 11 }, { 'O', 1 }, { 'X', 2 }, { 'P', 99 }, { 'C', 99 }, { 'I', 19 }, { 'A', 9 },
        { 'D', 6 }, { 'W', 10 }, { 'R', 6 }, { 'S', 2 }, { 'M', 67 }, { 'f', 87 },
    };
    for (size_t i = 0; i < sizeof sizes / sizeof sizes[0]; i++)
        if (kind == sizes[i].kind)
            return sizes[i].size;
    return 0;
}

/* Whole, but no record all the same: an M by itself, and an f with an address length of 0xff. */
static bool is_refused_whole(unsigned kind)
{
    return kind == 'M' || kind == 'f';
}

/* Whether the kind, its body all 0xff, has its size with so many bytes lent; if it has none, a call refuses it. */
static bool is_sized(unsigned kind, size_t lent)
{
    struct stage stage;
    uint8_t record[MOST_LENT];
    size_t size = lent < owed_size(kind) ? 0 : owed_size(kind);
    memset(record, 0xff, sizeof record);
    record[0] = (uint8_t)kind;
    if (kungthevi_record_size(record, lent) != size)
        return false;
    stage_set(&stage, LISTENER);
    stage_prepare(&stage);
    uint32_t answer = kungthevi_call(stage.table, sizeof stage.table, record, lent, stage.room, KUNGTHEVI_ROOM_SIZE);
    if (size != 0 && !is_refused_whole(kind))
        return KUNGTHEVI_REFUSAL(answer) != KUNGTHEVI_NOT_A_RECORD;
    return answer == (uint32_t)KUNGTHEVI_NOT_A_RECORD << 16 && stage_is_kept(&stage);
}

void run_records(struct checks *checks)
{
    for (unsigned kind = 0; kind < KINDS; kind++) {
        size_t lent = 0;
        while (lent <= MOST_LENT && is_sized(kind, lent))
            lent++;
        check(checks, lent > MOST_LENT, "a record of kind 0x%02x with %zu bytes lent", kind, lent);
    }
}
