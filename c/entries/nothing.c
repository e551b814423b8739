/* Runs of no bytes: a pointer to none, or NULL. */
#include <stddef.h>

#include "../layout.h"
#include "groups.h"
#include "stage.h"

/* Which of the three are lent; the others have length 0. */
struct lent {
    bool table;
    bool record;
    bool room;
    uint32_t refusal;
};

static const struct lent lents[] = {
    { false, false, false, KUNGTHEVI_NOT_SOUND },
    { false, false, true, KUNGTHEVI_NOT_SOUND },
    { false, true, false, KUNGTHEVI_NOT_SOUND },
    { false, true, true, KUNGTHEVI_NOT_SOUND },
    { true, false, false, KUNGTHEVI_NOT_A_RECORD },
    { true, false, true, KUNGTHEVI_NOT_A_RECORD },
    { true, true, false, KUNGTHEVI_LITTLE_ROOM },
    { true, true, true, 0 },
};

/* Whether an INFO_REQ is answered with the refusal and nothing else, or served if there is none. */
static bool is_answered(const struct lent *lent, bool null)
{
    static const uint8_t record[LONGEST_RECORD] = { 'P', 0, 4 };
    struct stage stage;
    stage_set(&stage, TWO_STREAMS);
    stage_prepare(&stage);
    uint8_t *table = lent->table || !null ? stage.table : NULL;
    const uint8_t *bytes = lent->record || !null ? record : NULL;
    uint8_t *room = lent->room || !null ? stage.room : NULL;
    uint32_t answer = kungthevi_call(table, lent->table ? sizeof stage.table : 0, bytes,
                                     lent->record ? sizeof record : 0, room, lent->room ? sizeof stage.room : 0);
    if (lent->refusal == 0)
        return answer == sizeof record;
    return answer == lent->refusal << 16 && stage_is_kept(&stage);
}

void run_nothing(struct checks *checks)
{
    uint8_t byte = 0;
    for (size_t i = 0; i < sizeof lents / sizeof lents[0]; i++) {
        const struct lent *lent = &lents[i];
        check(checks, is_answered(lent, true), "call with table %d, record %d, room %d, the others NULL", lent->table,
              lent->record, lent->room);
        check(checks, is_answered(lent, false), "call with table %d, record %d, room %d, the others of length 0",
              lent->table, lent->record, lent->room);
    }
    check(checks, kungthevi_fresh(NULL, 0) == KUNGTHEVI_NOT_SOUND, "fresh of NULL");
    check(checks, kungthevi_fresh(&byte, 0) == KUNGTHEVI_NOT_SOUND && byte == 0, "fresh of length 0");
    check(checks, kungthevi_record_size(NULL, 0) == 0, "record size of NULL");
    check(checks, kungthevi_record_size((const uint8_t *)"O", 0) == 0, "record size of length 0");
}
