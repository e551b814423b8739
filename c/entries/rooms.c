/* Rooms of each size from 0 to LONGEST_ROOM: KUNGTHEVI_ROOM_SIZE is the smallest that is served, for a frame
 * KUNGTHEVI_FRAME_ROOM_SIZE, and the rest of it stays. */
#include "../layout.h"
#include "groups.h"
#include "stage.h"

struct use {
    const char *name;
    const char *setup;
    const char *record;
    size_t needed;
    size_t written;
};

static const struct use uses[] = {
    { "an opening", TWO_PPAS, "O", KUNGTHEVI_ROOM_SIZE, 0 },
    { "INFO_REQ", LISTENER, INFO, KUNGTHEVI_ROOM_SIZE, LONGEST_RECORD },
    { "an accept", LISTENER CALL, ACCEPT("00000001", "00000000"), KUNGTHEVI_ROOM_SIZE, 6 + LONGEST_RECORD },
    { "a close with two open", LISTENER CALL CALL, "X 00", KUNGTHEVI_ROOM_SIZE, 2 * 10 },
    { "a datagram", BOARD, DATAGRAM, KUNGTHEVI_ROOM_SIZE, SENT_SIZE },
    { "a frame", BOARD, FRAME, KUNGTHEVI_FRAME_ROOM_SIZE, LONGEST_CALL },
};

/* Whether the call is served exactly if the room is not too little, and writes no more than its records. */
static bool is_used(const struct use *use, size_t room_len)
{
    struct stage stage;
    stage_set(&stage, use->setup);
    uint32_t answer = stage_call_in_room(&stage, use->record, room_len);
    if (room_len < use->needed)
        return answer == (uint32_t)KUNGTHEVI_LITTLE_ROOM << 16 && stage_is_kept(&stage);
    return KUNGTHEVI_REFUSAL(answer) == 0 && KUNGTHEVI_WRITTEN(answer) == use->written &&
           !stage_is_kept(&stage) &&
           all_are(stage.room + use->written, sizeof stage.room - use->written, ROOM_BYTE);
}

void run_rooms(struct checks *checks)
{
    for (size_t i = 0; i < sizeof uses / sizeof uses[0]; i++) {
        size_t room_len = 0;
        while (room_len <= LONGEST_ROOM && is_used(&uses[i], room_len))
            room_len++;
        check(checks, room_len > LONGEST_ROOM, "%s with a room of %zu bytes", uses[i].name, room_len);
    }
}
