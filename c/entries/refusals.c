/* Every refusal number of the header, by a call that gives it, and the order of the first ones. */
#include "../layout.h"
#include "groups.h"
#include "stage.h"

#define NAMED(constant) constant, #constant

struct refusal {
    uint32_t number;
    const char *name;
    const char *setup;
    const char *record;
    size_t room_len;
};

static const struct refusal refusals[] = {
    { NAMED(KUNGTHEVI_LITTLE_ROOM), TWO_PPAS, "O", KUNGTHEVI_ROOM_SIZE - 1 },
    { NAMED(KUNGTHEVI_NOT_OPEN), TWO_STREAMS, "X 02", KUNGTHEVI_ROOM_SIZE },
    { NAMED(KUNGTHEVI_NOT_OPEN), TWO_STREAMS, "X 10", KUNGTHEVI_ROOM_SIZE },
    { NAMED(KUNGTHEVI_ALL_OPEN), "O;O;O;O;O;O;O;O;O;O;O;O;O;O;O;O;", "O", KUNGTHEVI_ROOM_SIZE },
    { NAMED(KUNGTHEVI_NO_CODE), TWO_STREAMS, "P 00 03", KUNGTHEVI_ROOM_SIZE },
    { NAMED(KUNGTHEVI_OVER_LONG), TWO_STREAMS, "P 00 61", KUNGTHEVI_ROOM_SIZE },
    { NAMED(KUNGTHEVI_UNEXPECTED), TWO_STREAMS, "A 00 02000000000984", KUNGTHEVI_ROOM_SIZE },
    { NAMED(KUNGTHEVI_UNEXPECTED), LISTENER CALL, "W 00 00000002 00000000", KUNGTHEVI_ROOM_SIZE },
    { NAMED(KUNGTHEVI_NOBODY_THERE), TWO_STREAMS, CALL, KUNGTHEVI_ROOM_SIZE },
    { NAMED(KUNGTHEVI_BUSY), LISTENER CALL CALL, CALL, KUNGTHEVI_ROOM_SIZE },
    { NAMED(KUNGTHEVI_NO_NEW_PPA), TWO_PPAS, "G 00000002 020000000003", KUNGTHEVI_ROOM_SIZE },
    { NAMED(KUNGTHEVI_NOT_A_RECORD), TWO_STREAMS, "F 00", KUNGTHEVI_ROOM_SIZE },
    { NAMED(KUNGTHEVI_NOT_A_RECORD), TWO_STREAMS, "P 00 04 00000000 01", KUNGTHEVI_ROOM_SIZE },

    { NAMED(KUNGTHEVI_LITTLE_ROOM), BOARD, DATAGRAM, KUNGTHEVI_ROOM_SIZE - 1 },
    { NAMED(KUNGTHEVI_OVER_LONG), BOARD, DATAGRAM_ALONE "+ M 00 41", KUNGTHEVI_ROOM_SIZE },
    { NAMED(KUNGTHEVI_OVER_LONG), BOARD, DATAGRAM_ALONE "+ M 00 ff 01", KUNGTHEVI_ROOM_SIZE },
    { NAMED(KUNGTHEVI_NOT_A_RECORD), BOARD, DATAGRAM_ALONE, KUNGTHEVI_ROOM_SIZE },
    { NAMED(KUNGTHEVI_NOT_A_RECORD), BOARD, DATAGRAM_ALONE "+ M 01 02 6869", KUNGTHEVI_ROOM_SIZE },
    { NAMED(KUNGTHEVI_NOT_A_RECORD), BOARD, DATAGRAM_ALONE "+ O", KUNGTHEVI_ROOM_SIZE },
    { NAMED(KUNGTHEVI_NOT_A_RECORD), BOARD, DATAGRAM_ALONE "+ M 00 02 6869 01", KUNGTHEVI_ROOM_SIZE },
    { NAMED(KUNGTHEVI_NOT_A_RECORD), BOARD, "P 00 04 00000007 01 + M 00 02 6869", KUNGTHEVI_ROOM_SIZE },
    { NAMED(KUNGTHEVI_NOT_A_RECORD), BOARD, "M 00 02 6869", KUNGTHEVI_ROOM_SIZE },
    { NAMED(KUNGTHEVI_NOT_A_RECORD), BOARD, "M 00 41", KUNGTHEVI_ROOM_SIZE },

    { NAMED(KUNGTHEVI_LITTLE_ROOM), BOARD, FRAME, KUNGTHEVI_FRAME_ROOM_SIZE - 1 },
    { NAMED(KUNGTHEVI_LITTLE_ROOM), TWO_STREAMS, FRAME, KUNGTHEVI_FRAME_ROOM_SIZE - 1 },
    { NAMED(KUNGTHEVI_OVER_LONG), BOARD, FRAME_TO("00000001", "07", "0200000000018000", "41"),
      KUNGTHEVI_FRAME_ROOM_SIZE },
    { NAMED(KUNGTHEVI_NOBODY_THERE), BOARD, FRAME_TO("00000003", "07", "0200000000018000", "00"),
      KUNGTHEVI_FRAME_ROOM_SIZE },
    { NAMED(KUNGTHEVI_NOT_A_RECORD), BOARD, FRAME_TO("00000001", "00", "0200000000018000", "00"),
      KUNGTHEVI_FRAME_ROOM_SIZE },
    { NAMED(KUNGTHEVI_NOT_A_RECORD), BOARD, FRAME_TO("00000001", "06", "0200000000018000", "00"),
      KUNGTHEVI_FRAME_ROOM_SIZE },
    { NAMED(KUNGTHEVI_NOT_A_RECORD), BOARD, FRAME_TO("00000001", "09", "0200000000018000", "00"),
      KUNGTHEVI_FRAME_ROOM_SIZE },
    { NAMED(KUNGTHEVI_NOT_A_RECORD), BOARD, FRAME_TO("00000001", "07", "0200000000018001", "00"),
      KUNGTHEVI_FRAME_ROOM_SIZE },
    { NAMED(KUNGTHEVI_NOT_A_RECORD), BOARD, "f 00000001 07 0200000000018000 0200000000028401 00",
      KUNGTHEVI_FRAME_ROOM_SIZE },
    { NAMED(KUNGTHEVI_NOT_A_RECORD), BOARD, FRAME_TO("00000001", "07", "0200000000018000", "02 7570 01"),
      KUNGTHEVI_FRAME_ROOM_SIZE },
};

/* One thing after the other put right: stream 2 is not open, stream 0 is. */
static const struct refusal order[] = {
    { NAMED(KUNGTHEVI_NOT_A_RECORD), TWO_STREAMS, "P 02 03 00000001", 0 },
    { NAMED(KUNGTHEVI_LITTLE_ROOM), TWO_STREAMS, "P 02 03", 0 },
    { NAMED(KUNGTHEVI_NOT_OPEN), TWO_STREAMS, "P 02 03", KUNGTHEVI_ROOM_SIZE },
    { NAMED(KUNGTHEVI_NO_CODE), TWO_STREAMS, "P 00 03", KUNGTHEVI_ROOM_SIZE },
    { NAMED(KUNGTHEVI_LITTLE_ROOM), TWO_STREAMS, "P 02 61 00000001", 0 },
    { NAMED(KUNGTHEVI_NOT_OPEN), TWO_STREAMS, "P 02 61 00000001", KUNGTHEVI_ROOM_SIZE },
    { NAMED(KUNGTHEVI_OVER_LONG), TWO_STREAMS, "P 00 61 00000001", KUNGTHEVI_ROOM_SIZE },

    { NAMED(KUNGTHEVI_NOT_A_RECORD), TWO_STREAMS, "P 02 04 00000007 + M 02 00 01", 0 },
    { NAMED(KUNGTHEVI_LITTLE_ROOM), TWO_STREAMS, "P 02 04 00000007 + M 02 41 01", 0 },
    { NAMED(KUNGTHEVI_NOT_OPEN), TWO_STREAMS, "P 02 04 00000007 + M 02 41 01", KUNGTHEVI_ROOM_SIZE },
    { NAMED(KUNGTHEVI_OVER_LONG), TWO_STREAMS, "P 00 04 00000007 + M 00 41 01", KUNGTHEVI_ROOM_SIZE },

    { NAMED(KUNGTHEVI_NOT_A_RECORD), TWO_STREAMS, FRAME_TO("00000003", "06", "0200000000018000", "41"), 0 },
    { NAMED(KUNGTHEVI_LITTLE_ROOM), TWO_STREAMS, FRAME_TO("00000003", "07", "0200000000018000", "41"),
      KUNGTHEVI_FRAME_ROOM_SIZE - 1 },
    { NAMED(KUNGTHEVI_OVER_LONG), TWO_STREAMS, FRAME_TO("00000003", "07", "0200000000018000", "41"),
      KUNGTHEVI_FRAME_ROOM_SIZE },
    { NAMED(KUNGTHEVI_NOBODY_THERE), TWO_STREAMS, FRAME_TO("00000003", "07", "0200000000018000", "40"),
      KUNGTHEVI_FRAME_ROOM_SIZE },
};

static void check_refusal(struct checks *checks, const struct refusal *refusal)
{
    struct stage stage;
    stage_set(&stage, refusal->setup);
    uint32_t answer = stage_call_in_room(&stage, refusal->record, refusal->room_len);
    check(checks, answer == refusal->number << 16, "%s by %s with a room of %zu bytes", refusal->name, refusal->record,
          refusal->room_len);
    check(checks, stage_is_kept(&stage), "%s by %s leaves all as it was", refusal->name, refusal->record);
}

/* A sound table has 0 or 1 there. */
static void check_damaged(struct checks *checks, const char *record, size_t room_len)
{
    struct stage stage;
    stage_set(&stage, TWO_STREAMS);
    stage.table[AT_OPENING] = 2;
    uint32_t answer = stage_call_in_room(&stage, record, room_len);
    check(checks, answer == (uint32_t)KUNGTHEVI_NOT_SOUND << 16 && stage_is_kept(&stage),
          "KUNGTHEVI_NOT_SOUND by a damaged table, %s and a room of %zu bytes", record, room_len);
}

void run_refusals(struct checks *checks)
{
    for (size_t i = 0; i < sizeof refusals / sizeof refusals[0]; i++)
        check_refusal(checks, &refusals[i]);
    for (size_t i = 0; i < sizeof order / sizeof order[0]; i++)
        check_refusal(checks, &order[i]);
    check_damaged(checks, INFO, KUNGTHEVI_ROOM_SIZE);
    check_damaged(checks, "P 02 03 00000001", 0);
    check_damaged(checks, DATAGRAM, 0);
    check_damaged(checks, "M 00 02 6869", KUNGTHEVI_ROOM_SIZE);
    check_damaged(checks, FRAME, KUNGTHEVI_FRAME_ROOM_SIZE);
    check_damaged(checks, "", 0);
}
