/* What a frame writes, byte by byte: DL_UNITDATA_IND and its M to each stream that is bound for it, in their order. */
#include <stdio.h>
#include <string.h>

#include "../layout.h"
#include "exchange.h"
#include "groups.h"
#include "stage.h"
#include "text.h"

/* To the stream, from 02000000000284 with the data 7570. */
#define INDICATION(stream, called) \
    "P " stream " 26 00000008 00000007 00000018 00000007 0000001f 00000000 " called " 02000000000284" \
    "+ M " stream " 02 7570"

static const struct exchange frames[] = {
    { "a frame", BOARD, FRAME, INDICATION("00", "02000000000180") },
    { "a frame without data", BOARD, FRAME_TO("00000001", "07", "0200000000018000", "00"),
      "P 00 26 00000008 00000007 00000018 00000007 0000001f 00000000 02000000000180 02000000000284 + M 00 00" },
    { "a frame to a type", TYPE_BOARD, "f 00000001 08 0200000000010800 0200000000020806 02 7570",
      "P 00 28 00000008 00000008 00000018 00000008 00000020 00000000 0200000000010800 0200000000020806"
      "+ M 00 02 7570" },
    { "a frame to a MAC of ones",
      "G 00000001 ffffffffffff; O;" ATTACH("00", "00000001") BIND_FOR_DATAGRAMS("00", "00000080"),
      FRAME_TO("00000001", "07", "ffffffffffff8000", "02 7570"), INDICATION("00", "ffffffffffff80") },
    { "a frame to a later stream", TWO_STREAMS ATTACH("01", "00000001") BIND_FOR_DATAGRAMS("01", "00000080"), FRAME,
      INDICATION("01", "02000000000180") },
};

static const struct exchange unheard[] = {
    { "a frame to another MAC", BOARD, FRAME_TO("00000001", "07", "0200000000028000", "02 7570"), "" },
    { "a frame to all MACs", BOARD, FRAME_TO("00000001", "07", "ffffffffffff8000", "02 7570"), "" },
    { "a frame to another SAP", BOARD, FRAME_TO("00000001", "07", "0200000000018200", "02 7570"), "" },
    { "a frame on another PPA", BOARD, FRAME_TO("00000002", "07", "0200000000028000", "02 7570"), "" },
    { "a frame to a SAP in two bytes", BOARD, FRAME_TO("00000001", "08", "0200000000010080", "02 7570"), "" },
    { "a frame to half a type", TYPE_BOARD, FRAME_TO("00000001", "07", "0200000000010800", "02 7570"), "" },
    { "a frame to a stream in mode 1", LISTENER, FRAME, "" },
    { "a frame to an unbound stream", TWO_STREAMS ATTACH("00", "00000001"), FRAME, "" },
    { "a frame to no open stream", TWO_PPAS, FRAME, "" },
};

/* Every stream is bound to SAP 0x80 of PPA 1 in mode 2. */
static void set_boards(struct stage *stage)
{
    stage_set(stage, "G 00000001 020000000001;");
    for (unsigned stream = 0; stream < STREAMS; stream++) {
        char calls[256];
        (void)snprintf(calls, sizeof calls, "O;" ATTACH("%02x", "00000001") BIND_FOR_DATAGRAMS("%02x", "00000080"),
                       stream, stream);
        stage_go_on(stage, calls);
    }
}

/* Whether the room has the stream's indication in its turn. */
static bool is_indicated(const struct stage *stage, unsigned stream)
{
    char text[256];
    const char *start = text;
    uint8_t owed[LONGEST_CALL];
    (void)snprintf(text, sizeof text, INDICATION("%02x", "02000000000180"), stream, stream);
    (void)text_record(&start, owed);
    return memcmp(stage->room + stream * LONGEST_CALL, owed, LONGEST_CALL) == 0;
}

static void check_sixteen(struct checks *checks)
{
    enum { WRITTEN = 2656 };
    struct stage stage;
    set_boards(&stage);
    uint32_t answer = stage_call_in_room(&stage, FRAME, KUNGTHEVI_FRAME_ROOM_SIZE);
    check(checks, answer == WRITTEN, "a frame to 16 streams writes %d bytes", WRITTEN);
    for (unsigned stream = 0; stream < STREAMS; stream++)
        check(checks, is_indicated(&stage, stream), "a frame to 16 streams comes to stream %u", stream);
    check(checks, all_are(stage.room + WRITTEN, sizeof stage.room - WRITTEN, ROOM_BYTE),
          "a frame to 16 streams leaves the rest of the room");
    check(checks, stage_table_is_kept(&stage), "a frame to 16 streams leaves the table");
    answer = stage_call_in_room(&stage, FRAME, KUNGTHEVI_FRAME_ROOM_SIZE - 1);
    check(checks, answer == (uint32_t)KUNGTHEVI_LITTLE_ROOM << 16 && stage_is_kept(&stage),
          "a frame to 16 streams with a byte too little");
}

void run_frames(struct checks *checks)
{
    for (size_t i = 0; i < sizeof frames / sizeof frames[0]; i++)
        exchange_check(checks, &frames[i], KUNGTHEVI_FRAME_ROOM_SIZE);
    for (size_t i = 0; i < sizeof unheard / sizeof unheard[0]; i++)
        exchange_check(checks, &unheard[i], KUNGTHEVI_FRAME_ROOM_SIZE);
    check_sixteen(checks);
}
