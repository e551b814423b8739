/* Every error code of the header, by a request whose answer in the room, a DL_ERROR_ACK, has it. */
#include <string.h>

#include "groups.h"
#include "stage.h"
#include "text.h"

#define NAMED(constant) constant, #constant

/* Stream 1 is idle on PPA 2. */
#define STREAM_1_ELSEWHERE ATTACH("01", "00000002") BIND("01", "00000000")

struct error {
    uint32_t code;
    const char *name;
    const char *setup;
    const char *request;
};

static const struct error errors[] = {
    { NAMED(KUNGTHEVI_DL_BADADDR), TWO_STREAMS ATTACH("00", "00000001"),
      "P 00 14 00000001 00000081 00000000 0001 0000 00000000" },
    { NAMED(KUNGTHEVI_DL_ACCESS), LISTENER CALL STREAM_1_ELSEWHERE, ACCEPT("00000001", "00000002") },
    { NAMED(KUNGTHEVI_DL_OUTSTATE), TWO_STREAMS, BIND("00", "00000000") },
    { NAMED(KUNGTHEVI_DL_BADCORR), LISTENER CALL, ACCEPT("00000002", "00000000") },
    { NAMED(KUNGTHEVI_DL_UNSUPPORTED), TWO_STREAMS ATTACH("00", "00000001"),
      "P 00 14 00000001 00000080 00000000 0003 0000 00000000" },
    { NAMED(KUNGTHEVI_DL_BADPPA), TWO_STREAMS, ATTACH("00", "00000003") },
    { NAMED(KUNGTHEVI_DL_BADPRIM), TWO_STREAMS, "P 00 07 0000000b 000000" },
    { NAMED(KUNGTHEVI_DL_BADPRIM), BOARD, "P 00 13 00000007 00000007 00000014 00000000 000000 + M 00 02 6869" },
    { NAMED(KUNGTHEVI_DL_BADQOSTYPE), LISTENER,
      "P 00 1f 0000000d 00000007 00000018 00000001 00000000 00000000 02000000000984" },
    { NAMED(KUNGTHEVI_DL_BADTOKEN), LISTENER CALL, ACCEPT("00000001", "00000003") },
    { NAMED(KUNGTHEVI_DL_BOUND), LISTENER ATTACH("01", "00000001"), BIND("01", "00000001") },
    { NAMED(KUNGTHEVI_DL_NOTSUPPORTED), TWO_STREAMS, "P 00 04 0000000a" },
    { NAMED(KUNGTHEVI_DL_NOAUTO), TWO_STREAMS ATTACH("00", "00000001"),
      "P 00 14 00000001 00000080 00000000 0001 0000 00000001" },
    { NAMED(KUNGTHEVI_DL_PENDING), LISTENER CALL CALL, ACCEPT("00000001", "00000001") },
};

/* DL_ERROR_ACK to the stream that asked: its code, that of the request, the error, and 0. */
static void put_error_ack(const char *request, uint32_t code, uint8_t record[LONGEST_RECORD])
{
    uint8_t asked[LONGEST_CALL];
    (void)text_record(&request, asked);
    memset(record, 0, LONGEST_RECORD);
    record[AT_KIND] = 'C';
    record[AT_STREAM] = asked[AT_STREAM];
    record[AT_LENGTH] = 16;
    record[AT_BLOCK + 3] = 0x05;
    memcpy(record + AT_BLOCK + 4, asked + AT_BLOCK, 4);
    record[AT_BLOCK + 11] = (uint8_t)code;
}

void run_errors(struct checks *checks)
{
    for (size_t i = 0; i < sizeof errors / sizeof errors[0]; i++) {
        struct stage stage;
        uint8_t owed[LONGEST_RECORD];
        stage_set(&stage, errors[i].setup);
        uint32_t answer = stage_call(&stage, errors[i].request);
        put_error_ack(errors[i].request, errors[i].code, owed);
        check(checks, answer == LONGEST_RECORD, "%s is a served call", errors[i].name);
        check(checks, memcmp(stage.room, owed, sizeof owed) == 0, "%s in the room", errors[i].name);
        check(checks, all_are(stage.room + sizeof owed, sizeof stage.room - sizeof owed, ROOM_BYTE),
              "%s alone in the room", errors[i].name);
        check(checks, stage_table_is_kept(&stage), "%s leaves the table", errors[i].name);
    }
}
