/* The number that a call returns, taken apart by the header's macros. */
#include "../layout.h"
#include "groups.h"
#include "stage.h"

static void check_openings(struct checks *checks)
{
    struct stage stage;
    stage_set(&stage, "");
    for (uint32_t stream = 0; stream < STREAMS; stream++) {
        uint32_t answer = stage_call(&stage, "O");
        check(checks, KUNGTHEVI_REFUSAL(answer) == 0, "opening %u is served", (unsigned)stream);
        check(checks, KUNGTHEVI_TOKEN(answer) == stream + 1, "opening %u has its token", (unsigned)stream);
        check(checks, KUNGTHEVI_STREAM(answer) == stream, "opening %u has its stream", (unsigned)stream);
        check(checks, KUNGTHEVI_WRITTEN(answer) == 0, "opening %u writes nothing", (unsigned)stream);
    }
    uint32_t answer = stage_call(&stage, "O");
    check(checks, KUNGTHEVI_REFUSAL(answer) == KUNGTHEVI_ALL_OPEN, "a 17th opening is refused");
    check(checks, KUNGTHEVI_TOKEN(answer) == 0, "a refused opening has no token");
    check(checks, KUNGTHEVI_WRITTEN(answer) == 0, "a refused opening writes nothing");
}

static void check_answer(struct checks *checks, const char *name, uint32_t answer, uint32_t refusal, uint32_t written)
{
    check(checks, KUNGTHEVI_REFUSAL(answer) == refusal, "the refusal of %s", name);
    check(checks, KUNGTHEVI_WRITTEN(answer) == written, "the bytes written by %s", name);
    check(checks, KUNGTHEVI_TOKEN(answer) == 0, "no token of %s", name);
}

void run_answers(struct checks *checks)
{
    struct stage stage;
    check_openings(checks);
    stage_set(&stage, "O");
    check_answer(checks, "a new PPA after an opening", stage_call(&stage, "G 00000001 020000000001"),
                 KUNGTHEVI_NO_NEW_PPA, 0);
    stage_set(&stage, "");
    check_answer(checks, "a new PPA", stage_call(&stage, "G 00000001 020000000001"), 0, 0);
    stage_set(&stage, LISTENER CALL);
    check_answer(checks, "a denial", stage_call(&stage, "P 00 0c 00000013 00000000 00000001"), 0, 10 + LONGEST_RECORD);
    check_answer(checks, "an UNBIND_REQ", stage_call(&stage, "P 00 04 00000002"), 0, 2 + LONGEST_RECORD);
    check_answer(checks, "an idle stream's close", stage_call(&stage, "X 00"), 0, 0);
    stage_set(&stage, BOARD);
    check_answer(checks, "a datagram", stage_call(&stage, DATAGRAM), 0, SENT_SIZE);
    check_answer(checks, "a frame", stage_call_in_room(&stage, FRAME, KUNGTHEVI_FRAME_ROOM_SIZE), 0, LONGEST_CALL);
}
