/* The header's states, by streams that stand so: DL_INFO_ACK shows each, and the table keeps the manual's number. */
#include <assert.h>

#include "../layout.h"
#include "groups.h"
#include "stage.h"

#define NAMED(constant) constant, #constant

#define CONNECTED LISTENER CALL ACCEPT("00000001", "00000000")

struct standing {
    uint32_t shown;
    const char *name;
    uint8_t kept;
    const char *setup; /* of stream 0 */
};

static const struct standing standings[] = {
    { NAMED(KUNGTHEVI_DL_UNATTACHED), 0, TWO_STREAMS },
    { NAMED(KUNGTHEVI_DL_UNBOUND), 3, TWO_STREAMS ATTACH("00", "00000001") },
    { NAMED(KUNGTHEVI_DL_IDLE), 6, LISTENER },
    { NAMED(KUNGTHEVI_DL_IDLE), 6, BOARD },
    { NAMED(KUNGTHEVI_DL_OUTCON_PENDING), 8,
      LISTENER "P 00 1f 0000000d 00000007 00000018 00000000 00000000 00000000 02000000000984;" },
    { NAMED(KUNGTHEVI_DL_INCON_PENDING), 9, LISTENER CALL },
    { NAMED(KUNGTHEVI_DL_DATAXFER), 11, CONNECTED },
    { NAMED(KUNGTHEVI_DL_USER_RESET_PENDING), 12, CONNECTED "P 00 04 00000017;" },
    { NAMED(KUNGTHEVI_DL_PROV_RESET_PENDING), 13, CONNECTED "R 00 00000001;" },
    { NAMED(KUNGTHEVI_DL_UNBOUND), 3, BOARD "P 00 04 00000002;" },
    { NAMED(KUNGTHEVI_DL_UNATTACHED), 0, BOARD "P 00 04 00000002; P 00 04 0000000c;" },
};

/* No stream stands in one of these. */
static_assert(KUNGTHEVI_DL_BIND_PENDING == 1 && KUNGTHEVI_DL_UNBIND_PENDING == 2, "as the public header has them");
static_assert(KUNGTHEVI_DL_ATTACH_PENDING == 5 && KUNGTHEVI_DL_DETACH_PENDING == 6, "as the public header has them");

void run_states(struct checks *checks)
{
    for (size_t i = 0; i < sizeof standings / sizeof standings[0]; i++) {
        struct stage stage;
        stage_set(&stage, standings[i].setup);
        uint32_t answer = stage_call(&stage, INFO);
        check(checks, answer == LONGEST_RECORD, "%s: INFO_REQ is a served call", standings[i].name);
        check(checks, stage_field(&stage, 0) == 0x03, "%s: DL_INFO_ACK", standings[i].name);
        check(checks, stage_field(&stage, 24) == standings[i].shown, "%s in bytes 24 to 27", standings[i].name);
        check(checks, stage.table[AT_SLOTS + AT_STATE] == standings[i].kept, "%s: the manual's number in the table",
              standings[i].name);
        check(checks, stage_table_is_kept(&stage), "%s: INFO_REQ leaves the table", standings[i].name);
    }
}
