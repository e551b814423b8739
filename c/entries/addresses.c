/* Table, record and room at each of eight alignments: every call gives the same bytes. */
#include <string.h>

#include "groups.h"
#include "stage.h"
#include "text.h"

enum {
    ALIGNMENTS = 8,
    MOST_CALLS = 40
};

/* Every kind of record, served, and some that are not. */
static const char records[] =
    LISTENER CALL CALL "P 01 08 0000000b 00000001; C 01 14 00000001 00000082 00000000 0001 0000 00000000;"
    ACCEPT("00000002", "00000002") "R 01 00000007; P 01 04 00000019; P 01 04 00000017; S 01; D 01 00000009;"
    "P 01 1f 0000000d 00000007 00000018 00000000 00000000 00000000 02000000000984; A 01 02000000000984;"
    "W 00 00000001 00000003;" CALL "X 00;" INFO "X 0f; A 01 02000000000984; P 01 61;"
    "O;" ATTACH("00", "00000001") BIND_FOR_DATAGRAMS("00", "00000080") DATAGRAM FRAME DATAGRAM_ALONE ";"
    "M 00 02 6869;";

/* What the calls for the records gave and left. */
struct course {
    uint32_t answers[MOST_CALLS];
    uint8_t rooms[MOST_CALLS][KUNGTHEVI_FRAME_ROOM_SIZE];
    uint8_t tables[MOST_CALLS][KUNGTHEVI_TABLE_SIZE];
};

/* Runs of bytes that may begin up to seven bytes behind a multiple of eight. */
struct areas {
    _Alignas(ALIGNMENTS) uint8_t table[ALIGNMENTS + KUNGTHEVI_TABLE_SIZE];
    _Alignas(ALIGNMENTS) uint8_t record[ALIGNMENTS + LONGEST_CALL];
    _Alignas(ALIGNMENTS) uint8_t room[ALIGNMENTS + KUNGTHEVI_FRAME_ROOM_SIZE];
};

static void go(struct course *course, unsigned table_at, unsigned record_at, unsigned room_at)
{
    static struct areas areas;
    const char *text = records;
    uint8_t *table = areas.table + table_at;
    uint8_t *record = areas.record + record_at;
    uint8_t *room = areas.room + room_at;
    (void)kungthevi_fresh(table, KUNGTHEVI_TABLE_SIZE);
    for (unsigned i = 0; i < MOST_CALLS && *text != '\0'; i++) {
        size_t size = text_record(&text, record);
        memset(room, ROOM_BYTE, KUNGTHEVI_FRAME_ROOM_SIZE);
        course->answers[i] =
            kungthevi_call(table, KUNGTHEVI_TABLE_SIZE, record, size, room, KUNGTHEVI_FRAME_ROOM_SIZE);
        memcpy(course->rooms[i], room, KUNGTHEVI_FRAME_ROOM_SIZE);
        memcpy(course->tables[i], table, KUNGTHEVI_TABLE_SIZE);
    }
}

/* Whether the calls give the same with the three runs so many bytes off. */
static bool is_same(const struct course *aligned, unsigned table_at, unsigned record_at, unsigned room_at)
{
    static struct course course;
    go(&course, table_at, record_at, room_at);
    return memcmp(aligned, &course, sizeof course) == 0;
}

void run_addresses(struct checks *checks)
{
    static struct course aligned;
    go(&aligned, 0, 0, 0);
    for (unsigned table_at = 0; table_at < ALIGNMENTS; table_at++)
        for (unsigned record_at = 0; record_at < ALIGNMENTS; record_at++) {
            unsigned room_at = 0;
            while (room_at < ALIGNMENTS && is_same(&aligned, table_at, record_at, room_at))
                room_at++;
            check(checks, room_at == ALIGNMENTS, "calls with table %u, record %u and room %u bytes off", table_at,
                  record_at, room_at);
        }
}
