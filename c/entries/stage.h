/* A table and a room, for calls whose records are written as texts. */
#ifndef ENTRIES_STAGE_H
#define ENTRIES_STAGE_H

#include <stdbool.h>
#include <stdint.h>

#include "../layout.h"

enum {
    LONGEST_ROOM = KUNGTHEVI_FRAME_ROOM_SIZE + 100,
    ROOM_BYTE = 0x5a, /* fills the room before a call */
    MOST_LENT = LONGEST_CALL + 40, /* bytes of a record, some of them behind what a call reads */
    SENT_SIZE = 3 + TYPE_ADDRESS_SIZE + DATA_RECORD_SIZE /* of what a datagram writes, a u and its M */
};

struct stage {
    uint8_t table[KUNGTHEVI_TABLE_SIZE];
    uint8_t before[KUNGTHEVI_TABLE_SIZE]; /* the table as it was before the last call */
    uint8_t room[LONGEST_ROOM];
};

/* A fresh table, then the calls for the text. */
void stage_set(struct stage *stage, const char *records);

/* The calls for the text. */
void stage_go_on(struct stage *stage, const char *records);

/* Remembers the table and fills the room, as must be done before a call. */
void stage_prepare(struct stage *stage);

/* A call for the text, with KUNGTHEVI_ROOM_SIZE bytes of the room or with so many. */
uint32_t stage_call(struct stage *stage, const char *record);
uint32_t stage_call_in_room(struct stage *stage, const char *record, size_t room_len);

/* Whether the last call left the table as it was. */
bool stage_table_is_kept(const struct stage *stage);

/* Whether it left the room, too, as a refusal does. */
bool stage_is_kept(const struct stage *stage);

/* The field at a place of the block of the room's first record, a message. */
uint32_t stage_field(const struct stage *stage, size_t place);

bool all_are(const uint8_t *bytes, size_t size, uint8_t byte);

/* --- Records that occur often, for two PPAs of the numbers 1 and 2 */

#define TWO_PPAS "G 00000001 020000000001; G 00000002 020000000002;"
#define TWO_STREAMS TWO_PPAS "O; O;"
#define ATTACH(stream, ppa) "P " stream " 08 0000000b " ppa ";"
#define BIND(stream, count) "P " stream " 14 00000001 00000080 " count " 0001 0000 00000000;"
#define ACCEPT(number, token) "P 00 18 0000000f " number " " token " 00000000 00000000 00000000;"
#define INFO "P 00 04 00000000;"

/* Stream 0 listens for SAP 0x80 of PPA 1 and may have two open. */
#define LISTENER TWO_STREAMS ATTACH("00", "00000001") BIND("00", "00000002")
#define CALL "I 00000001 02000000000180 02000000000284;"

/* Stream 0 is bound to SAP 0x80 of PPA 1 in mode 2. */
#define BIND_FOR_DATAGRAMS(stream, sap) "P " stream " 14 00000001 " sap " 00000000 0002 0000 00000000;"
#define BOARD TWO_STREAMS ATTACH("00", "00000001") BIND_FOR_DATAGRAMS("00", "00000080")

/* Or to Ethernet type 0x0800. */
#define TYPE_BOARD TWO_STREAMS ATTACH("00", "00000001") BIND_FOR_DATAGRAMS("00", "00000800")

/* From the former. */
#define DATAGRAM_ALONE "P 00 1b 00000007 00000007 00000014 00000000 00000000 02000000000284"
#define DATAGRAM DATAGRAM_ALONE "+ M 00 02 6869;"

/* To the called address, in 8 bytes; and one to the former. */
#define FRAME_TO(ppa, length, called, data) "f " ppa " " length " " called " 0200000000028400 " data ";"
#define FRAME FRAME_TO("00000001", "07", "0200000000018000", "02 7570")

#endif
