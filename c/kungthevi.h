/*
 * kungthevi.h - a DLPI provider whose every answer is proved.
 *
 * Link libkungthevi.a. It needs no other library, keeps nothing between two
 * calls and takes no memory: the caller owns the table of streams as a run of
 * KUNGTHEVI_TABLE_SIZE bytes and lends it to each call. Two threads may call at
 * once with two tables.
 *
 * Every call returns, whatever it is lent. What C itself asks still holds: a
 * pointer and its length name memory of the caller's, and the runs lent to one
 * call do not overlap. They may stand at any address, and a pointer may be NULL
 * where its length is 0.
 *
 * Example: opens a stream of a fresh table.
 *
 *     #include <stdio.h>
 *     #include "kungthevi.h"
 *
 *     int main(void)
 *     {
 *         uint8_t table[KUNGTHEVI_TABLE_SIZE], room[KUNGTHEVI_ROOM_SIZE];
 *         const uint8_t record[] = { 'O' };
 *         kungthevi_fresh(table, sizeof table);
 *         uint32_t answer = kungthevi_call(table, sizeof table, record, sizeof record, room, sizeof room);
 *         if (KUNGTHEVI_REFUSAL(answer) != 0)
 *             return 1;
 *         printf("stream %u is open\n", (unsigned)KUNGTHEVI_STREAM(answer));
 *     }
 */
#ifndef KUNGTHEVI_H
#define KUNGTHEVI_H

#include <stddef.h>
#include <stdint.h>

#ifdef __cplusplus
extern "C" {
#endif

/* The bytes of a table, no more and no fewer. docs/IMAGE.md says what each holds. */
#define KUNGTHEVI_TABLE_SIZE 760

/* The room that a call needs, however little it writes. A longer room is served too. */
#define KUNGTHEVI_ROOM_SIZE 128

/* The room that a frame, an 'f', needs. No other call needs so much. */
#define KUNGTHEVI_FRAME_ROOM_SIZE 4096

/*
 * Makes a fresh table: no PPA, no open stream, correlation numbers from 1.
 * Returns 0. Where table_len is not KUNGTHEVI_TABLE_SIZE it returns
 * KUNGTHEVI_NOT_SOUND and the bytes stay as they stood.
 */
uint32_t kungthevi_fresh(uint8_t *table, size_t table_len);

/*
 * One call: reads the one record at the start of the lent bytes, changes the
 * table and writes the records out into the room, right behind one another from
 * its start. The room's other bytes stay.
 *
 * Bytes behind the record are not read, with one exception: a message of code
 * 0x07 (DL_UNITDATA_REQ) with L 4 to 96 is a datagram, and the 'M' of the same
 * stream right behind it is its data. One call reads the two, 166 bytes, so lend
 * them together. The message without its 'M' is refused, and so is an 'M' by
 * itself.
 *
 * A frame whose called MAC is that of its PPA comes to each stream of the PPA
 * that is bound in mode 2 to the called SAP, or type, in that form. If there is
 * none, or the MAC is another, it is served all the same and writes nothing.
 *
 * Records in, by their first byte; numbers are big-endian:
 *   'G' add PPA          number 4, MAC 6
 *   'O' open             nothing
 *   'X' close            stream 1
 *   'P', 'C' message     stream 1, length L 1, 96 bytes of block, zero past L
 *   'M' data             stream 1, length 1, 64 bytes of data, zero past the length
 *   'I' call arrives     PPA 4, called 7, calling 7
 *   'A' peer accepted    stream 1, address 7
 *   'D' peer gone        stream 1, reason 4
 *   'W' call withdrawn   stream 1, correlation 4, reason 4
 *   'R' peer reset       stream 1, reason 4
 *   'S' reset confirmed  stream 1
 *   'f' frame arrives    PPA 4, address length 1, called 8, calling 8, data length 1,
 *                        64 bytes of data; addresses and data zero past their length
 * Records out:
 *   'P', 'C' message up  stream 1, length L 1, 96 bytes of block, zero past L
 *   'M' data             as in; behind each 'u' and each message up of code 0x08
 *                        (DL_UNITDATA_IND)
 *   'F' flush queues     stream 1
 *   'c' connect          stream 1, called 7
 *   'a' accept           carrying stream 1, correlation 4
 *   'd' disconnect       stream 1, correlation 4, reason 4
 *   'r' reset            stream 1
 *   's' reset answer     stream 1
 *   'u' datagram         stream 1, address length 1, address 8, zero past the length
 *
 * The number returned is taken apart by the macros below it. A refused call
 * writes nothing: table and room are as they were. A message that breaks a rule
 * of DLPI is not refused: it is served, and its answer is a DL_ERROR_ACK with
 * one of the error codes below, or for a datagram with L 20 or more a
 * DL_UDERROR_IND.
 *
 * A datagram of two bytes from stream 0, which is bound to a SAP in mode 2, to SAP
 * 0x84 of 02:00:00:00:00:02; the address stands at offset 20 of the block:
 *
 *     const uint8_t datagram[166] = {
 *         'P', 0, 27, 0, 0, 0, 0x07, 0, 0, 0, 7, 0, 0, 0, 20,
 *         [3 + 20] = 0x02, 0, 0, 0, 0, 0x02, 0x84,
 *         [99] = 'M', 0, 2, 'h', 'i'
 *     };
 */
uint32_t kungthevi_call(uint8_t *table, size_t table_len,
                        const uint8_t *record, size_t record_len,
                        uint8_t *room, size_t room_len);

/* The refusal number, 0 if the call was served. */
#define KUNGTHEVI_REFUSAL(answer) ((uint32_t)(answer) >> 16 & 0xff)

/* How many bytes of records stand at the start of the room; 0 if refused. */
#define KUNGTHEVI_WRITTEN(answer) ((uint32_t)(answer) & 0xffff)

/* The token of the stream that a served 'O' opened; 0 for any other call. */
#define KUNGTHEVI_TOKEN(answer) ((uint32_t)(answer) >> 24)

/* The number of that stream. Only where KUNGTHEVI_TOKEN is not 0. */
#define KUNGTHEVI_STREAM(answer) (KUNGTHEVI_TOKEN(answer) - 1)

/*
 * How far reading goes on: the size of what one call reads at the start of the
 * lent bytes, or 0 where reading ends there (no bytes, unknown kind or cut
 * body). That is the record, its kind included: 99 for a message, or 166 where
 * it is a datagram's and the whole 'M' of the same stream stands right behind
 * it. So who reads a capture in parts has 166 bytes at hand, or all that are
 * left, before asking. A record of that size may still be refused.
 */
uint32_t kungthevi_record_size(const uint8_t *record, size_t record_len);

/*
 * What a number is in the SAP field of a bind: a SAP, an Ethernet type, or
 * excluded. No bind can take an excluded number: one that breaks no earlier
 * rule is answered with DL_BADADDR. The answer then also tells which exclusion
 * holds, and where the maker's manual makes it. Any number may be asked; no
 * table is needed. (In mode 1 a bind takes no type: that is answered with
 * DL_UNSUPPORTED, and is no exclusion.)
 *
 * The number returned is taken apart by the macros below it.
 */
uint32_t kungthevi_sap(uint32_t number);

/* How many bytes it takes behind the MAC in an address: 1 of a SAP, 2 of a type; 0 if it is excluded. */
#define KUNGTHEVI_SAP_LENGTH(answer) ((uint32_t)(answer) & 0xff)

/* Which exclusion holds; 0 if none does. */
#define KUNGTHEVI_SAP_EXCLUSION(answer) ((uint32_t)(answer) >> 8 & 0xff)

#define KUNGTHEVI_EXCLUDED_ODD      1  /* an odd number up to 0xff */
#define KUNGTHEVI_EXCLUDED_RESERVED 2  /* 0x06 */
#define KUNGTHEVI_EXCLUDED_BETWEEN  3  /* 0x100 to 0x5ff: between the SAPs and the types */
#define KUNGTHEVI_EXCLUDED_ABOVE    4  /* 0x10000 or more: above the types */

/* The manual's section that excludes it; 0 if it is not excluded. */
#define KUNGTHEVI_SAP_PLACE(answer) ((uint32_t)(answer) >> 16 & 0xff)

#define KUNGTHEVI_PLACE_BINDING  1  /* 'Binding' */
#define KUNGTHEVI_PLACE_RESERVED 2  /* 'Reserved IEEESAPS/Ethertypes' */

/*
 * The refusal numbers. Where several apply, the first in the order 16, 10, 1,
 * 2, 5, 4, then the others; of 7 and 8, 7.
 */
#define KUNGTHEVI_LITTLE_ROOM   1  /* room under KUNGTHEVI_ROOM_SIZE, for an 'f' under KUNGTHEVI_FRAME_ROOM_SIZE */
#define KUNGTHEVI_NOT_OPEN      2  /* stream over 15, or not open */
#define KUNGTHEVI_ALL_OPEN      3  /* open, and all 16 streams are open */
#define KUNGTHEVI_NO_CODE       4  /* message with L under 4 */
#define KUNGTHEVI_OVER_LONG     5  /* message with L over 96; data over 64 of a datagram or an 'f' */
#define KUNGTHEVI_UNEXPECTED    6  /* 'A', 'D', 'R' or 'S' in a state without a row for it;
                                      'W' whose number is not open on that stream */
#define KUNGTHEVI_NOBODY_THERE  7  /* 'I' whose PPA is unknown, whose called MAC is not that PPA's,
                                      or for whose PPA and SAP nobody listens; 'f' whose PPA is unknown */
#define KUNGTHEVI_BUSY          8  /* 'I' whose listener is neither idle nor ringing, or has its granted
                                      count open */
#define KUNGTHEVI_NO_NEW_PPA    9  /* 'G' after any opening, or a ninth PPA, or a number already there */
#define KUNGTHEVI_NOT_A_RECORD 10  /* no bytes, unknown kind or cut body; nonzero bytes past a length; a datagram
                                      without its 'M', or an 'M' by itself; 'f' whose address length is not 7 or 8 */
#define KUNGTHEVI_NOT_SOUND    16  /* a table of another length, or whose bytes are not those of a sound table */

/*
 * The error codes. A DL_ERROR_ACK (code 0x05) has one in bytes 8 to 11 of its
 * block. A DL_UDERROR_IND (code 0x09) has it in bytes 16 to 19, and there it is
 * DL_BADADDR or DL_OUTSTATE.
 */
#define KUNGTHEVI_DL_BADADDR      0x01  /* address or SAP not allowed */
#define KUNGTHEVI_DL_ACCESS       0x02  /* the carrying stream is of another PPA or connectionless */
#define KUNGTHEVI_DL_OUTSTATE     0x03  /* no row for this message in the stream's state and mode, or an accept offers a
                                           stream that is not idle */
#define KUNGTHEVI_DL_BADCORR      0x05  /* the correlation number is not open here */
#define KUNGTHEVI_DL_UNSUPPORTED  0x07  /* mode, connection management or type not supported */
#define KUNGTHEVI_DL_BADPPA       0x08  /* unknown PPA */
#define KUNGTHEVI_DL_BADPRIM      0x09  /* no request, or too short for one */
#define KUNGTHEVI_DL_BADQOSTYPE   0x0b  /* quality of service asked */
#define KUNGTHEVI_DL_BADTOKEN     0x0c  /* token of no open stream */
#define KUNGTHEVI_DL_BOUND        0x0d  /* another stream listens for that PPA and SAP */
#define KUNGTHEVI_DL_NOTSUPPORTED 0x12  /* a request that this provider does not serve */
#define KUNGTHEVI_DL_NOAUTO       0x16  /* automatic XID or TEST asked */
#define KUNGTHEVI_DL_PENDING      0x1b  /* others are open: this stream cannot carry the call itself */

/*
 * The states, as the public DLPI header numbers them. A DL_INFO_ACK (code 0x03)
 * has one in bytes 24 to 27 of its block, never one that waits for an
 * acknowledgement: that is given inside the call that asks for it. The table
 * keeps states by other numbers, those of the maker's manual.
 */
#define KUNGTHEVI_DL_UNBOUND             0  /* attached to a PPA, not bound */
#define KUNGTHEVI_DL_BIND_PENDING        1  /* waits for the acknowledgement of a bind */
#define KUNGTHEVI_DL_UNBIND_PENDING      2  /* waits for the acknowledgement of an unbind */
#define KUNGTHEVI_DL_IDLE                3  /* bound */
#define KUNGTHEVI_DL_UNATTACHED          4  /* open, and no more */
#define KUNGTHEVI_DL_ATTACH_PENDING      5  /* waits for the acknowledgement of an attach */
#define KUNGTHEVI_DL_DETACH_PENDING      6  /* waits for the acknowledgement of a detach */
#define KUNGTHEVI_DL_OUTCON_PENDING      8  /* asked the peer for a connection */
#define KUNGTHEVI_DL_INCON_PENDING       9  /* calls rang in and are open */
#define KUNGTHEVI_DL_DATAXFER           11  /* connected */
#define KUNGTHEVI_DL_USER_RESET_PENDING 12  /* asked the peer for a reset */
#define KUNGTHEVI_DL_PROV_RESET_PENDING 13  /* the peer asked for a reset */

#ifdef __cplusplus
}
#endif

#endif
