/*
 * second.h - a DLPI provider in plain C: the public calls.
 *
 * The caller owns the table. It lends the table's image to each call as a run
 * of SECOND_TABLE_SIZE bytes, together with the bytes of one record and a room
 * for the records out. The three must not overlap. They may stand at any
 * address, and a pointer may be NULL where its length is 0.
 *
 * Building, from this directory:
 *   the program:     every .c file
 *   self test:       every .c file except main.c, and those of test/
 *   provider alone:  every .c file except main.c and what prints a text:
 *                    capture.c, replay.c, ledger.c, fates.c and saps.c
 */
#ifndef SECOND_H
#define SECOND_H

#include <stddef.h>
#include <stdint.h>

#define SECOND_TABLE_SIZE 760

/* A call needs this much room, however little it writes. */
#define SECOND_ROOM_SIZE 128

/* But the call for a frame, an f, needs this much. */
#define SECOND_FRAME_ROOM_SIZE 4096

/*
 * Makes the image of a fresh table. Returns 0, or 16 with nothing written
 * where the length is not SECOND_TABLE_SIZE.
 */
uint32_t second_fresh(uint8_t *table, size_t table_len);

/*
 * One call: reads the one record at the start of the lent bytes. A datagram is
 * read as one record: a P or C of code 0x07 with L 4 to 96 and, right behind
 * it, an M with the same stream. The answer:
 *   bits 0-15   how many bytes were written into the room
 *   bits 16-23  the refusal number, 0 if the call is served
 *   bits 24-31  the token of the stream that a served O opened, else 0
 * A refusal changes neither table nor room. The records out are written right
 * behind one another from the start of the room; its other bytes stay.
 */
uint32_t second_call(uint8_t *table, size_t table_len,
                     const uint8_t *record, size_t record_len,
                     uint8_t *room, size_t room_len);

/*
 * The size of the record at the start of the lent bytes, its kind included;
 * 0 where reading ends there: no bytes, unknown kind or cut body. Nothing else
 * that is wrong with a record ends the reading. A datagram has the size of its
 * two records together: 166. Where the M of a P or C of code 0x07 is missing,
 * cut or of another stream, the size is that of the P or C alone: 99.
 */
uint32_t second_record_size(const uint8_t *record, size_t record_len);

/*
 * What a number of a SAP field is, whatever the mode of the bind. The answer:
 *   bits 0-7    how many bytes it takes in an address: 1 for a SAP, 2 for an
 *               Ethernet type, 0 if it is excluded
 *   bits 8-15   0 if it is not excluded, else why it is: 1 odd, where SAPs are
 *               even; 2 reserved; 3 between the SAPs and the types; 4 above
 *               the types
 *   bits 16-23  0 if it is not excluded, else the manual's section that
 *               excludes it: 1 'Binding', 2 'Reserved IEEESAPS/Ethertypes'
 *   bits 24-31  0
 */
uint32_t second_sap(uint32_t number);

#endif
