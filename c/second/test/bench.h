/*
 * bench.h - what all tests of the provider are made of.
 *
 * Every expected value is written out from the paper. Records are written as
 * the replay program prints them: the kind, the stream in decimal if the kind
 * has one, then the other fields in hex. For P, C, M and u the length and the
 * padding follow from the hex. An f's bytes that aren't written are zero. A
 * semicolon stands between two records. Slots of the image are written in hex;
 * their bytes that aren't written are zero.
 */
#ifndef BENCH_H
#define BENCH_H

#include <stdbool.h>
#include <stddef.h>
#include <stdint.h>

#include "../second.h"

enum {
    GUARD = 13, /* odd, so that table and room aren't both aligned */
    ROOM_AREA = 4200,
    TABLE_GUARD_BYTE = 0xa5,
    ROOM_BYTE = 0x5a,
    NEEDED_ROOM = 128,
    FRAME_ROOM = 4096, /* that an f needs */
    LONGEST_TEXT = 8192
};

/* Where the image holds what. */
enum {
    MASK = 0,
    OPENED = 2,
    PPA_COUNT = 3,
    COUNTER = 4,
    PPA_PLACES = 8,
    PPA_PLACE = 10,
    SLOTS = 88,
    SLOT = 42
};

#define COUNT(array) (sizeof (array) / sizeof (array)[0])

struct bench {
    unsigned passed;
    unsigned failed;
    const char *topic;
    uint8_t table_area[GUARD + SECOND_TABLE_SIZE + GUARD];
    uint8_t room_area[GUARD + ROOM_AREA + GUARD];
    /* The table as it was before the last call, to be changed by the test
       into what it should be after it. */
    uint8_t want[SECOND_TABLE_SIZE];
};

uint8_t *table_of(struct bench *b);
uint8_t *room_of(struct bench *b);

/* Counts, and prints what does not hold. */
void check(struct bench *b, bool holds, const char *what);
bool all_are(const uint8_t *bytes, size_t count, uint8_t byte);

/* ---- texts ---- */

/* Reads hex up to a semicolon or the end. Returns the count of bytes. */
size_t hex(const char *text, uint8_t *bytes);

/* Returns the size of all the records of the text together. */
size_t parse_records(const char *text, uint8_t *bytes);

/* ---- images ---- */

void put_number(uint8_t *bytes, uint32_t value);
void put_open(uint8_t *image, unsigned s, const char *slot);
void put_closed(uint8_t *image, unsigned s);
void put_ppa(uint8_t *image, unsigned place, const char *ppa);

/* Two PPAs, an opening remembered, no stream open, the counter at 0x11. */
void start(struct bench *b);
void start_fresh(struct bench *b);

/* Opens a stream without a call: it stands as the slot says. */
void stand(struct bench *b, unsigned s, const char *slot);

/* The table is as wanted after the last call. */
void same_table(struct bench *b, const char *what);

/* ---- calls ---- */

/* Where no room_len is given, just the room is lent that the record needs. */

/* A refusal changes nothing. */
void refuse_bytes(struct bench *b, const uint8_t *record, size_t size,
                  size_t room_len, uint32_t refusal, const char *what);
void refuse(struct bench *b, const char *in, uint32_t refusal);

/* The test then says what the table should be, and asks same_table. */
void serve_bytes(struct bench *b, const uint8_t *record, size_t size,
                 uint32_t token, const char *out, const char *what);
void serve(struct bench *b, const char *in, const char *out);

/* O is served and opens stream s. */
void serve_open(struct bench *b, unsigned s);

/* A request gets ERROR_ACK, on the stream that asked, and changes nothing. */
void error_bytes(struct bench *b, const uint8_t *record, size_t size,
                 unsigned code, const char *what);
void error(struct bench *b, const char *in, unsigned code);

/* A datagram gets UDERROR_IND, on the stream that asked; nothing changes. */
void uderror_bytes(struct bench *b, const uint8_t *record, size_t size,
                   unsigned code, const char *what);
void uderror(struct bench *b, const char *in, unsigned code);

/* A message whose L is not that of its text. */
void message(uint8_t *record, uint8_t s, uint8_t length, const char *block);

/* ---- slots and messages that occur often ---- */

/* Slots hold the manual's state numbers, INFO_ACK the public header's. */

#define UNBOUND_SLOT "03 00 0000 00000001"
#define IDLE_SLOT "06 01 0080 00000001 02"
#define TYPE_SLOT "06 02 0800 00000001"
#define BOARD_SLOT "06 02 0080 00000001"
#define CALLING_SLOT "08 01 0080 00000001 02"
#define CALLED_SLOT "09 01 0080 00000001 02 01 00000005"
#define CONNECTED_SLOT "0b 01 0080 00000001 02"
#define USER_RESET_SLOT "0c 01 0080 00000001 02"
#define PEER_RESET_SLOT "0d 01 0080 00000001 02"

#define BADADDR 0x01
#define ACCESS 0x02
#define OUTSTATE 0x03
#define BADCORR 0x05
#define UNSUPPORTED 0x07
#define BADPPA 0x08
#define BADPRIM 0x09
#define BADQOSTYPE 0x0b
#define BADTOKEN 0x0c
#define BOUND 0x0d
#define NOTSUPPORTED 0x12
#define NOAUTO 0x16
#define PENDING 0x1b

/* INFO_ACK of an unbound stream: 82 bytes. */
#define INFO_UNBOUND(state)                                       \
    "00000003 000005d9 00000000 00000000 00000000 00000000 " state \
    " 00000000 00000003 00000000 00000000 00000000 00000000 00000501" \
    " 00000000 00000002 00000006 0000004c 00000000 ffffffffffff"

/* INFO_ACK of a stream bound to SAP 0x80 of PPA 1 in mode 1: 89 bytes. */
#define INFO_BOUND(state)                                         \
    "00000003 000005d9 00000000 00000007 00000000 00000000 " state \
    " ffffffff 00000001 00000000 00000000 00000000 00000000 00000501" \
    " 0000004c 00000002 00000006 00000053 00000000 02000000000180 ffffffffffff"

/* INFO_ACK of a stream bound to type 0x0800 of PPA 1 in mode 2: 90 bytes. */
#define INFO_TYPE                                                     \
    "00000003 000005d9 00000000 00000008 00000000 00000000 00000003" \
    " fffffffe 00000002 00000000 00000000 00000000 00000000 00000501" \
    " 0000004c 00000002 00000006 00000054 00000000 0200000000010800" \
    " ffffffffffff"

#define CONNECT_FIELDS "00000007 00000018 00000000 00000000 00000000"

/* Ways in which an open stream can stand, one at least for each state. */
enum { STANDINGS = 9 };
extern const char *const standings[STANDINGS];

#endif
