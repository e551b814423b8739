/* record.h - the records in, and the records out of one call. */
#ifndef RECORD_H
#define RECORD_H

#include <stdbool.h>
#include <stddef.h>
#include <stdint.h>

#include "sap.h"
#include "second.h"
#include "table.h"

enum kind_in {
    ADD_PPA = 'G',
    OPEN = 'O',
    CLOSE = 'X',
    CALL_ARRIVES = 'I',
    PEER_ACCEPTED = 'A',
    PEER_GONE = 'D',
    CALL_WITHDRAWN = 'W',
    PEER_RESET = 'R',
    RESET_CONFIRMED = 'S',
    FRAME_ARRIVES = 'f'
};

/* These go in as well as out. A message is one of the first two. */
enum kind_of_message {
    M_PROTO = 'P',
    M_PCPROTO = 'C',
    M_DATA = 'M'
};

enum kind_out {
    FLUSH = 'F',
    CONNECT = 'c',
    ACCEPT = 'a',
    DISCONNECT = 'd',
    RESET = 'r',
    RESET_ANSWER = 's',
    DATAGRAM = 'u'
};

enum {
    BLOCK_SIZE = 96,
    DATA_SIZE = 64
};

/* Sizes of whole records: kind, stream and length come first. */
enum {
    MESSAGE_RECORD_SIZE = 3 + BLOCK_SIZE,
    DATA_RECORD_SIZE = 3 + DATA_SIZE,
    /* A datagram's P or C and its M. No call reads more. */
    PAIR_SIZE = MESSAGE_RECORD_SIZE + DATA_RECORD_SIZE
};

/* Where the body of a message holds what. */
enum {
    MESSAGE_STREAM = 0,
    MESSAGE_LENGTH = 1,
    MESSAGE_BLOCK = 2
};

/* The data of an M or of a frame: 64 bytes, zero past the length. */
struct data {
    uint8_t length;
    const uint8_t *bytes;
};

/* The two addresses have one length. */
struct frame {
    struct ppa_number ppa;
    uint8_t address_length;
    const uint8_t *called; /* 8 bytes, zero past the length */
    const uint8_t *calling;
    struct data data;
};

bool second_is_message(uint8_t kind);

/* True if the body starts with a stream. */
bool second_names_stream(uint8_t kind);

/* True for a whole P or C of code 0x07 with L 4 to 96: an M belongs to it. */
bool second_is_datagram(const uint8_t *record);

/* The data of the M right behind a datagram's P or C. */
struct data second_data_behind(const uint8_t *record);

struct frame second_read_frame(const uint8_t *body);

/*
 * What is refusal 10 in a whole record of that size: a datagram without its M,
 * an M by itself, an address length not 7 or 8, or nonzero padding.
 */
bool second_is_malformed(const uint8_t *record, size_t size);

/* The size of a record out, its kind included. */
size_t second_record_out_size(uint8_t kind);

/*
 * What a served call gives besides the table: the records out, written into
 * the lent room, and the token of the stream it opened, or 0. The longest run
 * of records is a message and an M for each stream, by a frame: 2,656 bytes.
 * Without frames it is a d, an F and a message: 111 bytes.
 */
struct outcome {
    uint8_t *room;
    size_t size;
    struct token opened;
};

/* Each of these writes one record right behind the one before it. */
void second_out_message(struct outcome *outcome, enum kind_of_message kind,
                        unsigned s, const uint8_t *message, size_t length);
void second_out_flush(struct outcome *outcome, unsigned s);
void second_out_connect(struct outcome *outcome, unsigned s,
                        const uint8_t called[PEER_ADDRESS_SIZE]);
void second_out_accept(struct outcome *outcome, unsigned carrier,
                       struct correlation number);
void second_out_disconnect(struct outcome *outcome, unsigned s,
                           struct correlation number, uint32_t reason);
void second_out_reset(struct outcome *outcome, unsigned s);
void second_out_reset_answer(struct outcome *outcome, unsigned s);
void second_out_datagram(struct outcome *outcome, unsigned s,
                         const uint8_t *address, size_t length);
void second_out_data(struct outcome *outcome, unsigned s, struct data data);

#endif
